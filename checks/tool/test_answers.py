"""Answers, reports and dumps as they are read."""

import json
import unittest

from irr.errors import Failure
from irr.registry import answers
from irr.registry.answers import Answer, Report
from irr.rpsl import syntax

OBJECT = b"aut-num:        AS1\nmnt-by:         A-MNT\nsource:         TEST\n\n"


class Answers(unittest.TestCase):
    def test_answers_are_distinguished_by_kind(self) -> None:
        self.assertEqual(len(Answer(OBJECT, "AS1").objects()), 1)
        self.assertTrue(Answer(b"% no entries\n", "as1").has_none)
        self.assertTrue(Answer(b"% empty\n", "expand AS-X").is_empty)
        self.assertEqual(Answer(b"% error 3\n", "expand AS-X").error, 3)
        self.assertEqual(Answer(b"% error 1\n", "hello world").error, 1)
        expansion = Answer(
            b"10.0.0.0/8^9-24\n10.0.0.0/8^-\n% missing AS1:AS-X\n% missing RS-Y\n", "Expand rs-x"
        )
        self.assertEqual(
            (expansion.lines(), expansion.missing()),
            (["10.0.0.0/8^9-24", "10.0.0.0/8^-"], ["AS1:AS-X", "RS-Y"]),
        )

    def test_a_cut_or_strange_answer_is_none(self) -> None:
        for text in [
            b"",
            OBJECT[:-1],
            OBJECT[:-2],
            b"AS1\nAS",
            b"% no entr",
            b"10.0.0.0/8",
            b"<html>",
            b"<html>\n",
            b"% hello\n",
            b"% missing \x1b[31m\n",
        ]:
            for query in "AS1", "expand AS-Y", "prefixes RS-Y", "inverse origin AS1":
                self.assertRaises(Failure, Answer, text, query)

    def test_an_object_in_json_has_its_attributes_in_order(self) -> None:
        line = answers.json_text(
            syntax.read(b"route: 10.0.0.0/8\norigin: AS1\ndescr: \xe9\n+\n+ x\ndescr: y")
        )
        self.assertEqual(
            json.loads(line),
            {
                "class": "route",
                "key": "10.0.0.0/8 AS1",
                "attributes": [
                    ["route", "10.0.0.0/8"],
                    ["origin", "AS1"],
                    ["descr", "\xe9\n\nx"],
                    ["descr", "y"],
                ],
            },
        )


def read(text: bytes, size: int = 1_000, before: int = 0) -> tuple[Report, list[str]]:
    """The report of a text that comes in pieces, and its lines."""
    report = Report(before)
    lines = [
        item.text()
        for place in range(0, len(text), size)
        for item in report.read(text[place : place + size])
    ]
    return report, lines


class Reports(unittest.TestCase):
    def test_a_whole_report_is_read_in_pieces_of_any_size(self) -> None:
        text = b"1 aut-num AS1: added\n2 -: refused E03\n3 as-set AS1:AS-X: unchanged\n% items 3\n"
        for size in 1, 7, 1_000:
            report, lines = read(text, size)
            self.assertEqual([*lines, "% items 3"], text.decode().splitlines())
            self.assertEqual((report.end, report.count, report.is_whole), ("items", 3, True))
        self.assertEqual(read(text, before=5)[1][-1], "8 as-set AS1:AS-X: unchanged")

    def test_a_report_without_its_end_is_not_whole(self) -> None:
        for text, end, count in [
            (b"1 aut-num AS1: added\n", "", 0),
            (b"% read fault after 2 items\n", "read fault", 2),
            (b"1 -: refused E91\n% stopped after 0 items\n", "stopped", 0),
            (b"% items 1\n", "items", 1),
            (b"2 -: refused E01\n% items 1\n", "items", 1),
            (b"% items 0\nx", "items", 0),
            (b"% memory after 0 items\n", "memory", 0),
            (b"", "", 0),
            (b"% items 1", "", 0),
        ]:
            report, _ = read(text)
            self.assertEqual((report.end, report.count, report.is_whole), (end, count, False), text)

    def test_a_strange_report_is_none(self) -> None:
        for text in [
            b"<html>\n",
            b"% items 0\n% items 0\n",
            b"1 aut-num AS1: \x1b\n",
            b"x" * 2_000,
        ]:
            self.assertRaises(Failure, read, text)

    def test_a_number_of_many_digits_is_strange(self) -> None:
        """Python reads no number of so many digits."""
        for line in b"9" * 5_000 + b" mntner A-MNT: added\n", b"% items " + b"9" * 5_000 + b"\n":
            with self.assertRaisesRegex(
                Failure, "^the report: the server answers what no registry"
            ):
                list(Report().read(line))


class Dumps(unittest.TestCase):
    def test_a_whole_dump_passes_in_pieces_of_any_size(self) -> None:
        text = OBJECT * 3 + b"% end 3\n"
        for size in (1, 5, 1_000):
            pieces = [text[place : place + size] for place in range(0, len(text), size)]
            self.assertEqual(b"".join(answers.whole_dump(pieces, "x")), text)

    def test_a_dump_without_objects_is_none(self) -> None:
        for text in b"% end 0\n", b"#x\n\n% end 1\n", b"hello\n":
            for pieces in (
                [text],
                [text[:1], text[1:]],
                [text[place : place + 1] for place in range(len(text))],
            ):
                self.assertRaisesRegex(
                    Failure,
                    "^x: it answers what no registry",
                    list,
                    answers.whole_dump(pieces, "x"),
                )

    def test_a_cut_dump_is_none(self) -> None:
        for text in [
            b"",
            OBJECT,
            OBJECT + b"% end 2\n",
            OBJECT + b"% end 1",
            OBJECT[:-1] + b"% end 1\n",
            b"<html>............\n",
        ]:
            self.assertRaises(Failure, list, answers.whole_dump([text], "x"))

    def test_an_endless_object_is_given_up(self) -> None:
        """An object that does not end is not kept for ever; one is as long as the longest that a
        registry prints."""
        longest = b"a:x\n" + b"".join(b" " * 16 + b"x\n" for _ in range(65_536 // 3 - 2)) + b"\n"
        for size in 3, 1 << 16:
            text = OBJECT.replace(b"\n\n", b"\n" + longest) * 2 + b"% end 2\n"
            pieces = [text[place : place + size] for place in range(0, len(text), size)]
            self.assertEqual(b"".join(answers.whole_dump(pieces, "x")), text)
            endless = (piece for piece in [OBJECT[:-1], *[b"remarks:        x\n" * 4_096] * 1_000])
            self.assertRaisesRegex(
                Failure, "^x: it answers what no registry", list, answers.whole_dump(endless, "x")
            )


if __name__ == "__main__":
    unittest.main()
