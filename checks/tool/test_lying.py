"""A registry that answers what its query can't have, behind the door's questions of IRRd, `irr
filter`, `irr query`, and commands that read dumps."""

import argparse
import asyncio
import contextlib
import http.server
import io
import os
import tempfile
import threading
import types
import unittest
from typing import Any
from urllib.parse import unquote

from irr.commands import export, held, query, rov
from irr.commands import dump as dumps
from irr.commands import filter as filters
from irr.door import cache, irrd, queries
from irr.errors import FAILED, Failure
from irr.registry import answers

REST = b"mnt-by:         A-MNT\nsource:         TEST\n\n"
ROUTE, INETNUM = b"route:          %s\norigin:         AS1\n" + REST, b"inetnum:        %s\n" + REST
ALL, WIDE, NARROW = (
    INETNUM % b"0.0.0.0 - 255.255.255.255",
    ROUTE % b"10.0.0.0/8",
    ROUTE % b"10.1.0.0/16",
)
OTHER, NUMBER = (
    NARROW.replace(b"AS1", b"AS2"),
    b"aut-num:        AS1\nmember-of:      AS1:AS-X\n" + REST,
)
SET = b"as-set:         AS1:AS-X\nmembers:        AS1\nmbrs-by-ref:    A-MNT\n" + REST
# True answers to each query that the bridge and filters ask.
TRUE = {
    "inverse origin AS1": [b"% no entries\n", WIDE, WIDE + NARROW],
    "prefixes AS1:AS-X": [b"% empty\n", b"10.0.0.0/8\n10.1.0.0/16\n"],
    "prefixes AS1:RS-X": [
        b"0.0.0.0/0^+\n10.0.0.0/8\n10.0.0.0/8^+\n10.0.0.0/8^-\n10.0.0.0/8^16\n"
        b"10.0.0.0/8^16-24\n10.0.0.0/16\n"
    ],
    "expand AS1:RS-X": [b"% empty\n", b"10.0.0.0/8^16-24\n10.0.0.0/8^24\n"],
    "expand AS1:AS-X": [b"% empty\n", b"AS0\nAS9\nAS10\nAS4294967295\n"],
    "object as-set AS1:AS-X": [SET],
    "inverse mnt A-MNT": [
        NUMBER.replace(
            b"mnt-by",
            (
                b"mnt-routes:     A-MNT {10.0.0.0/8^+,\n                10.0.0.0/9} b-mnt Any"
                b" C-MNT{}, D-MNT\nmnt-by"
            ),
        )
        + SET,
        NUMBER + SET,
        NUMBER + WIDE + SET,
    ],
    "less 0.0.0.0/0": [ALL, ALL + ROUTE % b"0.0.0.0/0"],
    "exact 10.1.0.0/16": [
        b"% no entries\n",
        NARROW,
        NARROW + OTHER,
        INETNUM % b"10.1.0.0/16" + NARROW,
    ],
    "less 10.1.0.0/16": [ALL + WIDE + NARROW, ALL],
    "more 10.0.0.0/8": [b"% no entries\n", WIDE + NARROW + OTHER],
}
# What each question asks, in order; of those before the last one the last true answers stand.
ASKS = {
    "gAS1": ["inverse origin AS1"],
    "gas1": ["inverse origin AS1"],
    "a4AS1:AS-X": ["prefixes AS1:AS-X"],
    "aAS1:RS-X": ["prefixes AS1:RS-X"],
    "iAS1:RS-X,1": ["expand AS1:RS-X"],
    "iAS1:AS-X,1": ["expand AS1:AS-X"],
    "iAS1:AS-X": ["object as-set AS1:AS-X", "inverse mnt A-MNT"],
    "r10.1.0.0/16": ["exact 10.1.0.0/16"],
    "r10.1.0.0/16,o": ["exact 10.1.0.0/16"],
    "r10.1.0.0/16,l": ["less 10.1.0.0/16"],
    "r10.1.0.0/16,L": ["less 10.1.0.0/16"],
    "r10.0.0.0/8,M": ["more 10.0.0.0/8"],
}
# What no query has.
NEVER = [
    b"",
    b"\n",
    b"hello\n",
    b"<html>\n",
    b"% hello\n",
    b"% error 0\n",
    b"% error 7\n",
    b"% error 1\n",
    b"% error 2\n",
    b"% error 12\n",
    b"% no entries",
    b"% no entries\n\n",
    b"% no entries\n% no entries\n",
    b"% no entries\r\n",
    b"% empty\n% empty\n",
    b"% missing AS-Y",
    b"role:           X\n" + REST,
    b"route6:         ::/0\n" + REST,
    b"mntner:         B-MNT\nauth:           x\n" + REST,
    INETNUM % b"192.0.2.0/24",
    ROUTE.replace(b"AS1", b"AS3") % b"192.0.2.0/24",
    SET.replace(b"AS-X", b"AS-Z").replace(b"A-MNT", b"B-MNT"),
    b"192.0.2.0/33\n",
    b"AS4294967296\n",
    b"AS\n",
    b"% missing A-MNT\n",
]
# The same of those that answer objects, and of those that answer lines.
OF_OBJECTS = [b"% empty\n", b"% error 3\n", b"AS1\n", b"10.0.0.0/8\n", b"% missing AS1:AS-Y\n"]
OF_LINES = [
    WIDE,
    SET,
    ALL,
    b"AS01\n",
    b"as1\n",
    b"AS1\nAS1\n",
    b"AS2\nAS1\n",
    b"AS1 \n",
    b"AS1\r\n",
    b"AS1\n\n",
    b"AS1\n10.0.0.0/8\n",
    b" AS1\n",
    b"10.0.0.0/8\n10.0.0.0/8\n",
    b"10.1.0.0/16\n10.0.0.0/8\n",
    b"10.0.0.1/8\n",
    b"010.0.0.0/8\n",
    b"10.0.0.0/08\n",
    b"10.0.0.0/8^8\n",
    b"10.0.0.0/8^7\n",
    b"10.0.0.0/8^33\n",
    b"10.0.0.0/8^24-16\n",
    b"10.0.0.0/8^9-32\n",
    b"10.0.0.0/8^24-24\n",
    b"10.0.0.0/8^\n",
    b"10.0.0.0/32^-\n",
    b"10.0.0.0/8^+^-\n",
    b"10.0.0.0\n",
    b"10.0.0.0/8 10.1.0.0/16\n",
    b"::/0\n",
    b"% missing AS1:AS-Y\nAS1\n",
    b"% missing AS1:AS-Y\n10.0.0.0/8\n",
    b"% missing AS1:AS-Z\n% missing AS1:AS-Y\n",
    b"% missing AS1:AS-Y\n% missing AS1:AS-Y\n",
    b"% missing AS-ANY\n",
    b"% missing as-y\n",
    b"% missing AS1\n",
    b"% empty\n% missing AS1:AS-Y\n",
    b"% no entries\nAS1\n",
]
# What makes a wrong answer of one that has objects.
SPOILED = {
    "a cut object": lambda text: text[:-1],
    "an object too few blanks": lambda text: text.replace(b":        ", b":", 1),
    "CR": lambda text: text.replace(b"\n", b"\r\n"),
    "a comment": lambda text: b"# x\n" + text,
    "a comment after": lambda text: text + b"% x\n\n",
    "a hidden one": lambda text: text + b"#" + text.replace(b"\n", b"\n#", text.count(b"\n") - 2),
    "an empty line": lambda text: text + b"\n",
    "one twice": lambda text: text + text,
    "no mnt-by": lambda text: text.replace(b"mnt-by:         A-MNT\n", b"", 1),
    "a control character": lambda text: text.replace(b"TEST", b"TEST\x1b"),
    "no colon": lambda text: text.replace(b"source:", b"source", 1),
    "another source": lambda text: text + WIDE.replace(b"TEST", b"RIPE").replace(b"10.0", b"10.9"),
    "two sources": lambda text: text.replace(b"source:", b"source:         TEST\nsource:", 1),
    "no source": lambda text: text.replace(b"source:         TEST\n", b"", 1),
    "a bad mnt-by": lambda text: text.replace(b"A-MNT\n", b"AS-MNT\n", 1),
    "a password": lambda text: text.replace(b"source:", b"password:       x\nsource:", 1),
    "an auth": lambda text: text.replace(b"source:", b"auth:           x\nsource:", 1),
    "text": lambda text: text + b"hello\n\n",
    "an error after it": lambda text: text + b"% error 4\n",
    "an end": lambda text: text + b"% end 1\n",
}
WRONG = {
    "inverse origin AS1": [
        NARROW + WIDE,
        OTHER,
        WIDE + OTHER,
        NUMBER,
        ALL,
        WIDE.replace(b"AS1", b"AS4294967297"),
        WIDE.replace(b"/8", b"/33"),
        WIDE.replace(b"/8", b"/8^+"),
        WIDE.replace(b"10.0.0.0/8", b"10/8"),
        WIDE.replace(b"origin", b"origni"),
    ],
    "object as-set AS1:AS-X": [
        SET.replace(b"AS1\n", b"AS4294967296\n"),
        SET.replace(b"AS1\n", b"10.0.0.0/8\n"),
        SET + NUMBER,
        NUMBER,
        SET + SET,
        SET.replace(b"AS-X", b"AS-Y"),
        SET.replace(b"ref:    A-MNT", b"ref:    AS-MNT"),
    ],
    "inverse mnt A-MNT": [
        *(
            NUMBER.replace(b"mnt-by", b"mnt-routes:     " + words + b"\nmnt-by") + SET
            for words in (
                b"{10.0.0.0/8}",
                b"A-MNT {10.0.0.0/8",
                b"A-MNT { z",
                b"A-MNT {10.0.0.0/33}",
                b"A-MNT ANY ANY",
                b"ANY",
                b"AS-MNT",
                b"A-MNT {} {}",
            )
        ),
        SET + NUMBER,
        NUMBER.replace(b"A-MNT", b"B-MNT") + SET,
        NUMBER.replace(b"AS1:AS-X", b"X") + SET,
    ],
    "less 0.0.0.0/0": [
        ALL + WIDE,
        ROUTE % b"0.0.0.0/0" + ALL,
        INETNUM % b"0.0.0.0 - 255.255.255.254",
    ],
    "exact 10.1.0.0/16": [
        WIDE,
        INETNUM % b"10.0.0.0/8",
        OTHER + NARROW,
        NARROW + INETNUM % b"10.1.0.0/16",
        NUMBER,
    ],
    "less 10.1.0.0/16": [ROUTE % b"10.1.0.0/17", ALL + ROUTE % b"10.2.0.0/16", WIDE + ALL],
    "more 10.0.0.0/8": [ALL, ROUTE % b"0.0.0.0/0", ROUTE % b"11.0.0.0/8", NARROW + WIDE],
    "prefixes AS1:AS-X": [
        b"AS1\n",
        b"10.0.0.0/8^+\n",
        b"% missing AS1:RS-Y\n",
        b"% missing AS1:AS-X\n",
    ],
    "prefixes AS1:RS-X": [b"AS1\n", b"10.0.0.0/8^+\n10.0.0.0/8\n", b"% missing AS1:RS-X\n"],
    "expand AS1:RS-X": [b"AS1\n"],
    "expand AS1:AS-X": [b"10.0.0.0/8\n", b"AS10\nAS9\n", b"% missing AS1:RS-Y\n"],
}


def wrong_answers(query: str) -> list[bytes]:
    """Each of them once."""
    found = [
        *NEVER,
        *(OF_LINES if query[:6] in ("expand", "prefix") else OF_OBJECTS),
        *WRONG[query],
    ]
    for text in TRUE[query]:
        if not text.startswith(b"%") and b":" in text:
            found += [change(text) for change in SPOILED.values()]
    true = {"% no entries\n".encode(), *TRUE[query]}
    return [
        text
        for text in dict.fromkeys(found)
        if text not in true
        and not (text == b"AS1\n" and query == "expand AS1:AS-X")
        and not (text == b"10.0.0.0/8^+\n" and "RS-X" in query)
    ]


class Liar(http.server.ThreadingHTTPServer):
    """A server with a table of answers."""

    answers: dict[str, bytes] = {}


class Lying(http.server.BaseHTTPRequestHandler):
    """Answers from the table of its server."""

    server: Liar

    def do_GET(self) -> None:
        text = self.server.answers.get(
            unquote(self.path).rpartition("/query/")[2] or self.path, b"% no entries\n"
        )
        self.send_response(200)
        self.send_header("Content-Type", "text/plain")
        self.end_headers()
        self.wfile.write(text)

    def log_message(self, *_: str) -> None:
        pass


class Table(queries.Asker):
    """Answers from a table."""

    def __init__(self, answers: dict[str, bytes]) -> None:
        ledger = cache.Ledger(1 << 30)
        kept = types.SimpleNamespace(state=0, get=lambda key, now: None, put=lambda *words: None)
        pool: Any = types.SimpleNamespace(source="TEST", ledger=ledger, cache=kept)
        super().__init__(pool, None)
        self.answers = answers

    async def ask(self, query: bytes) -> cache.Answer:
        text = self.answers.get(query.decode(), b"% no entries\n")
        return cache.Answer(text, 0.0, self.pool.ledger)


class Questions(unittest.TestCase):
    def asked(self, question: str, answers: dict[str, bytes]) -> bytes:
        table = Table({name: texts[-1] for name, texts in TRUE.items()} | answers)
        reply = asyncio.run(irrd.Session(table).answer(b"!" + question.encode()))
        return reply.text

    def test_true_answers_are_passed_on(self) -> None:
        for question, asked in ASKS.items():
            for query_ in asked:
                for text in TRUE[query_]:
                    self.assertRegex(
                        self.asked(question, {query_: text}), rb"^[ACD]", (question, text)
                    )
        self.assertEqual(self.asked("iAS1:AS-X", {}), irrd.data(b"AS1"))
        self.assertEqual(self.asked("gAS1", {}), irrd.data(b"10.0.0.0/8 10.1.0.0/16"))

    def test_wrong_answers_are_refused(self) -> None:
        count = 0
        for question, asked in ASKS.items():
            for query_ in asked:
                for text in wrong_answers(query_):
                    reply = self.asked(question, {query_: text})
                    self.assertRegex(reply, rb"\AF [^\n]*\n\Z", (question, text))
                    count += 1
        self.assertGreater(count, 500)

    def test_two_answers_that_differ_are_refused(self) -> None:
        for text in b"% no entries\n", NUMBER:
            reply = self.asked("iAS1:AS-X", {"inverse mnt A-MNT": text})
            self.assertRegex(reply, b"\\AF two answers differ")


class Commands(unittest.TestCase):
    def setUp(self) -> None:
        self.server = Liar(("127.0.0.1", 0), Lying)
        threading.Thread(target=self.server.serve_forever, args=(0.01,), daemon=True).start()
        self.address = argparse.Namespace(
            server=f"http://127.0.0.1:{self.server.server_port}", plain=False
        )

    def tearDown(self) -> None:
        self.server.shutdown()
        self.server.server_close()

    def ends(self, command: Any, *words: str) -> tuple[int, bool]:
        """The status of a command, and whether it printed anything."""
        parser, held = argparse.ArgumentParser(), io.BytesIO()
        printed = io.TextIOWrapper(held)
        command.arguments(parser)
        options = parser.parse_args(["-s", self.address.server, *words])
        with contextlib.redirect_stdout(printed), contextlib.redirect_stderr(io.StringIO()):
            try:
                status = command.run(options)
            except Failure as failure:
                status = failure.status
        printed.flush()
        return status, bool(held.getvalue())

    def test_no_filter_is_made_of_a_wrong_answer(self) -> None:
        for query_, name in (
            ("inverse origin AS1", "AS1"),
            ("prefixes AS1:RS-X", "AS1:RS-X"),
            ("prefixes AS1:AS-X", "AS1:AS-X"),
        ):
            self.server.answers = {query_: TRUE[query_][-1]}
            self.assertEqual(self.ends(filters, "--widest", "0", "bird", "X", name, "-"), (0, True))
            for text in wrong_answers(query_):
                self.server.answers = {query_: text}
                self.assertEqual(
                    self.ends(filters, "--widest", "0", "-m", "bird", "X", name, "-"),
                    (FAILED, False),
                    text,
                )

    def test_no_wrong_answer_is_printed(self) -> None:
        for query_ in (
            "inverse origin AS1",
            "prefixes AS1:RS-X",
            "object as-set AS1:AS-X",
            "less 10.1.0.0/16",
        ):
            for text in wrong_answers(query_):
                self.server.answers = {query_: text}
                self.assertEqual(self.ends(query, *query_.split()), (FAILED, False), text)
        for words, text, status in (
            (["AS1"], NUMBER, 0),
            (["hello", "x"], b"% error 1\n", 1),
            (["hello", "x"], NUMBER, FAILED),
            (["closest", "10.1.2.3"], ALL + NARROW + OTHER, 0),
            (["closest", "10.1.2.3"], ALL + WIDE + NARROW, FAILED),
            (["prefixes", "AS-ANY"], b"% no entries\n", FAILED),
            (["expand", "RS-ANY"], b"10.0.0.0/8^+\n", FAILED),
        ):
            self.server.answers = {" ".join(words): text}
            self.assertEqual(self.ends(query, "--json", *words)[0], status, words)

    def test_no_wrong_dump_is_used(self) -> None:
        good = [ALL, WIDE, NARROW, SET]
        for dump, is_good in (
            (good, True),
            ([ALL, WIDE, b"#" + NARROW.replace(b"\n", b"\n#")[:-3] + b"\n\n", SET], False),
            ([ALL, NARROW, WIDE, SET], False),
            ([ALL, b"hello\n\n", NARROW, SET], False),
            ([ALL, WIDE.replace(b"/8", b"/33"), NARROW, SET], False),
            ([text.replace(b"TEST", b"../x") for text in good], False),
            ([ALL, b"Route:" + WIDE[6:], NARROW, SET], False),
            ([ALL, WIDE.replace(b"AS1", b"AS4294967296"), NARROW, SET], False),
        ):
            text = b"".join(dump) + b"%% end %d\n" % len(dump)
            pieces = answers.whole_dump(
                [text[place : place + 50] for place in range(0, len(text), 50)], "x"
            )
            if is_good:
                self.assertEqual(
                    [prefix.text() for prefix, _ in rov.routes(pieces, "x")],
                    ["10.0.0.0/8", "10.1.0.0/16"],
                )
            else:
                with self.subTest(dump=text):
                    self.assertRaises(Failure, list, rov.routes(pieces, "x"))
            self.server.answers = {"/dump": text}
            with self.subTest(dump=text), tempfile.TemporaryDirectory() as folder:
                self.assertEqual(
                    self.ends(export, os.path.join(folder, "out"))[0], 0 if is_good else FAILED
                )
                self.assertEqual(
                    [
                        len([name for name in names if name.endswith(".gz")])
                        for _, _, names in os.walk(folder)
                    ],
                    [0, 7 if is_good else 0],
                )
                self.assertEqual(
                    self.ends(held, "10.0.0.0/8", "A-MNT"),
                    (1, True) if is_good else (FAILED, False),
                )
                self.assertEqual(self.ends(dumps, "--json")[0], 0 if is_good else FAILED)


if __name__ == "__main__":
    unittest.main()
