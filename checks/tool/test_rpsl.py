"""RPSL text: blocks, attributes, canonical text."""

import random
import unittest
from collections.abc import Iterator

from irr.rpsl import syntax


def cut(text: bytes, chance: random.Random) -> Iterator[bytes]:
    """The text in pieces of chance."""
    place = 0
    while place < len(text):
        size = chance.choice([1, 2, 7, 100])
        yield text[place : place + size]
        place += size


def plain_blocks(text: bytes) -> list[tuple[int, list[bytes]]]:
    """The same, line by line: number of the first line, and the lines."""
    found: list[tuple[int, list[bytes]]] = []
    held: list[bytes] = []
    first = 0
    for number, line in enumerate(text.split(b"\n"), 1):
        if not line.strip(b" \t\r"):
            if held:
                found.append((first, held))
            held = []
        elif held or line[:1] not in (b"#", b"%"):
            first = first if held else number
            held.append(line)
    return found + ([(first, held)] if held else [])


class Blocks(unittest.TestCase):
    def test_blocks_of_chance_are_those_of_a_plain_reading(self) -> None:
        chance = random.Random(1)
        lines = [b"", b" ", b"\t\r", b"# x", b"%", b"a: b", b" c", b"+", b"\r", b"x" * 30]
        for _ in range(3_000):
            text = b"\n".join(chance.choices(lines, k=chance.randrange(9)))
            for source in ([text], cut(text, chance)):
                found = [
                    (block.line, block.text.removesuffix(b"\n").split(b"\n"))
                    for block in syntax.blocks(source)
                ]
                self.assertEqual(found, plain_blocks(text), text)

    def test_sizes_count_line_ends(self) -> None:
        sizes = [block.size for block in syntax.blocks([b"% no\na: b\n# yes\n\nc: d"])]
        self.assertEqual(sizes, [11, 4])

    def test_of_a_long_block_its_front_is_kept(self) -> None:
        long = b"descr: x\n" * 500_000
        text = b"# " + b"y" * 5_000_000 + b"\na: b\n\n" + long + b"\nc: d\n"
        pieces = [text[place : place + 100_000] for place in range(0, len(text), 100_000)]
        found = list(syntax.blocks(pieces, 100))
        self.assertEqual(
            [(block.line, block.size) for block in found], [(2, 5), (4, len(long)), (500_005, 5)]
        )
        self.assertEqual(found[1].text, long[:100])


class Paragraphs(unittest.TestCase):
    def test_canonical_text_is_read_as_itself(self) -> None:
        text = (
            b"Mntner: A-MNT\r\ndescr:  first # note\r\n\tsecond\r\n+\r\n% skipped\r\n+third\r\n"
            b"a-very-long-name-of-one: x\r\nempty:\r\nsource: test"
        )
        read = syntax.read(text)
        self.assertEqual(
            read.text(),
            b"mntner:         A-MNT\ndescr:          first # note\n                second\n+\n"
            b"                third\na-very-long-name-of-one: x\nempty:\nsource:         test\n",
        )
        self.assertEqual(read.value(b"descr"), b"first second  third")
        self.assertEqual(syntax.read(read.text()).text(), read.text())

    def test_items_come_from_all_lines_of_a_name(self) -> None:
        read = syntax.read(b"a: 1\nmnt-by: A, B # C\nmnt-by: D")
        self.assertEqual(read.items(b"mnt-by"), [b"A", b"B", b"D"])

    def test_a_list_goes_on_in_each_line_that_continues_it(self) -> None:
        """Also after one that begins with a CR, or that has a comment."""
        read = syntax.read(b"a: 1\nmnt-by: A, # x\n B # y\n\tC,\n\rD\n+E\n#no\n%no\n+\n F")
        self.assertEqual(read.items(b"mnt-by"), [b"A", b"B", b"C", b"D", b"E", b"F"])

    def test_faults_have_their_codes(self) -> None:
        for text, code in [
            (b"x" * 65_537, "E07"),
            (b"a\x0b: b", "E01"),
            (b" a: b", "E01"),
            (b"a", "E01"),
            (b"1a: b", "E01"),
            (b"a: b\x7f", "E01"),
            (b"\xef\xbb\xbfa: b", "E01"),
        ]:
            with self.assertRaises(syntax.TextFault) as fault:
                syntax.read(text)
            self.assertEqual(fault.exception.code, code)

    def test_high_bytes_stay(self) -> None:
        self.assertEqual(
            syntax.read(b"a: \x85\xa0 \xe9\rx").text(), b"a:              \x85\xa0 \xe9\rx\n"
        )


if __name__ == "__main__":
    unittest.main()
