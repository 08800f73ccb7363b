"""What goes to people."""

import unittest

from irr.registry import codes
from irr.terminal import texts


class Texts(unittest.TestCase):
    def test_control_characters_are_escaped(self) -> None:
        self.assertEqual(
            texts.shown(b"a\x1b[31m\r\x9b\x85\xff\tb\n\x7f"),
            "a\\x1b[31m\\x0d\\x9b\\x85\xff\tb\n\\x7f",
        )
        self.assertEqual(texts.shown("\u202ex".encode()), "\\u202ex")
        self.assertEqual(texts.shown(b"\xc3\xa9\n\xe9"), "\xe9\n\xe9")
        for number in [*range(9), *range(11, 32), *range(127, 160)]:
            self.assertNotIn(chr(number), texts.shown(chr(number)))
            self.assertNotIn(chr(number), texts.shown(bytes([number])))

    def test_columns_are_aligned(self) -> None:
        self.assertEqual(texts.columns([["a", "bb", "c"], ["aaa", "b"]]), ["a    bb  c", "aaa  b"])

    def test_the_first_time_counts(self) -> None:
        self.assertEqual(
            texts.since([1_700_000_000.9, 0, 1_800_000_000]), " since 2023-11-14T22:13:20Z"
        )
        for times in list[float](), [0.0, 0.0], [1e300], [float("nan")]:
            self.assertEqual(texts.since(times), "")


class Codes(unittest.TestCase):
    def test_each_code_has_a_sentence_and_a_remedy(self) -> None:
        self.assertEqual(
            [code.code for code in codes.TABLE],
            [f"E{n:02}" for n in [*range(1, 8), *range(10, 19), 90, 91]],
        )
        for code in codes.TABLE:
            self.assertTrue(code.sentence.endswith(".") and code.remedy.endswith("."))


if __name__ == "__main__":
    unittest.main()
