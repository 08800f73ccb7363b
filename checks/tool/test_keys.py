"""Names, numbers and keys."""

import unittest

from irr.rpsl import keys
from irr.rpsl.keys import Key, Prefix, Span


class Readers(unittest.TestCase):
    def test_prefixes_are_read_as_the_program_reads_them(self) -> None:
        self.assertEqual(keys.read_prefix(b"10.0.0.5/8").text(), "10.0.0.0/8")
        self.assertEqual(keys.read_prefix("0.0.0.0/0").span(), Span(0, keys.TOP))
        bad: list[str | bytes] = [
            "0/0",
            "10.0.0.0/33",
            "10.0.0.256/8",
            "10.0.0.0/",
            "10.0.0.0/008",
            b"10.0.0.0/8\xb2",
            "10.0.0.0/8\n",
        ]
        for text in bad:
            self.assertIsNone(keys.read_prefix(text), text)

    def test_range_operators_are_made_canonical(self) -> None:
        for text, printed in [
            ("10.0.0.0/16^8-24", "10.0.0.0/16^16-24"),
            ("192.0.2.0/31^32", "192.0.2.0/31^-"),
            ("0.0.0.0/0^0-32", "0.0.0.0/0^+"),
            ("10.0.0.0/8^24", "10.0.0.0/8^24"),
            ("10.0.0.0/8", "10.0.0.0/8"),
        ]:
            self.assertEqual(keys.read_range(text).text(), printed)
        for text in [
            "10.0.0.0/8^33",
            "10.0.0.0/8^28-24",
            "30.0.0.0/8^24-28^+",
            "10.0.0.0/8^",
            "10.0.0.0/8^1-",
        ]:
            self.assertIsNone(keys.read_range(text), text)
        self.assertFalse(keys.read_range("192.0.2.1/32^-").admits(Prefix(0xC0000201, 32)))

    def test_a_range_admits_its_lengths_alone(self) -> None:
        """Both of its lengths, and none beside them (RFC 2622, 2)."""
        for text, lengths in [
            ("10.0.0.0/22", [22]),
            ("10.0.0.0/22^+", [22, 23, 24]),
            ("10.0.0.0/22^-", [23, 24]),
            ("10.0.0.0/22^23", [23]),
            ("10.0.0.0/22^20-23", [22, 23]),
            ("10.0.0.0/22^24-25", [24]),
        ]:
            found = keys.read_range(text)
            assert found
            admitted = [length for length in range(25) if found.admits(Prefix(10 << 24, length))]
            self.assertEqual(admitted, lengths, text)
            self.assertFalse(any(found.admits(Prefix(11 << 24, length)) for length in range(33)))

    def test_a_span_may_have_one_number_and_never_goes_down(self) -> None:
        self.assertEqual(keys.read_span("10.0.0.1 - 10.0.0.1"), Span(0x0A000001, 0x0A000001))
        self.assertEqual(keys.read_block("AS1 - as01"), Span(1, 1))
        self.assertIsNone(keys.read_block("AS2 - AS1"))
        self.assertIsNone(keys.read_span("10.0.0.2 - 10.0.0.1"))

    def test_names_of_as_numbers_sets_and_maintainers_are_read(self) -> None:
        self.assertEqual(keys.read_as("as007"), 7)
        self.assertIsNone(keys.read_as("AS4294967296"))
        self.assertEqual(keys.read_set("as1:as-x"), "AS1:AS-X")
        for name in ["as-", "AS1", "AS1:AS2", "AS-X:RS-Y", "A" * 256, "AS-ANY:AS-X"]:
            self.assertIsNone(keys.read_set(name), name)
        long = ":".join(["AS-" + "A" * 60] * 4)
        self.assertEqual((len(long), keys.read_set(long)), (255, long))
        self.assertIsNone(keys.read_set(long + "A"))
        self.assertIsNone(keys.read_maintainer("AS-X"))
        self.assertIsNone(keys.read_maintainer("any"))
        self.assertEqual(keys.set_parent("AS1:AS-X"), Key("aut-num", "AS1"))
        self.assertEqual(keys.set_parent("AS1:AS-X:AS-Y"), Key("as-set", "AS1:AS-X"))
        self.assertIsNone(keys.set_parent("AS1:AS2:AS-X"))
        self.assertIsNone(keys.set_parent("AS-X"))

    def test_keys_are_read_in_their_class(self) -> None:
        for kind, text, origin, printed in [
            ("mntner", "a-mnt", None, "A-MNT"),
            ("as-block", "AS1-as2", None, "AS1 - AS2"),
            ("inetnum", "10.0.0.0/8", None, "10.0.0.0 - 10.255.255.255"),
            ("route", "10.0.0.0/8", "AS01", "10.0.0.0/8 AS1"),
            ("route-set", "rs-x", None, "RS-X"),
        ]:
            self.assertEqual(keys.read_key(kind, text, origin), Key(kind, printed))
        for kind, text in [
            ("route", "10.0.0.0/8"),
            ("person", "X"),
            ("as-set", "AS-ANY"),
            ("as-set", "RS-X"),
            ("inetnum", "10.0.0.1"),
        ]:
            self.assertIsNone(keys.read_key(kind, text))

    def test_spans_part_into_prefixes_and_cross(self) -> None:
        span = Span(1, 14)
        self.assertEqual(sum(prefix.span().size for prefix in span.prefixes()), 14)
        self.assertEqual([prefix.text() for prefix in Span(0, keys.TOP).prefixes()], ["0.0.0.0/0"])
        self.assertTrue(Span(1, 5).crosses(Span(3, 9)))
        self.assertFalse(Span(1, 5).crosses(Span(2, 5)))


if __name__ == "__main__":
    unittest.main()
