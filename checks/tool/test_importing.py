"""Dumps of other registries, mended."""

import contextlib
import gzip
import io
import random
import unittest

from checks.tool.importing import AUTH, keys_of, made, mended, obj
from irr.errors import Failure
from irr.migrate.kinds import KINDS
from irr.migrate.normalisation import new_name
from irr.rpsl import spans, syntax


class Mending(unittest.TestCase):
    def test_a_good_object_stays(self) -> None:
        text = obj(
            "route: 192.0.2.0/24",
            "descr: caf\xc3\xa9",
            "origin: AS64496",
            "mnt-by: A-MNT # mine",
            "source: TEST",
        )
        self.assertEqual(mended(text), (syntax.read(text[:-1]).text(), set()))

    def test_each_object_gets_the_source_of_the_registry_once(self) -> None:
        written: list[list[str]] = [["source: RIPE # Filtered"], [], ["source:"]]
        for sources in written:
            text, kinds = mended(obj("aut-num: AS1", "mnt-by: A-MNT", *sources))
            self.assertEqual(
                (text.count(b"source:"), text.endswith(b"source:         TEST\n"), kinds),
                (1, True, {"source"}),
                sources,
            )
        self.assertEqual(
            mended(obj("aut-num: AS1", "mnt-by: A-MNT", "source: RIPE"), ["source"]),
            "not mended because of --no-source",
        )

    def test_items_of_lists_are_mended_or_left_out(self) -> None:
        for number, (kind, name, value, new, kinds) in enumerate(
            [
                (
                    "as-set: AS-X",
                    "members",
                    "AS1, RIPE::AS-Y, 2001:db8::/32",
                    b"AS1, RIPE::AS-Y",
                    {"ipv6", "scope"},
                ),
                (
                    "as-set: AS-X",
                    "members",
                    "2001:db8::/32, AS1 AS1.2,, rs-x",
                    b"AS1",
                    {"ipv6", "item"},
                ),
                ("as-set: AS-X", "members", "AS1,AS-Y^24 # both", b"AS1 # both", {"item"}),
                ("as-set: AS-X", "members", ",, AS1,AS2,", b",, AS1,AS2,", set()),
                ("as-set: AS-X", "mbrs-by-ref", "any,A-MNT", b"any,A-MNT", set()),
                (
                    "route-set: RS-X",
                    "members",
                    "192.0.2.0/24^25-26, ::/0^+, AS1^+, ARIN::RS-Y^-",
                    b"192.0.2.0/24^25-26, AS1^+, ARIN::RS-Y^-",
                    {"ipv6", "scope"},
                ),
                ("aut-num: AS1", "member-of", "RIPE::AS-X, foo", b"RIPE::AS-X", {"scope", "item"}),
                (
                    "aut-num: AS1",
                    "mnt-routes",
                    "A-MNT {2001:db8::/32}, B-MNT ANY",
                    b"A-MNT {}, B-MNT ANY",
                    {"ipv6"},
                ),
                (
                    "aut-num: AS1",
                    "mnt-routes",
                    "A-MNT {2001:db8::/32^48, 192.0.2.0/24}",
                    b"A-MNT {192.0.2.0/24}",
                    {"ipv6"},
                ),
                (
                    "aut-num: AS1",
                    "mnt-routes",
                    "A-MNT{192.0.2.0/24^+, x}",
                    b"A-MNT{192.0.2.0/24^+}",
                    {"item"},
                ),
            ]
        ):
            text, found = mended(obj(kind, f"{name}: {value}", "mnt-by: A-MNT", "source: TEST"))
            self.assertEqual((syntax.read(text).attributes[1].lines, found), ([new], kinds), number)

    def test_a_list_of_several_lines_keeps_its_good_items(self) -> None:
        text, _ = mended(
            obj(
                "as-set: AS-X",
                "members: ::/0",
                "+ AS1, # one",
                " ::/0",
                "members: ::/0",
                "mnt-by: A-MNT",
                "source: TEST",
            )
        )
        self.assertEqual(syntax.read(text).attributes[1].lines, [b"AS1, # one"])
        self.assertEqual(text.count(b"members"), 1)

    def test_what_an_object_lacks_is_put_in(self) -> None:
        text, kinds = mended(obj("mntner: A-MNT", "mnt-by:", "source: TEST"))
        self.assertEqual(
            text,
            b"mntner:         A-MNT\nauth:           FILTERED\nmnt-by:\nmnt-by:         ROOT-MNT\n"
            b"source:         TEST\n",
        )
        self.assertEqual(kinds, {"auth", "mnt-by"})

    def test_an_auth_that_is_not_read_is_replaced(self) -> None:
        for value, is_kept in [
            ("MD5-PW $1$x # Filtered", True),
            ("SSO # Filtered", True),
            ("CRYPT-PW HideMe", True),
            (AUTH, True),
            # Its hash is one word of 64 digits, and nothing stands after it.
            (f"{AUTH}0", False),
            (f"{AUTH} x", False),
            (AUTH[:-1], False),
            ("# filtered", False),
            ("", False),
            ("SHA256-PW", False),
            ("sha256-pw a:0", False),
        ]:
            text, kinds = mended(
                obj("mntner: A-MNT", f"auth: {value}", "mnt-by: A-MNT", "source: TEST")
            )
            wanted = value if is_kept else "FILTERED"
            self.assertEqual(
                (syntax.read(text).attributes[1].lines[0].decode(), kinds),
                (wanted, set() if is_kept else {"auth"}),
                value,
            )

    def test_short_prefixes_are_written_out(self) -> None:
        for value, full in [
            ("10/8", "10.0.0.0/8"),
            ("192.0.2/24", "192.0.2.0/24"),
            ("10.1/16", "10.1.0.0/16"),
        ]:
            text, kinds = mended(obj(f"inetnum: {value}", "mnt-by: A-MNT", "source: TEST"))
            self.assertEqual(
                (text.partition(b"\n")[0].split()[1].decode(), kinds), (full, {"prefix"})
            )

    def test_what_is_left_out_has_its_cause(self) -> None:
        for lines, cause in [
            (["person: Jo", "nic-hdl: J1"], "class person"),
            (["route6: ::/0"], "class route6"),
            (["hello: world"], "a class that RPSL does not know"),
            (["aut-num: AS1.2"], "a key that can't be read"),
            (["aut-num: AS-X"], "a key that can't be read"),
            (["route: 192.0.2.0/24"], "a key that can't be read"),
            (["route: 2001:db8::/32", "origin: AS1"], "IPv6"),
            (["as-set: AS-X", "as-set: AS-Y"], "a class again after the first line"),
            (["aut-num: AS1", "delete: x"], "`password` or `delete`"),
            (["aut-num: AS1", "route: x"], "a class again after the first line"),
            (["aut-num: AS1", "EOF"], "text: it has a line without a colon"),
            (
                ["aut-num: AS1", "mnt-routes: A-MNT {10.0.0.0/8"],
                "a list that can't be read",
            ),
            (["mntner: A B"], "a key that can't be read"),
            (["as-set: AS-X", "x: " + "y" * 70_000], "above 65,536 bytes"),
        ]:
            self.assertEqual(mended(obj(*lines, "mnt-by: A-MNT", "source: TEST")), cause, lines)

    def test_a_long_text_is_pressed(self) -> None:
        text, kinds = mended(
            obj("as-set: AS-X", *["members:AS1"] * 4_000, "mnt-by:A-MNT", "source:TEST")
        )
        self.assertEqual((len(text) < 65_536, kinds), (True, {"long"}))
        self.assertEqual(len(syntax.read(text).attributes), 4_003)

    def test_a_text_that_the_registry_refuses_for_its_size_is_reported(self) -> None:
        """Also where it is short without comments and blanks: as it was read it is E07."""
        for filler in ["# " + "x" * 98] * 660, ["descr: x" + " " * 92] * 660:
            lines = ["as-set: AS-X", "mnt-by: A-MNT", *filler, "source: TEST"]
            text, kinds = mended(obj(*lines))
            self.assertEqual((len(text) < 65_536, kinds), (True, {"long"}))
            self.assertEqual(mended(obj(*lines), ["long"]), "not mended because of --no-long")
        room = 65_536 - len(obj("as-set: AS-X", "mnt-by: A-MNT", "source: TEST", "#")) + 1
        for more in 0, 1:
            text = obj("as-set: AS-X", "mnt-by: A-MNT", "#" * (room + more + 1), "source: TEST")
            self.assertEqual(len(text), 65_537 + more)
            self.assertEqual(mended(text)[1], {"long"} if more else set())

    def test_each_kind_is_turned_off(self) -> None:
        bad = {
            "source": "source: RIPE",
            "ipv6": "members: ::/0",
            "scope": "members: RIPE::AS-X",
            "item": "members: x",
            "rename": "mnt-by: " + "A" * 81,
        }
        for kind, line in bad.items():
            rest = [] if kind == "rename" else ["mnt-by: A-MNT"], [] if kind == "source" else [
                "source: TEST"
            ]
            text = obj("as-set: AS-X", line, *rest[0], *rest[1])
            self.assertEqual(mended(text)[1], {kind})
            self.assertEqual(mended(text, [kind]), f"not mended because of --no-{kind}")

    def test_bad_names_are_made_good_ones(self) -> None:
        for old, new in [
            ("1AND1-MNT", "MNT-1AND1-MNT"),
            ("AS-MNT", "MNT-AS-MNT"),
            ("ANY", "MNT-ANY"),
            ("FOO@BAR.", "FOO-BAR"),
            ("-", "X"),
            ("A" * 100, "A" * 68),
        ]:
            self.assertEqual(new_name(old, {old}), new)
        self.assertEqual(new_name("1-MNT", {"MNT-1-MNT", "MNT-1-MNT-2"}), "MNT-1-MNT-3")


class Importing(unittest.TestCase):
    def test_nothing_makes_the_opening_objects_alone(self) -> None:
        dump, tally = made(b"")
        self.assertEqual(
            keys_of(dump),
            ["ROOT-MNT", "AS0 - AS65535", "AS65536 - AS4294967295", "0.0.0.0 - 255.255.255.255"],
        )
        self.assertTrue(dump.endswith(b"\n\n% end 4\n"))
        self.assertEqual((tally.read, tally.taken, tally.made), (0, 0, 4))
        self.assertEqual(made(b"", off=["initial"])[0], b"% end 0\n")
        dump, _ = made(obj("aut-num: AS1", "mnt-by: A-MNT", "source: TEST"), off=["initial"])
        self.assertEqual(keys_of(dump), ["A-MNT", "ROOT-MNT", "AS1"])

    def test_its_own_dump_stays(self) -> None:
        first, _ = made(
            obj("route: 192.0.2.0/24", "origin: AS1", "mnt-by: 1-MNT"),
            obj("mntner: B-MNT", "auth: X", "mnt-by: B-MNT"),
        )
        again, tally = made(first)
        self.assertEqual(again, first)
        self.assertEqual((tally.made, +tally.mended), (0, {}))

    def test_objects_are_in_order_and_the_first_of_a_key_stays(self) -> None:
        one = obj(
            "route: 192.0.2.0/24", "origin: AS1", "descr: first", "mnt-by: ROOT-MNT", "source: TEST"
        )
        dump, tally = made(
            obj("as-set: as-b", "mnt-by: root-mnt"),
            obj("as-set: AS-A", "mnt-by: ROOT-MNT") + one + one.replace(b"first", b"second"),
            obj("route: 192.0.2.0/24", "origin: AS0", "mnt-by: ROOT-MNT"),
        )
        self.assertEqual(keys_of(dump)[4:], ["192.0.2.0/24", "192.0.2.0/24", "AS-A", "as-b"])
        self.assertIn(b"first", dump)
        self.assertNotIn(b"second", dump)
        self.assertEqual((tally.read, tally.taken, dict(tally.causes)), (5, 4, {"duplicate": 1}))
        with self.assertRaisesRegex(Failure, ":7: its key"):
            made(one + one, off=["duplicate"])

    def test_a_range_that_crosses_an_earlier_one_is_left_out(self) -> None:
        text = b"".join(
            obj(f"inetnum: 10.0.0.{first} - 10.0.0.{last}", "mnt-by: ROOT-MNT")
            for first, last in [(0, 9), (5, 12), (10, 14), (5, 9)]
        )
        dump, tally = made(text)
        self.assertEqual(
            keys_of(dump)[4:],
            ["10.0.0.0 - 10.0.0.9", "10.0.0.5 - 10.0.0.9", "10.0.0.10 - 10.0.0.14"],
        )
        self.assertEqual(
            (tally.taken, dict(tally.causes), tally.left_out.first["crossing"][0].split(":")[1]),
            (3, {"crossing": 1}, "4  inetnum"),
        )
        with self.assertRaisesRegex(Failure, ":4: it overlaps"):
            made(text, off=["crossing"])

    def test_all_as_numbers_and_addresses_are_covered(self) -> None:
        cases: list[tuple[list[str], list[str]]] = [
            (["AS0 - AS4294967295"], []),
            (["AS0 - AS65535"], ["AS65536 - AS4294967295"]),
            (["AS60000 - AS70000"], ["AS0 - AS4294967295"]),
            (["AS1 - AS2"], ["AS0 - AS65535", "AS65536 - AS4294967295"]),
        ]
        for blocks, wanted in cases:
            dump, _ = made(
                b"".join(obj(f"as-block: {block}", "mnt-by: ROOT-MNT") for block in blocks)
            )
            self.assertEqual(
                sorted(keys_of(dump)),
                sorted(["ROOT-MNT", *blocks, *wanted, "0.0.0.0 - 255.255.255.255"]),
            )

    def test_renamed_maintainers_are_renamed_wherever_they_are_named(self) -> None:
        old, cut = "A" * 81, "A" * 68
        text = (
            obj(f"mntner: {old.lower()}", "auth: X", f"mnt-by: {old} # own", "source: TEST")
            + obj(
                "aut-num: AS1",
                f"mnt-by: {old.title()}, b-mnt",
                f"mnt-routes: {old} {{10.0.0.0/8}}, C-MNT",
                "source: TEST",
            )
            + obj(f"mntner: {cut}", "auth: X", f"mnt-by: {cut}", "source: TEST")
        )
        dump, tally = made(text, auths={"B-MNT": [AUTH.encode()], old: [AUTH.encode()]})
        self.assertEqual(tally.renamed, {old: f"{cut}-2"})
        found = {
            paragraph.value(b"mntner"): paragraph
            for paragraph in syntax.paragraphs([dump])
            if paragraph.name == b"mntner"
        }
        self.assertEqual(
            set(found), {b"B-MNT", b"C-MNT", cut.encode(), f"{cut}-2".encode(), b"ROOT-MNT"}
        )
        self.assertEqual(
            [
                found[name].values(b"auth")
                for name in (b"B-MNT", b"C-MNT", cut.encode(), f"{cut}-2".encode())
            ],
            [[AUTH.encode()], [b"FILTERED"], [b"X"], [AUTH.encode()]],
        )
        self.assertEqual(
            [found[name].value(b"mnt-by") for name in (b"B-MNT", b"C-MNT")], [b"B-MNT", b"ROOT-MNT"]
        )
        self.assertIn(
            f"mnt-by:         {cut}-2, b-mnt\n" f"mnt-routes:     {cut}-2 {{10.0.0.0/8}}, C-MNT\n",
            dump.decode(),
        )
        self.assertEqual(made(dump, auths={"B-MNT": [AUTH.encode()]})[0], dump)
        with self.assertRaisesRegex(Failure, "Z-MNT"):
            made(text, auths={"Z-MNT": [AUTH.encode()]})

    def test_lines_under_the_old_and_the_new_name_are_all_given(self) -> None:
        own, other = AUTH.encode(), AUTH.encode().replace(b" a:", b" b:")
        text = obj("mntner: 1-MNT", "auth: X", "mnt-by: 1-MNT", "source: TEST")
        dump, _ = made(text, auths={"1-MNT": [own], "MNT-1-MNT": [other]})
        (found,) = (
            one for one in syntax.paragraphs([dump]) if one.value(b"mntner") == b"MNT-1-MNT"
        )
        self.assertEqual(sorted(found.values(b"auth")), [own, other])

    def test_two_bad_names_stay_two_maintainers(self) -> None:
        """Also where both would get the same new name: neither gets what is the other's."""
        names = ["A" * 80 + end for end in ("B-MNT", "C-MNT", "D-MNT")]
        text = b"".join(
            obj(f"mntner: {name}", f"auth: X-{place}", f"mnt-by: {name}")
            + obj(f"aut-num: AS{place}", f"mnt-by: {name}")
            for place, name in enumerate(names)
        )
        dump, tally = made(text, off=["initial"])
        self.assertEqual(sorted(tally.renamed), sorted(names))
        self.assertEqual(len(set(tally.renamed.values())), 3)
        self.assertEqual(len(set(keys_of(dump))), 6)
        for place, name in enumerate(names):
            new = tally.renamed[name]
            own = f"auth:           X-{place}\nmnt-by:         {new}\n"
            self.assertIn(f"mntner:         {new}\n{own}".encode(), dump)
            self.assertIn(f"aut-num:        AS{place}\nmnt-by:         {new}\n".encode(), dump)

    def test_objects_of_a_maintainer_without_a_mntner_are_left_out(self) -> None:
        text = obj("mntner: A-MNT", "auth: X", "mnt-by: B-MNT") + obj(
            "aut-num: AS1", "mnt-by: A-MNT"
        )
        text += obj("aut-num: AS2", "mnt-by: ROOT-MNT")
        dump, tally = made(text, off=["mntner"])
        self.assertEqual(keys_of(dump)[0:1] + keys_of(dump)[3:4], ["ROOT-MNT", "AS2"])
        self.assertEqual(
            (tally.taken, dict(tally.causes)), (1, {"a maintainer without a mntner": 2})
        )
        self.assertEqual(made(text, off=["mntner", "initial"])[0], b"% end 0\n")

    def test_without_mntners_goes_on_until_none_is_left(self) -> None:
        """A maintainer that goes takes those with it that name it, also those before it."""
        text = b"".join(
            obj(f"mntner: {name}-MNT", "auth: X", f"mnt-by: {by}-MNT")
            for name, by in [("A", "B"), ("B", "C"), ("C", "D"), ("E", "E")]
        )
        text += obj("aut-num: AS1", "mnt-by: A-MNT") + obj("aut-num: AS2", "mnt-by: E-MNT")
        dump, tally = made(text, off=["mntner", "initial"])
        self.assertEqual(keys_of(dump), ["E-MNT", "AS2"])
        self.assertEqual(
            (tally.taken, dict(tally.causes)), (2, {"a maintainer without a mntner": 4})
        )

    def test_bom_comments_and_eof_of_real_files_are_no_objects(self) -> None:
        text = (
            b"\xef\xbb\xbf% The RIPE Database\r\n\r\n# a header\r\naut-num:\tAS1  \r\n"
            b"descr: caf\xe9 \x85 \xc3\xa9\r\n  more\r\n+\r\n"
            b"MNT-BY: A-MNT\r\n%comment\r\nsource: RIPE\r\n \t\r\n\r\nEOF\r\n"
        )
        dump, tally = made(text)
        self.assertEqual(
            (tally.read, tally.taken, dict(tally.causes)),
            (2, 1, {"text: it has a line without a colon": 1}),
        )
        self.assertIn(
            b"aut-num:        AS1\ndescr:          caf\xc3\xa9 \xe2\x80\xa6 \xc3\x83\xc2\xa9\n"
            b"                more\n+\nmnt-by:         A-MNT\nsource:         TEST\n",
            dump,
        )
        self.assertEqual(made(gzip.compress(text[:40]) + gzip.compress(text[40:]))[0], dump)
        with self.assertRaisesRegex(Failure, "cut off"):
            made(gzip.compress(text)[:-9])

    def test_all_that_is_left_out_is_listed(self) -> None:
        listed = io.BytesIO()
        _, tally = made(
            b"".join(obj(f"person: Jo {number}") for number in range(15)), left_out=listed
        )
        lines = listed.getvalue().decode().split("\n")
        _, other = made(
            b"".join(
                obj("route:  192.0.2.0/24", "descr: x", f"origin:AS{number} # x")
                for number in (1, 1, 1 << 32)
            )
        )
        self.assertEqual(
            [one.partition("  ")[2] for found in other.left_out.first.values() for one in found],
            ["route: 192.0.2.0/24 AS1", "route: 192.0.2.0/24 AS4294967296"],
        )
        self.assertEqual(
            (len(lines), lines[14].split("\t")[:2], lines[14].split("\t")[3]),
            (16, ["left out", "class person"], "person: Jo 14"),
        )
        report = list(tally.lines())
        self.assertEqual(
            (report[-1], sum("person: Jo" in line for line in report)), ("  and 5 more", 10)
        )

    def test_what_is_turned_off_is_not_mended(self) -> None:
        """Every kind has an effect that ends when it is turned off."""
        text = obj("mntner: B-MNT", "mnt-by: " + "A" * 81, "source: RIPE") + obj(
            "as-set: AS-X", "members: ::/0, x, RIPE::AS-Y"
        )
        text += (
            obj("inetnum: 10/8", "mnt-by: A-MNT")
            + obj("inetnum: 9.0.0.0 - 10.0.0.9", "mnt-by: A-MNT") * 2
        )
        text += obj("as-set: AS-Z", *["a:b"] * 5_000)
        text += obj("route-set: RS-X", "mp-members: 10.0.0.0/8, ::/0")
        text += obj("route: 10.0.0.1/8", "origin: AS1", "member-of: AS-X, RS-X")
        text += obj("aut-num: AS1", "source: RIPE", "aut-num: AS2", "source: RIPE")
        text += obj("aut-num: AS3", "descr: caf\xe9", "source: RIPE")
        for kind in KINDS:
            with contextlib.suppress(Failure):
                self.assertIn(kind, +made(text)[1].mended)
                self.assertNotIn(kind, +made(text, off=[kind])[1].mended)


class Crossing(unittest.TestCase):
    def test_ranges_stay_as_if_taken_one_by_one(self) -> None:
        chance = random.Random(1)
        for _ in range(300):
            size = chance.choice([5, 12, 60])
            drawn = [
                sorted((chance.randrange(size), chance.randrange(size)))
                for _ in range(chance.randrange(40))
            ]
            pairs = list(dict.fromkeys((first, last) for first, last in drawn))
            kept: list[tuple[int, int]] = []
            gone: list[int] = []
            for place, (first, last) in enumerate(pairs):
                if any(a < first <= b < last or first < a <= last < b for a, b in kept):
                    gone.append(place)
                else:
                    kept.append((first, last))
            self.assertEqual(spans.crossing(pairs), gone, pairs)


if __name__ == "__main__":
    unittest.main()
