"""The one table of the codes with which the registry refuses an item: reports, `irr explain` and
the check of the pages read it."""
from typing import NamedTuple


class Code(NamedTuple):
    """A code, what it says, what mostly causes it, and what to do."""

    code: str
    sentence: str
    causes: str
    remedy: str


TABLE = (
    Code(
        "E01",
        "The text of the paragraph has a fault.",
        "A line without a colon; a name with a blank in it; a paragraph that begins with a blank. "
        "A control character; text in UTF-16 or with a byte order mark.",
        "Look for the first line that is neither `name: value` nor a continuation, which begins "
        "with a blank or `+`. Save the file as plain "
        "text.",
    ),
    Code(
        "E02",
        "The class is unknown, or the paragraph has only `delete`.",
        "A class that this registry does not keep, such as `person`, `role` or `route6`; another "
        "attribute before the class.",
        "Put the class first, and leave out objects of other classes.",
    ),
    Code(
        "E03",
        "The key is bad; for a route also an `origin` that is missing, repeated or bad.",
        "`10/8` for `10.0.0.0/8`; a length above 32; a first number above the last. A reserved "
        "word, such as `ANY` or `AS-ANY`, as a name; two routes without a blank line between "
        "them.",
        "Write four numbers and a length, and name one `origin`.",
    ),
    Code(
        "E04",
        "A required attribute is missing or empty, or one that may occur only once is repeated.",
        "No `mnt-by`, `source` or `auth`, or nothing after one of these; a second `source`, in "
        "most cases because a blank line is missing between two objects.",
        "Compare the object with a registered one of its class, and put a blank line between "
        "objects.",
    ),
    Code(
        "E05",
        "An attribute that is read has a bad value.",
        "A bad name in a list; `64496` for `AS64496`; a set of another registry, such as "
        "`RIPE::AS-FOO`. An `auth` that is empty, is `# filtered` as answers show it, or has a "
        "hash without 64 digits. Two operators on a range; a no-break space; one colon too many.",
        "Look at `mnt-by`, `mnt-lower`, `mnt-routes`, `members`, `mbrs-by-ref`, `member-of`, "
        "`auth` and `source`.",
    ),
    Code(
        "E06",
        "The `source` is not this registry's.",
        "An object that was copied from another registry.",
        "Write this registry's name as `source`.",
    ),
    Code(
        "E07",
        "The paragraph is over 65,536 bytes.",
        "In most cases a blank line is missing between objects.",
        "Put blank lines between objects, or split the object.",
    ),
    Code(
        "E10",
        "A maintainer that the object names is not registered.",
        "A name in `mnt-by`, `mnt-lower`, `mnt-routes` or `mbrs-by-ref` that is mistyped, or "
        "registered only later.",
        "Register the maintainer first, or correct its name.",
    ),
    Code(
        "E11",
        "No password given so far fits a maintainer in the `mnt-by` that applies: that of the "
        "registered object, or of the new one.",
        "A password that is missing, mistyped, or after the item; an object of somebody else. "
        "For a new mntner an `auth` made of other text, such as one with the line feed of `echo`.",
        "Give the right password, before the item. For a new mntner make the `auth` line by "
        "`irr auth`.",
    ),
    Code(
        "E12",
        "Nothing covers the new object, or the parent of a set is not registered.",
        "A set below an AS number that is not registered yet.",
        "Register the parent first.",
    ),
    Code(
        "E13",
        "The object that covers the new one, or the parent of a set, does not authorise it.",
        "Address space or AS numbers that somebody else holds; a closer route that is not yours.",
        "Ask the holder to add it, or to name your maintainer in `mnt-lower` (in `mnt-routes` "
        "for a route).",
    ),
    Code(
        "E14",
        "The `origin` has no aut-num here.",
        "An AS number that is mistyped or not registered yet.",
        "Register the aut-num first.",
    ),
    Code(
        "E15",
        "The aut-num of the `origin` does not authorise the route.",
        "An AS number that somebody else holds.",
        "Ask its holder to name your maintainer in `mnt-routes`.",
    ),
    Code(
        "E16",
        "The range overlaps another one of its class, and neither is inside the other.",
        "An inetnum or as-block that begins inside another one and ends outside it.",
        "Query `less` for the first and for the last address: a range that contains only one of "
        "them overlaps. Cut the range there.",
    ),
    Code(
        "E17",
        "Other objects still name the maintainer that is to be deleted.",
        "They may be anybody's, because any maintainer can be named in `mnt-lower` and "
        "`mnt-routes`.",
        "List them with `inverse mnt NAME`. Change or delete those that are yours. Only their "
        "holders, or the registry's operator, can change the others.",
    ),
    Code(
        "E18",
        "There is no object of this class and key to delete.",
        "A key that is mistyped; for a route another `origin`.",
        "Compare the key with that in an answer.",
    ),
    Code(
        "E90",
        "The server ran out of memory.",
        "Many other objects, or a machine that is too small.",
        "Send the item again later.",
    ),
    Code(
        "E91",
        "The server's database failed, and nothing after this item was read.",
        "A disk that is full or broken.",
        "Tell the registry's operator, and send this item and the rest again later.",
    ),
)
BY_CODE = {code.code: code for code in TABLE}
