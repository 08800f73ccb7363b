// Made of tools/irr/registry/codes.py and tools/irr/rpsl/grammar.py by
// `python3 -m checks.web.tables`.
export const TABLE = {
    "mntner": {
        "auth": ["1+", "whole", "auth"],
        "mnt-by": ["1+", "items", "maintainer"],
        "source": ["1", "whole", "source"],
    },
    "as-block": {
        "mnt-lower": ["0+", "items", "maintainer"],
        "mnt-by": ["1+", "items", "maintainer"],
        "source": ["1", "whole", "source"],
    },
    "aut-num": {
        "member-of": ["0+", "items", "set"],
        "mnt-lower": ["0+", "items", "maintainer"],
        "mnt-routes": ["0+", "braced", "grants"],
        "mnt-by": ["1+", "items", "maintainer"],
        "source": ["1", "whole", "source"],
    },
    "inetnum": {
        "mnt-lower": ["0+", "items", "maintainer"],
        "mnt-routes": ["0+", "braced", "grants"],
        "mnt-by": ["1+", "items", "maintainer"],
        "source": ["1", "whole", "source"],
    },
    "route": {
        "origin": ["1", "whole", "as"],
        "member-of": ["0+", "items", "set"],
        "mnt-lower": ["0+", "items", "maintainer"],
        "mnt-routes": ["0+", "braced", "grants"],
        "mnt-by": ["1+", "items", "maintainer"],
        "source": ["1", "whole", "source"],
    },
    "as-set": {
        "members": ["0+", "items", "as-member"],
        "mbrs-by-ref": ["0+", "items", "referrer"],
        "mnt-lower": ["0+", "items", "maintainer"],
        "mnt-by": ["1+", "items", "maintainer"],
        "source": ["1", "whole", "source"],
    },
    "route-set": {
        "members": ["0+", "items", "range-member"],
        "mbrs-by-ref": ["0+", "items", "referrer"],
        "mnt-lower": ["0+", "items", "maintainer"],
        "mnt-by": ["1+", "items", "maintainer"],
        "source": ["1", "whole", "source"],
    },
};
export const FORMS = {
    "auth": "a scheme with what it says",
    "maintainer": "a maintainer's name",
    "source": "the name of a registry",
    "set": "the name of a set",
    "grants": "a maintainer's name",
    "as": "an AS number",
    "as-member": "an AS number or an as-set",
    "referrer": "a maintainer's name or `ANY`",
    "range-member": "a prefix, an AS number or a set",
};
export const KEY_WORDS = {
    "mntner": "a maintainer's name, as EXAMPLE-MNT",
    "as-block": "a range of AS numbers, as AS64496 - AS64511",
    "aut-num": "an AS number, as AS64496",
    "inetnum": "a range of addresses, as 192.0.2.0/24 or 192.0.2.0 - 192.0.2.255",
    "route": "a prefix, as 192.0.2.0/24",
    "as-set": "the name of an as-set, as AS64496:AS-CUSTOMERS",
    "route-set": "the name of a route-set, as AS64496:RS-OUT",
};
export const WORDS = {
    "alone": "it is alone; write the class and the key of the object above it",
    "near": "this is not a class; did you mean `{0}`?",
    "later": "this is not a class; if the object is of class `{0}`, put that first",
    "class": "this registry keeps no such class; it keeps {0}",
    "no key": "it is empty; write {0}",
    "not one": "`{0}` is not {1}",
    "no origin": "the `origin` is missing",
    "empty origin": "it has no AS number",
    "again": "it is here again; is a blank line missing above, between two objects?",
    "missing": "`{0}` is missing",
    "empty": "it has not {0}",
    "filtered": "`# filtered` is what answers show in its place; write the line itself",
    "empty auth": "it is empty; make the line by `irr auth`",
    "bad auth": "after `SHA256-PW` comes one word: a salt of at most 16 letters or digits, a " +
        "colon, and 64 hexadecimal digits; make the line by `irr auth`",
    "nameless": "no maintainer's name is before `{0}`",
    "open": "the brace `{` is not closed by `}`",
    "other source": "`{0}` is not this registry, which is {1}",
};
export const HINTS = [
    ["\\u00a0", "it has a no-break space; write plain blanks", ""],
    ["[^\\x00-\\x7f]", "it has a letter that is not ASCII", ""],
    ["^([0-9]{1,10})$", "write AS{1}", "AS number"],
    ["^([a-z][a-z0-9_-]*)::.", "leave out `{1}::`", ""],
    ["^(?=.*:)(?!:$)[0-9a-f:.]+(?:/[0-9]{1,3})?(?:\\^.*)?$", "this registry has no IPv6", ""],
    ["^:|:$", "a colon is too many", ""],
    [";", "write commas between items", ""],
    ["\\^.*\\^", "one operator is the most", ""],
    ["^([0-9]{1,3}(?:\\.[0-9]{1,3}){3})$", "write its length too, as {1}/32", ""],
    ["^(?:accept|action|and|announce|any|as-any|at|atomic|except|from|inbound|into|net" +
        "works|not|or|outbound|peeras|refine|rs-any|to)$", "the word is reserved", ""],
    ["[{}]", "braces stand in `mnt-routes` alone", ""],
];
export const INTERPRETED = (
    "auth mnt-by source mnt-lower member-of mnt-routes origin members mbrs-by-ref " +
    "password delete"
).split(' ');
export const SECRETS = (
    "pass pass-word pass_word passcode passphrase passw passwd paswd paswrd psswd pw pwd " +
    "secret override api-key apikey"
).split(' ');
export const RESERVED = (
    "accept action and announce any as-any at atomic except from inbound into networks " +
    "not or outbound peeras refine rs-any to"
).split(' ');
export const CODES = {
    E01: [
        "The text of the paragraph has a fault.",
        "Look for the first line that is neither `name: value` nor a continuation, " +
            "which begins with a blank or `+`. Save the file as plain text.",
    ],
    E02: [
        "The class is unknown, or the paragraph has only `delete`.",
        "Put the class first, and leave out objects of other classes.",
    ],
    E03: [
        "The key is bad; for a route also an `origin` that is missing, repeated or " +
            "bad.",
        "Write four numbers and a length, and name one `origin`.",
    ],
    E04: [
        "A required attribute is missing or empty, or one that may occur only once is" +
            " repeated.",
        "Compare the object with a registered one of its class, and put a blank line " +
            "between objects.",
    ],
    E05: [
        "An attribute that is read has a bad value.",
        "Look at `mnt-by`, `mnt-lower`, `mnt-routes`, `members`, `mbrs-by-ref`, " +
            "`member-of`, `auth` and `source`.",
    ],
    E06: [
        "The `source` is not this registry's.",
        "Write this registry's name as `source`.",
    ],
    E07: [
        "The paragraph is over 65,536 bytes.",
        "Put blank lines between objects, or split the object.",
    ],
    E10: [
        "A maintainer that the object names is not registered.",
        "Register the maintainer first, or correct its name.",
    ],
    E11: [
        "No password given so far fits a maintainer in the `mnt-by` that applies: " +
            "that of the registered object, or of the new one.",
        "Give the right password, before the item. For a new mntner make the `auth` " +
            "line by `irr auth`.",
    ],
    E12: [
        "Nothing covers the new object, or the parent of a set is not registered.",
        "Register the parent first.",
    ],
    E13: [
        "The object that covers the new one, or the parent of a set, does not " +
            "authorise it.",
        "Ask the holder to add it, or to name your maintainer in `mnt-lower` (in " +
            "`mnt-routes` for a route).",
    ],
    E14: [
        "The `origin` has no aut-num here.",
        "Register the aut-num first.",
    ],
    E15: [
        "The aut-num of the `origin` does not authorise the route.",
        "Ask its holder to name your maintainer in `mnt-routes`.",
    ],
    E16: [
        "The range overlaps another one of its class, and neither is inside the " +
            "other.",
        "Query `less` for the first and for the last address: a range that contains " +
            "only one of them overlaps. Cut the range there.",
    ],
    E17: [
        "Other objects still name the maintainer that is to be deleted.",
        "List them with `inverse mnt NAME`. Change or delete those that are yours. " +
            "Only their holders, or the registry's operator, can change the others.",
    ],
    E18: [
        "There is no object of this class and key to delete.",
        "Compare the key with that in an answer.",
    ],
    E90: [
        "The server ran out of memory.",
        "Send the item again later.",
    ],
    E91: [
        "The server's database failed, and nothing after this item was read.",
        "Tell the registry's operator, and send this item and the rest again later.",
    ],
};
