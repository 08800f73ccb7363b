"""The flags of RIPE's whois, as they stand on a line of it."""

import dataclasses
from typing import Optional

# Each flag by its letter and by its long name, and whether a word goes with it.
LONG = {
    "abuse-contact": "b",
    "all-sources": "a",
    "all-more": "M",
    "all-less": "L",
    "brief": "b",
    "client": "V",
    "domain": "d",
    "exact": "x",
    "inverse": "i",
    "irt": "c",
    "list-sources-or-version": "q",
    "no-filtering": "B",
    "no-grouping": "G",
    "no-irt": "C",
    "no-personal": "",
    "no-referenced": "r",
    "no-tag-info": "",
    "one-less": "l",
    "one-more": "m",
    "persistent-connection": "k",
    "primary-keys": "K",
    "reverse-domain": "d",
    "select-types": "T",
    "short": "F",
    "show-personal": "",
    "show-tag-info": "",
    "sources": "s",
    "template": "t",
    "verbose": "v",
    "version": "V",
    "diff-versions": "?",
    "list-versions": "?",
    "resource": "",
    "valid-syntax": "",
    "no-valid-syntax": "",
}
WITH_WORD = frozenset("iTsqtvVg")
ALONE = frozenset("abBcCdFGkKlLmMrRx")
PLACES = "xlLmM"


class Bad(Exception):
    """A line that RIPE's server refuses: the number of its error, its title, and what it says."""

    def __init__(self, number: int, title: str, *lines: str) -> None:
        super().__init__(title)
        self.number, self.title, self.lines = number, title, lines


@dataclasses.dataclass
class Flags:
    """What a line asks for: its flags, the words that go with some of them, and the key."""

    letters: set[str] = dataclasses.field(default_factory=set)
    words: dict[str, str] = dataclasses.field(default_factory=dict)
    key: str = ""

    def listed(self, letter: str) -> list[str]:
        """The items of a list, as `-T route,inetnum`."""
        return [
            item.strip().lower() for item in self.words.get(letter, "").split(",") if item.strip()
        ]

    @property
    def place(self) -> Optional[str]:
        """The flag that says which objects round a place are wanted."""
        return next((letter for letter in PLACES if letter in self.letters), None)


def read(line: str) -> Flags:
    """The flags of a line; Bad for what is none of RIPE's."""
    flags, key = Flags(), []
    words = iter(line.split())
    for word in words:
        if word.startswith("--") and len(word) > 2:
            name, mark, value = word[2:].partition("=")
            letter = LONG.get(name.lower())
            if letter is None:
                raise invalid(word)
            if letter == "?":
                raise Bad(117, "version cannot exceed 4 bytes", "No versions are kept here.")
            if letter in WITH_WORD and letter:
                take(flags, letter, value if mark else next(words, ""))
            elif letter:
                flags.letters.add(letter)
        elif word.startswith("-") and len(word) > 1 and word[1].isalpha():
            letters = word[1:]
            for place, letter in enumerate(letters):
                if letter in WITH_WORD:
                    rest = letters[place + 1 :]
                    take(flags, letter, rest or next(words, ""))
                    break
                if letter not in ALONE:
                    raise invalid(f"-{letter}")
                flags.letters.add(letter)
        else:
            key.append(word)
    flags.key = " ".join(key)
    if len(flags.letters & set(PLACES)) > 1:
        raise Bad(
            109,
            "invalid combination of flags passed",
            "The flags -x, -l, -L, -m and -M exclude one another.",
        )
    return flags


def take(flags: Flags, letter: str, word: str) -> None:
    """A flag with its word."""
    if not word:
        raise Bad(
            111,
            "invalid option supplied",
            f"The flag -{letter} lacks its word.",
            "Use help to see the valid options.",
        )
    if letter in flags.words and letter not in "sT":
        raise Bad(110, "multiple use of flag", f"The flag -{letter} cannot be used multiple times.")
    flags.words[letter] = f"{flags.words[letter]},{word}" if letter in flags.words else word


def invalid(word: str) -> Bad:
    return Bad(
        111,
        "invalid option supplied",
        f"There is no flag {word}.",
        "Use help to see the valid options.",
    )
