"""Lines of FRR's lists in whole words: FRR also takes the beginning of a word for it."""
import re
from typing import Iterator

# How a line of a list begins, before its name, and what follows the name.
BEGINNINGS = (
    ("ip", "prefix-list"),
    ("ipv6", "prefix-list"),
    ("access-list",),
    ("ipv6", "access-list"),
    ("bgp", "as-path", "access-list"),
    ("ip", "as-path", "access-list"),
)
WORDS = ("seq", "permit", "deny", "any", "host", "ge", "le", "exact-match", "ip", "remark")
# What may be a line of a list, by its first letter.
LINE = re.compile(r"^[ \t]*[abin][^\n]*", re.M)


def spelled_out(text: str) -> str:
    """A filter of FRR whose lists have whole words. All else is as it was."""
    return LINE.sub(whole_line, text)


def whole_line(found: re.Match[str]) -> str:
    words = found[0].split()
    removes = ["no"] if "no".startswith(words[0]) else []
    words = words[len(removes) :]
    for start in BEGINNINGS:
        if len(words) > len(start) and all(map(str.startswith, start, words)):
            name, rest = words[len(start)], words[len(start) + 1 :]
            return " ".join([*removes, *start, name, *whole_words(rest, "as-path" in start)])
    return found[0]


def whole_words(words: list[str], is_of_paths: bool) -> Iterator[str]:
    """The words after a name. What a list of paths permits or denies is a pattern, which stays."""
    for place, word in enumerate(words):
        whole = next((one for one in WORDS if one.startswith(word)), word)
        yield whole
        if is_of_paths and whole in ("permit", "deny"):
            yield from words[place + 1 :]
            return
