"""Which lines of a dump are one object.

No class of RFC 2622, 2725, 2726 and 4012, of the RIPE Database or of IRRd has an attribute with the
name of another class. So a class's name after the first line begins another object, and a second
`source` ends one. A name that is none of theirs is an attribute."""
import re
from typing import Iterator, NamedTuple

from irr.migrate.dumps import MARK
from irr.rpsl import keys
from irr.rpsl.syntax import BAD_BYTE, BLANKS, CONTINUED, PASSED_OVER, Block, name_of

# Other classes of RPSL (RFC 2622, 2725, 2726, 4012), of the RIPE Database, of IRRd and of RIPE-181.
FOREIGN = frozenset(
    b"""person role route6 inet6num inet-rtr filter-set peering-set rtr-set key-cert domain
    repository dictionary irt organisation organization poem poetic-form limerick as-macro community
    dom-prefix ipv6-site""".split()
)
CLASSES = sorted(FOREIGN | {kind.encode() for kind in keys.CLASSES}, reverse=True)
# All of these are for text in small letters. The first letters make the search quick. A file that
# was joined to another one may begin with a byte order mark.
CLASS_LINE = rb"(?:%s)?(?=[%s])(?:%s)[ \t\r]*:" % (
    MARK,
    b"".join({kind[:1] for kind in CLASSES}),
    b"|".join(CLASSES),
)
SOURCE_LINE = rb"\nsource[ \t\r]*:"
LATER_CLASS = re.compile(rb"\n" + CLASS_LINE)
LATER_SOURCE = re.compile(SOURCE_LINE)
# Also within a line, whose parts end in a CR alone where a file of another kind has them.
BEGINNING = re.compile(rb"[\n\r]" + CLASS_LINE)
# In what is no object: the colon may be missing, or blanks of another kind be before the class.
HEADING = re.compile(rb"[\n\r][\x80-\xff]*(?:%s)(?![a-z0-9_-])" % b"|".join(CLASSES))
# In a line that is quoted there, or a comment, it needs the colon: that is no end of an object.
QUOTED = re.compile(
    rb"[\n\r][^a-z0-9 \t\r\n+][^a-z0-9\n\r]*(?:%s)[^a-z0-9_\n\r:-]*:[^\n\r]*" % b"|".join(CLASSES)
)
LATER = re.compile(BEGINNING.pattern + rb"|" + SOURCE_LINE)
LATER_LEFT = re.compile(HEADING.pattern + rb"|" + QUOTED.pattern + rb"|" + SOURCE_LINE)
# What a line begins with that goes on with the one before, and has a class.
GOES_ON_WITH = re.compile(rb"(?<=\n)[ \t+]+(?=%s)" % CLASS_LINE, re.I)
LINE_END = re.compile(rb"[\n\r]")
# A `source` after the first line, with the lines that continue it and those that are skipped,
# directly before a class, or before a file that begins with comments and one.
SEAM = re.compile(
    rb"%s[^\n]*\n(?:[ \t\r+#%%][^\n]*\n)*(?=(?:%s(?:[#%%][^\n]*\n)+)?%s)"
    % (SOURCE_LINE, MARK, CLASS_LINE)
)
# The beginning of a file that was joined to another one, before its first object; not a comment in
# which a class is after a CR.
HEAD = re.compile(rb"%s(?:[ \t\r]*\n)?(?:[#%%](?:[^\n\r]|\r(?!%s))*\n)*" % (MARK, CLASS_LINE), re.I)
# An item with the first word of another line: a class, or any name, before a colon.
JOINED_ITEM = re.compile(rb".*(?:%s):(?!:).*|:(?!:).*|.*(?<!:):" % b"|".join(CLASSES), re.I)
# A class with such a key as it has, directly after a letter, a digit, a dot or a comma: what a line
# of text has, or a name, that was joined to one which begins with a class.
JOINED_TEXT = re.compile(
    rb":(?:(?:(?<=[a-z0-9.,\xbf]aut-num:)|(?<=[a-z0-9.,\xbf]as-block:))[ \t\r]*as[0-9]"
    rb"|(?:(?<=[a-z0-9.,\xbf]as-set:)|(?<=[a-z0-9.,\xbf]route-set:)|(?<=[a-z0-9.,\xbf]as-macro:))"
    rb"[ \t\r]*[ar]s[-0-9]"
    rb"|(?:(?<=[a-z0-9.,\xbf]route:)|(?<=[a-z0-9.,\xbf]inetnum:))[ \t\r]*[0-9]{1,3}[./]"
    rb"|(?:(?<=[a-z0-9.,\xbf]route6:)|(?<=[a-z0-9.,\xbf]inet6num:))[ \t\r]*[0-9a-f]{1,4}:"
    rb"|(?<=[a-z0-9.,\xbf]mntner:)[ \t\r]*(?:ma?i?nt-|[a-z0-9_-]+-mnt[ \t\r]*(?:\Z|[\n#])))"
)
# What a line has, such as one of an `auth`, that was joined to one which begins with a class.
JOINED_LINE = re.compile(rb"(?:%s)[ \t\r]*:(?!:)" % b"|".join(CLASSES), re.I)
# A CR that ends no line: the last of several, so that many of them take no longer each.
CR_INSIDE = re.compile(rb"\r(?=[ \t]*[^ \t\r\n])")
# What may be an item of a list whose line has lost the blank before it, and is an attribute so.
ITEM_LINE = re.compile(
    rb"\n(?:[Aa][Ss][0-9]+[ \t\r]*:|(?!as-name:)[AaRr][Ss]-[^ \t\r\n:]*:[AaRr][Ss]"
    rb"|[A-Za-z][A-Za-z0-9_-]*::[AaRr][Ss][-0-9])"
)
# A class at the beginning of a line, also of one that is quoted, with the marks before a key; bytes
# in what follows that are no visible ASCII, such as blanks of other pages of codes; and the lines
# that go on with the key, also with such a blank.
CLASS_WORD = re.compile(rb"[^A-Za-z0-9\n]*([A-Za-z0-9][A-Za-z0-9_-]*)[^A-Za-z0-9#\n]*")
NOT_SHOWN = re.compile(rb"[^!-~\n]")
KEY_GOES_ON = re.compile(rb"(?:(?:[+#%]|[^!-~\n])[^\n]*\n)*")
CUT_OFF = "cut off at the end of the file"
IN_COMMENT = "a class after a CR in a comment"
CLASS_AGAIN = "a class again after the first line"
SOURCE_AGAIN = "`source` twice"
INSIDE = "no `source`, and no blank line before it"
JOINED = "an item with a colon, as of two lines that were joined"
JOINED_IN_TEXT = "a class inside a text, as of two lines that were joined"
JOINED_AUTH = "a class inside an `auth`, as of two lines that were joined"
JOINED_PERSON = "a `nic-hdl`, as of a person that was joined"
GOES_ON = "a list before `source` that goes on after it"


class Part(NamedTuple):
    """Lines of a paragraph that may be one object: why they are not, if that is known, and whether
    a `source` stands after the first one."""

    block: Block
    doubt: str
    has_source: bool

    def further(self) -> list[tuple[int, bytes]]:
        """The lines at which further objects may begin, or end, in what is not one: each with its
        number in the file."""
        block, text = self.block, self.block.text
        if block.size > len(text):
            # Its last line is not whole, and told of as the others that are not kept.
            text = text[: text.rfind(b"\n") + 1]
        text = restored(text)
        end = LINE_END.search(text)
        after, line = (text[end.end() :], block.line + (end[0] == b"\n")) if end else (b"", 0)
        found = [*later(after, line, LATER_LEFT), *block.beyond]
        classes = [one for one in found if not is_source(one[1])]
        return classes or (found[1:] if self.doubt else [])

    def begun(self, is_taken: bool, joined_line: bytes = b"") -> Iterator[Block]:
        """What may be an object of this, each from where it begins to the next one; without a last
        line that has no end, which may say more. In what is not taken also in the middle of lines,
        as of one that was joined."""
        text = self.block.text
        text = text[: max(text.rfind(b"\n"), text.rfind(b"\r")) + 1]
        text = text if is_taken else restored(text)
        small = text.lower()
        found = (BEGINNING if is_taken else HEADING).finditer(small)
        within = () if is_taken else joined_at(small, joined_line.lower())
        starts = sorted({0, *(one.start() + 1 for one in found), *within})
        for start, end in zip(starts, [*starts[1:], len(text)]):
            yield unmarked(Block(self.block.line, end - start, text[start:end]))
        for number, line in self.block.beyond:
            yield Block(number, len(line), line)

    def may_have_more(self) -> bool:
        """Whether there may be further objects in it."""
        return bool(self.doubt) or CR_INSIDE.search(self.block.text) is not None

    def odd_lines(self) -> tuple[tuple[int, bytes], ...]:
        """The lines with `#` or `%` first, which are not kept, those with a CR first, which go on
        with the line before, those with a CR inside, and those that may be items of a list: each
        with its number in the file."""
        text = self.block.text
        has_cr = b"\r" in text and CR_INSIDE.search(text) is not None
        has_item = ITEM_LINE.search(text) is not None
        if b"\n#" not in text and b"\n%" not in text and not has_cr and not has_item:
            return ()
        numbered = enumerate(text.split(b"\n"), self.block.line)
        lines = ((number, line.rstrip(BLANKS)) for number, line in numbered)
        return tuple(
            one
            for place, one in enumerate(lines)
            if one[1][:1] in (b"#", b"%") or b"\r" in one[1] or (place and is_item(one[1]))
        )


def parts(block: Block) -> list[Part]:
    """What a paragraph consists of: it is parted where a `source` line stands directly before a
    class line. Nothing where it is comments after a byte order mark."""
    block = unmarked(block)
    if not block.text:
        return []
    if is_comment(block):
        return [Part(block, IN_COMMENT, False)]
    small = block.text.lower()
    if not LATER_CLASS.search(small):
        has_more = any(not is_source(line) for _, line in block.beyond)
        return [part_of(block, small, CLASS_AGAIN if has_more else "")]
    found: list[Part] = []
    start, line = 0, block.line
    for end in [*(seam.end() for seam in SEAM.finditer(small)), len(small)]:
        size, beyond = end - start, block.beyond[:0]
        if end == len(small):
            size, beyond = block.size - start, block.beyond
        own_block = unmarked(Block(line, size, block.text[start:end], beyond))
        own = own_block.text.lower()
        doubt = CLASS_AGAIN if LATER_CLASS.search(own) else ""
        found.append(part_of(own_block, own, doubt))
        line += small.count(b"\n", start, end)
        start = end
    return found


def is_comment(block: Block) -> bool:
    """Whether it is a line that is skipped, which is a block where a class is after a CR there."""
    return block.text[:1] in PASSED_OVER


def restored(text: bytes) -> bytes:
    """The lines of what is no object, in which a class begins its line even if that goes on with
    one from `source` on: a blank line before it may have become a blank."""
    source = LATER_SOURCE.search(text.lower())
    end = source.end() if source else len(text)
    return text[:end] + GOES_ON_WITH.sub(b"", text[end:])


def unmarked(block: Block) -> Block:
    """A block without a byte order mark at its beginning, and comments after it."""
    head = HEAD.match(block.text)
    if not head:
        return block
    size, line = block.size - head.end(), block.line + head[0].count(b"\n")
    return block._replace(line=line, size=size, text=block.text[head.end() :])


def part_of(block: Block, small: bytes, doubt: str) -> Part:
    count = len(LATER_SOURCE.findall(small))
    return Part(block, doubt or (SOURCE_AGAIN if count > 1 else ""), count > 0)


def joined(part: Part) -> Part:
    """A part with no blank line before it. If it has no `source` it may be text of the object
    before, which nobody authorised as another one."""
    return part if part.doubt or part.has_source else part._replace(doubt=INSIDE)


def later(text: bytes, line: int, pattern: re.Pattern[bytes] = LATER) -> list[tuple[int, bytes]]:
    """Of the lines of a text those that begin with a class or `source`, each with its number; that
    of the first one is given."""
    small, found, start = b"\n" + text.lower(), [], 0
    for one in pattern.finditer(small):
        line += small.count(b"\n", start + 1, one.start() + 1)
        start = one.start()
        end = LINE_END.search(text, start)
        own = text[start : end.start()] if end else text[start:]
        found.append((line, own.removeprefix(MARK)))
    return found


def joined_at(small: bytes, line: bytes) -> Iterator[int]:
    """Where classes begin within the lines of a text, as lines of two objects that were joined, and
    in one that is known to be so."""
    for one in JOINED_TEXT.finditer(small):
        end = one.start()
        yield end - max(len(kind) for kind in CLASSES if small.endswith(kind, 0, end))
    place, found = small.find(line), JOINED_LINE.search(line)
    if found and place >= 0:
        yield place + found.start()


def quoted(text: bytes, is_taken: bool) -> list[bytes]:
    """The lines after the first one in which a class is quoted. In what is taken a comment is one,
    and only what is after a CR may be another object."""
    found = [one.span() for one in QUOTED.finditer(text.lower())]
    return [text[at + 1 : end] for at, end in found if not is_taken or text[at : at + 1] == b"\r"]


def headed(text: bytes) -> bytes:
    """The lines of what may be an object, the first of which has a class, a colon and a key even if
    other marks stand there. If it ends in a CR, so do the others."""
    found = CLASS_WORD.match(text)
    if not found:
        return text
    text = text[found.end() :]
    if CR_INSIDE.search(text.partition(b"\n")[0]):
        text = CR_INSIDE.sub(b"\n", text)
    end = key_end(text)
    return found[1] + b":" + NOT_SHOWN.sub(b" ", text[:end]) + text[end:]


def key_end(text: bytes) -> int:
    """Where the first line of a text ends, with those that go on with it."""
    end = text.find(b"\n") + 1 or len(text)
    goes_on = KEY_GOES_ON.match(text, end)
    return goes_on.end() if goes_on else end


def readable(text: bytes) -> bytes:
    """The lines of a block without those that have a fault, and what goes on with them."""
    kept: list[bytes] = []
    goes_on = False
    for line in text.split(b"\n"):
        is_good = BAD_BYTE.search(line) is None
        if line[:1] in CONTINUED:
            is_good = is_good and goes_on
        elif line[:1] not in PASSED_OVER:
            front, colon, _ = line.partition(b":")
            is_good = is_good and bool(colon) and name_of(front) is not None
            goes_on = is_good
        kept += [line] if is_good else []
    return b"\n".join(kept)


def is_item(line: bytes) -> bool:
    """Whether a line that is an attribute may be an item of the list before."""
    return ITEM_LINE.match(b"\n" + line) is not None


def is_source(line: bytes) -> bool:
    return LATER_SOURCE.match(b"\n" + line.lower()) is not None


def last_seam(text: bytes) -> int:
    """The last place at which a text can be parted; nothing where there is none."""
    end = 0
    for seam in SEAM.finditer(text.lower()):
        end = seam.end()
    return end
