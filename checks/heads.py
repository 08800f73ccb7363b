"""Requests of chance, and the reply to each by the rules of docs/DEFINITIONS.md (RFC 9112 for their
form)."""

import random
import re

from checks.chances import any_paragraph, any_query, escaped, mutated
from checks.model.queries import answer
from checks.model.registry import Registry
from checks.model.text import BLANKS, lines_of
from checks.serving import GIVEN

MOST_HEAD = 8_192
MOST_BODY = 1_048_576
MOST_FIELDS = 64
REASONS = {
    400: "Bad Request",
    404: "Not Found",
    405: "Method Not Allowed",
    411: "Length Required",
    413: "Payload Too Large",
    431: "Request Header Fields Too Large",
    501: "Not Implemented",
    503: "Service Unavailable",
}
TOKEN = b"abcXYZ019!#$%&'*+-.^_`|~"


def refusal(status: int, allow: str | None = None) -> bytes:
    words = f"{status} {REASONS[status]}"
    allowed = f"Allow: {allow}\r\n" if allow else ""
    return (
        f"HTTP/1.1 {words}\r\nContent-Type: text/plain\r\nContent-Length: {len(words) + 1}\r\n"
        f"Connection: close\r\n{allowed}\r\n{words}\n"
    ).encode()


class Request:
    """A well formed request: what is sent, and what is to be answered."""

    def __init__(self, chance: random.Random) -> None:
        self.chance = chance
        self.method = chance.choice(
            [b"GET"] * 5 + [b"POST"] * 3 + [b"PUT", b"HEAD", b"get", b"X!~"]
        )
        self.target = any_target(chance)
        self.body = any_body(chance) if self.method == b"POST" or chance.random() < 0.1 else b""
        self.fields = [any_field(chance) for _ in range(chance.choice([0, 1, 2, 5, 62, 63, 64]))]
        self.add_length()
        if chance.random() < 0.05:
            name = chance.choice([b"Transfer-Encoding", b"transfer-encoding"])
            self.fields.append((name, chance.choice([b"chunked", b"identity"])))
        chance.shuffle(self.fields)

    def add_length(self) -> None:
        if self.method != b"POST" and self.chance.random() < 0.8:
            return
        size = len(self.body)
        odd = [
            b"00%d" % size,
            b"%d \t" % size,
            b"%d" % (size // 2),
            b"%d" % (size + 7),
            b"",
            b"+1",
            b"-1",
            b"5, 5",
            b"0x5",
            b"1048577",
            b"9" * 40,
            b"1048576",
        ]
        value = self.chance.choice([b"%d" % size] * 6 + odd)
        for _ in range(self.chance.choice([1] * 9 + [0, 2])):
            self.fields.append(
                (
                    self.chance.choice([b"Content-Length", b"content-length", b"CONTENT-LENGTH"]),
                    value,
                )
            )

    def head(self) -> bytes:
        end = self.chance.choice([b"\r\n", b"\r\n", b"\n"])
        first = b"%s %s HTTP/1.%d" % (self.method, self.target, self.chance.randrange(2))
        lines = [first] + [
            name + b":" + self.chance.choice([b"", b" ", b"\t "]) + value
            for name, value in self.fields
        ]
        return b"".join(line + end for line in lines) + end

    def values(self, name: bytes) -> list[bytes]:
        return [value.strip(b" \t") for found, value in self.fields if found.lower() == name]

    def reply(self, head: bytes, registry: Registry, limit: int) -> bytes:
        """What is to be answered; a submission is carried out in the registry."""
        if len(head) > MOST_HEAD:
            return refusal(431)
        if len(self.fields) > MOST_FIELDS:
            return refusal(400)
        if self.values(b"transfer-encoding"):
            return refusal(501)
        path = self.target.partition(b"?")[0]
        query = re.fullmatch(rb"/query/([^/]+)", path)
        allow = "POST" if path == b"/submissions" else "GET" if path == b"/dump" or query else None
        if allow is None:
            return refusal(404)
        if self.method.decode() != allow:
            return refusal(405, allow)
        if allow == "POST":
            return self.submitted(registry)
        return GIVEN + (
            answer(registry, unescaped(query[1]), limit) if query else registry.dump(full=False)
        )

    def submitted(self, registry: Registry) -> bytes:
        lengths = self.values(b"content-length")
        if not lengths:
            return refusal(411)
        if len(lengths) > 1 or not re.fullmatch(rb"[0-9]+", lengths[0]):
            return refusal(400)
        if int(lengths[0]) > MOST_BODY:
            return refusal(413)
        if int(lengths[0]) <= len(self.body):
            lines = registry.submit(self.body[: int(lengths[0])])
        else:
            lines = registry.submit(whole_part(self.body))[:-1]
            lines.append(f"% read fault after {len(lines)} items")
        return GIVEN + "".join(line + "\n" for line in lines).encode()


def unescaped(text: bytes) -> bytes:
    return re.sub(rb"%([0-9A-Fa-f]{2})", lambda found: bytes([int(found[1], 16)]), text)


def whole_part(text: bytes) -> bytes:
    """The front of a text up to its last blank line whose end came."""
    lines = lines_of(text)
    ends = [
        place
        for place, line in enumerate(lines, 1)
        if line[-1:] == b"\n" and not line.strip(BLANKS + b"\n")
    ]
    return b"".join(lines[: ends[-1]]) if ends else b""


def any_target(chance: random.Random) -> bytes:
    query = escaped(chance, any_query(chance)[:600])
    odd = b"/query/ /query/a/b /nothing /Dump / * http://localhost/dump /%64ump /dump/".split()
    odd.append(b"/dump?x=y")
    return chance.choice(
        [b"/dump"]
        + [b"/submissions"] * 3
        + [b"/query/" + query] * 3
        + [b"/query/" + query + b"?z"]
        + odd
    )


def any_field(chance: random.Random) -> tuple[bytes, bytes]:
    name = bytes(chance.choice(TOKEN) for _ in range(chance.randrange(1, 12)))
    value = bytes(
        chance.choice(b"ab 09\t:;,\x80\xff") for _ in range(chance.choice([0, 3, 20, 90]))
    )
    return b"X" + name, value


def any_body(chance: random.Random) -> bytes:
    front = chance.choice([b"", b"password: bc\n\n", b"password: bc\npassword: a secret\n\n"])
    return front + b"\n".join(any_paragraph(chance) for _ in range(chance.choice([0, 1, 1, 2, 4])))


def any_bytes(chance: random.Random) -> bytes:
    """Bytes for a connection that submit nothing: a request or a query whose bytes were changed."""
    request = Request(chance)
    if request.method == b"POST":
        request.body = b"mntner: GONE-MNT\ndelete: x\n"
    line = b"x" * chance.choice([0, 1, 8_190, 8_191, 8_192, 8_193, 9_000])
    text = chance.choice(
        [
            request.head() + request.body,
            any_query(chance) + chance.choice([b"\n", b"\r\n", b"", b" HTTP/1.1\n\n"]),
            line + chance.choice([b"", b"\n", b" HTTP/1.0\n\n"]),
        ]
    )
    return mutated(chance, text) if chance.random() < 0.8 else text


def is_http(text: bytes) -> bool:
    """Whether the first line of what is sent is one of HTTP."""
    line = text[:MOST_HEAD].partition(b"\n")[0].rstrip(BLANKS)
    return line.endswith((b" HTTP/1.0", b" HTTP/1.1"))


def whois_answer(text: bytes, registry: Registry, limit: int) -> bytes:
    """The answer to the first line of what is sent, as a query."""
    line, end, _ = text[:MOST_HEAD].partition(b"\n")
    if not end and len(text) >= MOST_HEAD:
        return b"% error 2\n"
    return answer(registry, line[:-1] if end and line[-1:] == b"\r" else line, limit)


def is_reply(reply: bytes) -> bool:
    """Whether these bytes are one of the replies that there are."""
    refusals = [refusal(status) for status in REASONS if status != 405] + [
        refusal(405, "GET"),
        refusal(405, "POST"),
    ]
    return reply.startswith(GIVEN) or reply in refusals
