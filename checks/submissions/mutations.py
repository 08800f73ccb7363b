"""Objects of the seven classes as they are mistyped: pieces put in, left out, doubled and
exchanged."""
from hypothesis import strategies as st

SOURCE = b"TEST"
HASH = b"SHA256-PW a:ba7816bf8f01cfea414140de5dae2223b00361a396177a9cb410ff61f20015ad"
OBJECTS = [
    [(b"mntner", b"A-MNT"), (b"auth", HASH), (b"mnt-by", b"A-MNT")],
    [(b"as-block", b"AS64496 - AS64511"), (b"mnt-lower", b"A-MNT, B-MNT"), (b"mnt-by", b"A-MNT")],
    [
        (b"aut-num", b"AS64496"),
        (b"member-of", b"AS-A, AS64496:RS-B"),
        (b"mnt-routes", b"A-MNT, B-MNT {192.0.2.0/24^+, 10.0.0.0/8^9-12}"),
        (b"mnt-routes", b"C-MNT ANY"),
        (b"mnt-by", b"A-MNT"),
    ],
    [(b"inetnum", b"192.0.2.0 - 192.0.2.9"), (b"mnt-lower", b"B-MNT"), (b"mnt-by", b"A-MNT")],
    [
        (b"route", b"192.0.2.0/24"),
        (b"origin", b"AS64496"),
        (b"mnt-routes", b"A-MNT {192.0.2.0/25}\n ANY"),
        (b"mnt-by", b"A-MNT\n\tB-MNT"),
    ],
    [
        (b"as-set", b"AS64496:AS-A"),
        (b"members", b"AS1, AS-B,AS64496:AS-C\n+AS-ANY"),
        (b"mbrs-by-ref", b"A-MNT, ANY"),
        (b"mnt-by", b"A-MNT"),
    ],
    [
        (b"route-set", b"RS-A"),
        (b"members", b"192.0.2.0/24^25-26, AS1^+, RS-B^24 AS-C"),
        (b"members", b"RS-ANY"),
        (b"mnt-by", b"A-MNT # and a word"),
    ],
]
NAMES = (
    (
        "mntner as-block aut-num inetnum route as-set route-set mnt-by mnt-lower mnt-routes auth "
        "source "
        "origin member-of members mbrs-by-ref delete password descr remarks mnt-lowr person pasword"
    )
    .encode()
    .split()
)
WORDS = b"""A-MNT AS64496 AS-A RS-B AS1:AS-A 64497 RIPE::AS-FOO ANY AS-ANY RS-ANY PEERAS and
192.0.2.0/24
192.0.2.0 192.0.2.1/24 192.0.2.0/24^+ 192.0.2.0/24^25^26 192.0.2.0/24^25-24 192.0.2.0/33 10/8
2001:db8::/32 { } {} {192.0.2.0/24} , ; : # #x AS4294967296 AS00000000001 AS1^+ AS1^33 AS1:RS-A:AS-B
AS- A- -A a_b-C MD5-PW SHA256-PW x:0 0.0.0.0/0^- TEST test RIPE TEST,RIPE AS1-AS2 AS2 - AS1 1.2.3.4
- 1.2.3.5 ^24 AS-A:AS1:AS2 AS1:AS2 AS-A^ 256.1.1.1/8 01.2.3.004/08 """.split() + [
    b"",
    b" ",
    b"\t",
    b"\r",
    b"\xc2\xa0",
    b"caf\xe9",
    HASH,
    HASH.lower(),
    HASH[:-1],
    HASH + b" x",
    b"# filtered",
    b"\n ",
    b"\n+",
    b"\n+, ",
    b"\n# skipped\n ",
    b"\n password: x",
    b"\n+\tPwd :",
]
PIECES = st.sampled_from(WORDS) | st.binary(max_size=3).filter(lambda piece: b"\n" not in piece)


def laid_out(attributes: list[tuple[bytes, bytes]], colon: bytes = b": ") -> bytes:
    """The text of attributes."""
    return b"".join(name + colon + value + b"\n" for name, value in attributes)


@st.composite
def mistyped(draw: st.DrawFn) -> bytes:
    """The text of an object with up to three mistakes, which is one paragraph still."""
    attributes = [*draw(st.sampled_from(OBJECTS)), (b"source", SOURCE)]
    for _ in range(draw(st.integers(0, 3))):
        place = draw(st.integers(0, len(attributes) - 1))
        name, value = attributes[place]
        kind = draw(
            st.sampled_from(["put", "cut", "instead", "name", "new", "drop", "twice", "swap"])
        )
        if kind == "put":
            at = draw(st.integers(0, len(value)))
            attributes[place] = (name, value[:at] + draw(PIECES) + value[at:])
        elif kind == "cut":
            first, last = sorted(
                [draw(st.integers(0, len(value))), draw(st.integers(0, len(value)))]
            )
            attributes[place] = (name, value[:first] + value[last:])
        elif kind == "instead":
            attributes[place] = (name, draw(PIECES))
        elif kind == "name":
            attributes[place] = (draw(st.sampled_from(NAMES)), value)
        elif kind == "new":
            attributes.insert(place, (draw(st.sampled_from(NAMES)), draw(PIECES)))
        elif kind == "twice":
            attributes.insert(place, attributes[place])
        elif kind == "swap":
            attributes[0], attributes[place] = attributes[place], attributes[0]
        elif len(attributes) > 1:
            del attributes[place]
    text = laid_out(attributes, draw(st.sampled_from([b": ", b":", b":\t", b":    "])))
    # A line of blanks would part it.
    return b"".join(line + b"\n" for line in text.split(b"\n") if line.strip(b" \t\r"))
