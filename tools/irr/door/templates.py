"""What RIPE's whois knows of classes and attributes: `-t`, the short names of `-F`, and what `-i`
and `-T` take."""

from irr.door.flags import Bad
from irr.rpsl import grammar, keys

# All classes of RPSL and of RIPE's database: one that is none of ours has no objects, another word
# is no class.
KNOWN_CLASSES = frozenset(keys.CLASSES) | frozenset(
    "as-block domain filter-set inet-rtr inet6num irt key-cert organisation peering-set "
    "person poem poetic-form role route6 rtr-set".split()
)
# The attributes by which RIPE's database looks up inversely. Most are text here.
INVERSE = frozenset(
    "abuse-c abuse-mailbox admin-c auth author fingerpr form ifaddr irt-nfy local-as "
    "mbrs-by-ref member-of mnt-by mnt-domains mnt-irt mnt-lower mnt-nfy mnt-ref mnt-routes "
    "notify nserver org origin person ping-hdl ref-nfy sponsoring-org sub-dom tech-c upd-to "
    "zone-c".split()
)
SHORT = dict(
    pair.split("=")
    for pair in (
        "abuse-c=au admin-c=ac aggr-bndry=ab aggr-mtd=ag as-block=ak as-name=aa as-set=as "
        "aut-num=an auth=at changed=ch components=co country=cy created=cr default=df descr=de "
        "export=ex export-comps=ec geoloc=gl holes=ho import=ip inetnum=in inject=ij language=ln "
        "last-modified=lm mbrs-by-ref=mr member-of=mo members=ms mnt-by=mb mnt-lower=ml "
        "mnt-nfy=mn mnt-routes=mu mntner=mt mp-default=ma mp-export=me mp-import=my mp-members=mm "
        "netname=na notify=ny org=og origin=or pingable=pa ping-hdl=pc remarks=rm route=rt "
        "route-set=rs source=so sponsoring-org=sp status=st tech-c=tc upd-to=dt "
        "abuse-mailbox=am author=ah domain=dn filter-set=fs fingerpr=fp ifaddr=if inet-rtr=ir "
        "inet6num=i6 irt=it irt-nfy=iy key-cert=kc local-as=la mnt-domains=md mnt-irt=mi "
        "mnt-ref=mz nserver=ns organisation=oa peering-set=ps person=pn poem=po poetic-form=pf "
        "ref-nfy=rn role=ro route6=r6 rtr-set=is zone-c=zc"
    ).split()
)
# The attributes by which this registry finds objects, beside the key.
FOUND_BY = ("origin", "mnt-by", "mnt-lower", "mnt-routes", "mbrs-by-ref", "member-of")


LONG = {short: name for name, short in SHORT.items()}


def class_of(word: str) -> str:
    """The class that a word names, in long or in short; Bad if it is none."""
    kind = LONG.get(word, word)
    if kind not in KNOWN_CLASSES:
        raise Bad(103, f"unknown object type '{word}'")
    return kind


def inverse_of(word: str) -> str:
    """The attribute that a word names, in long or in short; Bad if no look-up goes by it."""
    name = LONG.get(word, word)
    if name in INVERSE:
        return name
    if name not in SHORT:
        raise Bad(104, f"unknown attribute '{word}'", f"'{word}' is not a known attribute.")
    raise Bad(
        105,
        f"attribute '{word}' is not searchable",
        f"'{word}' is not an inverse searchable attribute.",
    )


def template(word: str) -> bytes:
    """The attributes of a class: how often each is there, and what finds it. Any other attribute is
    kept as text."""
    kind = LONG.get(word.lower(), word.lower())
    if kind not in grammar.TABLE:
        raise Bad(103, f"unknown object type '{kind}'")
    rows = [(kind, grammar.ONCE, "primary/lookup key")]
    for name, rule in grammar.TABLE[kind].items():
        way = "primary/inverse key" if name == "origin" else "inverse key"
        rows.append((name, rule.occurs, way if name in FOUND_BY else " "))
    lines = [
        f"{name + ':':15} {'[optional]' if occurs == grammar.FREELY else '[mandatory]':12} "
        f"{'[single]' if occurs == grammar.ONCE else '[multiple]':11} [{way}]\n"
        for name, occurs, way in rows
    ]
    return "".join(lines).encode() + b"\n"
