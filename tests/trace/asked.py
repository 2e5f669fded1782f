"""Questions about a tree of zones, made of each zone's records by one rule."""
import typing

from questions import QUESTIONS
from wire import A, CNAME, DNAME, DS, MX, NS, SOA, name, text

AAAA, TXT, DNSKEY = 28, 16, 48
NAMED = {A: "A", NS: "NS", CNAME: "CNAME", SOA: "SOA", MX: "MX", TXT: "TXT", AAAA: "AAAA", DNAME: "DNAME", DS: "DS"}
NAMED |= {DNSKEY: "DNSKEY"}
# Of these kinds one question of each zone is enough.
ONCE = ("an alias's own record",)


class Asked(typing.NamedTuple):
    """A question, the zone that it is made of, and the kind of name."""

    zone: str
    kind: str
    name: str
    type: str


def of_apex(zone):
    apex = zone.apex
    yield from (("apex", apex, it) for it in (SOA, NS))
    yield "type that is missing", apex, AAAA
    yield "DS at the apex", apex, DS
    yield "keys", apex, DNSKEY


def of_missing(zone):
    """Names that are not there: one in the midst of the others, one before and one behind all, and one of more labels."""
    for label in (b"none", b"0", b"zzz"):
        yield "missing name", (label, *zone.apex), A
    yield "missing name", (b"none", *zone.apex), DS
    yield "missing name", (b"a", b"b", b"none", *zone.apex), TXT


def of_owner(owner, types):
    """An owner that is no alias: a type that it has, one that it lacks, and a name below it."""
    yield "owner", owner, min(types)
    yield "type that is missing", owner, AAAA
    yield "below an owner", (b"none", *owner), A


def of_alias(owner):
    yield "alias", owner, A
    yield "alias", owner, TXT
    yield "an alias's own record", owner, CNAME


def of_dname(owner):
    yield "DNAME's owner", owner, A
    yield "a DNAME record", owner, DNAME
    for label in (b"www", b"x", b"none"):
        yield "below DNAME", (label, *owner), A
    yield "long name below DNAME", (b"l" * 63, *owner), A


def of_wildcard(owner, types):
    """A wildcard: names for which it stands, with types that it has and lacks, and its own name."""
    base, has = owner[1:], A if CNAME in types else min(types)
    yield "below a wildcard", (b"any", *base), has
    yield "below a wildcard", (b"a", b"b", *base), has
    yield "below a wildcard, type that is missing", (b"any", *base), AAAA
    yield "wildcard's own name", owner, has
    if CNAME in types:
        yield "below a wildcard", (b"any", *base), CNAME


def of_empty(owner):
    """An empty non-terminal, which may be a wildcard's."""
    if owner[:1] == (b"*",):
        yield from (("below an empty wildcard", (*it, *owner[1:]), A) for it in ((b"any",), (b"a", b"any")))
    else:
        yield "empty non-terminal", owner, A
        yield "below an empty non-terminal", (b"none", *owner), A


def of_cut(owner, types):
    """A delegation. What is below it is its zone's, but for one name that is missing."""
    kind = "delegation" if DS in types else "delegation without DS"
    yield f"DS at a {kind}", owner, DS
    yield kind, owner, NS
    yield f"below a {kind}", (b"none", *owner), A


def of_zone(zone):
    """The questions about a zone, from its apex on; of its server's name none."""
    yield from of_apex(zone)
    above = {owner[at:] for owner in zone.records for at in range(len(owner) - len(zone.apex) + 1)}
    for owner in sorted(above):
        types = zone.records.get(owner, {})
        if owner in (zone.server, zone.apex) or any(it in zone.cuts for it in zone.above(owner)[1:]):
            continue
        if owner in zone.cuts:
            yield from of_cut(owner, types)
        elif not types:
            yield from of_empty(owner)
        elif owner[:1] == (b"*",):
            yield from of_wildcard(owner, types)
        elif CNAME in types:
            yield from of_alias(owner)
        elif DNAME in types:
            yield from of_dname(owner)
        else:
            yield from of_owner(owner, types)
    yield from of_missing(zone)


def mixed(labels):
    """A name with each second letter a capital."""
    plain = text(labels)
    return "".join(it.upper() if at % 2 else it for at, it in enumerate(plain))


# Of each zone the first question of such a kind is asked in mixed case too.
IN_MIXED_CASE = ("owner", "alias", "below DNAME", "below a wildcard", "DS at a delegation", "missing name")


def of_tree(tree):
    """The questions about each zone; of one in which nothing is secure the first of each kind alone."""
    for apex, zone in sorted(tree.zones.items(), key=lambda it: it[0][::-1]):
        seen, is_secure = set(), tree.is_secure(apex)
        for kind, labels, rtype in of_zone(zone):
            is_first = kind not in seen
            if is_first or is_secure and kind not in ONCE:
                yield Asked(text(apex) or ".", kind, text(labels) or ".", NAMED[rtype])
                if is_first and kind in IN_MIXED_CASE:
                    yield Asked(text(apex) or ".", f"{kind}, mixed case", mixed(labels), NAMED[rtype])
            seen.add(kind)


def of_walk(tree):
    """The questions of tests/walk."""
    for qname, rtype in QUESTIONS:
        yield Asked(tree.above(name(qname))[-1], "question of tests/walk", qname, NAMED[rtype])


def questions(tree):
    """All questions, each once."""
    seen = set()
    for it in (*of_tree(tree), *of_walk(tree)):
        if it[2:] not in seen:
            seen.add(it[2:])
            yield it
