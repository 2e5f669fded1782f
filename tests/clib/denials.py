"""Answers of a zone that deny a name or a type with all that the proof needs (RFC 4035, 3.1.3 and 5.4; RFC 5155, 7.2 and 8), without one
of their records, and such that prove nothing for another reason: each with the reply and the extended error that it is to bring."""

from __future__ import annotations

import dataclasses
from collections.abc import Iterator

from answers import CNAME_TYPE, INCOMPLETE_DENIAL, NOT_PROVEN, NS_TYPE, OPTOUT, WILDCARD, WILDCARD_ALIAS, Reply, part, wire
from copies import message, nsec, nsec3, record, signed
from errors import BOGUS, EXPIRED, NO_DENIAL, NO_SIGNATURE, NOT_YET, Row, rows
from lasting import DNSKEY, NSEC

A_TYPE, SOA_TYPE = 1, 6
NXDOMAIN, WILDCARD_NODATA = 2, 4
ADDRESS, OPT_OUT, UNKNOWN_FLAG = bytes([192, 0, 2, 1]), 1, 2
# The chain of names, in order: each with the next one and its types. `*.w` has no records, but one name below it.
CHAIN = {
    "example": ("a.example", NS_TYPE, SOA_TYPE, DNSKEY),
    "a.example": ("*.l.example", A_TYPE),
    "*.l.example": ("*.v.example", CNAME_TYPE),
    "*.v.example": ("a.*.w.example", A_TYPE),
    "a.*.w.example": ("example", A_TYPE),
}
# What may be wrong with a signature, and the extended error where it is wrong with each.
FAULTS = {
    "fails": ({"passes": False}, BOGUS),
    "has expired": ({"ends": 1400}, EXPIRED),
    "begins later": ({"begins": 1600}, NOT_YET),
    "is of the zone below": ({"signer": wire("sub.example")}, NO_SIGNATURE),
}


def link(owner: str, **how) -> list[bytes]:
    """The signed NSEC record of a name."""
    return signed(wire(owner), NSEC, nsec(*CHAIN[owner]), **how)


def row(what: str, name: str, reply: Reply, ede: int, answer: list[bytes], *authority: list[bytes]) -> Row:
    """An answer to a question for an address, and what it is to bring."""
    octets = message(wire(name), A_TYPE, answer, sum(authority, []))
    question = {"name": wire(name), "rtype": A_TYPE, "now": 1500, "answer": octets}
    return Row(dataclasses.replace(next(rows()).case, **question, reply=reply, ede=ede), False, what)


def incomplete(what: str, name: str, answer: list[bytes], *authority: list[bytes]) -> Row:
    return row(what, name, Reply(INCOMPLETE_DENIAL), NO_DENIAL, answer, *authority)


def lacking(what: str, name: str, reply: Reply, answer: list[bytes], needed: dict[str, list[bytes]], *beside: list[bytes]) -> Iterator[Row]:
    """An answer with all records that its proof needs, and without each of them. What stands beside them is always there."""
    yield row(f"{what}, whole", name, reply, 0, answer, *beside, *needed.values())
    for it in needed:
        rest = (records for of, records in needed.items() if of != it)
        yield incomplete(f"{what}, without the record of {it}", name, answer, *beside, *rest)


def denials() -> Iterator[Row]:
    """Denials of each kind, whole and without each of their records."""
    needed = {"the name": link("a.example"), "the wildcard": link("example")}
    yield from lacking("NXDOMAIN", "b.example", Reply(NXDOMAIN), [], needed)
    needed = {"the name": link("a.*.w.example"), "the wildcard": link("*.v.example")}
    yield from lacking("NODATA, empty wildcard", "q.w.example", Reply(WILDCARD_NODATA), [], needed)
    expanded = signed(wire("x.v.example"), A_TYPE, ADDRESS, star=wire("*.v.example"))
    yield from lacking("a wildcard's records", "x.v.example", Reply(WILDCARD, part(ADDRESS)), expanded, {"the name": link("*.v.example")})
    alias = signed(wire("x.l.example"), CNAME_TYPE, wire("a.example"), star=wire("*.l.example"))
    reply = Reply(WILDCARD_ALIAS, wire("a.example"))
    yield from lacking("a wildcard's alias", "x.l.example", reply, alias, {"the name": link("*.l.example")})


def denials_by_opt_out() -> Iterator[Row]:
    """The same of names that opt-out leaves open: of one that is missing, and in a referral."""
    encloser = nsec3("example", NS_TYPE, SOA_TYPE, DNSKEY, flags=OPT_OUT)
    cut = record(wire("cut.example"), NS_TYPE, wire("ns.cut.example"))
    for what, name, closer, *beside in (("missing", "n.example", "n.example"), ("a referral", "x.cut.example", "cut.example", [cut])):
        needed = {"the closest encloser": encloser, "the next closer name": nsec3(closer, covers=True, flags=OPT_OUT)}
        yield from lacking(f"opt-out, {what}", name, Reply(OPTOUT), [], needed, *beside)


def otherwise() -> Iterator[Row]:
    """Denials of which not all is verified, and such that do not fit the question."""
    one = link("a.example")
    for what, (how, _code) in FAULTS.items():
        yield incomplete(f"of two signatures one {what}", "b.example", [], one, link("example", **how))
    yield incomplete("a denial of another name", "zz.example", [], one)
    yield incomplete("the name's own record, which has the type", "a.example", [], one)


def not_proven() -> Iterator[Row]:
    """Answers of which nothing is verified that a proof could rest on."""

    def unproven(what, name, ede, answer, *authority):
        return row(what, name, Reply(NOT_PROVEN), ede, answer, *authority)

    one, other = link("a.example"), link("example")
    soa = wire("ns.example") + wire("host.example") + bytes(20)
    yield unproven("no record", "b.example", NO_DENIAL, [])
    yield unproven("a SOA record alone", "b.example", NO_DENIAL, [], signed(wire("example"), SOA_TYPE, soa))
    for what, (how, code) in FAULTS.items():
        yield unproven(f"each signature {what}", "b.example", code, [], link("a.example", **how), link("example", **how))
    yield unproven("no signature", "b.example", NO_SIGNATURE, [], one[:1], other[:1])
    two = signed(wire("a.example"), NSEC, nsec("*.l.example", A_TYPE), nsec("example", A_TYPE))
    yield unproven("two records at one name", "b.example", NO_DENIAL, [], two)
    yield unproven("a record of an unknown flag", "b.example", NO_DENIAL, [], nsec3("b.example", covers=True, flags=UNKNOWN_FLAG))
    fails = signed(wire("a.example"), A_TYPE, ADDRESS, passes=False)
    yield unproven("records that fail beside a denial", "a.example", BOGUS, fails, one)
    # As of an unsigned zone below, by a server that has both.
    alias = [record(wire("x.sub.example"), CNAME_TYPE, wire("zz.example"))]
    denied = link("a.*.w.example"), other
    yield unproven("an unsigned alias beside the denial of its target", "x.sub.example", NO_SIGNATURE, alias, *denied)


def made() -> Iterator[Row]:
    for rows_of in (denials, denials_by_opt_out, otherwise, not_proven):
        yield from rows_of()
