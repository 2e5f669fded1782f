"""The records for which a zone is refused, and what would be right."""

from __future__ import annotations

from collections.abc import Callable

from . import rtypes
from .names import Name
from .sessions import Session, ZoneRecord

WANTING = {
    "WrongClass": "class 1 (IN) in each record: `rr a.example 3600 1 1 c0000201`",
    "OutsideApex": "owners at or below the zone's name: `rr a.example 3600 1 1 c0000201` in `zone example`",
    "SignedType": "no DNSKEY, RRSIG, NSEC, NSEC3 or NSEC3PARAM records: signing adds them",
    "Alias": "no CNAME or DNAME records; the records of the name that it leads to in their place",
    "MetaType": "types of records, not of questions: `rr a.example 3600 1 1 c0000201`",
    "StarNs": "no NS records at a wildcard; one delegation for each name",
    "IterationsOverLimit": "no more iterations than the limit: `zone example nsec3 0 - 0 86400`",
    "NoSingleSoa": (
        "exactly one SOA record at the zone's name: `rr example 3600 1 6 00000000000100000e10000003840001518000000e10`"
    ),
    "MultipleTtlValues": "one TTL for all records of an owner and a type",
    "HashTooLong": "a zone's name of at most 222 octets, so that a hash has room below it",
}
OTHER = "a hash of each name, and memory"
# What is wrong with a record by itself, in the order in which it is looked for.
ALONE: dict[str, Callable[[Name, ZoneRecord], bool]] = {
    "WrongClass": lambda _apex, it: it.rclass != rtypes.IN,
    "OutsideApex": lambda apex, it: not apex.is_at_or_above(it.owner),
    "SignedType": lambda _apex, it: it.rtype in rtypes.ADDED_BY_SIGNING,
    "Alias": lambda _apex, it: it.rtype in rtypes.ALIASES,
    "MetaType": lambda _apex, it: rtypes.is_meta(it.rtype),
    "StarNs": lambda _apex, it: it.rtype == rtypes.NS and it.owner.is_wildcard,
}


def wanting(fault: str) -> str:
    return f"wanting: {WANTING.get(fault, OTHER)}"


def is_refused_for(session: Session, fault: str) -> bool:
    """Whether the session's own zone is refused for a fault, and not a replacement of it."""
    zone = session.zone
    if fault == "IterationsOverLimit":
        return zone.iterations > zone.limit
    if fault == "NoSingleSoa":
        return len({it.data for it in faulty_records(session, fault)}) != 1
    return fault == "HashTooLong" or bool(faulty_records(session, fault))


def faulty_records(session: Session, fault: str) -> list[ZoneRecord]:
    """The records for which a zone is refused."""
    apex, records = session.zone.apex, session.records
    if fault in ALONE:
        # Looked for in the whole zone before the next one: a record with an earlier fault is not named for this one.
        earlier = list(ALONE)[: list(ALONE).index(fault)]
        return [it for it in records if ALONE[fault](apex, it) and not any(ALONE[name](apex, it) for name in earlier)]
    if fault == "NoSingleSoa":
        return [it for it in records if (it.rtype, it.owner) == (rtypes.SOA, apex)]
    if fault == "MultipleTtlValues":
        return [it for it in records if _has_several_ttls(session, it.owner, it.rtype)]
    return []


def _has_several_ttls(session: Session, owner: Name, rtype: int) -> bool:
    """Whether an RRset that belongs to the zone has several TTLs. Of records that differ in TTL alone the first counts."""
    ttl_by_data: dict[bytes, int] = {}
    for it in session.records:
        if (it.owner, it.rtype) == (owner, rtype):
            ttl_by_data.setdefault(it.data, it.ttl)
    return len(set(ttl_by_data.values())) > 1 and _is_in_chain(session, owner)


def _is_in_chain(session: Session, owner: Name) -> bool:
    """Whether an owner has a record of the chain: it is not below a delegation, nor an unsigned delegation under opt-out."""
    apex = session.zone.apex
    types = {it.rtype for it in session.records if it.owner == owner}
    cuts = {it.owner for it in session.records if it.rtype == rtypes.NS and it.owner != apex}
    is_open = session.zone.mode == "nsec3optout" and owner in cuts and rtypes.DS not in types
    return not is_open and not any(cut.is_above(owner) for cut in cuts)
