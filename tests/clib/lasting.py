"""How long verdicts last, told from messages by RFC 4034, 3.1.5, RFC 4035, 5.3.3, and RFC 9077: a second reading beside the library's."""

from __future__ import annotations

import dataclasses
from collections.abc import Iterator

from answers import Answered, above

IN, NSEC, DNSKEY, NSEC3, RRSIG = 1, 47, 48, 50, 46
# The types whose data have names that may be compressed: behind so many octets, so many names (RFC 4034, 6.2).
NAMES = {rtype: (0, 1) for rtype in (2, 3, 4, 5, 7, 8, 9, 12, 30, 39)} | {rtype: (0, 2) for rtype in (6, 14, 17)}
NAMES |= {rtype: (2, 1) for rtype in (15, 18, 21, 36)} | {24: (18, 1), 26: (2, 2), 33: (6, 1)}
NAPTR, A6 = 35, 38


@dataclasses.dataclass(frozen=True)
class Record:
    """A record, its names in full; letters in lower case, in owner and data. Its data as they stand, too."""

    owner: bytes
    rtype: int
    rclass: int
    ttl: int
    rdata: bytes
    raw: bytes


@dataclasses.dataclass(frozen=True)
class Signature:
    """A record's signature, and the fields in front of it as they are signed."""

    owner: bytes
    covered: int
    ttl: int
    expiration: int
    inception: int
    fields: bytes
    signature: bytes


def name_at(message: bytes, at: int) -> tuple[bytes, int]:
    """A name in lower case, and where it ends."""
    name, end = b"", 0
    while message[at]:
        if message[at] >= 192:
            end = end or at + 2
            at = int.from_bytes(message[at : at + 2], "big") & 0x3FFF
        else:
            name += message[at : at + 1 + message[at]].lower()
            at += 1 + message[at]
    return name + b"\0", end or at + 1


def names_in(message: bytes, rtype: int, begin: int, length: int) -> tuple[int, int]:
    """Behind how many octets of data names stand, and how many."""
    if rtype == A6:
        return 1 + (135 - message[begin]) // 8, 1
    if rtype == NAPTR:
        front = 4
        for _ in range(3):
            front += 1 + message[begin + front]
        return front, 1
    return NAMES.get(rtype, (length, 0))


def records(message: bytes) -> Iterator[tuple[Record, Signature | None]]:
    """The records of all sections, with what those of signatures have."""
    at = name_at(message, 12)[1] + 4
    for _ in range(sum(int.from_bytes(message[i : i + 2], "big") for i in (6, 8, 10))):
        owner, at = name_at(message, at)
        rtype, rclass, ttl, length = (int.from_bytes(message[at + i : at + j], "big") for i, j in ((0, 2), (2, 4), (4, 8), (8, 10)))
        begin, at = at + 10, at + 10 + length
        front, count = names_in(message, rtype, begin, length)
        rdata, place = message[begin : begin + front].lower(), begin + front
        for _ in range(count):
            name, place = name_at(message, place)
            rdata += name
        record = Record(owner, rtype, rclass, ttl, rdata + message[place:at].lower(), message[begin:at])
        yield record, signature_of(message, owner, begin, at) if rtype == RRSIG else None


def signature_of(message: bytes, owner: bytes, begin: int, end: int) -> Signature:
    signer, behind = name_at(message, begin + 18)
    covered, ttl, expiration, inception = (
        int.from_bytes(message[begin + i : begin + j], "big") for i, j in ((0, 2), (4, 8), (8, 12), (12, 16))
    )
    return Signature(owner, covered, ttl, expiration, inception, message[begin : begin + 18] + signer, message[behind:end])


def parts_of(entry: bytes) -> list[bytes]:
    """The DNSKEY data, the octets and the signature of an entry."""
    found = []
    for width in (2, 4, 2):
        end = width + int.from_bytes(entry[:width], "big")
        found.append(entry[width:end])
        entry = entry[end:]
    return found


class Passing:
    """The signatures that pass, each with the owner and the data that it is made over, letters in lower case."""

    def __init__(self, entries: list[bytes]) -> None:
        self.found: set[tuple[bytes, bytes, bytes, frozenset[bytes]]] = set()
        for parts in map(parts_of, entries):
            signer, at = name_at(parts[1], 18)
            owner = name_at(parts[1], at)[0]
            self.found.add((parts[2], parts[1][:18] + signer, owner, frozenset(self.data(parts[1], at))))

    @staticmethod
    def data(octets: bytes, at: int) -> Iterator[bytes]:
        while at < len(octets):
            at = name_at(octets, at)[1] + 10
            end = at + int.from_bytes(octets[at - 2 : at], "big")
            yield octets[at:end].lower()
            at = end

    def has(self, signature: Signature, rrset: list[Record]) -> bool:
        owner = signed_owner(rrset[0].owner, signature.fields[3])
        return (signature.signature, signature.fields, owner, frozenset(it.rdata for it in rrset)) in self.found


def signed_owner(owner: bytes, count: int) -> bytes:
    """The owner that is signed, a wildcard where an owner has more labels than the signature counts (RFC 4035, 5.3.2)."""
    names = above(owner)
    at = len(names) - 1 - count
    return owner if at <= 0 or owner.startswith(b"\1*") and at == 1 else b"\1*" + names[at]


def is_sought(case: Answered, owner: bytes, rtype: int, rrset: list[Record]) -> bool:
    """Whether a verdict may rest on an RRset: that of the question, and NSEC and NSEC3 records that stand alone."""
    if owner == case.name.lower() and rtype == case.rtype:
        return True
    alone = len({it.rdata for it in rrset}) == 1
    if rtype == NSEC:
        return alone and owner.endswith(case.apex.lower())
    if rtype == NSEC3:
        return alone and owner[1 + owner[0] :] == case.apex.lower() and rrset[0].rdata[0] == 1 and rrset[0].rdata[1] < 2
    return False


def lasting(cases: list[Answered], passing: Passing) -> tuple[int, int]:
    """TTL and last second of a reply, the least of all questions that it rests on."""
    each = [lasting_of(it, passing) for it in cases]
    return min(ttl for ttl, _ in each), min(end for _, end in each)


def lasting_of(case: Answered, passing: Passing) -> tuple[int, int]:
    """TTL and last second of a verdict: of the RRsets that it rests on, and of the keys, whose TTL plays no part."""
    ttls, ends = [], []
    for message, is_keys in ((case.dnskey, True), (case.answer, False)):
        found = list(records(message))
        for owner, rtype in {(it.owner, it.rtype): None for it, _ in found if it.rclass == IN}:
            rrset = [it for it, _ in found if (it.owner, it.rtype, it.rclass) == (owner, rtype, IN)]
            if not ((owner == case.apex.lower() and rtype == DNSKEY) if is_keys else is_sought(case, owner, rtype, rrset)):
                continue
            signatures = [it for _, it in found if it and (it.owner, it.covered) == (owner, rtype)]
            ends += [it.inception - 1 for it in signatures if case.now < it.inception]
            holding = [it for it in signatures if it.inception <= case.now <= it.expiration]
            if is_keys:
                # Keys are signed by one that a DS record names (RFC 4035, 5.2).
                holding = [it for it in holding if it.fields[16:18] in {ds[:2] for ds in case.ds}]
            first = next((it for it in holding if passing.has(it, rrset)), None)
            if first:
                ends.append(first.expiration)
                ttls += [] if is_keys else [first.ttl, *(it.ttl for it in rrset)]
    return min(ttls), min(ends)
