"""The signatures of a message: which are tried, which pass, and why the others are not tried (RFC 4035, 5.3.1).

They are tried in the order of the message, each over its RRset, until one of that RRset passes.
"""

from __future__ import annotations

import dataclasses
import struct

from . import rtypes
from .data import Key, Signature, read_nsec3, read_signature, signed_data
from .dates import date_text
from .hashes import hash_spelled
from .library import stand_in
from .messages import Message, Record
from .names import Name
from .rtypes import type_text

STATES = {
    "passed": "tried, passed",
    "failed": "tried, failed: its key did not make it over these records",
    "other-class": "not tried: its class is not IN",
    "unreadable": "not tried: its data cannot be read",
    "not-needed": "not tried: its RRset is not needed",
    "another-passed": "not tried: another one of its RRset passed",
    "no-records": "not tried: its RRset is not there, or of a chain not one record",
    "unknown-link": "not tried: its NSEC3 record has an unknown algorithm or flag",
    "label-count": "not tried: its count of labels does not fit the owner",
    "not-yet-valid": "not tried: it does not hold yet",
    "expired": "not tried: it has expired",
    "other-signer": "not tried: its signer is not the zone",
    "unknown-key": "not tried: there is no key of its tag and algorithm",
    "untrusted-key": "not tried: no DS record names its key",
    "not-reached": "not tried: the judgement ended before",
}
TRIED = ("passed", "failed")
# Serial numbers of 32 bits (RFC 1982, 3.2).
HALF, CIRCLE = 1 << 31, 1 << 32


@dataclasses.dataclass
class Rrset:
    """The data of an RRset in canonical order, each once, and the signature that passed over it."""

    owner: Name
    rtype: int
    items: list[bytes]
    verified: Signature | None = None

    @property
    def is_link(self) -> bool:
        return self.rtype in rtypes.CHAIN


@dataclasses.dataclass(frozen=True)
class Seen:
    """A signature of a message, and what became of it. Of one whose data do not read the fields are missing."""

    message: str
    owner: Name
    signature: Signature | None
    state: str
    octets: bytes

    @property
    def is_tried(self) -> bool:
        return self.state in TRIED

    def reason(self) -> SignatureReason:
        covered, tag, inception, expiration = 0, 0, 0, 0
        if self.signature is not None:
            it = self.signature
            covered, tag, inception, expiration = it.covered, it.tag, it.inception, it.expiration
        times = date_text(inception), date_text(expiration)
        return SignatureReason(self.message, str(self.owner), type_text(covered), tag, *times, self.state)


@dataclasses.dataclass(frozen=True)
class SignatureReason:
    message: str
    owner: str
    covered: str
    tag: int
    inception: str
    expiration: str
    state: str

    def __str__(self) -> str:
        return f"RRSIG {self.owner} {self.covered}, tag {self.tag}, {self.inception} to {self.expiration}: {STATES[self.state]}"


@dataclasses.dataclass
class Scope:
    """What signatures of a message are held against: the zone, the RRsets that are sought, the keys that may sign, and the moment.
    `named` are the keys that DS records name, if only these may sign. What is not reached is not tried."""

    message: str
    view: Message
    apex: Name
    sought: dict[tuple[Name, int], Rrset]
    keys: list[Key]
    moment: int
    named: list[Key] | None = None
    is_reached: bool = True

    def see(self) -> list[Seen]:
        """The signatures of the message, in its order."""
        return [self._see(record) for record in self.view.records if record.rtype == rtypes.RRSIG]

    def _see(self, record: Record) -> Seen:
        signature = read_signature(self.view, record)
        if signature is None:
            return Seen(self.message, record.owner, None, "unreadable", b"")
        rrset = self.sought.get((record.owner, signature.covered))
        key, why = self._key(signature), self._untried(record, signature, rrset)
        if why is not None or key is None or rrset is None:
            return Seen(self.message, record.owner, signature, why or "unknown-key", b"")
        octets = signed_octets(signature, record.owner, rrset.items)
        passes = stand_in(key.data, octets) == signature.signature
        rrset.verified = signature if passes else None
        return Seen(self.message, record.owner, signature, "passed" if passes else "failed", octets)

    def _untried(self, record: Record, signature: Signature, rrset: Rrset | None) -> str | None:
        """Why a signature is not tried; None where it is."""
        if record.rclass != rtypes.IN:
            return "other-class"
        if rrset is None:
            return "not-needed"
        if rrset.verified is not None:
            return "another-passed"
        if not rrset.items or (rrset.is_link and len(rrset.items) != 1):
            return "no-records"
        if rrset.rtype == rtypes.NSEC3 and not _is_known(rrset.items[0]):
            return "unknown-link"
        return self._undue(record.owner, signature) or self._without_key(signature)

    def _undue(self, owner: Name, signature: Signature) -> str | None:
        """What keeps a signature from being due."""
        labels, count = signature.labels, owner.signed_labels
        may_expand = signature.covered not in rtypes.CHAIN and self.apex.depth <= labels < count
        if labels != count and not may_expand:
            return "label-count"
        if not is_at_or_before(signature.inception, self.moment):
            return "not-yet-valid"
        if not is_at_or_before(self.moment, signature.expiration):
            return "expired"
        return None if signature.signer == self.apex else "other-signer"

    def _without_key(self, signature: Signature) -> str | None:
        """What keeps the key of a signature that is due from being used."""
        key = self._key(signature)
        if key is None or not key.is_usable:
            return "unknown-key"
        if self.named is not None and key not in self.named:
            return "untrusted-key"
        return None if self.is_reached else "not-reached"

    def _key(self, signature: Signature) -> Key | None:
        """The first key of a signature's tag and algorithm."""
        return next((key for key in self.keys if (key.tag, key.algorithm) == (signature.tag, signature.algorithm)), None)


def is_at_or_before(first: int, second: int) -> bool:
    """Whether a moment equals another or is before it, as serial numbers (RFC 4034, 3.1.5)."""
    return (second - first) % CIRCLE < HALF


def signed_octets(signature: Signature, owner: Name, items: list[bytes]) -> bytes:
    """What a signature is made over (RFC 4034, 3.1.8.1); an owner of more labels than it counts is a wildcard's (RFC 4035, 5.3.2)."""
    signed = owner.canonical()
    if signature.labels < owner.signed_labels:
        signed = b"\1*" + owner.suffix(signature.labels).canonical()
    head = signed + struct.pack(">HHI", signature.covered, rtypes.IN, signature.ttl)
    return signature.fields() + b"".join(head + struct.pack(">H", len(item)) + item for item in items)


def sought_keys(apex: Name, keys: list[Key]) -> dict[tuple[Name, int], Rrset]:
    """The RRset of the keys."""
    return {(apex, rtypes.DNSKEY): Rrset(apex, rtypes.DNSKEY, sorted({key.data for key in keys}))}


def sought_records(view: Message, apex: Name, name: Name, rtype: int) -> dict[tuple[Name, int], Rrset]:
    """The RRset that is asked for, and those of chains: NSEC at or below the apex, NSEC3 at a hash under it."""
    sought = {(name, rtype): _rrset(view, name, rtype)}
    for record in view.records:
        signature = read_signature(view, record) if record.rtype == rtypes.RRSIG else None
        covered = record.rtype if signature is None else signature.covered
        if covered in rtypes.CHAIN and record.rclass == rtypes.IN and _has_place(apex, record.owner, covered):
            sought.setdefault((record.owner, covered), _rrset(view, record.owner, covered))
    return sought


def _has_place(apex: Name, owner: Name, rtype: int) -> bool:
    return hash_spelled(apex, owner) is not None if rtype == rtypes.NSEC3 else apex.is_at_or_above(owner)


def _rrset(view: Message, owner: Name, rtype: int) -> Rrset:
    records = (it for it in view.records if (it.rtype, it.rclass, it.owner) == (rtype, rtypes.IN, owner))
    found = {signed_data(view, record) for record in records}
    return Rrset(owner, rtype, sorted(item for item in found if item is not None))


def _is_known(data: bytes) -> bool:
    link = read_nsec3(data)
    return link is not None and link.is_known
