"""What a case proves, decided from its messages alone, as the standards have it: RFC 4035, 5; RFC 5155, 8; RFC 6840, 4 and 5;
RFC 4592; RFC 6672; RFC 9276; and of signers that make NSEC records for each question RFC 4470 and RFC 9824.

It is plain and slow, and shares no code with the maker. Each rule has the section that it follows.

Names are tuples of labels in lower case, the highest first: the root is `()`, and a name is below another whose labels it begins
with. So the order of names is that of these tuples (RFC 4034, 6.1).
"""

from __future__ import annotations

import dataclasses
import hashlib
import struct
from collections.abc import Iterable, Iterator
from typing import Any

from cryptography.exceptions import InvalidSignature
from cryptography.hazmat.primitives import hashes
from cryptography.hazmat.primitives.asymmetric import ec, ed25519, padding, rsa, utils

Name = tuple[bytes, ...]
NS, CNAME, SOA, DNAME, DS, RRSIG, NSEC, DNSKEY, NSEC3, NXNAME = 2, 5, 6, 39, 43, 46, 47, 48, 50, 128
DIGESTS = {1: hashlib.sha1, 2: hashlib.sha256, 4: hashlib.sha384}
ALGORITHMS = {8, 13, 15}
# Types whose data begin with so many octets, and so many names behind them (RFC 4034, 6.2; RFC 6840, 5.1). NAPTR and A6, whose names
# stand behind data of no fixed length, are left out.
NAMES_IN = {
    **dict.fromkeys((2, 3, 4, 5, 7, 8, 9, 12, 30, 39), (0, 1)), **dict.fromkeys((6, 14, 17), (0, 2)), **dict.fromkeys((15, 18, 21, 36), (2, 1)),
    24: (18, 1), 26: (2, 2), 33: (6, 1),
}
STAR = b"*"


@dataclasses.dataclass(frozen=True)
class Verdict:
    result: str
    which: str = ""
    reason: str = ""


def bogus(reason: str) -> Verdict:
    return Verdict("bogus", "", reason)


# Messages.


class Unreadable(Exception):
    pass


@dataclasses.dataclass(frozen=True)
class Record:
    owner: Name
    rtype: int
    data: bytes
    section: int


def name_at(octets: bytes, at: int) -> tuple[Name, int]:
    """The name at a place, and the place behind it (RFC 1035, 4.1.4)."""
    labels, end, seen = [], None, 0
    while True:
        if at >= len(octets) or seen > 300:
            raise Unreadable
        length = octets[at]
        if length >= 0xC0:
            end = at + 2 if end is None else end
            at = (length & 0x3F) << 8 | octets[at + 1]
        elif length == 0:
            break
        elif length > 63:
            raise Unreadable
        else:
            labels.append(octets[at + 1 : at + 1 + length].lower())
            at += 1 + length
        seen += 1
    return tuple(reversed(labels)), at + 1 if end is None else end


def wire_of(name: Name) -> bytes:
    return b"".join(bytes([len(label)]) + label for label in reversed(name)) + b"\0"


def plain_data(octets: bytes, rtype: int, at: int, end: int) -> bytes:
    """Data with names written out, in lower case where they are signed so."""
    if rtype not in NAMES_IN:
        return octets[at:end]
    before, count = NAMES_IN[rtype]
    found = octets[at : at + before]
    at += before
    for _ in range(count):
        name, at = name_at(octets, at)
        found += wire_of(name)
    return found + octets[at:end]


@dataclasses.dataclass(frozen=True)
class Message:
    name: Name
    rtype: int
    records: list[Record]


def read(octets: bytes) -> Message:
    if len(octets) < 12:
        raise Unreadable
    _id, _flags, questions, *counts = struct.unpack(">6H", octets[:12])
    if questions != 1:
        raise Unreadable
    name, at = name_at(octets, 12)
    rtype = int.from_bytes(octets[at : at + 2], "big")
    at += 4
    records = []
    for section, count in enumerate(counts):
        for _ in range(count):
            owner, at = name_at(octets, at)
            of, rclass, _ttl, length = struct.unpack(">HHIH", octets[at : at + 10])
            end = at + 10 + length
            if end > len(octets):
                raise Unreadable
            if rclass == 1:
                records.append(Record(owner, of, plain_data(octets, of, at + 10, end), section))
            at = end
    return Message(name, rtype, records)


# Signatures.


@dataclasses.dataclass(frozen=True)
class Signature:
    covered: int
    algorithm: int
    labels: int
    expiration: int
    inception: int
    tag: int
    signer: Name
    fields: bytes
    octets: bytes

    @staticmethod
    def of(data: bytes) -> Signature:
        covered, algorithm, labels, _ttl, expiration, inception, tag = struct.unpack(">HBBIIIH", data[:18])
        signer, end = name_at(data, 18)
        fields = data[:18] + wire_of(signer)
        return Signature(covered, algorithm, labels, expiration, inception, tag, signer, fields, data[end:])

    def holds(self, now: int) -> bool:
        """In serial numbers (RFC 4034, 3.1.5; RFC 1982, 3.2)."""
        since = (now - self.inception) % (1 << 32)
        until = (self.expiration - now) % (1 << 32)
        return since < 1 << 31 and until < 1 << 31


@dataclasses.dataclass(frozen=True)
class Key:
    data: bytes

    @property
    def flags(self) -> int:
        return int.from_bytes(self.data[:2], "big")

    @property
    def algorithm(self) -> int:
        return self.data[3]

    @property
    def tag(self) -> int:
        """RFC 4034, appendix B."""
        padded = self.data + b"\0" * (len(self.data) % 2)
        total = sum(struct.unpack(f">{len(padded) // 2}H", padded))
        return (total + (total >> 16)) & 0xFFFF

    @property
    def may_sign(self) -> bool:
        """A zone key (RFC 4034, 2.1.1) of protocol 3 (2.1.2), not revoked (RFC 5011, 2.1)."""
        return bool(self.flags & 256) and not self.flags & 128 and self.data[2] == 3

    def passes(self, octets: bytes, signature: bytes) -> bool:
        try:
            self.check(octets, signature)
        except (InvalidSignature, ValueError):
            return False
        return True

    def check(self, octets: bytes, signature: bytes) -> None:
        public = self.data[4:]
        if self.algorithm == 8:
            # The exponent's length has one octet, or two behind a 0 (RFC 3110, 2).
            head = 1 if public[0] else 3
            end = head + int.from_bytes(public[:head], "big")
            exponent, modulus = public[head:end], public[end:]
            numbers = rsa.RSAPublicNumbers(int.from_bytes(exponent, "big"), int.from_bytes(modulus, "big"))
            numbers.public_key().verify(signature, octets, padding.PKCS1v15(), hashes.SHA256())
        elif self.algorithm == 13:
            x, y, r, s = (int.from_bytes(it, "big") for it in (public[:32], public[32:], signature[:32], signature[32:]))
            if len(signature) != 64:
                raise ValueError
            of = ec.EllipticCurvePublicNumbers(x, y, ec.SECP256R1()).public_key()
            of.verify(utils.encode_dss_signature(r, s), octets, ec.ECDSA(hashes.SHA256()))
        elif self.algorithm == 15:
            ed25519.Ed25519PublicKey.from_public_bytes(public).verify(signature, octets)
        else:
            raise ValueError


def label_count(name: Name) -> int:
    """Without the root's, and without a star in front (RFC 4034, 3.1.3)."""
    return len(name) - (name[-1:] == (STAR,))


@dataclasses.dataclass(frozen=True)
class Fact:
    """A verified RRset: how many labels its signature has, and whether it stands where it was signed."""

    owner: Name
    rtype: int
    data: list[bytes]
    labels: int

    @property
    def is_expanded(self) -> bool:
        return self.labels < label_count(self.owner)


class Verifier:
    """Verifies the RRsets of a message under keys (RFC 4035, 5.3)."""

    def __init__(self, zone: Name, keys: list[Key], now: int) -> None:
        self.zone, self.keys, self.now = zone, keys, now

    def facts(self, message: Message) -> Iterator[Fact]:
        sets: dict[tuple[Name, int], set[bytes]] = {}
        signatures: dict[tuple[Name, int], list[Signature]] = {}
        for record in message.records:
            if record.rtype == RRSIG:
                signature = Signature.of(record.data)
                signatures.setdefault((record.owner, signature.covered), []).append(signature)
            else:
                sets.setdefault((record.owner, record.rtype), set()).add(record.data)
        for (owner, rtype), data in sets.items():
            passing = [it for it in signatures.get((owner, rtype), []) if self.passes(it, owner, rtype, data)]
            if passing:
                yield Fact(owner, rtype, sorted(data), max(it.labels for it in passing))

    def passes(self, signature: Signature, owner: Name, rtype: int, data: set[bytes]) -> bool:
        """RFC 4035, 5.3.1 and 5.3.3."""
        is_due = signature.signer == self.zone and owner[: len(self.zone)] == self.zone
        if not is_due or signature.labels > label_count(owner) or not signature.holds(self.now):
            return False
        octets = self.signed(signature, owner, rtype, data)
        return any(it.passes(octets, signature.octets) for it in self.keys
                   if it.may_sign and it.algorithm == signature.algorithm and it.tag == signature.tag)

    @staticmethod
    def signed(signature: Signature, owner: Name, rtype: int, data: set[bytes]) -> bytes:
        """RFC 4034, 3.1.8.1; RFC 4035, 5.3.2."""
        if signature.labels < label_count(owner):
            owner = (*owner[: signature.labels], STAR)
        start = wire_of(owner) + struct.pack(">HH", rtype, 1) + signature.fields[4:8]
        return signature.fields + b"".join(start + struct.pack(">H", len(it)) + it for it in sorted(data))


def trusted_keys(zone: Name, ds: list[bytes], message: Message, now: int) -> list[Key] | None:
    """The keys of the DNSKEY set, if one that a DS record names signs it (RFC 4035, 5.2; RFC 4509, 3)."""
    keys = [Key(it.data) for it in message.records if it.rtype == DNSKEY and it.owner == zone]
    points = [it for it in keys if any(names(zone, of, it) for of in ds)]
    facts = Verifier(zone, points, now).facts(message)
    return keys if any(it.owner == zone and it.rtype == DNSKEY and not it.is_expanded for it in facts) else None


def names(zone: Name, ds: bytes, key: Key) -> bool:
    """Whether a DS record names a key (RFC 4034, 5.1.4)."""
    tag, algorithm, digest = struct.unpack(">HBB", ds[:4])
    if tag != key.tag or algorithm != key.algorithm or digest not in DIGESTS:
        return False
    return DIGESTS[digest](wire_of(zone) + key.data).digest() == ds[4:]


# Denial.


def types_of(bitmap: bytes) -> set[int]:
    """RFC 4034, 4.1.2."""
    found, at = set(), 0
    while at < len(bitmap):
        window, length = bitmap[at], bitmap[at + 1]
        for place, octet in enumerate(bitmap[at + 2 : at + 2 + length]):
            found |= {window << 8 | place << 3 | bit for bit in range(8) if octet & 0x80 >> bit}
        at += 2 + length
    return found


def is_cut(types: set[int]) -> bool:
    """A record of the parent's side of a delegation (RFC 6840, 4.1)."""
    return NS in types and SOA not in types


def hides_below(types: set[int]) -> bool:
    """Whether a record says nothing of names below its owner (RFC 6840, 4.1; RFC 5155, 8.3)."""
    return is_cut(types) or DNAME in types


def denies_type(types: set[int], rtype: int) -> bool:
    """Whether a record at a name shows that it has no such type (RFC 4035, 5.4; RFC 6840, 4.1 and 4.3; RFC 5155, 8.5, 8.6)."""
    if rtype in types or CNAME in types:
        return False
    # DS is the parent's, all else is not where there is a delegation.
    return SOA not in types if rtype == DS else not is_cut(types)


@dataclasses.dataclass(frozen=True)
class Link:
    """An NSEC record."""

    owner: Name
    next: Name
    types: set[int]

    def covers(self, name: Name) -> bool:
        """Whether the name would stand between owner and next, and the record may say so (RFC 4034, 6.1; RFC 6840, 4.1)."""
        is_between = self.owner < name < self.next if self.owner < self.next else self.owner < name or name < self.next
        is_below = name[: len(self.owner)] == self.owner
        return is_between and name != self.owner and not (is_below and hides_below(self.types))

    @property
    def is_denial(self) -> bool:
        """Whether it says that its owner does not exist (RFC 9824, 3.1)."""
        return NXNAME in self.types

    @property
    def has_types(self) -> bool:
        """Whether its types are those of a name that exists. An owner that was made up for a question has RRSIG and NSEC alone (RFC 4470, 3),
        and NXNAME beside them (RFC 9824, 3.1); that of a chain has some other type (RFC 4035, 2.3)."""
        return not self.is_denial and not self.types <= {RRSIG, NSEC}

    @property
    def speaks_of_owner(self) -> bool:
        """Whether it says which types its owner has. One without types of its own does where the first name below it is next, as that of
        an empty non-terminal is (RFC 9824, 3.2), since no name lies in between for which it would be made; else its owner may be made up,
        and have records by a wildcard (RFC 4470, 3)."""
        return not self.is_denial and (self.has_types or self.next == (*self.owner, b"\0"))

    def encloser(self, name: Name) -> Name:
        """The longest name above, or at, that owner or next show to exist (RFC 4592, 2.2); an owner that may be made up shows those
        above it alone."""
        def shared(other: Name) -> int:
            return next((at for at, (one, two) in enumerate(zip(name, other)) if one != two), min(len(name), len(other)))

        shown = self.owner if self.has_types else self.owner[:-1]
        return name[: max(shared(shown), shared(self.next))]


class ByNames:
    """What NSEC records prove."""

    def __init__(self, links: list[Link]) -> None:
        self.links = links

    def at(self, name: Name) -> Link | None:
        return next((it for it in self.links if it.owner == name), None)

    def covering(self, name: Name) -> Link | None:
        return next((it for it in self.links if it.covers(name)), None)

    def has_no_type(self, name: Name, rtype: int) -> bool:
        """At the name itself; an empty non-terminal has no record, but the one in front of it goes to a name below it."""
        link = self.speaking_of(name)
        if link:
            return denies_type(link.types, rtype)
        covering = self.covering(name)
        return bool(covering and covering.encloser(name) == name)

    def speaking_of(self, name: Name) -> Link | None:
        """The record that says which types a name has."""
        link = self.at(name)
        return link if link and link.speaks_of_owner else None

    def is_denied(self, name: Name) -> bool:
        """Whether the record at a name says that there is no such name: that is so of all types, and beside no wildcard (RFC 9824, 3.1)."""
        link = self.at(name)
        return bool(link and link.is_denial)

    def denied(self, name: Name, rtype: int) -> Verdict | None:
        if self.has_no_type(name, rtype):
            return Verdict("secure", "nodata")
        link = self.covering(name)
        if self.speaking_of(name) or not link or link.encloser(name) == name:
            return None
        star = (*link.encloser(name), STAR)
        if self.has_no_type(star, rtype):
            return Verdict("secure", "wildcard-nodata")
        return Verdict("secure", "nxdomain") if self.covering(star) or self.is_denied(star) else None

    def expanded(self, name: Name, labels: int) -> Verdict | None:
        """Whether nothing stands closer than the wildcard (RFC 4035, 5.3.4)."""
        link = self.covering(name)
        return Verdict("secure", "wildcard") if link and len(link.encloser(name)) <= labels else None

    def delegated(self, name: Name, apex: Name) -> Verdict | None:
        """A delegation without DS (RFC 4035, 5.2; RFC 6840, 4.4)."""
        for depth in range(len(apex) + 1, len(name) + 1):
            link = self.at(name[:depth])
            if link and is_cut(link.types) and not {DS, CNAME} & link.types:
                return Verdict("insecure", "delegated")
        return None


@dataclasses.dataclass(frozen=True)
class Parameters:
    iterations: int
    salt: bytes

    def hash(self, name: Name) -> bytes:
        digest = hashlib.sha1(wire_of(name) + self.salt).digest()
        for _ in range(self.iterations):
            digest = hashlib.sha1(digest + self.salt).digest()
        return digest


@dataclasses.dataclass(frozen=True)
class HashLink:
    """An NSEC3 record."""

    owner: bytes
    next: bytes
    types: set[int]
    opts_out: bool

    @property
    def is_denial(self) -> bool:
        """Whether it says that the name whose hash it has does not exist (RFC 9824, 4)."""
        return NXNAME in self.types

    def covers(self, digest: bytes) -> bool:
        if self.owner < self.next:
            return self.owner < digest < self.next
        return digest > self.owner or digest < self.next


class ByHashes:
    """What NSEC3 records of the same parameters prove (RFC 5155, 8)."""

    def __init__(self, apex: Name, parameters: Parameters, links: list[HashLink]) -> None:
        self.apex, self.parameters, self.links = apex, parameters, links

    def at(self, name: Name) -> HashLink | None:
        digest = self.parameters.hash(name)
        return next((it for it in self.links if it.owner == digest), None)

    def covering(self, name: Name) -> list[HashLink]:
        digest = self.parameters.hash(name)
        return [it for it in self.links if it.covers(digest)]

    def closest(self, name: Name) -> tuple[Name, HashLink] | None:
        """The closest encloser, and the record that covers the next closer name (8.3)."""
        for depth in range(len(name) - 1, len(self.apex) - 1, -1):
            link = self.at(name[:depth])
            if link and not link.is_denial:
                covering = self.covering(name[: depth + 1])
                return (name[:depth], covering[0]) if covering and not hides_below(link.types) else None
        return None

    def denied(self, name: Name, rtype: int) -> Verdict | None:
        link = self.at(name)
        if link:
            return Verdict("secure", "nodata") if denies_type(link.types, rtype) else None
        closest = self.closest(name)
        if not closest:
            return None
        encloser, covering = closest
        if rtype == DS and covering.opts_out:
            # 8.6
            return Verdict("insecure", "optout")
        star = self.at((*encloser, STAR))
        is_missing = bool(star and star.is_denial)
        if star and not is_missing and denies_type(star.types, rtype):
            return self.open_or(covering, "wildcard-nodata")
        if is_missing or not star and self.covering((*encloser, STAR)):
            return self.open_or(covering, "nxdomain")
        return None

    @staticmethod
    def open_or(covering: HashLink, which: str) -> Verdict:
        """Opt-out leaves open whether an unsigned delegation is there (RFC 5155, 9.2)."""
        return Verdict("insecure", "optout") if covering.opts_out else Verdict("secure", which)

    def expanded(self, name: Name, labels: int) -> Verdict | None:
        """8.8."""
        covering = self.covering(name[: labels + 1])
        return self.open_or(covering[0], "wildcard") if covering else None

    def delegated(self, name: Name, apex: Name, cut: Name | None) -> Verdict | None:
        """8.9, for a referral to a cut; a record that matches tells it without one."""
        for depth in range(len(apex) + 1, len(name) + 1):
            link = self.at(name[:depth])
            if link and is_cut(link.types) and not {DS, CNAME} & link.types:
                return Verdict("insecure", "delegated")
        if cut is None or self.at(cut):
            return None
        closest = self.closest(cut)
        return Verdict("insecure", "optout") if closest and closest[1].opts_out else None


# A case.


@dataclasses.dataclass(frozen=True)
class Case:
    apex: Name
    ds: list[bytes]
    dnskey: bytes
    answer: bytes
    name: Name
    rtype: int
    now: int
    limit: int

    @staticmethod
    def of(told: dict[str, Any]) -> Case:
        octets = bytes.fromhex
        return Case(
            name_at(octets(told["apex"]), 0)[0], [octets(it) for it in told["ds"]], octets(told["dnskey"]), octets(told["answer"]),
            name_at(octets(told["question"]["name"]), 0)[0], told["question"]["type"], told["moment"], told["nsec3_limit"],
        )


def judge(told: dict[str, Any]) -> Verdict:
    case = Case.of(told)
    usable = [it for it in case.ds if it[2] in ALGORITHMS and it[3] in DIGESTS]
    if not usable:
        # RFC 4035, 5.2: no supported algorithm is as no DS record.
        return Verdict("insecure", "no-ds" if not case.ds else "algorithms")
    if any(it[3] != 1 for it in usable):
        # RFC 4509, 3.
        usable = [it for it in usable if it[3] != 1]
    try:
        dnskey, answer = read(case.dnskey), read(case.answer)
        if (dnskey.name, dnskey.rtype) != (case.apex, DNSKEY) or (answer.name, answer.rtype) != (case.name, case.rtype):
            return bogus("another question is answered")
        keys = trusted_keys(case.apex, usable, dnskey, case.now)
        if keys is None:
            return bogus("no key that a DS record names signs the DNSKEY set")
        return Judge(case, answer, [*Verifier(case.apex, keys, case.now).facts(answer)]).verdict()
    except (Unreadable, struct.error, IndexError):
        return bogus("a message cannot be read")


class Judge:
    """What the verified RRsets of an answer prove."""

    def __init__(self, case: Case, answer: Message, facts: list[Fact]) -> None:
        self.case, self.answer, self.facts = case, answer, facts
        chain = [it for it in facts if it.rtype in (NSEC, NSEC3) and not it.is_expanded]
        self.by_names = ByNames([link for it in chain if it.rtype == NSEC for link in self.links(it)])
        self.by_hashes = [*self.hashed(chain)]

    @staticmethod
    def links(fact: Fact) -> Iterator[Link]:
        if len(fact.data) == 1:
            following, end = name_at(fact.data[0], 0)
            yield Link(fact.owner, following, types_of(fact.data[0][end:]))

    def hashed(self, chain: Iterable[Fact]) -> Iterator[ByHashes]:
        """The NSEC3 records, by their parameters; those of unknown hashes and flags are left out (RFC 5155, 8.1 and 8.2)."""
        found: dict[Parameters, list[HashLink]] = {}
        for fact in chain:
            if fact.rtype != NSEC3 or len(fact.data) != 1 or fact.owner[:-1] != self.case.apex:
                continue
            kind, flags, iterations, salt_length = struct.unpack(">BBHB", fact.data[0][:5])
            at = 5 + salt_length
            salt, end = fact.data[0][5:at], at + 1 + fact.data[0][at]
            digest = unhex32(fact.owner[-1])
            if kind == 1 and flags in (0, 1) and digest is not None:
                following, types = fact.data[0][at + 1 : end], types_of(fact.data[0][end:])
                found.setdefault(Parameters(iterations, salt), []).append(HashLink(digest, following, types, flags == 1))
        return (ByHashes(self.case.apex, parameters, links) for parameters, links in found.items())

    def verdict(self) -> Verdict:
        if any(it.parameters.iterations > self.case.limit for it in self.by_hashes):
            # RFC 9276, 3.2; RFC 5155, 10.3.
            return Verdict("insecure", "iterations")
        return self.verdict_of(self.case.name, frozenset())

    def verdict_of(self, name: Name, seen: frozenset[Name]) -> Verdict:
        rtype = self.case.rtype
        fact = self.fact(name, rtype)
        if fact:
            return self.positive(fact, "answer")
        alias = self.fact(name, CNAME)
        if alias:
            verdict = self.positive(alias, "alias")
            return verdict if verdict.result == "bogus" else self.followed(verdict, name_at(alias.data[0], 0)[0], seen)
        target = self.redirected(name)
        if target is not None:
            return self.followed(Verdict("secure", "alias"), target, seen)
        if self.is_forged_alias(name):
            return bogus("an alias that nothing proves")
        found = [it for it in self.denials(name, rtype) if it]
        return found[0] if found else bogus("the verified records prove nothing of the question")

    def fact(self, owner: Name, rtype: int) -> Fact | None:
        return next((it for it in self.facts if it.owner == owner and it.rtype == rtype), None)

    def positive(self, fact: Fact, which: str) -> Verdict:
        if not fact.is_expanded:
            return Verdict("secure", which)
        found = [it.expanded(fact.owner, fact.labels) for it in (self.by_names, *self.by_hashes)]
        shown = next((it for it in found if it), None)
        if not shown:
            return bogus("a wildcard's RRset without a record that covers the name")
        return Verdict(shown.result, which) if which == "alias" and shown.result == "secure" else shown

    def redirected(self, name: Name) -> Name | None:
        """Where a verified DNAME record above leads; the CNAME record that is there says the same (RFC 6672, 5.3.1)."""
        for depth in range(len(self.case.apex), len(name)):
            fact = self.fact(name[:depth], DNAME)
            if fact and not fact.is_expanded:
                target = name_at(fact.data[0], 0)[0] + name[depth:]
                return target if all(it == wire_of(target) for it in self.aliases(name)) else None
        return None

    def aliases(self, name: Name) -> list[bytes]:
        return [it.data for it in self.answer.records if it.owner == name and it.rtype == CNAME]

    def is_forged_alias(self, name: Name) -> bool:
        return bool(self.aliases(name))

    def followed(self, verdict: Verdict, target: Name, seen: frozenset[Name]) -> Verdict:
        """An alias stands for what the message has of its target; where that is nothing, another answer has it."""
        rest = {self.case.rtype, CNAME, NSEC, NSEC3}
        is_shown = any(it.owner == target and it.rtype in rest or it.rtype in (NSEC, NSEC3) for it in self.answer.records)
        is_inside = target[: len(self.case.apex)] == self.case.apex
        if not is_inside or not is_shown or target in seen:
            return verdict
        has_records = any(it.owner == target and it.rtype in (self.case.rtype, CNAME) for it in self.answer.records)
        further = self.verdict_of(target, seen | {target})
        if further.result == "bogus":
            return bogus(further.reason) if has_records else verdict
        return further if further.result != "secure" else verdict

    def denials(self, name: Name, rtype: int) -> Iterator[Verdict | None]:
        apex = self.case.apex
        if self.by_names.is_denied(name) or any(link and link.is_denial for link in (it.at(name) for it in self.by_hashes)):
            yield Verdict("secure", "nxdomain")
        yield self.signed_delegation(name, rtype)
        for it in self.by_hashes:
            if rtype != DS:
                yield it.delegated(name, apex, self.cut(name))
            yield it.denied(name, rtype)
        if rtype != DS:
            yield self.by_names.delegated(name, apex)
        else:
            yield self.by_names.delegated(name[:-1], apex)
            for it in self.by_hashes:
                yield it.delegated(name[:-1], apex, None)
        yield self.by_names.denied(name, rtype)

    def signed_delegation(self, name: Name, rtype: int) -> Verdict | None:
        """A DS set at the name or above it (RFC 4035, 3.1.4)."""
        longest = len(name) - (rtype == DS)
        for depth in range(len(self.case.apex) + 1, longest + 1):
            fact = self.fact(name[:depth], DS)
            if fact and not fact.is_expanded:
                return Verdict("secure", "delegated")
        return None

    def cut(self, name: Name) -> Name | None:
        """The delegation that a message refers to."""
        owners = {it.owner for it in self.answer.records if it.rtype == NS and it.section == 1}
        for depth in range(len(name), len(self.case.apex), -1):
            if name[:depth] in owners:
                return name[:depth]
        return None


def unhex32(label: bytes) -> bytes | None:
    """The octets of base32hex (RFC 4648, 7)."""
    digits = b"0123456789abcdefghijklmnopqrstuv"
    if len(label) % 8 or any(it not in digits for it in label):
        return None
    bits = "".join(f"{digits.index(it):05b}" for it in label)
    return int(bits, 2).to_bytes(len(bits) // 8, "big")
