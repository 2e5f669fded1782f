"""Zones in order: what they hold, their chains, what they sign, what they say of a question and which records show it.

Here names are relative to the apex, `()`, but in what is signed.
"""

from __future__ import annotations

import bisect
import dataclasses
import functools
import struct
from collections.abc import Iterable, Sequence

from . import wire
from .keys import Key, key
from .wire import CNAME, DNSKEY, DS, NS, NSEC, NSEC3, NSEC3PARAM, RRSIG, SOA, Name, Rrset

TTL = 3600
# The moment of all cases that are not about time, 30 November 2026, and when signatures hold.
NOW, INCEPTION, EXPIRATION = 1796040000, 1767225600, 2082758400


@dataclasses.dataclass(frozen=True)
class Nsec:
    word = "NSEC"


@dataclasses.dataclass(frozen=True)
class Nsec3:
    iterations: int = 0
    salt: bytes = b""
    opt_out: bool = False
    word = "NSEC3"

    def hash(self, name: Name) -> bytes:
        return wire.nsec3_hash(name, self.salt, self.iterations)


@dataclasses.dataclass(frozen=True)
class Keys:
    """Who signs the DNSKEY set, and who the zone; `published` are the keys of the set, `ds` those that the parent has."""

    ds: Sequence[Key]
    published: Sequence[Key]
    sign_keys: Sequence[Key]
    sign_zone: Sequence[Key]


def pair_of_keys(algorithm: int = 13) -> Keys:
    point, zone = key("K1", algorithm), key("Z1", algorithm)
    return Keys([point], [point, zone], [point], [zone])


@dataclasses.dataclass(frozen=True)
class Says:
    """What a zone says: which kind of answer, by which RRset, and the records of the chain that show it, by their role."""

    which: str
    result: str
    needs: dict[str, Rrset]
    rrset: Rrset | None = None


def made(rtype: int, owner: Name, apex: Name, number: int) -> bytes:
    """Data for an owner."""
    match rtype:
        case wire.A:
            return bytes([192, 0, 2, number])
        case wire.AAAA:
            return bytes.fromhex("20010db8") + bytes(11) + bytes([number])
        case wire.TXT:
            text = b"text " + str(number).encode()
            return bytes([len(text)]) + text
        case wire.MX:
            return struct.pack(">H", 10) + wire.wire((b"mail", *apex))
        case wire.NS:
            return wire.wire((b"ns", *owner))
        case wire.PTR:
            return wire.wire((b"host", *apex))
        case wire.SRV:
            return struct.pack(">HHH", 1, 2, 53) + wire.wire((b"host", *apex))
        case wire.DS:
            return key("K9").ds(owner)
    raise ValueError(f"data of type {rtype}")


class Zone:
    """A zone of a text such as `a:A,MX *.w:TXT sub:NS safe:NS,DS x:CNAME=a`."""

    # The response code for a name that does not exist.
    RCODE_OF_NONE = wire.NXDOMAIN

    def __init__(self, apex: Name, text: str, chain: Nsec | Nsec3 = Nsec(), keys: Keys | None = None, first: int = 1) -> None:
        self.apex, self.text, self.chain, self.keys = apex, text, chain, keys or pair_of_keys()
        self.times = INCEPTION, EXPIRATION
        self.first = first
        # Where only places in the chain are wanted nothing is signed.
        self.is_unsigned = False
        self.sets: dict[Name, dict[int, tuple[bytes, ...]]] = {}
        self.add_apex()
        for word in text.split():
            self.add(*word.split(":"))

    def full(self, name: Name) -> Name:
        return (*name, *self.apex)

    def add_apex(self) -> None:
        soa = wire.wire(self.full((b"ns",))) + wire.wire(self.full((b"admin",)))
        numbers = struct.pack(">5I", self.first, 3600, 900, 86400, TTL)
        self.sets[()] = {SOA: (soa + numbers,), NS: (wire.wire(self.full((b"ns",))),)}
        self.sets[()][DNSKEY] = tuple(it.data for it in self.keys.published)
        if isinstance(self.chain, Nsec3):
            salt = self.chain.salt
            self.sets[()][NSEC3PARAM] = (struct.pack(">BBHB", 1, 0, self.chain.iterations, len(salt)) + salt,)

    def add(self, owner: str, types: str) -> None:
        name = () if owner == "@" else wire.name_of(owner)
        number = self.first + len(self.sets)
        for word in types.split(","):
            kind, _, target = word.partition("=")
            rtype = wire.TYPES[kind]
            if target:
                data = wire.wire(self.full(wire.name_of(target)))
            else:
                data = made(rtype, self.full(name), self.apex, number)
            self.sets.setdefault(name, {})[rtype] = (data,)

    # What there is.

    @functools.cached_property
    def cuts(self) -> set[Name]:
        return {name for name, types in self.sets.items() if name and NS in types}

    @functools.cached_property
    def names(self) -> set[Name]:
        """Names that exist, empty non-terminals too."""
        return {wire.lower(above) for name in self.sets for above in wire.parents(name)}

    @functools.cached_property
    def by_lower(self) -> dict[Name, Name]:
        return {wire.lower(name): name for name in self.sets}

    def of(self, name: Name) -> dict[int, tuple[bytes, ...]]:
        return self.sets.get(self.by_lower.get(wire.lower(name), name), {})

    @functools.cached_property
    def lower_cuts(self) -> set[Name]:
        return {wire.lower(it) for it in self.cuts}

    def cut_above(self, name: Name) -> Name | None:
        found = [above for above in wire.parents(name) if wire.lower(above) in self.lower_cuts]
        return found[-1] if found else None

    def encloser(self, name: Name) -> Name:
        return next(above for above in wire.parents(name) if wire.lower(above) in self.names)

    # What it signs.

    def signed(self, owner: Name, rtype: int, data: Iterable[bytes], by: Sequence[Key] | None = None, **how: object) -> Rrset:
        """An RRset of a whole owner with its signatures."""
        ttl = how.pop("rrset_ttl", TTL)
        every = tuple(data)
        keys = [] if self.is_unsigned else self.keys.sign_zone if by is None else by
        signatures = tuple(self.signature(it, owner, rtype, every, **how) for it in keys)
        return Rrset(owner, rtype, ttl, every, signatures)

    def signature(
        self, by: Key, owner: Name, rtype: int, data: Sequence[bytes], times: tuple[int, int] | None = None,
        labels: int | None = None, signer: Name | None = None, tag: int | None = None, ttl: int = TTL,
        covered: int | None = None, algorithm: int | None = None, over: Name | None = None,
    ) -> bytes:
        """The data of a signature (RFC 4034, 3.1); what it shows may be told otherwise."""
        count = len(owner) - (owner[:1] == (b"*",)) if labels is None else labels
        inception, expiration = (it % (1 << 32) for it in times or self.times)
        fields = struct.pack(
            ">HBBIIIH", rtype if covered is None else covered, by.algorithm if algorithm is None else algorithm, count, ttl,
            expiration, inception, by.tag if tag is None else tag,
        )
        fields += wire.wire(wire.lower(self.apex if signer is None else signer))
        below = owner if count >= len(owner) else (b"*", *owner[len(owner) - count :])
        return fields + by.sign(wire.signed_octets(fields, below if over is None else over, rtype, ttl, data))

    def rrset(self, name: Name, rtype: int) -> Rrset:
        """An RRset of the zone, signed unless it is a delegation's NS set."""
        owner = self.by_lower[wire.lower(name)]
        is_signed = owner not in self.cuts or rtype == DS
        by = self.keys.sign_keys if rtype == DNSKEY else None if is_signed else []
        return self.signed(self.full(owner), rtype, self.sets[owner][rtype], by)

    def expanded(self, star: Name, rtype: int, name: Name) -> Rrset:
        """A wildcard's RRset at a name (RFC 4035, 3.1.3.3)."""
        return self.rrset(star, rtype).replace(owner=self.full(name))

    @property
    def soa(self) -> Rrset:
        return self.rrset((), SOA)

    @property
    def dnskey(self) -> Rrset:
        return self.rrset((), DNSKEY)

    @property
    def ds(self) -> list[bytes]:
        return [it.ds(self.apex) for it in self.keys.ds]

    # Its chain.

    def types_of(self, name: Name) -> set[int]:
        """The types in the record of the chain at a name."""
        types = set(self.of(name))
        if name in self.cuts:
            types &= {NS, DS}
        if isinstance(self.chain, Nsec):
            return types | {NSEC, RRSIG}
        return types | {RRSIG} if types - {NS} else types

    @functools.cached_property
    def chained(self) -> list[Name]:
        """The names that have a record of the chain, in its order."""
        owners = [it for it in self.sets if self.cut_above(it) in (None, it)]
        if isinstance(self.chain, Nsec):
            return sorted(owners, key=wire.order)
        if self.chain.opt_out:
            owners = [it for it in owners if it not in self.cuts or DS in self.sets[it]]
        every = {wire.lower(above): above for name in owners for above in wire.parents(name)}
        return sorted(every.values(), key=lambda it: self.hash(it))

    @functools.cached_property
    def orders(self) -> list[object]:
        """What the chain is in order by."""
        return [wire.order(it) if isinstance(self.chain, Nsec) else self.hash(it) for it in self.chained]

    def hash(self, name: Name) -> bytes:
        assert isinstance(self.chain, Nsec3)
        return self.chain.hash(self.full(name))

    def place(self, name: Name) -> tuple[int, bool]:
        """The place in the chain of the record that matches a name, and that it matches; or of that which covers it."""
        wanted: object = wire.order(name) if isinstance(self.chain, Nsec) else self.hash(name)
        at = bisect.bisect_right(self.orders, wanted) - 1  # type: ignore[type-var]
        return at, self.orders[at] == wanted

    def link(self, at: int, **how: object) -> Rrset:
        """A record of the chain by its place, signed. `types`, `next`, `flags` and others tell data otherwise."""
        name, following = self.chained[at % len(self.chained)], self.chained[(at + 1) % len(self.chained)]
        types = how.pop("types", None)
        shown = self.types_of(name) if types is None else types
        if isinstance(self.chain, Nsec):
            after = how.pop("next", following)
            return self.signed(self.full(name), NSEC, [wire.wire(self.full(after)) + wire.bitmap(shown)], **how)  # type: ignore
        after_hash = how.pop("next_hash", self.hash(following))
        salt = how.pop("salt", self.chain.salt)
        head = struct.pack(
            ">BBHB", how.pop("hash_kind", 1), how.pop("flags", int(self.chain.opt_out)),
            how.pop("iterations", self.chain.iterations), len(salt),
        )
        data = head + salt + bytes([len(after_hash)]) + after_hash + wire.bitmap(shown)
        return self.signed((wire.base32hex(self.hash(name)), *self.apex), NSEC3, [data], **how)  # type: ignore

    def matching(self, name: Name, **how: object) -> Rrset:
        at, matches = self.place(name)
        assert matches, f"nothing matches {name}"
        return self.link(at, **how)

    def covering(self, name: Name, **how: object) -> Rrset:
        at, matches = self.place(name)
        assert not matches, f"{name} is matched"
        return self.link(at, **how)

    def shower(self, name: Name) -> Rrset:
        """The record that matches or covers a name."""
        return self.link(self.place(name)[0])

    def links(self) -> list[Rrset]:
        return [self.link(at) for at in range(len(self.chained))]

    # What it says (RFC 1034, 4.3.2; RFC 4592; RFC 6672), and how that is shown (RFC 4035, 3.1.3; RFC 5155, 7.2).

    def says(self, name: Name, rtype: int) -> Says:
        cut = self.cut_above(name)
        if cut is not None and (wire.lower(name) != wire.lower(cut) or rtype != DS):
            return self.says_of_cut(cut)
        if wire.lower(name) in self.names:
            return self.says_of_name(name, rtype)
        return self.says_of_none(name, rtype)

    def says_of_cut(self, cut: Name) -> Says:
        if DS in self.of(cut):
            return Says("delegated", "secure", {}, self.rrset(cut, DS))
        shown = self.no_data(cut)
        return Says("optout" if shown.which == "optout" else "delegated", "insecure", shown.needs)

    def says_of_name(self, name: Name, rtype: int) -> Says:
        types = self.of(name)
        if rtype in types:
            return Says("answer", "secure", {}, self.rrset(name, rtype))
        if CNAME in types:
            return Says("alias", "secure", {}, self.rrset(name, CNAME))
        return self.no_data(name)

    def no_data(self, name: Name) -> Says:
        _at, matches = self.place(name)
        if isinstance(self.chain, Nsec):
            role = "matches the name" if matches else "covers the name"
            return Says("nodata", "secure", {role: self.shower(name)})
        if matches:
            return Says("nodata", "secure", {"matches the name": self.shower(name)})
        return Says("optout", "insecure", self.encloser_proof(name))

    def encloser_proof(self, name: Name) -> dict[str, Rrset]:
        """The closest encloser of the chain, and the next closer name (RFC 5155, 7.2.1)."""
        encloser = next(it for it in wire.parents(name) if self.place(it)[1])
        next_closer = name[len(name) - len(encloser) - 1 :]
        return {
            "matches the closest encloser": self.matching(encloser),
            "covers the next closer name": self.covering(next_closer),
        }

    def says_of_none(self, name: Name, rtype: int) -> Says:
        encloser = self.encloser(name)
        star = (b"*", *encloser)
        has_star, types = star in self.names, self.of(star)
        if rtype in types or CNAME in types:
            of = rtype if rtype in types else CNAME
            return self.says_of_wildcard(name, star, of)
        if isinstance(self.chain, Nsec):
            needs = {"covers the name": self.covering(name)}
            role = "matches the wildcard" if self.place(star)[1] else "covers the wildcard"
        else:
            needs = self.encloser_proof(name)
            role = "matches the wildcard" if has_star else "covers the wildcard"
        needs[role] = self.shower(star)
        is_open = isinstance(self.chain, Nsec3) and self.chain.opt_out
        which = "wildcard-nodata" if has_star else "nxdomain"
        return Says("optout" if is_open else which, "insecure" if is_open else "secure", needs)

    def says_of_wildcard(self, name: Name, star: Name, rtype: int) -> Says:
        rrset = self.expanded(star, rtype, name)
        if isinstance(self.chain, Nsec):
            return Says("wildcard", "secure", {"covers the name": self.covering(name)}, rrset)
        proof = self.encloser_proof(name)
        result = "insecure" if self.chain.opt_out else "secure"
        which = "optout" if self.chain.opt_out else "wildcard"
        return Says(which, result, {"covers the next closer name": proof["covers the next closer name"]}, rrset)


def unique(rrsets: Iterable[Rrset]) -> list[Rrset]:
    return list(dict.fromkeys(rrsets))


@dataclasses.dataclass(frozen=True)
class Shown:
    """What a message has behind its question."""

    answer: Sequence[Rrset]
    authority: Sequence[Rrset]
    rcode: int = 0
    is_authoritative: bool = True

    def octets(self, name: Name, rtype: int, compresses: bool = True) -> bytes:
        flags = wire.QR | self.rcode | (wire.AA if self.is_authoritative else 0)
        return wire.message(name, rtype, [self.answer, self.authority], flags, compresses)


def positive(rrsets: Sequence[Rrset], authority: Sequence[Rrset] = ()) -> Shown:
    return Shown(rrsets, authority)


def negative(zone: Zone, proof: Iterable[Rrset], rcode: int = 0, answer: Sequence[Rrset] = ()) -> Shown:
    """A denial: the SOA record and what shows it."""
    return Shown(answer, [zone.soa, *unique(proof)], rcode)


def referral(zone: Zone, cut: Name, proof: Iterable[Rrset]) -> Shown:
    return Shown([], [zone.rrset(cut, NS), *unique(proof)], 0, False)


def honest(zone: Zone, name: Name, rtype: int) -> Shown:
    """The answer of the zone's servers."""
    says = zone.says(name, rtype)
    cut = zone.cut_above(name)
    if cut is not None and (wire.lower(name) != wire.lower(cut) or rtype != DS):
        return referral(zone, cut, [says.rrset] if says.rrset else says.needs.values())
    if says.rrset:
        return positive([says.rrset], unique(says.needs.values()))
    is_missing = wire.lower(name) not in zone.names and (b"*", *zone.encloser(name)) not in zone.names
    return negative(zone, says.needs.values(), zone.RCODE_OF_NONE if is_missing else 0)
