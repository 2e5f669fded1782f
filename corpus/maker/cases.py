"""Cases: what a group writes, and how it comes out as JSON."""

from __future__ import annotations

import dataclasses
import string
from collections.abc import Iterable, Iterator, Sequence
from typing import Any

import reference

from . import alike, wire
from .wire import DS, Name, Rrset
from .zone import NOW, Keys, Nsec, Nsec3, Shown, Zone, honest, negative, unique

LIMIT = 50
Expected = tuple[str, str]
BOGUS: Expected = ("bogus", "")
PARENT = wire.name_of("corpus.")


class Disagreement(Exception):
    """What the maker expects is not what the reference program finds."""


@dataclasses.dataclass(frozen=True)
class More:
    """What else a validator may ask on its way, and the answer."""

    name: Name
    rtype: int
    message: bytes


def told_in_json(it: More) -> dict[str, Any]:
    return {"name": wire.wire(it.name).hex(), "type": it.rtype, "message": it.message.hex()}


def words(result: str, which: str) -> dict[str, str]:
    return {"result": result, "which": which} if which else {"result": result}


def truth_shown(zone: Zone, name: Name, rtype: int, shown: Shown) -> list[Expected]:
    """What the zone says, where a message shows all that proves it, whatever else it claims."""
    says = zone.says(name, rtype)
    there = [*shown.answer, *shown.authority]
    wanted = [*says.needs.values(), *([says.rrset] if says.rrset else [])]
    return [(says.result, says.which)] if all(it in there for it in wanted) else []


def open_above(zone: Zone, name: Name) -> list[Expected]:
    """That a name above a delegation is in an opt-out span, which a validator learns that asks for DS label by label."""
    cut = zone.cut_above(name)
    above = cut[1:] if cut else ()
    return [("insecure", "optout")] if above and zone.says(above, DS).which == "optout" else []


class Group:
    """A group's cases, numbered. Each has a zone of its own, whose apex has the case's id."""

    def __init__(self, name: str) -> None:
        self.name, self.cases, self.sentences, self.shown = name, list[dict[str, Any]](), set[str](), set[object]()
        self.count = 0

    def zone(self, text: str, chain: Nsec | Nsec3 = Nsec(), keys: Keys | None = None, first: int = 1, letter: str = "") -> Zone:
        """A zone at the apex of the next case: its id, with a letter behind it where the hashes of names are to be others."""
        return Zone(((self.id + letter).encode(), *PARENT), text, chain, keys, first)

    @property
    def id(self) -> str:
        return f"{self.name}-{self.count + 1:03}"

    def spread(self, text: str, chain: Nsec | Nsec3, name: Name, rtype: int) -> Zone:
        """A zone in which each part of the proof has a record of its own, if there is one; in a chain of hashes that is chance."""
        if isinstance(chain, Nsec):
            return self.zone(text, chain)
        best, most = "a", -1
        for letter in string.ascii_lowercase[:16]:
            zone = self.zone(text, chain, letter=letter)
            zone.is_unsigned = True
            count = len({it.owner for it in zone.says(name, rtype).needs.values()})
            if count > most:
                best, most = letter, count
        return self.zone(text, chain, letter=best)

    def add(
        self, zone: Zone, name: Name, rtype: int, shown: Shown | bytes, tries: str, rfc: str, kind: str = "attack",
        expected: Expected = BOGUS, also: Sequence[Expected] = (), open: str = "", dnskey: Rrset | bytes | None = None,
        ds: Sequence[bytes] | None = None, moment: int = NOW, limit: int = LIMIT, more: Sequence[More] = (),
        asked: Name | None = None, before: Sequence[More] = (),
    ) -> None:
        """Adds a case; `asked` is the question's name as it is spelled, `before` what is asked first."""
        question = zone.full(name) if asked is None else asked
        answer = shown if isinstance(shown, bytes) else shown.octets(question, rtype)
        if kind == "attack" and isinstance(shown, Shown) and dnskey is None and ds is None:
            also = [*dict.fromkeys([*also, *truth_shown(zone, name, rtype, shown), *open_above(zone, name)])]
        keys = zone.dnskey if dnskey is None else dnskey
        octets = keys if isinstance(keys, bytes) else wire.message(zone.apex, wire.DNSKEY, [[keys], []])
        case: dict[str, Any] = {
            "id": self.id, "group": self.name, "tries": tries, "rfc": rfc, "kind": kind, "zone": zone.text,
            "apex": wire.wire(zone.apex).hex(),
            "question": {
                "name": wire.wire(question).hex(), "type": rtype,
                "text": f"{wire.text_of(question)} {wire.TYPE_NAMES.get(rtype, f'TYPE{rtype}')}",
            },
            "moment": moment, "nsec3_limit": limit, "expected": words(*expected),
            "ds": [it.hex() for it in (zone.ds if ds is None else ds)], "dnskey": octets.hex(), "answer": answer.hex(),
        }
        if also:
            case["also"] = [words(*it) for it in also]
        if open:
            case["open"] = open
        if before:
            case["before"] = [*map(told_in_json, before)]
        more = [*more, *self.on_the_way(zone, name, rtype, kind == "valid")]
        if more:
            case["more"] = [*map(told_in_json, more)]
        self.keep(case, expected, also)

    @staticmethod
    def on_the_way(zone: Zone, name: Name, rtype: int, is_valid: bool) -> list[More]:
        """The answers for DS at the names between the apex and a delegation, which some validators ask for label by label; beside a
        right answer at the delegation too."""
        cut = zone.cut_above(name)
        if cut is None:
            return []
        names = [name[at:] for at in range(len(name) - 1, len(name) - len(cut), -1)] + ([cut] if is_valid else [])
        return [More(zone.full(it), DS, honest(zone, it, DS).octets(zone.full(it), DS)) for it in names if (it, rtype) != (name, DS)]

    def keep(self, case: dict[str, Any], expected: Expected, also: Sequence[Expected]) -> None:
        """Keeps a case where both ways agree on it, unless another shows the same."""
        said = reference.judge(case)
        if (said.result, said.which) not in [expected, *also] or ((said.result, said.which) != expected and case["kind"] == "valid"):
            raise Disagreement(f"{case['id']}: {case['tries']} Expected {expected}, {[*also]}; the reference says {said}")
        sentence = f"{case['zone']}: {case['tries']}"
        if sentence in self.sentences:
            raise Disagreement(f"{case['id']}: another case says: {sentence}")
        self.sentences.add(sentence)
        mark = alike.fingerprint(case)
        if mark in self.shown:
            return
        self.shown.add(mark)
        self.cases.append(case)
        self.count += 1

    def honest(self, zone: Zone, name: Name, rtype: int, tries: str, rfc: str, **how: Any) -> None:
        """The answer of the zone's servers, as it is."""
        says = zone.says(name, rtype)
        self.add(zone, name, rtype, honest(zone, name, rtype), tries, rfc, "valid", (says.result, says.which), **how)


# What a denial can lack.

WORDS = {
    "nodata": "NODATA", "nxdomain": "NXDOMAIN", "wildcard": "Records of a wildcard", "wildcard-nodata": "NODATA from a wildcard",
    "delegated": "Referral", "optout": "Answer", "answer": "Records", "alias": "Alias",
}


def by_chain(chain: Nsec | Nsec3, names: str, hashes: str) -> str:
    """The section that decides a case by NSEC, or that by NSEC3."""
    return names if isinstance(chain, Nsec) else hashes


def told(name: Name) -> str:
    """A name of a zone in a sentence."""
    return wire.text_of(name)[:-1] if name else "the apex"


def of_type(rtype: int) -> str:
    return wire.TYPE_NAMES.get(rtype, f"TYPE{rtype}")


def spoiled(rrset: Rrset) -> Rrset:
    """With one bit of each signature changed."""
    def spoil(data: bytes) -> bytes:
        return data[:-1] + bytes([data[-1] ^ 1])

    return rrset.replace(signatures=tuple(map(spoil, rrset.signatures)))


def with_records(shown: Shown, old: Iterable[Rrset], new: Sequence[Rrset]) -> Shown:
    """A message with records of the chain in the place of others."""
    gone = [*old]
    kept = [it for it in shown.authority if it not in gone]
    return dataclasses.replace(shown, authority=unique([*kept, *new]))


@dataclasses.dataclass(frozen=True)
class Denial:
    """A question to a zone, made anew for each case: what it is called in sentences, and the standards' sections."""

    text: str
    chain: Nsec | Nsec3
    name: Name
    rtype: int
    rfc: str
    called: str = ""

    def zone(self, group: Group) -> Zone:
        return group.spread(self.text, self.chain, self.name, self.rtype)

    def subject(self, zone: Zone) -> str:
        says = zone.says(self.name, self.rtype)
        called = self.called or f"{WORDS[says.which]} for {told(self.name)} {of_type(self.rtype)}"
        how = "NSEC3 with opt-out" if isinstance(self.chain, Nsec3) and self.chain.opt_out else self.chain.word
        return f"{called} by {how}"

    def is_open(self, role: str, zone: Zone) -> bool:
        """Under opt-out an answer that lacks what is said of the wildcard shows as much: an unsigned delegation may be there."""
        return "wildcard" in role and zone.says(self.name, self.rtype).which == "optout"


OPEN_WILDCARD = (
    "RFC 5155, 8.4 and 8.7, want a record for the wildcard; where the next closer name is covered with opt-out, nothing secure is "
    "said without it, either (9.2)."
)


def add_denial(group: Group, denial: Denial, others: int | None = None, signatures: bool = True) -> None:
    """An honest answer, and those that are one mistake away: each record of its proof left out, in the place of each some other
    records of the chain, each with a signature that fails, or none."""
    zone = denial.zone(group)
    says, subject = zone.says(denial.name, denial.rtype), denial.subject(zone)
    group.honest(zone, denial.name, denial.rtype, f"{subject}.", denial.rfc)
    for role in unique_roles(says.needs):
        add_without(group, denial, role, subject)
        add_replaced(group, denial, role, subject, others)
        if signatures:
            add_unsigned(group, denial, role, subject)


def unique_roles(needs: dict[str, Rrset]) -> list[str]:
    """One role for each record; records are told by data, since zones are made anew."""
    seen: dict[tuple[Name, tuple[bytes, ...]], str] = {}
    for role, rrset in needs.items():
        seen.setdefault((rrset.owner, rrset.data), role)
    return [*seen.values()]


def altered(group: Group, denial: Denial, role: str, new: Sequence[Rrset] | None, tries: str, zone: Zone, rfc: str) -> None:
    says, shown = zone.says(denial.name, denial.rtype), honest(zone, denial.name, denial.rtype)
    how: dict[str, Any] = {}
    if denial.is_open(role, zone):
        how = {"kind": "acceptable", "also": [("insecure", "optout")], "open": OPEN_WILDCARD}
    old = says.needs[role]
    group.add(zone, denial.name, denial.rtype, with_records(shown, [old], new or []), tries, rfc, **how)


def add_without(group: Group, denial: Denial, role: str, subject: str) -> None:
    altered(group, denial, role, None, f"{subject}: the record that {role} is left out.", denial.zone(group), denial.rfc)


def add_replaced(group: Group, denial: Denial, role: str, subject: str, most: int | None) -> None:
    count = 0
    for name in denial.zone(group).chained:
        zone = denial.zone(group)
        # In a chain of hashes the place of a name depends on the apex.
        place = zone.place(name)[0]
        link = zone.link(place)
        needed = {(it.owner, it.data) for it in zone.says(denial.name, denial.rtype).needs.values()}
        if (link.owner, link.data) in needed or (most is not None and count >= most):
            continue
        count += 1
        tries = f"{subject}: in the place of the record that {role} stands that of {told(name)}."
        altered(group, denial, role, [link], tries, zone, denial.rfc)


def add_unsigned(group: Group, denial: Denial, role: str, subject: str) -> None:
    zone = denial.zone(group)
    old = zone.says(denial.name, denial.rtype).needs[role]
    tries = f"{subject}: one bit of the signature of the record that {role} is changed."
    altered(group, denial, role, [spoiled(old)], tries, zone, "RFC 4035, 5.3.3")
    zone = denial.zone(group)
    old = zone.says(denial.name, denial.rtype).needs[role]
    tries = f"{subject}: the record that {role} has no signature."
    altered(group, denial, role, [old.replace(signatures=())], tries, zone, "RFC 4035, 5.3.1")


def relative(text: str) -> Name:
    return () if text == "@" else wire.name_of(text)


def each(texts: str) -> Iterator[tuple[Name, int]]:
    """Questions of a text such as `a:A b.c:TXT`."""
    for word in texts.split():
        name, _, rtype = word.rpartition(":")
        yield relative(name), wire.TYPES[rtype]


CLAIMS = {0: "NODATA", wire.NXDOMAIN: "NXDOMAIN"}


def add_false_denials(group: Group, text: str, chain: Nsec | Nsec3, name: Name, rtype: int, rfc: str) -> None:
    """A name that has the type is denied, with each record of the chain alone, and with all."""
    owners = [*group.zone(text, chain).chained, None]
    for rcode, claim in CLAIMS.items():
        for owner in owners:
            zone = group.zone(text, chain)
            proof = zone.links() if owner is None else [zone.matching(owner)]
            which = "all records of the chain" if owner is None else f"the {chain.word} record of {told(owner)}"
            tries = f"{told(name)} has {of_type(rtype)}, and {claim} is claimed for it with {which}."
            group.add(zone, name, rtype, negative(zone, proof, rcode), tries, rfc)
