"""Rollovers: DS set, DNSKEY answer and answer of different stages of the six rolls, as caches may hold them together, and as none may.

What is published at each stage is that of docs/use/ROLLS.md (RFC 6781, 4). K1 and Z1 are in use before each roll. Two stages at
which the same is published give one mixture.
"""

from __future__ import annotations

import dataclasses
import itertools
from collections.abc import Iterator, Sequence

from ..cases import BOGUS, Expected, Group, relative, told
from ..keys import ED25519, Key, key
from ..wire import A, TXT, Name
from ..zone import Keys, Nsec, Nsec3, Shown, Zone, honest, negative, positive

TITLE = "rollovers"
TEXT = "a:A *.w:A b:TXT"
CHAINS: list[Nsec | Nsec3] = [Nsec(), Nsec3()]
STATES = ["before the roll", "behind the start", "behind the first wait", "behind the second wait"]
# What is asked of a mixture: the name, the type, what the answer is, the chain.
ASKED: list[tuple[str, int, str, Nsec | Nsec3]] = [
    ("a", A, "answer", Nsec()), ("c", A, "nxdomain", Nsec()), ("a", TXT, "nodata", Nsec3()), ("x.w", A, "wildcard", Nsec3()),
]


@dataclasses.dataclass(frozen=True)
class State:
    """Keys by their names: of the DS set, of the DNSKEY set, who signs that, who signs the zone."""

    ds: str
    published: str
    sign_keys: str
    sign_zone: str


@dataclasses.dataclass(frozen=True)
class Roll:
    name: str
    states: Sequence[State]


ROLLS = [
    Roll("ksk-roll", [
        State("K1", "K1 Z1", "K1", "Z1"), State("K1", "K1 K2 Z1", "K1 K2", "Z1"), State("K2", "K1 K2 Z1", "K1 K2", "Z1"), State("K2", "K2 Z1", "K2", "Z1"),
    ]),
    Roll("ksk-double-ds-roll", [
        State("K1", "K1 Z1", "K1", "Z1"), State("K1 K2", "K1 Z1", "K1", "Z1"), State("K1 K2", "K2 Z1", "K2", "Z1"), State("K2", "K2 Z1", "K2", "Z1"),
    ]),
    Roll("zsk-roll", [
        State("K1", "K1 Z1", "K1", "Z1"), State("K1", "K1 Z1 Z2", "K1", "Z1"), State("K1", "K1 Z1 Z2", "K1", "Z2"), State("K1", "K1 Z2", "K1", "Z2"),
    ]),
    Roll("zsk-double-signature-roll", [
        State("K1", "K1 Z1", "K1", "Z1"), State("K1", "K1 Z1 Z2", "K1", "Z1 Z2"), State("K1", "K1 Z2", "K1", "Z2"), State("K1", "K1 Z2", "K1", "Z2"),
    ]),
    Roll("csk-roll", [
        State("K1", "K1 Z1", "K1", "Z1"), State("K1", "K1 Z1 C1", "K1 C1", "Z1"), State("C1", "K1 Z1 C1", "K1 C1", "C1"), State("C1", "C1", "C1", "C1"),
    ]),
    Roll("algorithm-roll", [
        State("K1", "K1 Z1", "K1", "Z1"), State("K1", "K1 Z1 K2' Z2'", "K1 K2'", "Z1 Z2'"), State("K2'", "K1 Z1 K2' Z2'", "K1 K2'", "Z1 Z2'"), State("K2'", "K2' Z2'", "K2'", "Z2'"),
    ]),
    Roll("csk-roll from a combined key to another", [
        State("C1", "C1", "C1", "C1"), State("C1", "C1 C2", "C1 C2", "C1"), State("C2", "C1 C2", "C1 C2", "C2"), State("C2", "C2", "C2", "C2"),
    ]),
    Roll("csk-roll from a combined key to two", [
        State("C1", "C1", "C1", "C1"), State("C1", "C1 K1 Z1", "C1 K1", "C1"), State("K1", "C1 K1 Z1", "C1 K1", "Z1"), State("K1", "K1 Z1", "K1", "Z1"),
    ]),
]


def of_names(names: str) -> list[Key]:
    """Keys by their names; those with a stroke are of the other algorithm."""
    return [key(it.rstrip("'"), ED25519) if "'" in it else key(it) for it in names.split()]


@dataclasses.dataclass(frozen=True)
class Mixture:
    """The states of the DS set, of the DNSKEY answer, of the answer."""

    roll: Roll
    at: tuple[int, int, int]

    @property
    def keys(self) -> Keys:
        ds, dnskey, answer = (self.roll.states[it] for it in self.at)
        return Keys(of_names(ds.ds), of_names(dnskey.published), of_names(dnskey.sign_keys), of_names(answer.sign_zone))

    @property
    def content(self) -> tuple[str, str, str, str]:
        ds, dnskey, answer = (self.roll.states[it] for it in self.at)
        return ds.ds, dnskey.published, dnskey.sign_keys, answer.sign_zone

    @property
    def meets(self) -> bool:
        """Whether a key of the DS set signs the DNSKEY set, and a key there signs the answer."""
        ds, published, sign_keys, sign_zone = (set(it.split()) for it in self.content)
        return bool(ds & sign_keys & published) and bool(published & sign_zone)

    @property
    def is_held(self) -> bool:
        """Whether a cache may hold these together: of one state and the next at most."""
        return max(self.at) - min(self.at) <= 1

    @property
    def words(self) -> str:
        ds, dnskey, answer = (STATES[it] for it in self.at)
        return f"DS set as {ds}, DNSKEY answer as {dnskey}, answer as {answer}"


def mixtures(roll: Roll) -> Iterator[Mixture]:
    """Each mixture once, by what it has: that which a cache may hold, if there is one."""
    every = [Mixture(roll, (ds, dnskey, answer)) for ds, dnskey, answer in itertools.product(range(4), range(4), range(4))]
    seen = set()
    for it in sorted(every, key=lambda it: (not it.is_held, it.at)):
        if it.content not in seen:
            seen.add(it.content)
            yield it


def add(group: Group) -> None:
    seen = set()
    for roll in ROLLS:
        for at, mixture in enumerate(mixtures(roll)):
            # What a cache may hold meets.
            assert mixture.meets or not mixture.is_held
            if mixture.content in seen:
                continue
            seen.add(mixture.content)
            # All kinds of answers where both say the same of each: two of the four, by turns.
            for text, rtype, which, chain in (ASKED[0], ASKED[1 + at % 3]):
                add_mixture(group, mixture, text, rtype, which, chain)
    for roll in ROLLS[2:7]:
        add_answer_of_two(group, roll)
    add_withdrawn(group)


def add_mixture(group: Group, mixture: Mixture, text: str, rtype: int, which: str, chain: Nsec | Nsec3) -> None:
    zone = group.zone(TEXT, chain, mixture.keys)
    expected: Expected = ("secure", which) if mixture.meets else BOGUS
    held = "a cache may hold these together" if mixture.is_held else "retired: no cache holds these together"
    called = {"answer": "records", "nxdomain": "NXDOMAIN", "nodata": "NODATA by NSEC3", "wildcard": "a wildcard's records by NSEC3"}[which]
    tries = f"{mixture.roll.name}, {called}: {mixture.words}; {held}."
    kind = "valid" if mixture.meets else "attack"
    group.add(zone, relative(text), rtype, honest(zone, relative(text), rtype), tries, "RFC 6781, 4.1", kind, expected)


def add_answer_of_two(group: Group, roll: Roll) -> None:
    """An answer whose RRsets are of two states."""
    states = [state for at, state in enumerate(roll.states) if state.sign_zone not in [it.sign_zone for it in roll.states[:at]]]
    for first, second in itertools.permutations(states, 2):
        for published, sign_keys in dict.fromkeys((it.published, it.sign_keys) for it in roll.states):
            ds = next(it.ds for it in roll.states if it.published == published and it.sign_keys == sign_keys)
            keys = Keys(of_names(ds), of_names(published), of_names(sign_keys), of_names(first.sign_zone))
            zone = group.zone(TEXT, Nsec(), keys)
            other = Zone(zone.apex, TEXT, Nsec(), dataclasses.replace(keys, sign_zone=of_names(second.sign_zone)))
            name: Name = relative("x.w")
            rrset, proof = zone.says(name, A).rrset, other.says(name, A).needs.values()
            assert rrset
            has = set(published.split())
            is_right = bool(has & set(first.sign_zone.split())) and bool(has & set(second.sign_zone.split()))
            tries = (
                f"A roll: a wildcard's records signed by {first.sign_zone}, the record that covers the name by {second.sign_zone}; "
                f"the DNSKEY set has {published}, the DS set {ds}."
            )
            if f"{zone.text}: {tries}" not in group.sentences:
                expected: Expected = ("secure", "wildcard") if is_right else BOGUS
                group.add(zone, name, A, positive([rrset], [*proof]), tries, "RFC 6781, 4.1", "valid" if is_right else "attack", expected)


def add_withdrawn(group: Group) -> None:
    """Keys that have left: what they signed is of no use, and a zone may go unsigned."""
    for by, what in (("Z9", "a zone key that left long ago"), ("K9", "a key signing key that left long ago")):
        zone = group.zone(TEXT, Nsec(), Keys(of_names("K1"), of_names("K1 Z1"), of_names("K1"), of_names(by)))
        name = relative("c")
        group.add(zone, name, A, honest(zone, name, A), f"NXDOMAIN signed by {what}.", "RFC 6781, 4.1")
    zone = group.zone(TEXT, Nsec(), Keys(of_names("K9"), of_names("K9 Z1"), of_names("K9"), of_names("Z1")))
    rrset = honest(zone, relative("a"), A)
    tries = "The DS set has the new key alone; the DNSKEY answer is that of a key that left long ago, which signs itself."
    group.add(zone, relative("a"), A, rrset, tries, "RFC 6781, 4.1", ds=[key("K1").ds(zone.apex)])
    zone = group.zone(TEXT, Nsec(), Keys([], of_names("K1 Z1"), of_names("K1"), of_names("Z1")))
    tries = "The zone is about to go unsigned: its DS set has left, and its signatures are still there."
    group.add(zone, relative("a"), A, honest(zone, relative("a"), A), tries, "RFC 4035, 5.2", "valid", ("insecure", "no-ds"))
    zone = group.zone(TEXT)
    bare = Shown([zone.rrset(relative("a"), A).replace(signatures=())], [])
    tries = "The zone went unsigned too early: its DS set and its DNSKEY set are still there, its signatures are gone."
    group.add(zone, relative("a"), A, bare, tries, "RFC 4035, 5")
    zone = group.zone(TEXT)
    tries = "The zone went unsigned too early: its DS set is still there, its DNSKEY set is gone."
    gone = negative(zone, [zone.matching(())]).octets(zone.apex, 48)
    group.add(zone, relative("a"), A, honest(zone, relative("a"), A), tries, "RFC 4035, 5.2", dnskey=gone)
    for text in ("b", "c"):
        zone = group.zone(TEXT, Nsec(), Keys(of_names("K1 K5"), of_names("K1 Z1"), of_names("K1"), of_names("Z1")))
        tries = f"The DS set has a key that waits for an emergency and isn't published; {told(relative(text))} is asked."
        says = zone.says(relative(text), A)
        group.add(zone, relative(text), A, honest(zone, relative(text), A), tries, "RFC 6781, 4.2.4", "valid", (says.result, says.which))
