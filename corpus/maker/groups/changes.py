"""Changes of zones: records of two versions of a zone, each signed while it was there, whose times still hold.

A validator knows one moment and no versions: each record alone is what the zone signed. So a whole answer of an earlier version
passes (RFC 4033, 8.1 and 12; RFC 4035, 4.3), and what two versions together seem to prove, no section has refused.
"""

from __future__ import annotations

from collections.abc import Sequence

from ..cases import BOGUS, Expected, Group, by_chain, each, of_type, relative, told
from ..wire import A, Rrset
from ..zone import NOW, Nsec, Nsec3, Zone, honest, negative, positive, unique

TITLE = "changes of zones"
DAY = 86400
CHAINS: list[Nsec | Nsec3] = [Nsec(), Nsec3()]
OPEN = (
    "RFC 4035, 5.4, has each record checked alone; no section has the records of a proof be of one version of the zone, and none says "
    "that a validator takes them so."
)
# A zone before and after, and what is asked.
CHANGES = [
    ("a:A c:A", "a:A b:A c:A", "b is added"), ("a:A b:A c:A", "a:A c:A", "b is taken out"), ("a:A b:A", "a:A b:A,MX", "b gets an MX record"),
    ("a:A b:A,MX", "a:A b:A", "b loses its MX record"), ("a:A *.b:A", "a:A", "the wildcard *.b is taken out"), ("a:A", "a:A *:A", "a wildcard is added"),
    ("a:A s:NS", "a:A s:NS,DS", "the delegation s gets DS"), ("a:A x.b:A", "a:A b:A", "x.b is taken out, b added"),
]
# What is answered there another change has, too.
ALIKE = [("a:A b:A c:A", "a:A c:A", (b"b",)), ("a:A x.b:A", "a:A b:A", (b"x", b"b"))]


def versions(group: Group, old: str, new: str, chain: Nsec | Nsec3) -> tuple[Zone, Zone]:
    """Both versions of a zone, the old one signed a week ago, the new one a day ago."""
    zone = group.zone(new, chain, first=2)
    before = Zone(zone.apex, old, chain, first=1)
    before.times, zone.times = (NOW - 7 * DAY, NOW + 3650 * DAY), (NOW - DAY, NOW + 3650 * DAY)
    return before, zone


def add(group: Group) -> None:
    for chain in CHAINS:
        for old, new, what in CHANGES:
            for name, rtype in each("b:A b:MX x.b:A s:DS"):
                add_replayed(group, chain, old, new, what, name, rtype)
        add_mixed(group, chain)
    add_data(group)


def add_replayed(group: Group, chain: Nsec | Nsec3, old: str, new: str, what: str, name: tuple[bytes, ...], rtype: int) -> None:
    """The answer of the version before, where both differ; a validator can't tell it from that of now."""
    before, zone = versions(group, old, new, chain)
    was, says = before.says(name, rtype), zone.says(name, rtype)
    if (was.which, was.result) == (says.which, says.result) or (old, new, name) in ALIKE:
        return
    tries = f"In a change {what}; {told(name)} {of_type(rtype)} is answered from the version before, by {chain.word}."
    group.add(zone, name, rtype, honest(before, name, rtype), tries, "RFC 4033, 12", "valid", (was.result, was.which))


def add_mixed(group: Group, chain: Nsec | Nsec3) -> None:
    """Proofs with a part of each version."""
    rows: list[tuple[str, str, str, str, str]] = [
        ("*:TXT b:A", "x:A z:A", "x", "x, a wildcard and b", "neither version says that x and its wildcard are both absent"),
        ("m:A *:A", "a:A q:A", "q", "the wildcard, and then q", "q is there in the new version, and the wildcard in the old one"),
        ("m:A *:A", "a:A z:A", "q", "the wildcard", "the wildcard was there, and no name in its place is now"),
    ]
    for old, new, text, what, why in rows:
        name = relative(text)
        before, zone = versions(group, old, new, chain)
        proof: Sequence[Rrset] = unique([*cover(before, name), zone.shower((b"*",))])
        tries = f"NXDOMAIN for {text} by {chain.word}, with the record for the name of the version before and that for the wildcard of the one behind: {why}."
        group.add(zone, name, A, negative(zone, proof, 3), tries, "RFC 4033, 12", "acceptable", ("secure", "nxdomain"), [BOGUS], OPEN)
        before, zone = versions(group, old, new, chain)
        proof = unique([*cover(zone, name), before.shower((b"*",))])
        is_denied = (b"*",) not in before.names and name not in zone.names
        tries = f"NXDOMAIN is claimed for {text} by {chain.word}, with the record for the wildcard of the version before and that for the name of the one behind, which had {what}."
        expected: Expected = ("secure", "nxdomain") if is_denied else BOGUS
        group.add(zone, name, A, negative(zone, proof, 3), tries, "RFC 4033, 12", "acceptable" if is_denied else "attack", expected, [BOGUS] if is_denied else [], OPEN if is_denied else "")
    for old, new, name_text in (("*.w:A", "x.w:A", "x.w"), ("*.w:A b.w:A", "*.w:A b.w:A q.w:A", "q.w")):
        before, zone = versions(group, old, new, chain)
        name = relative(name_text)
        rrset = before.says(name, A).rrset
        assert rrset
        shown = positive([rrset], [zone.shower(name)])
        tries = f"A wildcard's records for {name_text} from the version before, with the {chain.word} record of now, which has the name."
        group.add(zone, name, A, shown, tries, by_chain(chain, "RFC 4035, 5.3.4", "RFC 5155, 8.8"))
        before, zone = versions(group, old, new, chain)
        rrset = before.says(name, A).rrset
        assert rrset
        shown = positive([rrset], unique(before.says(name, A).needs.values()))
        tries = f"A wildcard's records for {name_text} with the {chain.word} record of the version before, though the name is there now."
        group.add(zone, name, A, shown, tries, "RFC 4033, 12", "valid", ("secure", "wildcard"))


def cover(zone: Zone, name: tuple[bytes, ...]) -> list[Rrset]:
    """What shows that a name is not there, but for its wildcard."""
    if isinstance(zone.chain, Nsec):
        return [zone.shower(name)]
    return [*zone.encloser_proof(name).values()] if not zone.place(name)[1] else [zone.matching(()), zone.matching(name)]


def add_data(group: Group) -> None:
    """Records of two versions in one RRset, and signatures of one version over the records of another."""
    for what in ("with the old signature", "with the new signature", "with both signatures"):
        for of in ("the old records", "the new records", "the records of both"):
            before, zone = versions(group, "a:A", "b:A a:A", Nsec())
            name = relative("a")
            was, now = before.rrset(name, A), zone.rrset(name, A)
            data = {"the old records": was.data, "the new records": now.data}.get(of, was.data + now.data)
            signatures = {"with the old signature": was.signatures, "with the new signature": now.signatures}.get(what, was.signatures + now.signatures)
            is_right = (of == "the old records" and what != "with the new signature") or (of == "the new records" and what != "with the old signature")
            shown = positive([now.replace(data=data, signatures=signatures)])
            tries = f"The A record of a was replaced: {of} {what}."
            group.add(zone, name, A, shown, tries, "RFC 4035, 5.3.3", "valid" if is_right else "attack", ("secure", "answer") if is_right else BOGUS)
    for is_new, what in ((True, "the new serial"), (False, "the old serial")):
        before, zone = versions(group, "a:A c:A", "a:A b:A c:A", Nsec())
        name = relative("d")
        soa = zone.soa if is_new else before.soa
        proof = before if is_new else zone
        shown = negative(proof, proof.says(name, A).needs.values(), 3)
        shown = type(shown)(shown.answer, [soa, *shown.authority[1:]], shown.rcode)
        tries = f"NXDOMAIN for d with an SOA record of {what} beside records of the other version."
        group.add(zone, name, A, shown, tries, "RFC 2308, 3", "valid", ("secure", "nxdomain"))
