"""What is to be replied beyond the judge's verdict, by what zones say: of answers of name servers as they came that is known from their
records; of altered ones by a second reading of the messages, which looks for the signed records that a reply rests on."""

from __future__ import annotations

import collections
import dataclasses
import functools
import pathlib
import sys
from collections.abc import Container, Iterator

from answers import ALIAS, CNAME_TYPE, DELEGATED, DNAME, DNAME_TYPE, DS_TYPE, INCOMPLETE_DENIAL, INSECURE, NODATA, NOT_PROVEN, NS_TYPE
from answers import OPTOUT, RECORDS, REFERRAL, WILDCARD, WILDCARD_ALIAS, Answered, Reply, above, beyond, entries, found, labels, part
from lasting import IN, NSEC, NSEC3, Passing, Record, Signature, is_sought, records

sys.path.append(str(pathlib.Path(__file__).resolve().parents[1] / "aliases"))
import found as aliases  # noqa: E402
import zone as made  # noqa: E402


@dataclasses.dataclass
class Zone:
    """What is known of a zone: its delegations with their DS sets; of a zone that tests/aliases made, its records."""

    cuts: dict[bytes, list[bytes]]
    made: made.Zone | None = None

    def cut(self, name: bytes) -> bytes | None:
        """The topmost delegation at or above a name."""
        return next((it for it in reversed(above(name.lower())) if it in self.cuts), None)

    def lead(self, name: bytes) -> Reply:
        """Where a name leads that is an alias."""
        return found("find: " + aliases.lead(self.made, labels(name.lower())))


@functools.lru_cache(8192)
def rrsets(message: bytes) -> dict[tuple[bytes, int], list[Record]]:
    """The RRsets of class IN of a message, in its order; of octets that are none nothing."""
    found: dict[tuple[bytes, int], list[Record]] = {}
    try:
        for it, _ in records(message):
            if it.rclass == IN:
                found.setdefault((it.owner, it.rtype), []).append(it)
    except IndexError:
        return {}
    return found


def is_below(name: bytes, other: bytes) -> bool:
    """Whether a name is strictly below another one."""
    return other.lower() in above(name.lower())[1:]


def made_zone(apex: bytes) -> Zone:
    """A zone that tests/aliases made."""
    zone = made.Zone(*(label.decode() for label in labels(apex)[:3]))
    return Zone({made_wire(cut): zone.records[cut].get(DS_TYPE, []) for cut in zone.cuts}, zone)


def made_wire(name: tuple[bytes, ...]) -> bytes:
    return b"".join(part(label, 1) for label in name) + b"\0"


def seen_zone(apex: bytes, answers: list[Answered]) -> Zone:
    """Another zone: its delegations are those that servers name in answers, as they came, for names that are delegated."""
    cuts: dict[bytes, list[bytes]] = {}
    for it in answers:
        if it.verdict == DELEGATED:
            of_ns = (owner for owner, rtype in rrsets(it.answer) if rtype == NS_TYPE)
            cuts |= {owner: [] for owner in of_ns if is_below(owner, apex) and owner in above(it.name.lower())}
    for it in answers:
        for (owner, rtype), rrset in rrsets(it.answer).items():
            if rtype == DS_TYPE and owner in cuts:
                cuts[owner] = sorted(record.raw for record in rrset)
    return Zone(cuts)


def zones(judged: list[tuple[Answered, Reply | None]]) -> dict[bytes, Zone]:
    """What is known of all zones."""
    came = collections.defaultdict(list)
    for it, _ in judged:
        came[it.apex] += [it] if it.said.startswith("answer: ") else []
    is_made = {apex: len(labels(apex)) == 4 and labels(apex)[0] in (b"alias", b"dname") for apex in came}
    return {apex: made_zone(apex) if is_made[apex] else seen_zone(apex, answers) for apex, answers in came.items()}


def referral(zone: Zone, cut: bytes) -> Reply:
    return Reply(REFERRAL, cut + b"".join(map(part, zone.cuts[cut])))


def may_be(it: Answered, zone: Zone) -> Iterator[Reply]:
    """All that may be replied to a question, by what the zone says of it; and that it is insecure, which is for other tests to judge."""
    if it.verdict is None:
        yield zone.lead(it.name)
    elif it.verdict == DELEGATED:
        cut = zone.cut(it.name)
        yield Reply(DELEGATED)
        if cut is not None:
            yield Reply(DELEGATED, cut)
            if zone.cuts[cut]:
                yield referral(zone, cut)
    elif it.verdict == NODATA and it.rtype == DS_TYPE:
        yield Reply(NODATA)
        yield Reply(NODATA, b"", delegates(it, zone))
    else:
        yield Reply(it.verdict, b"".join(map(part, it.data)))


def delegates(it: Answered, zone: Zone) -> int:
    return 1 if it.name.lower() in zone.cuts else 2


def signed(it: Answered, passing: Passing, owner: bytes, rtype: int) -> list[Record]:
    """The records of an RRset that a signature of the zone over the owner's own name makes good at the moment, or none."""
    rrset = rrsets(it.answer).get((owner, rtype), [])
    labels = len(above(owner)) - 1
    for _, signature in records(it.answer) if rrset else ():
        if signature and (signature.owner, signature.covered) == (owner, rtype) and signature.fields[3] == labels:
            is_zones = signature.fields[18:] == it.apex.lower() and signature.inception <= it.now <= signature.expiration
            if is_zones and passing.has(signature, rrset):
                return rrset
    return []


def hinted_cut(it: Answered) -> bytes | None:
    """The owner of the first NS record at or above the name, below the apex."""
    owners = (owner for owner, rtype in rrsets(it.answer) if rtype == NS_TYPE)
    return next((owner for owner in owners if is_below(owner, it.apex) and owner in above(it.name.lower())), None)


def rests_on(it: Answered) -> dict[tuple[bytes, int], list[Record]]:
    """The RRsets that a verdict would rest on: that of the question where it is there, else those of the chain."""
    sets = rrsets(it.answer)
    asked = it.name.lower(), it.rtype
    if asked in sets:
        return {asked: sets[asked]}
    return {key: rrset for key, rrset in sets.items() if key[1] in (NSEC, NSEC3) and is_sought(it, *key, rrset)}


def told_of(it: Answered) -> Answered:
    """The case of which it is told why nothing is proven: of the DNAME, the CNAME or DS at the cut that the answer suggests, else the
    case itself."""
    sets, name, apex = rrsets(it.answer), it.name.lower(), it.apex.lower()
    dnames = (owner for owner, rtype in sets if rtype == DNAME_TYPE)
    dname = next((owner for owner in dnames if is_below(name, owner) and apex in above(owner)), None)
    if dname is not None:
        return dataclasses.replace(it, name=dname, rtype=DNAME_TYPE)
    if it.rtype != CNAME_TYPE and (name, CNAME_TYPE) in sets and apex in above(name):
        return dataclasses.replace(it, rtype=CNAME_TYPE)
    cut = hinted_cut(it)
    return it if cut is None else dataclasses.replace(it, name=cut, rtype=DS_TYPE)


def over(message: bytes, apex: bytes, sets: Container[tuple[bytes, int]]) -> list[Signature]:
    """The zone's signatures over some RRsets."""
    found = [it for _, it in records(message) if it]
    return [it for it in found if (it.owner, it.covered) in sets and it.fields[18:] == apex.lower()]


def is_incomplete(case: Answered, passing: Passing) -> bool:
    """Whether one of the RRsets that an answer rests on is verified: where nothing is proven, a record is missing beside it then. Of
    answers that are judged as they stand none is: they are refused here because data are not in the form in which they were signed."""
    it = told_of(case)
    sets = rests_on(it)
    holding = [one for one in over(it.answer, it.apex, sets) if one.inception <= it.now <= one.expiration]
    return not it.as_received and any(passing.has(one, sets[one.owner, one.covered]) for one in holding)


def unproven(it: Answered, passing: Passing) -> Reply:
    """What is to be replied where nothing is proven."""
    return Reply(INCOMPLETE_DENIAL if is_incomplete(it, passing) else NOT_PROVEN)


def replied_to(it: Answered, said: Reply | None, zone: Zone, passing: Passing) -> Reply:
    """What is to be replied, by what the judge itself says."""
    judged = NOT_PROVEN if it.told[0] in (ALIAS, WILDCARD_ALIAS, DNAME, REFERRAL, INCOMPLETE_DENIAL) else it.told[0]
    if said:
        return said
    if judged == INSECURE or judged > INSECURE and judged != NOT_PROVEN:
        return Reply(judged)
    if judged == NOT_PROVEN:
        dname = next((owner for owner, rtype in rrsets(it.answer) if rtype == DNAME_TYPE and is_below(it.name, owner)), None)
        if dname is not None:
            return zone.lead(it.name) if signed(it, passing, dname, DNAME_TYPE) else unproven(it, passing)
        if signed(it, passing, it.name.lower(), CNAME_TYPE):
            return zone.lead(it.name)
        cut = hinted_cut(it)
        return referral(zone, cut) if cut is not None and signed(it, passing, cut, DS_TYPE) else unproven(it, passing)
    if judged == DELEGATED:
        return Reply(DELEGATED, hinted_cut(it) or b"")
    if judged == NODATA and it.rtype == DS_TYPE:
        return Reply(NODATA, b"", delegates(it, zone))
    return Reply(judged, b"".join(map(part, it.data)) if judged in (RECORDS, WILDCARD) else b"")


def replied(judged: list[tuple[Answered, Reply | None]]) -> Iterator[Answered]:
    """All answers, with what is to be replied, and what may be replied to their questions."""
    known, passing = zones(judged), Passing(entries())
    for it, said in judged:
        zone = known[it.apex]
        reply = replied_to(it, said, zone, passing)
        line = beyond(it.said) if it.said.endswith(", as the zone says") else None
        if line and (line.number, line.octets.lower()) != (reply.number, reply.octets.lower()):
            raise ValueError(f"{it.said}, and by the zone {reply}")
        if it.told[0] in (NOT_PROVEN, INCOMPLETE_DENIAL) and it.told[0] != reply.number:
            raise ValueError(f"{it.said}, for {it.name!r} {it.rtype}, and by the message {reply}")
        yield dataclasses.replace(it, reply=reply, may_be=tuple(sorted(set(may_be(it, zone)))))


def first_name(octets: bytes) -> bytes:
    """The name in front of octets, or of none."""
    end = 0
    while octets and octets[end]:
        end += 1 + octets[end]
    return octets[: end + 1]


def questions(it: Answered) -> list[Answered]:
    """The case for each question that its reply rests on: its own, and that of an alias, of NS, of DS."""
    first = first_name(it.reply.octets) if it.reply.number >= DELEGATED else b""
    own = dataclasses.replace(it, other_question=1)
    is_alias = (it.name.lower(), CNAME_TYPE) in rrsets(it.answer)
    if it.reply.number in (ALIAS, WILDCARD_ALIAS) or it.reply.number == OPTOUT and is_alias:
        # A wildcard's alias shows that opt-out leaves the name open.
        return [dataclasses.replace(own, rtype=CNAME_TYPE)]
    if it.reply.number == DNAME:
        return [dataclasses.replace(own, name=first, rtype=DNAME_TYPE)]
    if it.reply.number == REFERRAL:
        return [dataclasses.replace(own, name=first, rtype=DS_TYPE)]
    if it.reply.number == DELEGATED and first:
        return [it, *(dataclasses.replace(own, name=first, rtype=rtype) for rtype in (NS_TYPE, DS_TYPE))]
    if it.reply.delegates and it.name.lower() != it.apex.lower():
        return [it, dataclasses.replace(own, rtype=NS_TYPE)]
    return [it]
