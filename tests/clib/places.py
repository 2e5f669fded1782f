"""Which records of an answer a verdict vouches for, told from the message by RFC 4035, 5.3: a second reading beside the library's."""

from __future__ import annotations

from answers import Answered
from lasting import IN, Passing, Record, Signature, is_sought, records


def places(cases: list[Answered], passing: Passing) -> list[int]:
    """The numbers of the records that a reply vouches for, of all questions that it rests on."""
    return sorted({number for it in cases for number in places_of(it, passing)})


def places_of(case: Answered, passing: Passing) -> list[int]:
    """The numbers of the records of an answer, counted over its sections, of the RRsets that are sought and that a signature makes good."""
    found = list(records(case.answer))
    rrsets: dict[tuple[bytes, int], list[Record]] = {}
    for it, _ in found:
        if it.rclass == IN:
            rrsets.setdefault((it.owner, it.rtype), []).append(it)
    good = {key for key, rrset in rrsets.items() if is_good(case, *key, rrset, [it for _, it in found if it], passing)}
    return [number for number, (it, _) in enumerate(found) if it.rclass == IN and (it.owner, it.rtype) in good]


def is_good(case: Answered, owner: bytes, rtype: int, rrset: list[Record], signatures: list[Signature], passing: Passing) -> bool:
    """Whether an RRset is sought, and a signature of the zone passes over it at the moment."""
    over = [it for it in signatures if (it.owner, it.covered, it.fields[18:]) == (owner, rtype, case.apex.lower())]
    holding = [it for it in over if it.inception <= case.now <= it.expiration]
    return is_sought(case, owner, rtype, rrset) and any(passing.has(it, rrset) for it in holding)


def split(octets: bytes) -> tuple[list[int], bytes]:
    """The places in front of a verdict's octets, and what is behind them."""
    end = 4 + 4 * int.from_bytes(octets[:4], "big")
    return [int.from_bytes(octets[at : at + 4], "big") for at in range(4, end, 4)], octets[end:]
