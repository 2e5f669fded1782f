"""Walks from a trust anchor down to a name: docs/use/RESOLVING.md."""

from __future__ import annotations

from collections.abc import Callable
from typing import Optional

from . import _c
from .types import (
    ASK, OUT_OF_MEMORY, WANT, Evidence, Message, Refused, Resolution, Verdict, Wanted, clock, name_of, octets_of,
)

# A message that answers a question, or None where no server replies. The number is 0, or 1 or 2 where the messages before were refused.
Fetch = Callable[[Wanted, int], Optional[Message]]
Checks = Callable[[bytes], bytes]
DNSKEY_TYPE = 48
# Refusals for which the zone's DNSKEY answer is fetched again, and those for which the answer is.
OF_KEYS = {17, 19, 20, 21}
OF_ANSWERS = {18, 22, 25, 27, 30, 51}
MOST_AGAIN, MOST_REPLACED = 2, 16
VERDICTS_WITH_RECORDS = Verdict.RECORDS, Verdict.WILDCARD


def _key(wanted: Wanted) -> tuple[bytes, bytes, int]:
    return wanted.zone.lower(), wanted.name.lower(), wanted.rtype


def _listed(messages: list[tuple[Wanted, bytes]]) -> bytes:
    """The messages as the library takes them."""
    found = []
    for wanted, octets in messages:
        question = _c.behind_length(wanted.zone) + _c.behind_length(wanted.name) + wanted.rtype.to_bytes(2, "big")
        found.append(question + _c.behind_length(octets, 4))
    return b"".join(found)


def _wanted(octets: bytes) -> list[Wanted]:
    found = []
    while octets:
        (zone, name), octets = _c.names(octets, 2)
        found.append(Wanted(zone, name, int.from_bytes(octets[:2], "big")))
        octets = octets[2:]
    return found


def _aliases(octets: bytes) -> tuple[list[bytes], bytes]:
    """The targets of aliases, behind their number in four octets, and what is behind them."""
    return _c.names(octets[4:], int.from_bytes(octets[:4], "big")) if octets else ([], b"")


class Walk:
    """A walk on its way: its messages, signatures, and how often a message was replaced."""

    def __init__(self, shared: _c.Shared, evidence: Evidence, algorithms: bytes, fetch: Fetch) -> None:
        self.shared, self.evidence, self.algorithms, self.fetch = shared, evidence, algorithms, fetch
        self.now = clock(evidence.now)
        self.messages = [(wanted, octets_of(it)) for wanted, it in evidence.messages]
        self.checked = evidence.checked
        self.replaced: list[tuple[bytes, bytes, int]] = []

    def call(self) -> tuple[int, bytes, _c.Report]:
        """One call of the library."""
        it = self.evidence
        ds = b"".join(_c.behind_length(octets_of(data)) for data in it.ds)
        names = {"anchor": name_of(it.anchor), "name": name_of(it.name)}
        lists = {"ds": ds, "messages": _listed(self.messages), "checked": self.checked, "algorithms": self.algorithms}
        limits = ("max_nsec3_iterations", "max_cuts", "max_aliases", "one_moment", "max_messages", "max_signatures", "max_work")
        numbers = {"now": self.now, "rtype": it.rtype, **{name: int(getattr(it, name)) for name in limits}}
        return self.shared.call("resolve_evidence", [_c.room_of(_c.Evidence, **names, **lists, **numbers)], "report")

    def fetched(self, wanted: Wanted, attempt: int) -> bool:
        message = self.fetch(wanted, attempt)
        if message is None:
            return False
        octets = octets_of(message)
        self.messages = [it for it in self.messages if attempt == 0 or _key(it[0]) != _key(wanted)]
        self.messages.append((wanted, octets))
        return True

    def replace(self, reply: int, octets: bytes) -> bool:
        """Fetches a message that is refused again. False if it is not to be, or does not come."""
        refused = _wanted(_aliases(octets)[1]) if reply in OF_KEYS | OF_ANSWERS else []
        if not refused or len(self.replaced) == MOST_REPLACED:
            return False
        wanted = Wanted(refused[0].zone, refused[0].zone, DNSKEY_TYPE) if reply in OF_KEYS else refused[0]
        times = self.replaced.count(_key(wanted))
        if times == MOST_AGAIN or not self.fetched(wanted, times + 1):
            return False
        self.replaced.append(_key(wanted))
        return True

    def to_its_end(self, check: Checks) -> tuple[int, bytes, _c.Report]:
        """Calls the library until it wants nothing more, or nothing comes."""
        while True:
            reply, octets, report = self.call()
            if reply == ASK:
                self.checked += check(octets)
            elif reply == WANT:
                if not any([self.fetched(it, 0) for it in _wanted(octets)]):
                    return reply, octets, report
            elif not self.replace(reply, octets):
                return reply, octets, report


def resolution_of(walk: Walk, reply: int, octets: bytes, report: _c.Report) -> Resolution:
    """What the output of a verdict says."""
    verdict = Verdict(reply)
    aliases, rest = _aliases(octets)
    names, rest = _c.names(rest, 1)
    name = names[0] if names else None
    is_insecure = verdict is Verdict.INSECURE
    return Resolution(
        verdict, None if is_insecure else name, name if is_insecure else None, aliases,
        _c.records(rest) if verdict in VERDICTS_WITH_RECORDS else [],
        report.ttl, report.until, report.ede, report.verifications, report.hashes, walk.messages, walk.checked,
    )


def refused_of(reply: int, text: str, octets: bytes, report: _c.Report) -> Exception:
    """What is raised for a reply that is no verdict."""
    if reply == OUT_OF_MEMORY:
        return MemoryError(text)
    wanted = _wanted(octets) if reply == WANT else _wanted(_aliases(octets)[1]) if octets else []
    return Refused(reply, text, report.ede, report.verifications, report.hashes, wanted[0] if wanted else None)
