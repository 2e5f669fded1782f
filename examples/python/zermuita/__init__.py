"""What signed DNS zones say of a name, judged by the C library zermuita through ctypes.

    library = zermuita.Library()
    judgement = library.judge(zermuita.Case(apex, ds, dnskey, answer, name, rtype=1))
    resolution = library.resolve(zermuita.Evidence(anchor, ds, name, rtype=1), fetch)
    zone = library.open_zone(journal)

Names are in wire form, text, or dnspython's; messages octets or dnspython's. Signatures are checked by the package `cryptography`, or
by a function of an `Ask` that is handed in. Where the messages prove no verdict, `Refused` is raised; what can't be read raises
`ValueError`, and `MemoryError` is raised where memory ran out. Calls may be made in any number of threads at once; a zone is used in
the thread that opened it.
"""

from __future__ import annotations

from collections.abc import Callable, Iterable
from typing import Any

from . import _c, walk
from ._c import behind_length
from .text import Anchors, ds_from_key, ds_from_text, name_from_text, name_to_text
from .types import (
    ASK, OUT_OF_MEMORY, TOO_MANY_SIGNATURES, WANT, Ask, Case, Evidence, Judgement, Message, Name, Refused, Resolution, Security, Verdict,
    Wanted, clock, name_of, octets_of, security_of,
)
from .walk import Fetch
from .zone import Applied, Due, Phase, Roll, Sign, Zone, ZoneRefused, zone_lines

__all__ = [
    "ASK", "OUT_OF_MEMORY", "SONAME", "TOO_MANY_SIGNATURES", "WANT", "Anchors", "Applied", "Ask", "Case", "Due", "Evidence", "Fetch",
    "Judgement", "Library", "Message", "Name", "Passes", "Phase", "Refused", "Resolution", "Roll", "Security", "Sign", "Verdict",
    "Wanted", "Zone", "ZoneRefused", "behind_length", "ds_from_key", "ds_from_text", "name_from_text", "name_to_text", "security_of",
]

# The shared object that this module is written for. A version that may break it has another name.
SONAME = "libzermuita.so.0.2"
# What `enum zermuita_delegates` says of a name.
DELEGATES = (None, True, False)
Passes = Callable[[Ask], bool]


def _places(octets: bytes) -> tuple[list[int], bytes]:
    """The places in front of the output of a verdict, behind how many there are, each in four octets, and what is behind them."""
    count, *places = (int.from_bytes(octets[at : at + 4], "big") for at in range(0, 4 + 4 * int.from_bytes(octets[:4], "big"), 4))
    return places, octets[4 + 4 * count :]


def _said(verdict: Verdict, octets: bytes) -> dict[str, Any]:
    """What the output of a verdict says, as fields of a judgement."""
    if verdict in (Verdict.RECORDS, Verdict.WILDCARD):
        return {"records": _c.records(octets)}
    names, rest = _c.names(octets, 2 if verdict == Verdict.DNAME else 1)
    first, second = [*names, None, None][:2]
    if verdict in (Verdict.ALIAS, Verdict.WILDCARD_ALIAS):
        return {"records": [], "target": first}
    if verdict == Verdict.DNAME:
        return {"records": [], "owner": first, "target": second}
    return {"records": [], "cut": first, "ds": _c.records(rest)}


def _entries(octets: bytes, passes: Passes) -> bytes:
    """The entries that are asked for, with whether each passes."""
    asks = (Ask(*row) for row in _c.parts(octets, (2, 4, 2), gap=1))
    return b"".join(it.entry(passes(it)) for it in asks)


def _checks(passes: Passes | None, algorithms: Iterable[int]) -> tuple[Passes, bytes]:
    """The function that checks signatures, and the algorithms that count."""
    if passes is not None:
        return passes, bytes(algorithms)
    from . import signatures

    return signatures.signature_passes, bytes(algorithms) or bytes(signatures.ALGORITHMS)


def room_of_case(case: Case, now: int, checked: bytes, algorithms: bytes) -> Any:
    """A case as the library reads it."""
    ds = b"".join(behind_length(octets_of(it)) for it in case.ds)
    names = {"apex": name_of(case.apex), "name": name_of(case.name)}
    octets = {"ds": ds, "dnskey": octets_of(case.dnskey), "answer": octets_of(case.answer), "checked": checked}
    numbers = {"now": now, "rtype": case.rtype, "rclass": case.rclass, "max_nsec3_iterations": case.max_nsec3_iterations}
    flags = ("one_moment", "as_received", "max_signatures", "other_question", "no_ds", "places")
    more = {name: int(getattr(case, name)) for name in flags}
    return _c.room_of(_c.Case, **names, **octets, **numbers, **more, algorithms=algorithms)


class Library:
    """The shared object, by its name, where the system's linker finds it, or by its path."""

    def __init__(self, path: str = SONAME) -> None:
        self._shared = _c.Shared(path)

    @property
    def version(self) -> tuple[int, int, int]:
        number = self._shared.number("version")
        return number >> 16, number >> 8 & 255, number & 255

    def strerror(self, reply: int) -> str:
        """The name of a reply and a sentence."""
        return self._shared.text(reply)

    def judge(self, case: Case, passes: Passes | None = None, checked: bytes = b"") -> Judgement:
        """Judges, beginning with signatures that were checked. Without `passes` they are checked by the package `cryptography`."""
        check, algorithms = _checks(passes, case.algorithms)
        now = clock(case.now)
        while True:
            reply, octets, report = self._call(case, now, checked, algorithms)
            if reply != ASK:
                break
            checked += _entries(octets, check)
        if not self._shared.number("is_verdict", _c.U32(reply)):
            raise self._error(reply, report)
        verdict = Verdict(reply)
        said = {name: getattr(report, name) for name in ("verifications", "hashes", "ttl", "until", "ede")}
        places: list[int] | None = None
        if case.places and verdict != Verdict.INSECURE:
            places, octets = _places(octets)
        delegates = DELEGATES[report.delegates]
        return Judgement(verdict, checked=checked, **said, **_said(verdict, octets), delegates=delegates, places=places)

    def resolve(self, evidence: Evidence, fetch: Fetch, passes: Passes | None = None) -> Resolution:
        """Walks from a trust anchor down. `fetch` is asked for each message that is wanted, and again, for one of another server, where
        a message is refused. Where nothing comes, `Refused` has the reply WANT."""
        check, algorithms = _checks(passes, evidence.algorithms)
        going = walk.Walk(self._shared, evidence, algorithms, fetch)
        reply, octets, report = going.to_its_end(lambda asks: _entries(asks, check))
        if self._shared.number("is_verdict", _c.U32(reply)):
            return walk.resolution_of(going, reply, octets, report)
        if reply == WANT or self._shared.number("is_refusal", _c.U32(reply)):
            raise walk.refused_of(reply, self.strerror(reply), octets, report)
        raise ValueError(self.strerror(reply))

    def open_zone(self, journal: bytes) -> Zone:
        """Opens a zone from the lines of its journal."""
        return Zone(self._shared, journal)

    def zone_lines(self, text: bytes, chain: str, origin: str = "", apex: str = "") -> bytes:
        """The lines that a zone's journal begins with, of its master file; `chain` as "nsec 0 604800" (zermuita_zone_lines(3)). The
        origin of relative names, and the zone that it has to be, are text."""
        return zone_lines(self._shared, text, chain, origin, apex)

    def _error(self, reply: int, report: _c.Report) -> Exception:
        """What is raised for a reply that is no verdict."""
        text = self.strerror(reply)
        if reply == OUT_OF_MEMORY:
            return MemoryError(text)
        if self._shared.number("is_refusal", _c.U32(reply)):
            return Refused(reply, text, report.ede, report.verifications, report.hashes)
        return ValueError(text)

    def _call(self, case: Case, now: int, checked: bytes, algorithms: bytes) -> tuple[int, bytes, _c.Report]:
        return self._shared.call("judge_case", [room_of_case(case, now, checked, algorithms)], "report")
