"""A signed zone that is served: docs/use/SERVER.md."""

from __future__ import annotations

import ctypes
import dataclasses
import enum
from collections.abc import Callable
from types import TracebackType
from typing import Any

from . import _c
from .types import Message, clock, octets_of

__all__ = ["Applied", "Due", "Facts", "Phase", "Roll", "Sign", "Zone", "ZoneRefused"]

DONE, UNTOLD, REFUSED, RESPONSE, NO_RESPONSE, SIGN, OUT_OF_MEMORY = 64, 65, 66, 67, 68, 69, 70
NEVER = (1 << 64) - 1
WRONG_TIMES = {76: "the time of the answer is not after the last replacement", 77: "signatures live no longer than `backdate`"}


class Roll(enum.IntEnum):
    """As `enum zermuita_roll` has it."""

    KSK_ROLL = 1
    KSK_DOUBLE_DS_ROLL = 2
    ZSK_ROLL = 3
    ZSK_DOUBLE_SIGNATURE_ROLL = 4
    CSK_ROLL = 5
    ALGORITHM_ROLL = 6


class Phase(enum.IntEnum):
    """As `enum zermuita_phase` has it."""

    NO_ROLL = 0
    PROPAGATION_1 = 1
    EXPIRY_1 = 2
    PROPAGATION_2 = 3
    EXPIRY_2 = 4
    ROLLED = 5


class ZoneRefused(Exception):
    """A line, a journal or a master file is refused, and nothing has changed. `line` counts from 1; 0 where it is not of one."""

    def __init__(self, reason: str, line: int = 0) -> None:
        super().__init__(f"line {line}: {reason}" if line else reason)
        self.reason = reason
        self.line = line


@dataclasses.dataclass(frozen=True)
class Applied:
    """What an accepted line tells. The line belongs behind the journal, with a line feed."""

    told: str | None
    """"ok" and the actions that are due; None where memory ran out for it: `Zone.due` tells it again."""


@dataclasses.dataclass(frozen=True)
class Due:
    """What is due in a roll."""

    phase: Phase
    actions: list[str]
    since: int | None
    """The first second in which the wait is accepted."""
    ttl: int
    """In a wait, the seconds of its report."""


@dataclasses.dataclass(frozen=True)
class Facts:
    """What the lines of a zone say about it."""

    apex: str
    """Its name as text, without a dot at the end unless it is the root."""
    last: int
    """The greatest time of a key call or a replacement; 0 if there is none."""
    answers_from: int
    """The first second that the zone answers, the one after its last replacement; 0 if there is none."""
    ttl: int
    """The greatest TTL of its records, those that were replaced included."""
    life: int
    """How many seconds a signature is valid."""


@dataclasses.dataclass(frozen=True)
class Sign:
    """A signature that is to be made."""

    dnskey: bytes
    """The data of the DNSKEY record."""
    octets: bytes


Signer = Callable[[Sign], bytes]


def _text(octets: bytes) -> str:
    return octets.decode("utf-8", "replace").rstrip("\n")


def _expect(reply: int, octets: bytes, report: Any, *allowed: int) -> int:
    """Raises what a reply means that is not one of those allowed."""
    if reply in allowed:
        return reply
    if reply == REFUSED:
        raise ZoneRefused(_text(octets), int(report.line))
    if reply == OUT_OF_MEMORY:
        raise MemoryError("memory ran out")
    if reply in WRONG_TIMES:
        raise ValueError(WRONG_TIMES[reply])
    raise ValueError(f"reply {reply} of a zone")


def zone_lines(shared: _c.Shared, text: bytes, chain: str, origin: str = "", apex: str = "") -> bytes:
    """The lines that a journal begins with, of a master file; `chain` as "nsec 0 604800". Without a chain those of the records alone."""
    master = _c.room_of(_c.Master, text=text, origin=origin.encode(), chain=chain.encode(), apex=apex.encode())
    reply, octets, report = shared.call("zone_lines_of", [master], "zone")
    _expect(reply, octets, report, DONE)
    return octets


class Zone:
    """A zone, opened from the lines of its journal. Use it in the thread that opened it; it closes at the end of a `with` block."""

    def __init__(self, shared: _c.Shared, journal: bytes) -> None:
        self._shared, self._handle = shared, _c.Handle()
        reply, octets, report = self._call("zone_open", journal, _c.SIZE(len(journal)))
        _expect(reply, octets, report, DONE)
        self.whole = int(report.whole)
        """How many octets of the journal are complete lines."""
        self.settled = int(report.settled)
        """How many it has up to the last line after which no record waits for its replacement."""

    def _call(self, name: str, *front: object, kind: str = "zone", first: int = 4096) -> tuple[int, bytes, Any]:
        return self._shared.call(name, [ctypes.byref(self._handle), *front], kind, first)

    def apply(self, line: str) -> Applied:
        """Applies a line without its line feed. Raises `ZoneRefused`."""
        octets = line.encode()
        # The library never asks for more room here: a line is accepted once.
        reply, out, report = self._call("zone_apply", octets, _c.SIZE(len(octets)), first=1 << 16)
        _expect(reply, out, report, DONE, UNTOLD)
        return Applied(None if reply == UNTOLD else _text(out))

    def respond(self, request: Message, sign: Signer, now: int | None = None, *, backdate: int = 3600, stream: bool = False,
                limit: int = 1232, udp_size: int = 1232) -> bytes | None:
        """Answers a request, with signatures that `sign` makes; None: nothing answers it. Where `sign` raises, send SERVFAIL."""
        octets, moment, made = octets_of(request), clock(now), b""
        for _ in range(2):
            numbers = {"now": moment, "backdate": backdate, "stream": stream, "limit": limit, "udp_size": udp_size}
            handed = _c.room_of(_c.Request, request=octets, made=made, **numbers)
            reply, out, report = self._call("zone_respond_to", handed)
            if _expect(reply, out, report, RESPONSE, NO_RESPONSE, SIGN) != SIGN:
                return out if reply == RESPONSE else None
            made = b"".join(_signed(Sign(dnskey, signed), sign, len(room)) for dnskey, signed, room in _c.parts(out, (2, 4, 2)))
        raise ValueError("a signature is missing")

    def due(self, roll: Roll) -> Due:
        reply, out, due = self._call("zone_due", _c.U32(roll), kind="due")
        _expect(reply, out, due, DONE)
        since = int(getattr(due, "from"))
        actions = _text(out).split("\n") if out else []
        return Due(Phase(due.phase), actions, None if since == NEVER else since, int(due.ttl))

    def facts(self) -> Facts:
        reply, out, facts = self._call("zone_facts", kind="facts")
        _expect(reply, out, facts, DONE)
        return Facts(_text(out), int(facts.last), int(facts.answers_from), int(facts.ttl), int(facts.life))

    def records(self, rtype: int) -> list[bytes]:
        """The data of the DNSKEY (48), DS (43), CDS (59) or CDNSKEY (60) records."""
        reply, out, report = self._call("zone_records", _c.U16(rtype))
        _expect(reply, out, report, DONE)
        return _c.records(out)

    def forget(self) -> None:
        """Drops the records that wait for their replacement."""
        self._shared.number("zone_forget", ctypes.byref(self._handle))

    def close(self) -> None:
        """Frees what the zone holds; a second time it does nothing."""
        self._shared.number("zone_close", ctypes.byref(self._handle))

    def __enter__(self) -> Zone:
        return self

    def __exit__(self, kind: type[BaseException] | None, error: BaseException | None, trace: TracebackType | None) -> None:
        self.close()

    def __del__(self) -> None:
        if hasattr(self, "_handle"):
            self.close()


def _signed(sign: Sign, signer: Signer, length: int) -> bytes:
    """An entry with its signature, which has so many octets; any number where that is 0, for an algorithm that is not known."""
    made = signer(sign)
    if length and len(made) != length:
        raise ValueError(f"a signature of {len(made)} octets, not of {length}")
    return _c.behind_length(sign.dnskey) + _c.behind_length(sign.octets, 4) + _c.behind_length(made)
