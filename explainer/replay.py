"""A session's zone, published by the library: messages, DS sets and rolls, as the bench has them."""

from __future__ import annotations

import struct
from collections.abc import Iterator

from . import rtypes
from .fields import ROLLS
from .library import Zone
from .messages import SECTIONS, Message, query, read_message
from .names import Name
from .sessions import Event, Session

# Phases of a roll (include/zermuita_zone.h): those of waits have a place for their TTL.
PHASES = {
    1: "first changes under way, then report1",
    2: "first wait, TTL {ttl}, ",
    3: "second changes under way, then report2",
    4: "second wait, TTL {ttl}, ",
    5: "last changes under way, then done",
}
WAITS = (2, 4)
SOA_COVERED = struct.pack(">H", rtypes.SOA)


class Replay:
    """The zone behind the events so far."""

    def __init__(self, session: Session) -> None:
        self.session, self.apex, self.records = session, session.zone.apex, session.records
        self.calls: list[str] = []
        self.zone = self._opened()
        # Whether a call or a replacement was accepted: before that the library takes no record for a replacement.
        self.has_begun = False
        # The latest moment of an accepted call, and moment and TTL of each roll's last report.
        self.latest = 0
        self.reports: dict[str, tuple[int, int]] = {}

    def call(self, event: Event) -> str:
        """Makes a call on the keys, and gives what the library answers."""
        said = self.zone.apply(event.line.text)
        if said.startswith("ok"):
            self.has_begun = True
            self.calls.append(event.line.text)
            self.latest = max(self.latest, event.moment)
            if event.word.startswith("report"):
                self.reports[event.values[0]] = event.moment, event.values[1]
        return said

    def replace(self, event: Event) -> str:
        """Replaces the records of the zone."""
        self.records = event.records
        if not self.has_begun:
            self.zone.close()
            self.zone = self._opened()
            return "ok"
        for record in event.records:
            self.zone.apply(record.line.text)
        return self.zone.apply(event.line.text)

    def _opened(self) -> Zone:
        """The zone of its records and calls, in which no second is closed by a replacement."""
        lines = [it.text for it in (self.session.zone.line, *(it.line for it in self.records))]
        return Zone("".join(f"{it}\n" for it in (*lines, *self.calls)))

    def rolls(self) -> Iterator[str]:
        """The rolls that run, each with its phase."""
        for roll in ROLLS:
            due = self.zone.due(roll)
            if due.phase:
                yield f"{roll}: {PHASES[due.phase].format(ttl=due.ttl)}{self._end(roll, due.begins) if due.phase in WAITS else ''}"

    def _end(self, roll: str, begins: int | None) -> str:
        end = sum(self.reports[roll]) if begins is None else begins
        return "over" if end <= self.latest else f"ends at {end}"

    def message(self, name: Name, rtype: int, now: int) -> bytes | None:
        """The zone's answer to a question, as its publisher makes it; None if the library gives none. Unlike the bench, the library
        has none in the second of a replacement or before: there the records of now answer."""
        response = self.zone.respond(query(name, rtype), now)
        if response is None:
            zone = self._opened()
            response = zone.respond(query(name, rtype), now)
            zone.close()
        return published(read_message(response), self._soa_ttl()) if response is not None else None

    def _soa_ttl(self) -> int:
        return next(it.ttl for it in self.records if it.rtype == rtypes.SOA and it.owner == self.apex)


def published(response: Message, ttl: int) -> bytes:
    """The publisher's message behind a server's response: without additional records, and with the SOA record's own TTL, which a
    server lowers in a denial (RFC 2308, 3)."""
    records = [record for record in response.records if record.section != SECTIONS[2]]
    answers = sum(record.section == SECTIONS[0] for record in records)
    out = struct.pack(">6H", 0, response.flags, 1, answers, len(records) - answers, 0)
    out += response.name.wire() + struct.pack(">HH", response.rtype, response.rclass)
    for record in records:
        data = response.data(record)
        is_soa = record.rtype == rtypes.SOA or (record.rtype == rtypes.RRSIG and data[:2] == SOA_COVERED)
        is_lowered = is_soa and record.section == SECTIONS[1]
        numbers = record.rtype, record.rclass, ttl if is_lowered else record.ttl, len(data)
        out += record.owner.wire() + struct.pack(">HHIH", *numbers) + data
    return out
