"""A whole session explained, event by event."""

from __future__ import annotations

from collections.abc import Iterator

from . import bench, rtypes
from .canonical import UNLIKE, is_canonical
from .cases import Case
from .explained import Explained
from .explanations import explain
from .library import ZoneFault
from .names import Name
from .refused_calls import CALLS, PLACES, QUESTIONS, REPLACEMENTS, ZONES, why_refused
from .refused_zones import faulty_records, is_refused_for, wanting
from .replay import Replay
from .rtypes import type_text
from .sessions import Event, LineFault, Session, read_session
from .text import ds_text, key_text, message_lines

REFUSED, BAD_PLACE = "refused ", "BadPlace"
# The sets that events show.
SETS = {"ds": rtypes.DS, "cds": rtypes.CDS, "cdnskey": rtypes.CDNSKEY}


class Unlike(Exception):
    """This program reads or replays a session otherwise than the bench."""


def explained(octets: bytes, *, has_octets: bool) -> Iterator[Explained]:
    """What is said of a session, event by event; with `has_octets` messages and sets in hexadecimal."""
    printed = bench.printed(octets)
    number = bench.unreadable_line(printed)
    try:
        session = read_session(octets)
    except LineFault as unread:
        if number != unread.line.number:
            raise Unlike(f"line {unread.line.number}: {unread}; the bench prints: {' '.join(printed[:1])}") from None
        yield Explained(unread.line, printed[0], notes=list(unread.notes()))
        return
    if number is not None:
        raise Unlike(f"line {number}: the bench cannot read it")
    fault = _zone_fault(session, printed)
    if fault is not None:
        yield _refused_zone(session, fault, printed[0])
        return
    yield from _warnings(session)
    if len(printed) != len(session.events):
        raise Unlike(f"the bench prints {len(printed)} lines for {len(session.events)} events")
    try:
        events = _Events(session, has_octets=has_octets)
    except ZoneFault as refused:
        raise Unlike(f"line {refused.line}: the library refuses the zone: {refused}") from None
    for event, line in zip(session.events, printed):
        yield events.explained(event, line)


def _zone_fault(session: Session, printed: list[str]) -> str | None:
    """Why the zone itself is refused, if it is."""
    fault = printed[0].replace(REFUSED, "", 1) if len(printed) == 1 and printed[0].startswith(REFUSED) else ""
    is_only_event = len(session.events) == 1 and not is_refused_for(session, fault)
    return fault if fault in ZONES and not is_only_event else None


def _refused_zone(session: Session, fault: str, printed: str) -> Explained:
    """Why the zone is refused, which of its records say so, and what would be right."""
    faulty = [str(it.line) for it in faulty_records(session, fault)]
    return Explained(session.zone.line, printed, notes=[ZONES[fault], wanting(fault)], shown=faulty)


def _warnings(session: Session) -> Iterator[Explained]:
    """Records that are signed otherwise elsewhere."""
    for it in session.records:
        if not is_canonical(it.rtype, it.data):
            yield Explained(it.line, notes=[UNLIKE])


class _Events:
    """The events of a session, and what was shown so far, by places."""

    def __init__(self, session: Session, *, has_octets: bool) -> None:
        self.session, self.replay, self.has_octets = session, Replay(session), has_octets
        self.apex = session.zone.apex
        self.ds: dict[int, tuple[bytes, ...]] = {}
        self.keys: dict[int, bytes] = {}
        self.answers: dict[int, tuple[bytes, Name, int]] = {}

    def explained(self, event: Event, printed: str) -> Explained:
        told = Explained(event.line, printed, list(map(str, event.before)))
        if event.word in SETS:
            self._show_set(told, event)
        elif event.word in ("dnskey", "ask"):
            self._show_message(told, event)
        elif event.word in ("judge", "bytes"):
            self._judge(told, event)
        elif event.word == "replace":
            self._replace(told, event)
        else:
            self._call(told, event)
        return told

    def _call(self, told: Explained, event: Event) -> None:
        """A call on the keys: the rolls that run behind it, or why it is refused."""
        self._compare(event, told.printed, self.replay.call(event))
        if told.printed.startswith(REFUSED):
            told.notes += why_refused(CALLS, told.printed)
        told.notes += self.replay.rolls()

    def _replace(self, told: Explained, event: Event) -> None:
        if told.printed.startswith(REFUSED):
            told.notes.append(REPLACEMENTS[told.printed.replace(REFUSED, "", 1)])
            return
        self._compare(event, told.printed, self.replay.replace(event))
        told.notes.append(f"the zone is made anew of {len(event.records)} records")
        unlike = (it for it in event.records if not is_canonical(it.rtype, it.data))
        told.notes += (f"{it.owner} {type_text(it.rtype)}: {UNLIKE}" for it in unlike)

    def _show_set(self, told: Explained, event: Event) -> None:
        """The records of a set as `dig` writes them, or their data in hexadecimal."""
        rtype = SETS[event.word]
        records = self.replay.zone.records(rtype)
        if event.word == "ds":
            self.ds[self._place(told.printed)] = tuple(records)
        told.shown += (self._shown(event.word.upper(), key_text(it) if rtype == rtypes.CDNSKEY else ds_text(it), it) for it in records)

    def _shown(self, rtype: str, text: str | None, data: bytes) -> str:
        return data.hex() if self.has_octets else f"{self.apex} IN {rtype} {text}"

    def _show_message(self, told: Explained, event: Event) -> None:
        """A message as `dig` writes it, or in hexadecimal; or why the question is refused."""
        if told.printed.startswith(REFUSED):
            told.notes += why_refused(QUESTIONS, told.printed)
            return
        name, rtype = event.values[:2] if event.word == "ask" else (self.apex, rtypes.DNSKEY)
        message = self.replay.message(name, rtype, event.moment)
        if message is None:
            raise Unlike(f"line {event.line.number}: the library gives no message; the bench prints: {told.printed}")
        if event.word == "ask":
            self.answers[self._place(told.printed)] = message, name, rtype
        else:
            self.keys[self._place(told.printed)] = message
        told.shown += [message.hex()] if self.has_octets else message_lines(message)

    def _judge(self, told: Explained, event: Event) -> None:
        if told.printed == BAD_PLACE:
            told.notes.append(PLACES)
            return
        explanation = explain(self._case(event), told.printed)
        told.notes += explanation.words
        told.reasons = explanation.reasons

    def _case(self, event: Event) -> Case:
        """What a judgement is of."""
        if event.word == "judge":
            ds, dnskey, answer, moment = event.values
            messages, (octets, name, rtype) = self.keys[dnskey], self.answers[answer]
        else:
            ds, messages, octets, name, rtype, moment = event.values
        return Case(self.apex, self.ds[ds], messages, octets, name, rtype, moment, self.session.zone.limit)

    @staticmethod
    def _place(printed: str) -> int:
        return int(printed.split(" ")[1])

    @staticmethod
    def _compare(event: Event, printed: str, said: str) -> None:
        if said != printed:
            raise Unlike(f"line {event.line.number}: the library says {said!r}; the bench prints: {printed}")
