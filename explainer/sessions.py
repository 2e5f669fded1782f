"""Sessions as they are read, line by line: a zone, its records, and events (docs/use/SESSIONS.md)."""

from __future__ import annotations

import dataclasses
from collections.abc import Callable, Iterator
from typing import Any, NoReturn

from . import fields, forms
from .forms import Form
from .names import Name


@dataclasses.dataclass(frozen=True)
class Line:
    """A line that counts, with its number, from 1 on."""

    number: int
    text: str

    def __str__(self) -> str:
        return f"{self.number}: {self.text}"


@dataclasses.dataclass(frozen=True)
class Zone:
    line: Line
    apex: Name
    mode: str
    iterations: int
    limit: int
    life: int


@dataclasses.dataclass(frozen=True)
class ZoneRecord:
    line: Line
    owner: Name
    ttl: int
    rclass: int
    rtype: int
    data: bytes


@dataclasses.dataclass(frozen=True)
class Event:
    """An event: the values of its fields behind the word, the lines of records before it, and those by which it replaces the zone."""

    line: Line
    word: str
    values: tuple[Any, ...]
    before: tuple[Line, ...] = ()
    records: tuple[ZoneRecord, ...] = ()

    @property
    def moment(self) -> int:
        return int(self.values[-1])


@dataclasses.dataclass(frozen=True)
class Session:
    zone: Zone
    records: tuple[ZoneRecord, ...]
    events: tuple[Event, ...]


class LineFault(ValueError):
    """Why a line cannot be read, and what would be right: sentences."""

    def __init__(self, reason: str, form: Form, *, shows_fields: bool = False, lists_events: bool = False) -> None:
        super().__init__(reason)
        self.line = Line(0, "")
        self.form, self.shows_fields, self.lists_events = form, shows_fields, lists_events

    def notes(self) -> Iterator[str]:
        yield str(self)
        if self.shows_fields:
            yield f"the fields of such a line: {self.form}"
        if self.lists_events:
            yield f"events: {', '.join(forms.EVENTS)}"
        yield f"line {self.line.number}: {self.form.advice()}"


def lines_of(octets: bytes) -> Iterator[tuple[int, bytes]]:
    """Lines with their numbers; a last one need not end in a line feed."""
    lines = octets.split(b"\n")
    return iter(enumerate(lines if lines[-1] else lines[:-1], 1))


def read_session(octets: bytes) -> Session:
    """The session of an input; raises `LineFault` at the first line that cannot be read."""
    reading = _Reading()
    number = 0
    for number, line in lines_of(octets):
        if line and not line.startswith(b"#"):
            try:
                reading.take(number, line)
            except LineFault as fault:
                fault.line = Line(number, shown(line))
                raise
    if reading.zone is None:
        missing = LineFault("the input ends without a line of a zone", forms.ZONE)
        missing.line = Line(number + 1, "")
        raise missing
    return Session(reading.zone, tuple(reading.records), tuple(reading.events))


def shown(line: bytes) -> str:
    """A line as text."""
    try:
        return line.decode()
    except UnicodeDecodeError:
        return "(no text)"


class _Reading:
    """What was read so far, and the records that are gathered for the next event."""

    def __init__(self) -> None:
        self.zone: Zone | None = None
        self.records: list[ZoneRecord] = []
        self.events: list[Event] = []
        # Records for the next replacement, and the lines of those behind the last event.
        self.gathered: list[ZoneRecord] = []
        self.before: list[Line] = []

    def take(self, number: int, octets: bytes) -> None:
        try:
            line = Line(number, octets.decode())
        except UnicodeDecodeError:
            raise LineFault("it is no text in UTF-8", forms.ASK, lists_events=True) from None
        words = line.text.split(" ")
        if self.zone is None:
            self.zone = _zone(line, words)
        elif words[0] == "rr":
            self._add(_record(line, words))
        else:
            word, values = _event(words)
            records = self._taken() if word == "replace" else ()
            self.events.append(Event(line, word, values, tuple(self.before), records))
            self.before = []

    def _add(self, record: ZoneRecord) -> None:
        if self.events:
            self.gathered.append(record)
            self.before.append(record.line)
        else:
            self.records.append(record)

    def _taken(self) -> tuple[ZoneRecord, ...]:
        """The records for a replacement, which leaves none."""
        records, self.gathered = tuple(self.gathered), []
        return records


def _refuse_fields(form: Form) -> NoReturn:
    raise LineFault(f"other fields than such a line has, one blank apart: {form}", form)


def _field(form: Form, words: list[str], place: int, read: Callable[..., Any], *more: Any) -> Any:
    """The value of the field at a place, counted from 1 on."""
    try:
        return read(words[place - 1], *more)
    except fields.FieldFault as fault:
        raise LineFault(f"field {place} ({form.fields[place - 1]}): {fault}", form, shows_fields=True) from None


def _mode(text: str, known: tuple[str, ...]) -> str:
    if text not in known:
        raise fields.FieldFault("neither nsec nor nsec3 nor nsec3optout")
    return text


def _zone(line: Line, words: list[str]) -> Zone:
    if words[0] != "zone":
        raise LineFault("the first line is that of a zone", forms.ZONE)
    mode = words[2] if len(words) > 2 else ""
    form = {5: forms.ZONE, 7: forms.HASHED_ZONE}.get(len(words))
    by_mode = {"nsec": forms.ZONE, "nsec3": forms.HASHED_ZONE, "nsec3optout": forms.HASHED_ZONE}.get(mode)
    if form is None or by_mode not in (None, form):
        _refuse_fields(by_mode or forms.ZONE)
    _field(form, words, 3, _mode, fields.MODES)
    apex = _field(form, words, 2, fields.name)
    iterations = 0
    if form is forms.HASHED_ZONE:
        iterations = _field(form, words, 4, fields.number, 16)
        _field(form, words, 5, fields.octets, fields.MOST_OF_A_SALT)
    limit = _field(form, words, len(words) - 1, fields.number, 16)
    return Zone(line, apex, mode, iterations, limit, _field(form, words, len(words), fields.life))


def _record(line: Line, words: list[str]) -> ZoneRecord:
    form = forms.RECORD
    if len(words) != len(form.fields):
        _refuse_fields(form)
    owner = _field(form, words, 2, fields.name)
    ttl = _field(form, words, 3, fields.number, 32)
    rclass = _field(form, words, 4, fields.number, 16)
    rtype = _field(form, words, 5, fields.number, 16)
    data = _field(form, words, 6, lambda text: fields.record_data(rtype, text))
    return ZoneRecord(line, owner, ttl, rclass, rtype, data)


def _number(bits: int) -> Callable[[str], int]:
    return lambda text: fields.number(text, bits)


# What reads the fields of an event behind its word, but for the moment.
READERS: dict[str, tuple[Callable[[str], Any], ...]] = {
    "key": (fields.kind, fields.reference, _number(8), fields.key),
    "start": (fields.roll, fields.references, fields.references),
    "report1": (fields.roll, _number(32)),
    "wait1": (fields.roll,),
    "report2": (fields.roll, _number(32)),
    "wait2": (fields.roll,),
    "done": (fields.roll,),
    "delete": (fields.reference,),
    "ask": (fields.name, _number(16)),
    "judge": (_number(64), _number(64), _number(64)),
    "bytes": (_number(64), fields.octets, fields.octets, fields.name, _number(16)),
}
# A kind is looked at behind the other fields of its line.
LAST = {"key": 0}


def _event(words: list[str]) -> tuple[str, tuple[Any, ...]]:
    """The word and the values of an event."""
    form = forms.EVENTS.get(words[0])
    if form is None:
        reason = "such a line is the first of a session" if words[0] == "zone" else "no line begins with this word"
        raise LineFault(reason, forms.ASK, lists_events=True)
    if len(words) != len(form.fields):
        _refuse_fields(form)
    moment = _field(form, words, len(words), fields.number, 64)
    readers = READERS.get(form.word, ())
    last = LAST.get(form.word)
    values: dict[int, Any] = {}
    for at in sorted(range(len(readers)), key=lambda at: at == last):
        values[at] = _field(form, words, at + 2, readers[at])
    return form.word, (*(values[at] for at in range(len(readers))), moment)
