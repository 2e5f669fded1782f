"""Messages: a header, one question, and the records of all sections (RFC 1035, 4.1)."""

from __future__ import annotations

import dataclasses
import struct

from .names import CutOff, Malformed, Name, read_name

HEADER = 12
# What `flags` of a header has besides the response code (RFC 1035, 4.1.1; RFC 4035, 3.2).
FLAGS = ((0x8000, "qr"), (0x0400, "aa"), (0x0200, "tc"), (0x0100, "rd"), (0x0080, "ra"), (0x0020, "ad"), (0x0010, "cd"))
STATUSES = ("NOERROR", "FORMERR", "SERVFAIL", "NXDOMAIN", "NOTIMP", "REFUSED")
SECTIONS = ("ANSWER", "AUTHORITY", "ADDITIONAL")


class MessageFault(ValueError):
    """Why octets are no message with one question."""


@dataclasses.dataclass(frozen=True)
class Record:
    """A record. Its data are the octets of its message from `start` to `end`."""

    owner: Name
    rtype: int
    rclass: int
    ttl: int
    start: int
    end: int
    section: str


@dataclasses.dataclass(frozen=True)
class Message:
    octets: bytes
    flags: int
    name: Name
    rtype: int
    rclass: int
    records: tuple[Record, ...]

    def data(self, record: Record) -> bytes:
        return self.octets[record.start : record.end]

    @property
    def status(self) -> str:
        """The response code."""
        code = self.flags % 16
        return STATUSES[code] if code < len(STATUSES) else f"RESERVED{code}"


def read_message(octets: bytes) -> Message:
    """The message of octets. Octets behind the last record that the header counts are passed over."""
    try:
        return _read(octets)
    except (CutOff, struct.error):
        raise MessageFault("message is too short") from None
    except Malformed:
        raise MessageFault("message has a malformed name") from None


def _read(octets: bytes) -> Message:
    _id, flags, questions, *counts = struct.unpack_from(">6H", octets)
    if questions != 1:
        raise MessageFault("message has not one question")
    name, at = read_name(octets, HEADER)
    rtype, rclass = struct.unpack_from(">HH", octets, at)
    at += 4
    records = []
    for section, count in zip(SECTIONS, counts):
        for _ in range(count):
            record = _record(octets, at, section)
            records.append(record)
            at = record.end
    return Message(octets, flags, name, rtype, rclass, tuple(records))


def _record(octets: bytes, at: int, section: str) -> Record:
    owner, at = read_name(octets, at)
    rtype, rclass, ttl, length = struct.unpack_from(">HHIH", octets, at)
    start = at + 10
    if start + length > len(octets):
        raise CutOff
    return Record(owner, rtype, rclass, ttl, start, start + length, section)


def query(name: Name, rtype: int) -> bytes:
    """A query of class IN with an OPT record and DO (RFC 6891, 6.1; RFC 3225, 3)."""
    head = struct.pack(">6H", 0, 0, 1, 0, 0, 1)
    opt = b"\0" + struct.pack(">HHIH", 41, 0xFFFF, 0x8000, 0)
    return head + name.wire() + struct.pack(">HH", rtype, 1) + opt
