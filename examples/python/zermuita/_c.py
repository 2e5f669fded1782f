"""The structures and functions of zermuita.h and zermuita_zone.h, by ctypes."""

from __future__ import annotations

import ctypes
from collections.abc import Iterator, Sequence
from typing import Any

# What the library may read of a structure and write of a report, whatever the sizes that this module knows.
ROOM = 256
BUFFER_TOO_SMALL, ZONE_BUFFER_TOO_SMALL = 34, 71


class Octets(ctypes.Structure):
    _fields_ = [("data", ctypes.c_char_p), ("len", ctypes.c_size_t)]


U16, U32, U64, SIZE = ctypes.c_uint16, ctypes.c_uint32, ctypes.c_uint64, ctypes.c_size_t


def members(*groups: tuple[Any, str]) -> list[tuple[str, Any]]:
    """Members behind the size: names in groups of one type."""
    return [("size", SIZE), *((name, kind) for kind, names in groups for name in names.split())]


class Case(ctypes.Structure):
    _fields_ = members(
        (Octets, "apex ds dnskey answer name checked"),
        (U64, "now"),
        (U16, "rtype rclass max_nsec3_iterations"),
        (U32, "one_moment as_received"),
        (Octets, "algorithms"),
        (U32, "max_signatures other_question no_ds places"),
    )


class Evidence(ctypes.Structure):
    _fields_ = members(
        (Octets, "anchor ds name messages checked algorithms"),
        (U64, "now"),
        (U16, "rtype max_nsec3_iterations max_cuts max_aliases one_moment max_messages"),
        (U32, "max_signatures"),
        (U64, "max_work"),
    )


class Report(ctypes.Structure):
    _fields_ = members((SIZE, "len"), (U64, "until verifications hashes"), (U32, "ttl"), (U16, "ede delegates"))


class ZoneReport(ctypes.Structure):
    _fields_ = members((SIZE, "len line whole settled"))


class Due(ctypes.Structure):
    _fields_ = members((SIZE, "len"), (U64, "from"), (U32, "ttl phase"))


class Facts(ctypes.Structure):
    _fields_ = members((SIZE, "len"), (U64, "last answers_from"), (U32, "ttl life"))


class Request(ctypes.Structure):
    _fields_ = members((Octets, "request made"), (U64, "now"), (U32, "backdate stream"), (U16, "limit udp_size"))


class Master(ctypes.Structure):
    _fields_ = members((Octets, "text origin chain apex"))


class Handle(ctypes.Structure):
    _fields_ = [("held", ctypes.c_void_p), ("is_open", U32)]


class _Out(ctypes.Union):
    _fields_ = [("report", Report), ("zone", ZoneReport), ("due", Due), ("facts", Facts), ("octets", ctypes.c_char * ROOM)]


class _In(ctypes.Union):
    _fields_ = [("octets", ctypes.c_char * ROOM)]


def room_of(structure: type[ctypes.Structure], **values: Any) -> Any:
    """A structure with its size, in the room that the library may read. Bytes become octets; numbers have to fit."""
    filled = structure(size=ctypes.sizeof(structure))
    for name, kind in structure._fields_[1:]:  # type: ignore[misc]
        value = values.pop(name)
        if kind is not Octets and not 0 <= value < 1 << 8 * ctypes.sizeof(kind):
            raise ValueError(f"{name} is {value}, not a number of {8 * ctypes.sizeof(kind)} bits")
        setattr(filled, name, Octets(value, len(value)) if kind is Octets else value)
    if values:
        raise TypeError(f"no members {', '.join(values)}")
    room = ctypes.create_string_buffer(bytes(filled), ROOM)
    room.filled = filled  # type: ignore[attr-defined]  # which keeps the octets alive
    return room


class Shared:
    """The functions of the shared object."""

    def __init__(self, path: str) -> None:
        self.object = ctypes.CDLL(path)
        self.object.zermuita_reply_text.restype = None

    def number(self, name: str, *words: Any) -> int:
        function = getattr(self.object, f"zermuita_{name}")
        function.restype = U32
        return int(function(*words))

    def text(self, reply: int) -> str:
        found = Octets(b"", 0)
        self.object.zermuita_reply_text(U32(reply), ctypes.byref(found))
        return bytes(found.data).decode("ascii")

    def call(self, name: str, front: Sequence[Any], kind: str, first: int = 512) -> tuple[int, bytes, Any]:
        """A call, made again where the output has more octets than there is room for: its reply, output and report."""
        room, out = first, _Out()
        report = getattr(out, kind)
        while True:
            octets = ctypes.create_string_buffer(max(room, 1))
            report.size = ctypes.sizeof(report)
            reply = self.number(name, *front, octets, SIZE(room), ctypes.byref(out))
            if reply not in (BUFFER_TOO_SMALL, ZONE_BUFFER_TOO_SMALL):
                return reply, octets.raw[: report.len] if report.len <= room else b"", report
            room = report.len


def behind_length(octets: bytes, width: int = 2) -> bytes:
    """Octets behind their length in so many octets."""
    return len(octets).to_bytes(width, "big") + octets


def parts(octets: bytes, widths: Sequence[int], gap: int = 0) -> Iterator[list[bytes]]:
    """Parts behind their lengths, so many at a time, and a gap behind each row of them."""
    at = 0
    while at < len(octets):
        row = []
        for width in widths:
            begin = at + width
            at = begin + int.from_bytes(octets[at:begin], "big")
            row.append(octets[begin:at])
        at += gap
        yield row


def names(octets: bytes, count: int) -> tuple[list[bytes], bytes]:
    """At most so many names in wire form from the front of octets, and what is behind them."""
    found: list[bytes] = []
    while octets and len(found) < count:
        end = 0
        while octets[end]:
            end += 1 + octets[end]
        found.append(octets[: end + 1])
        octets = octets[end + 1 :]
    return found, octets


def records(octets: bytes) -> list[bytes]:
    """The data of records, each behind its length."""
    return [row[0] for row in parts(octets, (2,))]
