"""The library for C: judgements through the module `zermuita`, and zones through ctypes (include/zermuita_zone.h)."""

from __future__ import annotations

import ctypes
import dataclasses
import functools
import hashlib
import sys
from collections.abc import Iterator
from typing import Any

from .fields import ROLLS
from .parts import TOP, Missing, library

sys.path.insert(0, str(TOP / "examples/python"))
import zermuita as zermuita  # noqa: E402

DONE, REFUSED, RESPONSE, SIGN, BUFFER_TOO_SMALL = 64, 66, 67, 69, 71
# The largest message, over a stream.
STREAM, LIMIT = 1, 65535
NO_END = (1 << 64) - 1


class _Octets(ctypes.Structure):
    _fields_ = [("data", ctypes.c_char_p), ("len", ctypes.c_size_t)]


class _Sized(ctypes.Structure):
    """A structure whose first member is its size. Octets are handed in as bytes."""

    def __init__(self, **members: Any) -> None:
        octets = {name: _Octets(it, len(it)) if isinstance(it, bytes) else it for name, it in members.items()}
        super().__init__(size=ctypes.sizeof(type(self)), **octets)


def _members(*groups: tuple[Any, str]) -> list[tuple[str, Any]]:
    return [("size", ctypes.c_size_t), *((name, ctype) for ctype, names in groups for name in names.split())]


class _Report(_Sized):
    _fields_ = _members((ctypes.c_size_t, "len line whole settled"))


class _Due(_Sized):
    _fields_ = _members((ctypes.c_size_t, "len"), (ctypes.c_uint64, "from_second"), (ctypes.c_uint32, "ttl phase"))


class _Request(_Sized):
    _fields_ = _members(
        (_Octets, "request made"), (ctypes.c_uint64, "now"), (ctypes.c_uint32, "backdate stream"), (ctypes.c_uint16, "limit udp_size")
    )


class _Master(_Sized):
    _fields_ = _members((_Octets, "text origin chain apex"))


class _Handle(ctypes.Structure):
    _fields_ = [("held", ctypes.c_void_p), ("is_open", ctypes.c_uint32)]


@dataclasses.dataclass(frozen=True)
class Reply:
    code: int
    octets: bytes
    report: Any


@dataclasses.dataclass(frozen=True)
class Due:
    """How far a roll is: its phase by number, and of a wait its TTL and its first second, None if no clock shows it."""

    phase: int
    ttl: int
    begins: int | None


class ZoneFault(Exception):
    """The library refuses a zone or a master file: the line, or 0, and why."""

    def __init__(self, line: int, reason: str) -> None:
        super().__init__(reason)
        self.line = line


@functools.lru_cache(maxsize=None)
def _object() -> ctypes.CDLL:
    path = library(zermuita.SONAME)
    try:
        found = ctypes.CDLL(path)
    except OSError as error:
        raise Missing(f"no library for C: {error}; tools/install builds and installs it, ZERMUITA_PREFIX may name where it is") from None
    for name in ("open", "apply", "respond_to", "due", "records", "lines_of", "close"):
        getattr(found, f"zermuita_zone_{name}").restype = ctypes.c_uint32
    return found


@functools.lru_cache(maxsize=None)
def judge() -> zermuita.Library:
    """What judges."""
    _object()
    return zermuita.Library(library(zermuita.SONAME))


def _call(name: str, front: list[Any], report: Any) -> Reply:
    """A call, made again if there was too little room."""
    room = 4096
    while True:
        out = ctypes.create_string_buffer(room)
        code = int(getattr(_object(), f"zermuita_zone_{name}")(*front, out, ctypes.c_size_t(room), ctypes.byref(report)))
        if code != BUFFER_TOO_SMALL:
            return Reply(code, out.raw[: report.len], report)
        room = report.len


def master_lines(text: bytes, origin: str, chain: str) -> bytes:
    """The lines of a session's zone for a master file."""
    master = _Master(text=text, origin=origin.encode(), chain=chain.encode(), apex=b"")
    reply = _call("lines_of", [ctypes.byref(master)], _Report())
    if reply.code != DONE:
        raise ZoneFault(reply.report.line, reply.octets.decode() if reply.code == REFUSED else f"reply {reply.code}")
    return reply.octets


class Zone:
    """A zone that is served, whose signatures are the bench's stand-ins."""

    def __init__(self, journal: str) -> None:
        self._handle = _Handle()
        octets = journal.encode()
        reply = self._call("open", octets, ctypes.c_size_t(len(octets)))
        if reply.code != DONE:
            raise ZoneFault(reply.report.line, reply.octets.decode())

    def _call(self, name: str, *front: Any) -> Reply:
        return _call(name, [ctypes.byref(self._handle), *front], _Report())

    def apply(self, line: str) -> str:
        """What a line of state answers, as the bench prints it."""
        octets = line.encode()
        return self._call("apply", octets, ctypes.c_size_t(len(octets))).octets.decode()

    def records(self, rtype: int) -> list[bytes]:
        """The data of the DS, DNSKEY, CDS or CDNSKEY set."""
        octets = self._call("records", ctypes.c_uint16(rtype)).octets
        return list(_parts(octets))

    def due(self, roll: str) -> Due:
        number = ctypes.c_uint32(1 + ROLLS.index(roll))
        due = _call("due", [ctypes.byref(self._handle), number], _Due()).report
        return Due(due.phase, due.ttl, None if due.from_second == NO_END else due.from_second)

    def respond(self, request: bytes, now: int) -> bytes | None:
        """The response to a request over a stream; None if there is none."""
        made = b""
        while True:
            words = _Request(request=request, made=made, now=now, backdate=0, stream=STREAM, limit=LIMIT, udp_size=LIMIT)
            reply = self._call("respond_to", ctypes.byref(words))
            if reply.code != SIGN or made:
                return reply.octets if reply.code == RESPONSE else None
            made = b"".join(map(_entry, _entries(reply.octets)))

    def close(self) -> None:
        _object().zermuita_zone_close(ctypes.byref(self._handle))


def stand_in(dnskey: bytes, octets: bytes) -> bytes:
    """The bench's signature of a key over octets."""
    return hashlib.sha256(dnskey + octets).digest()


def _part(octets: bytes, width: int) -> tuple[bytes, bytes]:
    end = width + int.from_bytes(octets[:width], "big")
    return octets[width:end], octets[end:]


def _parts(octets: bytes) -> Iterator[bytes]:
    while octets:
        first, octets = _part(octets, 2)
        yield first


def _entries(octets: bytes) -> Iterator[tuple[bytes, bytes]]:
    """Keys, and what they are to sign."""
    while octets:
        dnskey, octets = _part(octets, 2)
        signed, octets = _part(octets, 4)
        _room, octets = _part(octets, 2)
        yield dnskey, signed


def _entry(asked: tuple[bytes, bytes]) -> bytes:
    dnskey, signed = asked
    return zermuita.behind_length(dnskey) + zermuita.behind_length(signed, 4) + zermuita.behind_length(stand_in(dnskey, signed))
