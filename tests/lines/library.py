"""The library for C as it is installed, called through ctypes: judgements, walks and zones that are served."""

from __future__ import annotations

import ctypes
import dataclasses
from collections.abc import Callable, Iterator

ASK, WANT, BUFFER_TOO_SMALL = 32, 33, 34
ZONE_DONE, ZONE_RESPONSE, ZONE_NO_RESPONSE, ZONE_SIGN, ZONE_BUFFER_TOO_SMALL = 64, 67, 68, 69, 71
IN = 1
# The room of the first call: most replies have more octets, so they also come by a second one.
ROOM = 64


class Octets(ctypes.Structure):
    _fields_ = [("data", ctypes.c_char_p), ("len", ctypes.c_size_t)]


class Sized(ctypes.Structure):
    """A structure whose first member is its size. Octets are handed in as bytes."""

    def __init__(self, **members):
        octets = {name: Octets(it, len(it)) if isinstance(it, bytes) else it for name, it in members.items()}
        super().__init__(size=ctypes.sizeof(type(self)), **octets)


U16, U32, U64, SIZE = ctypes.c_uint16, ctypes.c_uint32, ctypes.c_uint64, ctypes.c_size_t


def members(*groups):
    return [("size", SIZE), *((name, ctype) for ctype, names in groups for name in names.split())]


class Case(Sized):
    _fields_ = members(
        (Octets, "apex ds dnskey answer name checked"),
        (U64, "now"),
        (U16, "rtype rclass max_nsec3_iterations"),
        (U32, "one_moment as_received"),
        (Octets, "algorithms"),
        (U32, "max_signatures other_question no_ds places"),
    )


class Evidence(Sized):
    _fields_ = members(
        (Octets, "anchor ds name messages checked algorithms"),
        (U64, "now"),
        (U16, "rtype max_nsec3_iterations max_cuts max_aliases one_moment max_messages"),
        (U32, "max_signatures"),
        (U64, "max_work"),
    )


class Report(Sized):
    _fields_ = members((SIZE, "len"), (U64, "until verifications hashes"), (U32, "ttl"), (U16, "ede delegates"))


class Request(Sized):
    _fields_ = members((Octets, "request made"), (U64, "now"), (U32, "backdate stream"), (U16, "limit udp_size"))


class ZoneReport(Sized):
    _fields_ = members((SIZE, "len line whole settled"))


class Handle(ctypes.Structure):
    _fields_ = [("held", ctypes.c_void_p), ("is_open", U32)]


@dataclasses.dataclass(frozen=True)
class Reply:
    """The number of a reply, its octets, and what is reported beside it."""

    code: int
    octets: bytes
    report: Report


@dataclasses.dataclass(frozen=True)
class Ask:
    """An entry that asks for a signature."""

    dnskey: bytes
    octets: bytes
    signature: bytes

    def entry(self, *passes: int) -> bytes:
        return behind_length(self.dnskey) + behind_length(self.octets, 4) + behind_length(self.signature) + bytes(passes)


Passes = Callable[[Ask], bool]


def behind_length(octets: bytes, width: int = 2) -> bytes:
    return len(octets).to_bytes(width, "big") + octets


def part(octets: bytes, width: int = 2) -> tuple[bytes, bytes]:
    """Octets behind their length, and what is behind them."""
    end = width + int.from_bytes(octets[:width], "big")
    if end > len(octets):
        raise ValueError("a part is cut off")
    return octets[width:end], octets[end:]


def parts(octets: bytes) -> list[bytes]:
    found = []
    while octets:
        first, octets = part(octets)
        found.append(first)
    return found


def entries(octets: bytes, gap: int) -> Iterator[Ask]:
    """Entries back to back, so many octets behind each."""
    while octets:
        dnskey, octets = part(octets)
        signed, octets = part(octets, 4)
        signature, octets = part(octets)
        octets = octets[gap:]
        yield Ask(dnskey, signed, signature)


def answered(asks: bytes, passes: Passes) -> bytes:
    """The entries that were asked for, with whether each passes."""
    return b"".join(it.entry(passes(it)) for it in entries(asks, gap=1))


class Library:
    def __init__(self, path):
        self.object = ctypes.CDLL(str(path))
        for name in ("judge_case", "resolve_evidence", "zone_open", "zone_apply", "zone_respond_to", "zone_close"):
            getattr(self.object, f"zermuita_{name}").restype = U32

    def call(self, name, room_of, front, report, room=ROOM):
        """A call, made again where there was too little room. `room_of` is the reply that says so."""
        while True:
            out = ctypes.create_string_buffer(max(1, room))
            code = getattr(self.object, f"zermuita_{name}")(*front, out, SIZE(room), ctypes.byref(report))
            if code != room_of:
                return Reply(code, out.raw[: report.len] if report.len <= room else b"", report)
            room = report.len

    def judge(self, passes: Passes, **case) -> Reply:
        """Judges a case, once each signature that is asked for was looked up."""
        checked = b""
        while True:
            handed = Case(rclass=IN, no_ds=not case["ds"], checked=checked, **case)
            reply = self.call("judge_case", BUFFER_TOO_SMALL, [ctypes.byref(handed)], Report())
            if reply.code != ASK:
                return reply
            checked += answered(reply.octets, passes)

    def resolve(self, **evidence) -> Reply:
        return self.call("resolve_evidence", BUFFER_TOO_SMALL, [ctypes.byref(Evidence(**evidence))], Report())


class Zone:
    """A zone that is served, opened from the lines of its journal."""

    def __init__(self, library: Library, journal: bytes):
        self.library, self.handle = library, Handle()
        opened = self.call("zone_open", journal, SIZE(len(journal)))
        if opened.code != ZONE_DONE:
            raise ValueError(f"line {opened.report.line} of the journal: {opened.octets.decode()}")

    def call(self, name, *front) -> Reply:
        return self.library.call(name, ZONE_BUFFER_TOO_SMALL, [ctypes.byref(self.handle), *front], ZoneReport())

    def respond(self, **request) -> Reply:
        return self.call("zone_respond_to", ctypes.byref(Request(**request)))

    def close(self):
        self.library.object.zermuita_zone_close(ctypes.byref(self.handle))
