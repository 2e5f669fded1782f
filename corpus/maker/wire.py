"""Names, data and messages in wire form (RFC 1035, 4.1; RFC 4034; RFC 5155).

A name is a tuple of labels, the lowest first, without the root's.
"""

from __future__ import annotations

import base64
import dataclasses
import functools
import hashlib
import struct
from collections.abc import Iterable, Iterator, Sequence

Name = tuple[bytes, ...]

A, NS, CNAME, SOA, PTR, MX, TXT, AAAA, SRV, DNAME = 1, 2, 5, 6, 12, 15, 16, 28, 33, 39
DS, RRSIG, NSEC, DNSKEY, NSEC3, NSEC3PARAM, NXNAME = 43, 46, 47, 48, 50, 51, 128
TYPES = {
    "A": A, "NS": NS, "CNAME": CNAME, "SOA": SOA, "PTR": PTR, "MX": MX, "TXT": TXT, "AAAA": AAAA, "SRV": SRV, "DNAME": DNAME,
    "DS": DS, "RRSIG": RRSIG, "NSEC": NSEC, "DNSKEY": DNSKEY, "NSEC3": NSEC3, "NSEC3PARAM": NSEC3PARAM,
    "NXNAME": NXNAME,
}
TYPE_NAMES = {number: name for name, number in TYPES.items()}
# Octets in front of the names in data of these types, and how many names there are (RFC 4034, 6.2).
NAMED = {NS: (0, 1), CNAME: (0, 1), SOA: (0, 2), PTR: (0, 1), MX: (2, 1), SRV: (6, 1), DNAME: (0, 1)}
QR, AA, NOERROR, NXDOMAIN = 0x8000, 0x0400, 0, 3


def name_of(text: str) -> Name:
    """A name of its text; three digits behind a backslash are an octet."""
    labels, label, at = [], b"", 0
    while at < len(text):
        if text[at] == "\\":
            label += bytes([int(text[at + 1 : at + 4])])
            at += 4
        elif text[at] == ".":
            labels.append(label)
            label = b""
            at += 1
        else:
            label += text[at].encode()
            at += 1
    return tuple([*labels, label] if label else labels)


def text_of(name: Name) -> str:
    def sign(octet: int) -> str:
        plain = chr(octet).isascii() and (chr(octet).isalnum() or chr(octet) in "-_*")
        return chr(octet) if plain else f"\\{octet:03}"

    return ".".join("".join(map(sign, label)) for label in name) + "."


def wire(name: Name) -> bytes:
    return b"".join(bytes([len(label)]) + label for label in name) + b"\0"


def lower(name: Name) -> Name:
    return tuple(label.lower() for label in name)


def order(name: Name) -> list[bytes]:
    """By this names are ordered (RFC 4034, 6.1)."""
    return [label.lower() for label in reversed(name)]


def is_below(name: Name, above: Name) -> bool:
    """Whether a name is another, or below it."""
    return len(name) >= len(above) and lower(name[len(name) - len(above) :]) == lower(above)


def parents(name: Name) -> Iterator[Name]:
    """A name and those above it, the root last."""
    for at in range(len(name) + 1):
        yield name[at:]


def bitmap(types: Iterable[int]) -> bytes:
    """RFC 4034, 4.1.2."""
    windows: dict[int, bytearray] = {}
    for rtype in types:
        bits = windows.setdefault(rtype >> 8, bytearray(32))
        bits[(rtype & 255) >> 3] |= 0x80 >> (rtype & 7)
    found = b""
    for window, bits in sorted(windows.items()):
        octets = bytes(bits).rstrip(b"\0")
        found += bytes([window, len(octets)]) + octets
    return found


def base32hex(octets: bytes) -> bytes:
    table = bytes.maketrans(b"ABCDEFGHIJKLMNOPQRSTUVWXYZ234567", b"0123456789abcdefghijklmnopqrstuv")
    return base64.b32encode(octets).translate(table)


@functools.lru_cache(maxsize=1 << 14)
def nsec3_hash(name: Name, salt: bytes, iterations: int) -> bytes:
    """RFC 5155, 5."""
    digest = hashlib.sha1(wire(lower(name)) + salt).digest()
    for _ in range(iterations):
        digest = hashlib.sha1(digest + salt).digest()
    return digest


def key_tag(data: bytes) -> int:
    """RFC 4034, appendix B."""
    total = sum(octet << 8 if at % 2 == 0 else octet for at, octet in enumerate(data))
    return (total + (total >> 16)) & 0xFFFF


@dataclasses.dataclass(frozen=True)
class Rrset:
    """Records of one owner and type, with the data of their signatures."""

    owner: Name
    rtype: int
    ttl: int
    data: tuple[bytes, ...]
    signatures: tuple[bytes, ...] = ()
    signature_ttl: int | None = None

    def replace(self, **changes: object) -> Rrset:
        return dataclasses.replace(self, **changes)  # type: ignore[arg-type]


class Writer:
    """A message under way, with pointers in the place of owners that stand before (RFC 1035, 4.1.4)."""

    def __init__(self, compresses: bool = True) -> None:
        self.octets = bytearray(12)
        self.places: dict[Name, int] = {}
        self.compresses = compresses

    def name(self, name: Name) -> None:
        for at, above in enumerate(parents(name)):
            if above in self.places and self.compresses and above:
                self.octets += struct.pack(">H", 0xC000 | self.places[above])
                return
            if not above:
                self.octets += b"\0"
                return
            if len(self.octets) < 0x4000:
                self.places[above] = len(self.octets)
            self.octets += bytes([len(name[at])]) + name[at]

    def record(self, owner: Name, rtype: int, ttl: int, data: bytes) -> None:
        self.name(owner)
        self.octets += struct.pack(">HHIH", rtype, 1, ttl, len(data)) + data


def message(name: Name, rtype: int, sections: Sequence[Sequence[Rrset]], flags: int = QR | AA, compresses: bool = True) -> bytes:
    """A message: its question, and the RRsets of its answer and authority sections, each in front of its signatures."""
    writer, counts = Writer(compresses), []
    writer.name(name)
    writer.octets += struct.pack(">HH", rtype, 1)
    for section in sections:
        count = 0
        for rrset in section:
            for data in rrset.data:
                writer.record(rrset.owner, rrset.rtype, rrset.ttl, data)
            for signature in rrset.signatures:
                ttl = rrset.ttl if rrset.signature_ttl is None else rrset.signature_ttl
                writer.record(rrset.owner, RRSIG, ttl, signature)
            count += len(rrset.data) + len(rrset.signatures)
        counts.append(count)
    writer.octets[:12] = struct.pack(">6H", 0, flags, 1, *counts, *[0] * (3 - len(counts)))
    return bytes(writer.octets)


def canonical_data(rtype: int, data: bytes) -> bytes:
    """Data with the names in them in lower case (RFC 4034, 6.2)."""
    if rtype not in NAMED:
        return data
    before, names = NAMED[rtype]
    end = before
    for _ in range(names):
        while data[end]:
            end += 1 + data[end]
        end += 1
    return data[:before] + data[before:end].lower() + data[end:]


def signed_octets(fields: bytes, owner: Name, rtype: int, ttl: int, data: Iterable[bytes]) -> bytes:
    """What a signature is over, its fields with the signer's name first (RFC 4034, 3.1.8.1)."""
    start = wire(lower(owner)) + struct.pack(">HHI", rtype, 1, ttl)
    every = sorted({canonical_data(rtype, it) for it in data})
    return fields + b"".join(start + struct.pack(">H", len(it)) + it for it in every)
