"""Data of DNSSEC records, as they stand in a message (RFC 4034, 2 to 5; RFC 5155, 3)."""

from __future__ import annotations

import dataclasses
import struct

from . import rtypes
from .messages import Message, Record
from .names import CutOff, Malformed, Name, read_name

ZONE_KEY, PROTOCOL = 0x0100, 3
RSAMD5 = 1
SHA1, OPT_OUT = 1, 1


@dataclasses.dataclass(frozen=True)
class Signature:
    """What an RRSIG record has (RFC 4034, 3.1)."""

    covered: int
    algorithm: int
    labels: int
    ttl: int
    expiration: int
    inception: int
    tag: int
    signer: Name
    signature: bytes

    def fields(self) -> bytes:
        """The fields in front of the signature, in the form that is signed (RFC 4034, 3.1.8.1)."""
        numbers = self.covered, self.algorithm, self.labels, self.ttl, self.expiration, self.inception, self.tag
        return struct.pack(">HBBIIIH", *numbers) + self.signer.canonical()


@dataclasses.dataclass(frozen=True)
class Key:
    """A DNSKEY record's data (RFC 4034, 2.1), and their tag."""

    data: bytes
    tag: int
    flags: int
    protocol: int
    algorithm: int

    @property
    def is_usable(self) -> bool:
        """Whether it is a zone's key for DNSSEC (RFC 4034, 2.1.1 and 2.1.2)."""
        return bool(self.flags & ZONE_KEY) and self.protocol == PROTOCOL


@dataclasses.dataclass(frozen=True)
class Ds:
    """A DS record's data (RFC 4034, 5.1)."""

    tag: int
    algorithm: int
    digest_type: int
    digest: bytes


@dataclasses.dataclass(frozen=True)
class Nsec:
    """An NSEC record's data (RFC 4034, 4.1)."""

    next: Name
    types: tuple[int, ...]


@dataclasses.dataclass(frozen=True)
class Nsec3:
    """An NSEC3 record's data (RFC 5155, 3.2)."""

    algorithm: int
    flags: int
    iterations: int
    salt: bytes
    next: bytes
    types: tuple[int, ...]

    @property
    def is_known(self) -> bool:
        """Whether algorithm and flags are ones that say what it means (RFC 5155, 8.1 and 8.2)."""
        return self.algorithm == SHA1 and self.flags < 2


def key_tag(data: bytes) -> int:
    """The tag of a key (RFC 4034, appendix B): of RSA/MD5 keys the upper two of their last three octets, 0 if they have fewer."""
    if data[3] == RSAMD5:
        return int.from_bytes(data[-3:-1], "big") if len(data) >= 7 else 0
    padded = data + b"\0" * (len(data) % 2)
    total = sum(int.from_bytes(padded[at : at + 2], "big") for at in range(0, len(padded), 2))
    return (total + (total >> 16)) & 0xFFFF


def read_key(data: bytes) -> Key | None:
    if len(data) < 4:
        return None
    flags, protocol, algorithm = struct.unpack_from(">HBB", data)
    return Key(data, key_tag(data), flags, protocol, algorithm)


def read_ds(data: bytes) -> Ds | None:
    if len(data) < 4:
        return None
    tag, algorithm, digest_type = struct.unpack_from(">HBB", data)
    return Ds(tag, algorithm, digest_type, data[4:])


def read_signature(message: Message, record: Record) -> Signature | None:
    """The signature of an RRSIG record; None if its data do not read."""
    start = record.start + 18
    if start > record.end:
        return None
    signer = _name(message, start, record.end)
    if signer is None:
        return None
    covered, algorithm, labels, ttl, *times, tag = struct.unpack_from(">HBBIIIH", message.octets, record.start)
    octets = message.octets[signer[1] : record.end]
    return Signature(covered, algorithm, labels, ttl, times[0], times[1], tag, signer[0], octets)


def read_nsec(message: Message, record: Record) -> Nsec | None:
    found = _name(message, record.start, record.end)
    if found is None:
        return None
    types = read_types(message.octets[found[1] : record.end])
    return None if types is None else Nsec(found[0], types)


def read_nsec3(data: bytes) -> Nsec3 | None:
    if len(data) < 5:
        return None
    algorithm, flags, iterations, length = struct.unpack_from(">BBHB", data)
    salt, rest = data[5 : 5 + length], data[5 + length :]
    if not rest or len(salt) < length or len(rest) < 1 + rest[0]:
        return None
    types = read_types(rest[1 + rest[0] :])
    return None if types is None else Nsec3(algorithm, flags, iterations, salt, rest[1 : 1 + rest[0]], types)


def read_types(octets: bytes) -> tuple[int, ...] | None:
    """The types of a bitmap (RFC 4034, 4.1.2)."""
    types: list[int] = []
    while octets:
        if len(octets) < 2 or not 0 < octets[1] <= 32 or len(octets) < 2 + octets[1]:
            return None
        window, bits, octets = octets[0] << 8, octets[2 : 2 + octets[1]], octets[2 + octets[1] :]
        types += (window + at for at in range(8 * len(bits)) if bits[at // 8] >> (7 - at % 8) & 1)
    return tuple(types)


def signed_data(message: Message, record: Record) -> bytes | None:
    """The data of a record as they are signed here: names of NS, SOA and NSEC records in full, all but the last in lower case, other
    data as they stand. None if they do not read."""
    if record.rtype == rtypes.NS:
        found = _name(message, record.start, record.end)
        return found[0].canonical() if found and found[1] == record.end else None
    if record.rtype == rtypes.SOA:
        return _soa(message, record)
    if record.rtype == rtypes.NSEC:
        found = _name(message, record.start, record.end)
        is_whole = found is not None and read_nsec(message, record) is not None
        return found[0].wire() + message.octets[found[1] : record.end] if found and is_whole else None
    data = message.data(record)
    return None if record.rtype == rtypes.NSEC3 and read_nsec3(data) is None else data


def _soa(message: Message, record: Record) -> bytes | None:
    first = _name(message, record.start, record.end)
    second = first and _name(message, first[1], record.end)
    if not first or not second or record.end - second[1] != 20:
        return None
    return first[0].canonical() + second[0].canonical() + message.octets[second[1] : record.end]


def _name(message: Message, at: int, end: int) -> tuple[Name, int] | None:
    """The name at a place of data, and the place behind it; None where none ends by their end."""
    try:
        return read_name(message.octets, at, end)
    except (CutOff, Malformed):
        return None
