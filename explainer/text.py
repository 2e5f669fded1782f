"""Messages and records as `dig` writes them."""

from __future__ import annotations

import base64
import ipaddress
import struct
from collections.abc import Iterator

from . import rtypes
from .data import read_ds, read_key, read_nsec, read_nsec3, read_signature
from .dates import date_text
from .hashes import digits
from .messages import FLAGS, Message, MessageFault, Record, read_message
from .names import CutOff, Malformed, Name, read_name
from .rtypes import class_text, type_text

# How many octets of numbers of 16 bits stand in front of the name of a type's data.
NUMBERS_AND_NAME = {rtypes.NS: 0, rtypes.CNAME: 0, rtypes.PTR: 0, rtypes.DNAME: 0, rtypes.MX: 2, rtypes.SRV: 6}


def message_lines(octets: bytes) -> Iterator[str]:
    """A message line by line: what its header says, the question, and the records of each section behind its name."""
    try:
        message = read_message(octets)
    except MessageFault:
        yield f";; {len(octets)} octets that are no message with one question"
        return
    flags = "".join(f" {name}" for bit, name in FLAGS if message.flags & bit)
    yield f";; status: {message.status}, flags:{flags}"
    yield ";; QUESTION SECTION:"
    yield f";{message.name} {class_text(message.rclass)} {type_text(message.rtype)}"
    section = None
    for record in message.records:
        if record.section != section:
            section = record.section
            yield f";; {section} SECTION:"
        yield record_text(message, record)


def record_text(message: Message, record: Record) -> str:
    head = f"{record.owner} {record.ttl} {class_text(record.rclass)} {type_text(record.rtype)}"
    return f"{head} {data_text(message, record)}"


def data_text(message: Message, record: Record) -> str:
    """Data in the text form of their type; of other types, and data that do not read as theirs, in that of octets (RFC 3597, 5)."""
    octets = message.data(record)
    try:
        text = _known(message, record, octets)
    except (ValueError, struct.error, CutOff, Malformed):
        text = None
    return octets_text(octets) if text is None else text


def octets_text(octets: bytes) -> str:
    return f"\\# {len(octets)}{hex_field(octets)}"


def hex_field(octets: bytes) -> str:
    return f" {octets.hex()}" if octets else ""


def base64_field(octets: bytes) -> str:
    return f" {base64.b64encode(octets).decode('ascii')}" if octets else ""


def ds_text(data: bytes) -> str | None:
    ds = read_ds(data)
    return f"{ds.tag} {ds.algorithm} {ds.digest_type}{hex_field(ds.digest)}" if ds else None


def key_text(data: bytes) -> str | None:
    key = read_key(data)
    return f"{key.flags} {key.protocol} {key.algorithm}{base64_field(data[4:])}" if key else None


def _known(message: Message, record: Record, octets: bytes) -> str | None:
    rtype = record.rtype
    if rtype in (rtypes.A, rtypes.AAAA):
        return str((ipaddress.IPv4Address if rtype == rtypes.A else ipaddress.IPv6Address)(octets))
    if rtype in NUMBERS_AND_NAME:
        return _numbers_and_name(message, record, NUMBERS_AND_NAME[rtype])
    if rtype == rtypes.SOA:
        return _soa(message, record)
    if rtype == rtypes.TXT:
        return " ".join(map(quoted, _strings(octets)))
    if rtype == rtypes.CAA:
        return _caa(octets)
    if rtype == rtypes.DS:
        return ds_text(octets)
    if rtype == rtypes.DNSKEY:
        return key_text(octets)
    return _of_chain(message, record, octets)


def _of_chain(message: Message, record: Record, octets: bytes) -> str | None:
    """Signatures, records of chains and their parameters."""
    if record.rtype == rtypes.RRSIG:
        return _signature(message, record)
    if record.rtype == rtypes.NSEC:
        link = read_nsec(message, record)
        return " ".join([str(link.next), *map(type_text, link.types)]) if link else None
    if record.rtype == rtypes.NSEC3:
        hashed = read_nsec3(octets)
        if hashed is None:
            return None
        numbers = f"{hashed.algorithm} {hashed.flags} {hashed.iterations}"
        return " ".join([numbers, hashed.salt.hex() or "-", digits(hashed.next), *map(type_text, hashed.types)])
    if record.rtype == rtypes.NSEC3PARAM:
        algorithm, flags, iterations, length = struct.unpack_from(">BBHB", octets)
        salt = octets[5:]
        return f"{algorithm} {flags} {iterations} {salt.hex() or '-'}" if len(salt) == length else None
    return None


def _numbers_and_name(message: Message, record: Record, width: int) -> str | None:
    numbers = struct.unpack_from(f">{width // 2}H", message.octets, record.start)
    name, behind = read_name(message.octets, record.start + width, record.end)
    return " ".join([*map(str, numbers), str(name)]) if behind == record.end else None


def _soa(message: Message, record: Record) -> str | None:
    names: list[Name] = []
    at = record.start
    for _ in range(2):
        name, at = read_name(message.octets, at, record.end)
        names.append(name)
    if record.end - at != 20:
        return None
    return " ".join(map(str, [*names, *struct.unpack_from(">5I", message.octets, at)]))


def _signature(message: Message, record: Record) -> str | None:
    it = read_signature(message, record)
    if it is None:
        return None
    head = f"{type_text(it.covered)} {it.algorithm} {it.labels} {it.ttl} {date_text(it.expiration)} {date_text(it.inception)}"
    return f"{head} {it.tag} {it.signer}{base64_field(it.signature)}"


def _strings(octets: bytes) -> Iterator[bytes]:
    """Character-strings, one at least (RFC 1035, 3.3.14)."""
    if not octets:
        raise ValueError("no string")
    while octets:
        end = 1 + octets[0]
        if end > len(octets):
            raise ValueError("a string is cut off")
        yield octets[1:end]
        octets = octets[end:]


def _caa(octets: bytes) -> str | None:
    """Flags, a tag behind its length, and a value (RFC 8659, 4.1)."""
    if len(octets) < 2 or len(octets) < 2 + octets[1]:
        return None
    tag, value = octets[2 : 2 + octets[1]], octets[2 + octets[1] :]
    return f"{octets[0]} {tag.decode('ascii')} {quoted(value)}" if tag.isalnum() or not tag else None


def quoted(text: bytes) -> str:
    """A string in quotes, with a backslash before quotes and backslashes, and octets that do not print as three digits."""
    return f'"{"".join(map(_printed, text))}"'


def _printed(octet: int) -> str:
    if chr(octet) in '"\\':
        return f"\\{chr(octet)}"
    return chr(octet) if 0x20 <= octet <= 0x7E else f"\\{octet:03}"
