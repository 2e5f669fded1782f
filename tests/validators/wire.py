"""Messages in wire form (RFC 1035, 4), and the octets that signatures are over (RFC 4034, 3.1.8.1 and 6).

A name is its wire form without pointers.
"""

import pathlib
import struct
import sys
import typing

TOP = pathlib.Path(__file__).resolve().parents[2]
# The corpus has what starts resolvers, and keys of seeds.
sys.path += [str(TOP / it) for it in ("tests/rollovers", "tests/aliases", "corpus")]

from messages import key_tag, wire  # noqa: F401

A, NS, CNAME, SOA, PTR, MX, TXT, AAAA, SRV, DNAME, DS, RRSIG, NSEC, DNSKEY, NSEC3 = 1, 2, 5, 6, 12, 15, 16, 28, 33, 39, 43, 46, 47, 48, 50
OPT, NSEC3PARAM, CDS, CDNSKEY = 41, 51, 59, 60
NUMBERS = {"A": A, "NS": NS, "CNAME": CNAME, "SOA": SOA, "MX": MX, "TXT": TXT, "AAAA": AAAA, "SRV": SRV, "DNAME": DNAME, "DS": DS}
NUMBERS |= {"DNSKEY": DNSKEY, "CDS": CDS}
NAMES = {number: name for name, number in NUMBERS.items()} | {CDNSKEY: "CDNSKEY", RRSIG: "RRSIG", NSEC: "NSEC", NSEC3: "NSEC3"}
# Octets before the names in data of these types, and how many names there are.
NAMED = {NS: (0, 1), CNAME: (0, 1), PTR: (0, 1), DNAME: (0, 1), SOA: (0, 2), MX: (2, 1), SRV: (6, 1)}
# The flags QR, AA, TC, RD, RA, AD and CD, and the RCODEs.
QR, AA, TC, RD, RA, AD, CD = 0x8000, 0x0400, 0x0200, 0x0100, 0x0080, 0x0020, 0x0010
NOERROR, NXDOMAIN, REFUSED = 0, 3, 5


def text(name):
    """The text of a name, octets but for letters, digits and a few signs escaped."""
    return ".".join("".join(map(sign, label)) for label in labels(name)) + "."


def sign(octet):
    plain = chr(octet).isascii() and (chr(octet).isalnum() or chr(octet) in "-_*")
    return chr(octet) if plain else f"\\{octet:03}"


def labels(name):
    """The labels of a name, without the root's."""
    found, at = [], 0
    while name[at]:
        found.append(name[at + 1 : at + 1 + name[at]])
        at += 1 + name[at]
    return found


def parents(name):
    """A name and those above it, the root last."""
    while True:
        yield name
        if name == b"\0":
            return
        name = name[1 + name[0] :]


def is_below(name, apex):
    """Whether a name is another, or below it; both are in lower case."""
    return apex in parents(name)


def canonical_order(name):
    """By this names are ordered (RFC 4034, 6.1)."""
    return [label.lower() for label in reversed(labels(name))]


class Record(typing.NamedTuple):
    """A record of class IN."""

    owner: bytes
    rtype: int
    ttl: int
    data: bytes


class Message(typing.NamedTuple):
    """A message: number, flags with the RCODE, the one question, the records of the sections, and those of the last one."""

    number: int
    flags: int
    name: bytes
    rtype: int
    sections: list

    @property
    def rcode(self):
        return self.flags & 15


def read_name(message, at):
    """The name at a place, and the place behind it (RFC 1035, 4.1.4)."""
    found, end = b"", None
    while message[at]:
        if message[at] >= 0xC0:
            end = end or at + 2
            at = int.from_bytes(message[at : at + 2], "big") & 0x3FFF
            continue
        found += message[at : at + 1 + message[at]]
        at += 1 + message[at]
    return found + b"\0", end or at + 1


def read_data(message, rtype, at, end):
    """Data with the names in them written out."""
    if rtype not in NAMED or at == end:
        return message[at:end]
    before, names = NAMED[rtype]
    data = message[at : at + before]
    at += before
    for _ in range(names):
        name, at = read_name(message, at)
        data += name
    return data + message[at:end]


def read(message):
    """A message of octets."""
    number, flags, _questions, *counts = struct.unpack(">6H", message[:12])
    name, at = read_name(message, 12)
    rtype = int.from_bytes(message[at : at + 2], "big")
    at += 4
    sections = []
    for count in counts:
        sections.append([])
        for _ in range(count):
            owner, at = read_name(message, at)
            of, _class, ttl, length = struct.unpack(">HHIH", message[at : at + 10])
            end = at + 10 + length
            sections[-1].append(Record(owner, of, ttl, read_data(message, of, at + 10, end)))
            at = end
    return Message(number, flags, name, rtype, sections)


def written(records, start, places):
    """Records in octets, with pointers in the place of owners that stand before."""
    out = b""
    for record in records:
        at = places.get(record.owner)
        if at is None:
            if start + len(out) < 0x4000:
                places[record.owner] = start + len(out)
            out += record.owner
        else:
            out += struct.pack(">H", 0xC000 | at)
        out += struct.pack(">HHIH", record.rtype, 1, record.ttl, len(record.data)) + record.data
    return out


def body(message):
    """The octets behind the question."""
    places, out = {message.name: 12}, b""
    for records in message.sections:
        out += written(records, 12 + len(message.name) + 4 + len(out), places)
    return out


def canonical_data(rtype, data):
    """Data with the names in them in lower case (RFC 4034, 6.2)."""
    if rtype not in NAMED:
        return data
    before, names = NAMED[rtype]
    end = before
    for _ in range(names):
        end = read_name(data, end)[1]
    return data[:before] + data[before:end].lower() + data[end:]


def signed_octets(fields, owner, rtype, records):
    """What a signature with these fields, the signer's name among them, is over."""
    shown, ttl = fields[3], fields[4:8]
    below = labels(owner)
    if len(below) > shown:
        owner = wire_of([b"*", *below[len(below) - shown :]])
    start = owner.lower() + struct.pack(">HH", rtype, 1) + ttl
    all_data = sorted({canonical_data(rtype, it) for it in records})
    signer_end = read_name(fields, 18)[1]
    of_set = (start + struct.pack(">H", len(data)) + data for data in all_data)
    return fields[:18] + fields[18:signer_end].lower() + b"".join(of_set)


def wire_of(of_labels):
    return b"".join(bytes([len(label)]) + label for label in of_labels) + b"\0"


def bitmap(rtypes):
    """The bitmap of types (RFC 4034, 4.1.2)."""
    windows = {}
    for rtype in rtypes:
        bits = windows.setdefault(rtype >> 8, bytearray(32))
        bits[(rtype & 255) >> 3] |= 0x80 >> (rtype & 7)
    trimmed = ((window, bytes(bits).rstrip(b"\0")) for window, bits in sorted(windows.items()))
    return b"".join(bytes([window, len(bits)]) + bits for window, bits in trimmed)
