"""Names, records and messages in wire form (RFC 1035, 3 and 4), what a signature covers (RFC 4034, 3.1.8.1) and hashes of names (RFC
5155, 5)."""

import hashlib
import struct
import typing

TYPES = {"A": 1, "NS": 2, "CNAME": 5, "SOA": 6, "MX": 15, "TXT": 16, "AAAA": 28, "DNAME": 39, "DS": 43, "RRSIG": 46, "NSEC": 47}
TYPES |= {"DNSKEY": 48, "NSEC3": 50, "NSEC3PARAM": 51}
A, NS, CNAME, SOA, MX, DNAME, DS, RRSIG, NSEC, DNSKEY, NSEC3, OPT = 1, 2, 5, 6, 15, 39, 43, 46, 47, 48, 50, 41
# Where names stand in data: behind so many octets, so many names.
NAMES = {NS: (0, 1), CNAME: (0, 1), SOA: (0, 2), MX: (2, 1), DNAME: (0, 1)}
HEX32 = "0123456789abcdefghijklmnopqrstuv"

Name = tuple[bytes, ...]


class Record(typing.NamedTuple):
    """A record: its owner in lower case, and its data with names in full. The class is IN."""

    owner: Name
    rtype: int
    ttl: int
    data: bytes

    def octets(self):
        return wire(self.owner) + struct.pack(">HHIH", self.rtype, 1, self.ttl, len(self.data)) + self.data

    @property
    def covered(self):
        """Of a signature: the type that it covers."""
        return int.from_bytes(self.data[:2], "big")


def name(text):
    return tuple(label.lower().encode() for label in text.rstrip(".").split(".") if label)


def text(labels):
    return ".".join(label.decode() for label in labels)


def wire(labels):
    return b"".join(bytes([len(label)]) + label for label in labels) + b"\0"


def read_name(message, at):
    """The name at a place, in lower case, and the place behind it."""
    labels, end = [], None
    while message[at]:
        if message[at] >= 0xC0:
            end = end or at + 2
            at = int.from_bytes(message[at : at + 2], "big") & 0x3FFF
        else:
            labels.append(message[at + 1 : at + 1 + message[at]].lower())
            at += 1 + message[at]
    return tuple(labels), end or at + 1


def read_record(message, at):
    owner, at = read_name(message, at)
    rtype, _class, ttl, length = struct.unpack(">HHIH", message[at : at + 10])
    at += 10
    end = at + length
    if rtype not in NAMES:
        return Record(owner, rtype, ttl, message[at:end]), end
    before, count = NAMES[rtype]
    data, at = message[at : at + before], at + before
    for _ in range(count):
        labels, at = read_name(message, at)
        data += wire(labels)
    return Record(owner, rtype, ttl, data + message[at:end]), end


class Message(typing.NamedTuple):
    """An answer: its question, and the records of each of three sections. OPT is left out."""

    question: tuple[Name, int]
    flags: int
    sections: tuple[list[Record], list[Record], list[Record]]

    @staticmethod
    def read(octets):
        flags, _asked, *counts = struct.unpack(">5H", octets[2:12])
        qname, at = read_name(octets, 12)
        rtype = int.from_bytes(octets[at : at + 2], "big")
        at, sections = at + 4, ([], [], [])
        for section, count in zip(sections, counts, strict=True):
            for _ in range(count):
                record, at = read_record(octets, at)
                if record.rtype != OPT:
                    section.append(record)
        return Message((qname, rtype), flags, sections)

    def octets(self):
        """The message with names in full, its number 0."""
        qname, rtype = self.question
        head = struct.pack(">6H", 0, self.flags, 1, *map(len, self.sections))
        records = b"".join(it.octets() for section in self.sections for it in section)
        return head + wire(qname) + struct.pack(">HH", rtype, 1) + records

    @property
    def signed(self):
        """The records of answer and authority."""
        return self.sections[0] + self.sections[1]


def query(number, qname, rtype):
    """A question with EDNS and its bit DO (RFC 3225)."""
    edns = b"\0" + struct.pack(">HHIH", OPT, 4096, 0x8000, 0)
    return struct.pack(">6H", number, 0, 1, 0, 0, 1) + wire(qname) + struct.pack(">HH", rtype, 1) + edns


def signed_octets(signature, rrset):
    """What an RRSIG record signs of an RRset."""
    head, labels = signature.data[:18], signature.data[3]
    _signer, end = read_name(signature.data, 18)
    owner = signature.owner
    if labels < len(owner) - (owner[:1] == (b"*",)):
        owner = (b"*", *owner[len(owner) - labels :])
    ttl = signature.data[4:8]
    fields = wire(owner) + struct.pack(">HH", signature.covered, 1) + ttl
    data = sorted({it.data for it in rrset})
    return head + signature.data[18:end] + b"".join(fields + struct.pack(">H", len(it)) + it for it in data)


def signer_of(signature):
    return read_name(signature.data, 18)[0]


def signature_of(signature):
    return signature.data[read_name(signature.data, 18)[1] :]


def key_tag(data):
    """The key tag of a DNSKEY record (RFC 4034, appendix B)."""
    total = sum(octet << 8 if at % 2 == 0 else octet for at, octet in enumerate(data))
    return total + (total >> 16) & 0xFFFF


def bits_of(bitmap):
    """The types of a bitmap (RFC 4034, 4.1.2)."""
    types = set()
    while bitmap:
        window, length = bitmap[:2]
        for at, octet in enumerate(bitmap[2 : 2 + length]):
            types |= {window * 256 + at * 8 + bit for bit in range(8) if octet & 128 >> bit}
        bitmap = bitmap[2 + length :]
    return types


def nsec_of(record):
    """The next owner and the types of an NSEC record."""
    following, end = read_name(record.data, 0)
    return following, bits_of(record.data[end:])


class Hashed(typing.NamedTuple):
    """An NSEC3 record's hashes, flags and types."""

    own: bytes
    following: bytes
    is_opt_out: bool
    types: set

    @staticmethod
    def of(record):
        salt = record.data[4]
        length = record.data[5 + salt]
        following = record.data[6 + salt : 6 + salt + length]
        types = bits_of(record.data[6 + salt + length :])
        return Hashed(unhex32(record.owner[0]), following, bool(record.data[1] & 1), types)

    def covers(self, digest):
        if self.own < self.following:
            return self.own < digest < self.following
        return digest > self.own or digest < self.following


def unhex32(label):
    number = 0
    for digit in label.decode():
        number = number * 32 + HEX32.index(digit)
    return number.to_bytes(20, "big")


def hash_of(labels):
    """The hash of a name without salt and further iterations."""
    return hashlib.sha1(wire(labels)).digest()


def canonical(labels):
    """What names are ordered by (RFC 4034, 6.1)."""
    return tuple(reversed(labels))
