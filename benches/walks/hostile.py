"""The messages of a hostile zone below an honest root, as a caller of zermuita_resolve gets them one by one.

No signature is real: those that pass begin with the octet 1, those that fail with 0. Nothing else of them is looked at by the library.
"""
from __future__ import annotations

import base64
import dataclasses
import functools
import hashlib

A, NS, CNAME, TXT, DNAME, DS, RRSIG, NSEC, DNSKEY, NSEC3 = 1, 2, 5, 16, 39, 43, 46, 47, 48, 50
INCEPTION, NOW, EXPIRATION = 1_600_000_000, 1_700_000_000, 1_800_000_000
ALGORITHM, SHA256 = 13, 2
# What a message has at most.
MOST_OCTETS = 65_535
LETTERS = b"abcdefghijklmnopqrstuvwxyz0123456789"

# What records of a kind are at names below the question's: their type and their data.
JUNK = {"nsec": (NSEC, b"\0\0\1\x40"), "bare": (NSEC, b"\0"), "a": (A, bytes(4)), "txt": (TXT, b"\1a"), "ns": (NS, b"\0")}

# A name: its labels, the first one first; the root has none.
Name = tuple[bytes, ...]


def wire(name: Name) -> bytes:
    return b"".join(bytes([len(label)]) + label for label in name) + b"\0"


def numbered(number: int, width: int = 2) -> bytes:
    """A label of its own for a number."""
    letters = bytearray()
    for _ in range(width):
        number, digit = divmod(number, len(LETTERS))
        letters.append(LETTERS[digit])
    return bytes(letters)


def dnskey_of(zone: Name) -> bytes:
    """The data of a zone's key."""
    return b"\x01\x01\x03" + bytes([ALGORITHM]) + hashlib.sha512(b"key of " + wire(zone)).digest()


def key_tag(dnskey: bytes) -> int:
    total = sum(octet << 8 if i % 2 == 0 else octet for i, octet in enumerate(dnskey))
    return (total + (total >> 16)) & 0xFFFF


def ds_of(zone: Name) -> bytes:
    dnskey = dnskey_of(zone)
    return key_tag(dnskey).to_bytes(2, "big") + bytes([ALGORITHM, SHA256]) + hashlib.sha256(wire(zone) + dnskey).digest()


def bitmap(*types: int) -> bytes:
    octets = bytearray(max(types) // 8 + 1)
    for it in types:
        octets[it // 8] |= 0x80 >> it % 8
    return bytes([0, len(octets)]) + octets


@dataclasses.dataclass
class Message:
    """A message as it is written. Owners at or below the question's name end in a pointer to it."""

    name: Name
    rtype: int
    octets: bytearray = dataclasses.field(default_factory=bytearray)
    count: int = 0

    def __post_init__(self) -> None:
        self.octets += b"\0\0\x84\0\0\1" + bytes(6) + wire(self.name) + self.rtype.to_bytes(2, "big") + b"\0\1"

    def put(self, owner: Name, rtype: int, rdata: bytes) -> None:
        """Puts a record at the end, where a message has room for it."""
        if len(self.octets) + len(rdata) + 300 > MOST_OCTETS:
            return
        self.octets += self.owner(owner) + rtype.to_bytes(2, "big") + b"\0\1\0\0\x0e\x10" + len(rdata).to_bytes(2, "big") + rdata
        self.count += 1

    def owner(self, owner: Name) -> bytes:
        for at in range(len(owner) + 1):
            rest = owner[at:]
            if rest and len(rest) <= len(self.name) and self.name[len(self.name) - len(rest):] == rest:
                place = 12 + sum(1 + len(it) for it in self.name[:len(self.name) - len(rest)])
                return wire(owner[:at])[:-1] + (0xC000 | place).to_bytes(2, "big")
        return wire(owner)

    def sign(self, zone: Name, owner: Name, covered: int, forged: int = 0) -> None:
        """A signature that passes, behind some that fail."""
        for number in range(forged + 1):
            tag = key_tag(dnskey_of(zone))
            fields = covered.to_bytes(2, "big") + bytes([ALGORITHM, len(owner)]) + (3600).to_bytes(4, "big")
            fields += EXPIRATION.to_bytes(4, "big") + INCEPTION.to_bytes(4, "big") + tag.to_bytes(2, "big") + wire(zone)
            passes = bytes([number == forged])
            self.put(owner, RRSIG, fields + passes + number.to_bytes(2, "big") + bytes(61))

    @functools.cached_property
    def whole(self) -> bytes:
        octets = bytearray(self.octets)
        octets[6:8] = self.count.to_bytes(2, "big")
        return bytes(octets)


@dataclasses.dataclass(frozen=True)
class Junk:
    """Records that a message has besides: how many at most, of which kind, how long the message may get by them, how many signatures
    that fail cover them, and how many octets the data of each have besides."""

    records: int = 0
    kind: str = "nsec"
    most: int = 65_000
    rrsigs: int = 0
    size: int = 0

    def put(self, message: Message, zone: Name) -> None:
        for number in range(self.records):
            if len(message.octets) > self.most:
                break
            message.put(*self.record(number, message, zone))

    def record(self, number: int, message: Message, zone: Name) -> tuple[Name, int, bytes]:
        if self.kind == "own":
            return message.name, message.rtype, number.to_bytes(4, "big") + bytes(self.size)
        if self.kind == "hash":
            label = base64.b32hexencode(hashlib.sha1(number.to_bytes(4, "big")).digest()).lower()
            return (label, *zone), NSEC3, b"\1\0\0\0\0\x14" + bytes(20)
        return (numbered(number, 3 if self.records > 1200 else 2), *message.name), *JUNK[self.kind]


@dataclasses.dataclass(frozen=True)
class Plan:
    """A hostile zone and the question that it is asked: how many labels are between its apex and the name, what the answers have
    besides, how many signatures that fail stand in front of each that passes, and through how many aliases the name leads."""

    labels: int = 40
    apex: int = 1
    width: int = 1
    between: Junk = Junk()
    answer: Junk = Junk()
    keys: Junk = Junk()
    forged_between: int = 0
    forged_answer: int = 0
    forged_keys: int = 0
    aliases: int = 0
    forged_alias: int = 0

    @property
    def zone(self) -> Name:
        return tuple(b"x" for _ in range(self.apex))

    @functools.cached_property
    def cut(self) -> Name:
        """The deepest name: the question's, or with aliases the zone below that has them."""
        return tuple(numbered(it, self.width) for it in range(self.labels)) + self.zone

    @property
    def name(self) -> Name:
        return (b"a0", *self.cut) if self.aliases else self.cut

    def answered(self, zone: Name, name: Name, rtype: int) -> bytes:
        """What the servers of a zone answer."""
        message = Message(name, rtype)
        if rtype == DNSKEY and name == zone:
            self.put_keys(message, zone)
        elif zone == ():
            message.put(self.zone, DS, ds_of(self.zone))
            message.sign((), self.zone, DS)
        elif rtype == DS and zone == self.zone:
            self.put_cut(message, name)
        elif zone == self.zone:
            self.put_nothing(message, name)
        else:
            self.put_alias(message, name)
        return message.whole

    def put_keys(self, message: Message, zone: Name) -> None:
        message.put(zone, DNSKEY, dnskey_of(zone))
        if zone == self.zone and self.keys.kind == "keys":
            for number in range(self.keys.records):
                message.put(zone, DNSKEY, b"\x01\x00\x03\x0d" + number.to_bytes(4, "big") + bytes(self.keys.size))
        message.sign(zone, zone, DNSKEY, self.forged_keys if zone == self.zone else 0)
        if zone == self.zone and self.keys.kind != "keys":
            self.keys.put(message, zone)

    def put_cut(self, message: Message, name: Name) -> None:
        """No DS record: of the zone below, where there are aliases, its own."""
        if self.aliases and name == self.cut:
            message.put(name, DS, ds_of(name))
            message.sign(self.zone, name, DS)
            return
        message.put(name, NSEC, wire(self.zone) + bitmap(A, RRSIG, NSEC))
        message.sign(self.zone, name, NSEC, self.forged_between)
        self.between.put(message, self.zone)

    def put_nothing(self, message: Message, name: Name) -> None:
        """What tells nothing, and suggests that there is an alias and a delegation."""
        message.put(self.zone, DNAME, b"\1q\0")
        message.put(name[1:], NS, b"\0")
        if self.answer.rrsigs:
            message.sign(self.zone, name, A, self.answer.rrsigs)
        self.answer.put(message, self.zone)

    def put_alias(self, message: Message, name: Name) -> None:
        number = int(name[0][1:])
        target = (b"a%d" % (number + 1), *self.cut) if number + 1 < self.aliases else (b"z",)
        message.put(name, CNAME, wire(target))
        message.sign(self.cut, name, CNAME, self.forged_alias if number + 1 == self.aliases else 0)
