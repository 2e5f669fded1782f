"""Messages whose signatures are copies of what they are made over (RFC 4034, 3.1.8.1), as those of tests/lines/extended_errors are."""

from __future__ import annotations

import base64
import hashlib
import struct

from answers import labels, part, wire
from lasting import IN, NSEC, NSEC3, RRSIG, Passing, Record, Signature, signed_owner

ALGORITHM, TTL = 13, 300
# The zone, and the key that signs its answers.
APEX = wire("example")
SIGNS = bytes.fromhex("0100030d10")


def key_tag(rdata: bytes) -> int:
    """RFC 4034, appendix B."""
    total = sum(octet << 8 if at % 2 == 0 else octet for at, octet in enumerate(rdata))
    return total + (total >> 16) & 0xFFFF


def record(owner: bytes, rtype: int, data: bytes) -> bytes:
    return owner + struct.pack(">HHIH", rtype, IN, TTL, len(data)) + data


def signed(
    owner: bytes, rtype: int, *datas: bytes, star: bytes = b"", begins: int = 500, ends: int = 4000, signer: bytes = APEX, passes: bool = True
) -> list[bytes]:
    """The records of an RRset, or of a wildcard's under another owner, and a signature by the key of the zone: one that fails has another
    last octet."""
    counted = labels(star or owner)
    count = len(counted) - (counted[:1] == (b"*",))
    fields = struct.pack(">HBBIIIH", rtype, ALGORITHM, count, TTL, ends, begins, key_tag(SIGNS)) + signer
    over = fields + b"".join(record(star or owner, rtype, it) for it in sorted(datas))
    made = over if passes else over[:-1] + bytes([over[-1] ^ 1])
    return [*(record(owner, rtype, it) for it in datas), record(owner, RRSIG, fields + made)]


def message(name: bytes, rtype: int, answer: list[bytes], authority: list[bytes]) -> bytes:
    head = struct.pack(">6H", 0, 0x8400, 1, len(answer), len(authority), 0)
    return head + name + struct.pack(">HH", rtype, IN) + b"".join([*answer, *authority])


def bitmap(*rtypes: int) -> bytes:
    """Types below 64 (RFC 4034, 4.1.2)."""
    bits = bytearray(max(rtypes) // 8 + 1)
    for rtype in rtypes:
        bits[rtype // 8] |= 0x80 >> rtype % 8
    return b"\0" + part(bytes(bits), 1)


def nsec(following: str, *rtypes: int) -> bytes:
    """The data of an NSEC record."""
    return wire(following) + bitmap(*rtypes, RRSIG, NSEC)


def nsec3(name: str, *rtypes: int, covers: bool = False, flags: int = 0, **how) -> list[bytes]:
    """The signed NSEC3 record that matches a name, or covers its hash and those right before and behind it."""
    own = int.from_bytes(hashlib.sha1(wire(name)).digest(), "big")
    first, last = (it.to_bytes(20, "big") for it in (own - covers, own + 1))
    owner = part(base64.b32hexencode(first).lower(), 1) + APEX
    return signed(owner, NSEC3, bytes([1, flags, 0, 0, 0]) + part(last, 1) + (bitmap(*rtypes) if rtypes else b""), **how)


class Copies(Passing):
    """The signatures that pass: copies, by the key of the zone."""

    def __init__(self) -> None:
        super().__init__([])

    def has(self, signature: Signature, rrset: list[Record]) -> bool:
        front = signed_owner(rrset[0].owner, signature.fields[3]) + struct.pack(">HHI", signature.covered, IN, signature.ttl)
        over = signature.fields + b"".join(front + part(it) for it in sorted({it.raw for it in rrset}))
        return signature.signature == over and int.from_bytes(signature.fields[16:18], "big") == key_tag(SIGNS)
