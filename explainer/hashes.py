"""Hashes of names, and the labels that spell them (RFC 5155, 5; RFC 4648, 7)."""

from __future__ import annotations

import hashlib

from .names import Name

DIGITS = "0123456789abcdefghijklmnopqrstuv"


def hash_of(name: Name, iterations: int, salt: bytes) -> bytes:
    """The hash of a name."""
    digest = hashlib.sha1(name.canonical() + salt).digest()
    for _ in range(iterations):
        digest = hashlib.sha1(digest + salt).digest()
    return digest


def digits(octets: bytes) -> str:
    """Octets in base32hex without padding, in lower case."""
    count = (8 * len(octets) + 4) // 5
    number = int.from_bytes(octets, "big") << (5 * count - 8 * len(octets))
    return "".join(DIGITS[number >> 5 * at & 31] for at in reversed(range(count)))


def octets_of(label: bytes) -> bytes | None:
    """The octets that a label spells in base32hex, in either case; None where it spells none."""
    values = [DIGITS.find(chr(octet)) for octet in label.lower()]
    width, spare = divmod(5 * len(values), 8)
    number = 0
    for value in values:
        number = number << 5 | value
    if -1 in values or spare >= 5 or number & ((1 << spare) - 1):
        return None
    return (number >> spare).to_bytes(width, "big")


def hash_spelled(apex: Name, owner: Name) -> bytes | None:
    """The hash that an owner of an NSEC3 record spells, right below the apex (RFC 5155, 3)."""
    if owner.depth != apex.depth + 1 or not apex.is_above(owner):
        return None
    return octets_of(owner.labels[0])
