"""The fields of a line: numbers, names, octets, words. The field `-` stands for nothing."""

from __future__ import annotations

import base64
import binascii
import re

from . import rtypes
from .names import CutOff, Malformed, Name, NameFault, name_of_wire, parse_name

KINDS = {"ksk": 257, "zsk": 256, "csk": 257, "include": 256}
ROLLS = ("ksk-roll", "ksk-double-ds-roll", "zsk-roll", "zsk-double-signature-roll", "csk-roll", "algorithm-roll")
MODES = ("nsec", "nsec3", "nsec3optout")
# The longest life: serial numbers compare up to here (RFC 4034, 3.1.5).
LONGEST_LIFE = (1 << 31) - 1
MOST_OF_A_KEY, MOST_OF_A_MESSAGE, MOST_OF_A_SALT = 65531, 65535, 255


class FieldFault(ValueError):
    """Why a field cannot be read."""


def number(text: str, bits: int) -> int:
    """A number in decimal digits, leading zeros allowed."""
    if not re.match(r"[0-9]+\Z", text) or int(text) >> bits:
        raise FieldFault(f"no decimal number of {bits} bits")
    return int(text)


def life(text: str) -> int:
    seconds = number(text, 32)
    if seconds > LONGEST_LIFE:
        raise FieldFault(f"more than {LONGEST_LIFE} seconds")
    return seconds


def name(text: str) -> Name:
    try:
        return parse_name(text)
    except NameFault as fault:
        raise FieldFault(f"no name: {fault}") from None


def octets(text: str, most: int = MOST_OF_A_MESSAGE) -> bytes:
    """Octets in hexadecimal."""
    if text == "-":
        return b""
    if not text:
        raise FieldFault("empty; `-` stands for no octets")
    if len(text.encode()) // 2 > most:
        raise FieldFault(f"more octets than {most}")
    if len(text.encode()) % 2:
        raise FieldFault("an odd number of hexadecimal digits")
    if not re.match(r"[0-9a-fA-F]+\Z", text):
        raise FieldFault("other characters than hexadecimal digits")
    return bytes.fromhex(text)


def key(text: str) -> bytes:
    """A key's octets in base64, padded (RFC 4648, 4)."""
    if text == "-":
        return b""
    if not text:
        raise FieldFault("empty; `-` stands for no octets")
    try:
        found = base64.b64decode(text.encode("ascii", "replace"), validate=True)
    except binascii.Error:
        found = b""
    # bits behind the last octet are zeros
    if base64.b64encode(found).decode("ascii") != text:
        raise FieldFault("no base64 with its padding")
    if len(found) > MOST_OF_A_KEY:
        raise FieldFault(f"more octets than {MOST_OF_A_KEY}")
    return found


def reference(text: str) -> str:
    if text in ("", "-") or "," in text:
        raise FieldFault("no reference: it is empty or `-`, or has a comma")
    return text


def references(text: str) -> list[str]:
    return [] if text == "-" else [reference(part) for part in text.split(",")]


def roll(text: str) -> str:
    if text not in ROLLS:
        raise FieldFault("no name of a roll")
    return text


def kind(text: str) -> str:
    if text not in KINDS:
        raise FieldFault("neither ksk nor zsk nor csk nor include")
    return text


def record_data(rtype: int, text: str) -> bytes:
    """The data of a record: names in those of NS and SOA records must be whole."""
    data = octets(text)
    if rtype == rtypes.NS and not _is_names_and_octets(data, 1, 0):
        raise FieldFault("not one name in wire form, without pointers")
    if rtype == rtypes.SOA and not _is_names_and_octets(data, 2, 20):
        raise FieldFault("not two names in wire form, without pointers, and twenty octets")
    return data


def _is_names_and_octets(data: bytes, names: int, rest: int) -> bool:
    at = 0
    try:
        for _ in range(names):
            _name, at = name_of_wire(data, at)
    except (CutOff, Malformed):
        return False
    return len(data) - at == rest
