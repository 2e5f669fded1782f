"""Domain names (RFC 1035, 3.1 and 5.1): wire form, text, and their canonical order (RFC 4034, 6.1)."""

from __future__ import annotations

import functools
from collections.abc import Iterator

LONGEST, LONGEST_LABEL, MOST_POINTERS = 255, 63, 255


class NameFault(ValueError):
    """Why a text is no name."""


class CutOff(ValueError):
    """Octets end within a name."""


class Malformed(ValueError):
    """A label of an unknown kind, a pointer that leads nowhere, or more octets than a name has."""


@functools.total_ordering
class Name:
    """A name as it is spelled. Names that differ in case alone are equal."""

    __slots__ = ("_key", "labels")

    def __init__(self, labels: tuple[bytes, ...]) -> None:
        self.labels = labels
        self._key = tuple(label.lower() for label in reversed(labels))

    def __eq__(self, other: object) -> bool:
        return isinstance(other, Name) and self._key == other._key

    def __lt__(self, other: Name) -> bool:
        return self._key < other._key

    def __hash__(self) -> int:
        return hash(self._key)

    def __str__(self) -> str:
        """The text, with a dot at its end."""
        return "".join(f"{''.join(map(spelled, label))}." for label in self.labels) or "."

    @property
    def depth(self) -> int:
        return len(self.labels)

    @property
    def is_wildcard(self) -> bool:
        return self.labels[:1] == (b"*",)

    @property
    def signed_labels(self) -> int:
        """How many labels a signature counts: neither the root nor a leading star (RFC 4034, 3.1.3)."""
        return self.depth - self.is_wildcard

    def wire(self) -> bytes:
        return b"".join(bytes([len(label)]) + label for label in self.labels) + b"\0"

    def canonical(self) -> bytes:
        """The wire form in lower case (RFC 4034, 6.2)."""
        # the length of a label is below that of a letter
        return self.wire().lower()

    def lower(self) -> Name:
        return Name(tuple(label.lower() for label in self.labels))

    def suffix(self, count: int) -> Name:
        """The name of the last labels."""
        return Name(self.labels[self.depth - count :])

    def ancestors(self) -> Iterator[Name]:
        """The names above, the root last."""
        return (self.suffix(count) for count in reversed(range(self.depth)))

    def is_above(self, other: Name) -> bool:
        return self.depth < other.depth and self.is_at_or_above(other)

    def is_at_or_above(self, other: Name) -> bool:
        return other._key[: self.depth] == self._key

    def wildcard(self) -> Name | None:
        """The wildcard under the name (RFC 4592, 2.1.1), if it is not too long."""
        star = Name((b"*", *self.labels))
        return star if len(star.wire()) <= LONGEST else None


def spelled(octet: int) -> str:
    """An octet of a label as text."""
    if chr(octet) in " .\\":
        return f"\\{chr(octet)}"
    return chr(octet) if 0x20 < octet < 0x7F else f"\\{octet:03}"


def read_name(octets: bytes, at: int, limit: int | None = None) -> tuple[Name, int]:
    """The name at a place of a message, and the place behind it, no further than a limit (RFC 1035, 4.1.4)."""
    labels: list[bytes] = []
    limit = len(octets) if limit is None else limit
    behind, pointers, room = None, 0, LONGEST
    while True:
        if at >= limit:
            raise CutOff
        length = octets[at]
        if length >= 0xC0:
            if at + 2 > limit:
                raise CutOff
            target = int.from_bytes(octets[at : at + 2], "big") & 0x3FFF
            behind, pointers = at + 2 if behind is None else behind, pointers + 1
            if target >= at or pointers > MOST_POINTERS:
                raise Malformed
            at = target
            continue
        room -= 1 + length
        if length > LONGEST_LABEL or room < 0:
            raise Malformed
        if at + 1 + length > limit:
            raise CutOff
        at += 1 + length
        if not length:
            return Name(tuple(labels)), at if behind is None else behind
        labels.append(octets[at - length : at])


def name_of_wire(octets: bytes, at: int = 0) -> tuple[Name, int]:
    """The name at a place in wire form without pointers, and the place behind it."""
    name, behind = read_name(octets, at)
    if behind - at != len(name.wire()):
        raise Malformed
    return name, behind


def parse_name(text: str) -> Name:
    """The name of a text, whose last dot may be left out."""
    if text == ".":
        return Name(())
    labels: list[bytes] = []
    label: bytearray | None = None
    octets = list(_octets(text))
    if not octets:
        raise NameFault("empty label")
    for octet in octets:
        if octet is not None:
            label = bytearray() if label is None else label
            label.append(octet)
            _check_length(labels, label)
        elif label is None:
            raise NameFault("empty label")
        else:
            labels.append(bytes(label))
            label = None
    return Name(tuple(labels if label is None else [*labels, bytes(label)]))


def _check_length(labels: list[bytes], label: bytearray) -> None:
    if len(label) > LONGEST_LABEL:
        raise NameFault("label length limit exceeded")
    if sum(len(it) + 1 for it in labels) + len(label) + 2 > LONGEST:
        raise NameFault("long domain name")


def _octets(text: str) -> Iterator[int | None]:
    """The octets that a text spells, None for each dot between labels."""
    at, begins = 0, True
    while at < len(text):
        if text[at] == "\\":
            octet, at = _escaped(text, at + 1, begins)
            yield octet
            begins = False
            continue
        if not " " <= text[at] <= "~":
            raise NameFault("bad symbol")
        begins = text[at] == "."
        yield None if begins else ord(text[at])
        at += 1


def _escaped(text: str, at: int, begins: bool) -> tuple[int, int]:
    """The octet of an escape, and the place behind it."""
    if at >= len(text):
        raise NameFault("unexpected end of input")
    if "0" <= text[at] <= "9":
        digits = text[at : at + 3]
        if any(not "0" <= digit <= "9" for digit in digits):
            raise NameFault("bad escape")
        if len(digits) < 3:
            raise NameFault("unexpected end of input")
        if int(digits) > 255:
            raise NameFault("bad escape")
        return int(digits), at + 3
    if not " " <= text[at] <= "~":
        raise NameFault("bad escape")
    if text[at] == "[" and begins:
        raise NameFault("a binary label was encountered")
    return ord(text[at]), at + 1
