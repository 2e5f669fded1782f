"""Names, DS records and trust anchors from text."""

from __future__ import annotations

import base64
import binascii
import dataclasses
import hashlib
import re

from ._c import behind_length

__all__ = ["Anchors", "ds_from_key", "ds_from_text", "name_from_text", "name_to_text"]

DIGESTS = {1: 20, 2: 32, 4: 48}
ZONE_FLAG, REVOKE_FLAG, PROTOCOL = 0x100, 0x80, 3
# The states of RFC 5011 in which unbound trusts a key: VALID and MISSING.
TRUSTED = {"2", "3"}
DS_TYPE = 43
ESCAPE = re.compile(rb"\\([0-9]{3})|\\([^0-9])|([^\\.])|(\.)", re.DOTALL)


def name_from_text(text: str) -> bytes:
    """The wire form of a name, which may end with a dot, with the escapes of RFC 1035, 5.1. Raises `ValueError`."""
    rest, labels, label = text.encode("latin-1"), [], bytearray()
    if rest == b".":
        return b"\0"
    while rest:
        found = ESCAPE.match(rest)
        if not found or found[1] and int(found[1]) > 255:
            raise ValueError(f"{text}: a wrong escape")
        if found[4]:
            labels.append(bytes(label))
            label.clear()
        else:
            label += bytes([int(found[1])]) if found[1] else found[2] or found[3]
        rest = rest[found.end() :]
    labels += [bytes(label)] if label or not labels else []
    if not all(0 < len(it) < 64 for it in labels) or sum(len(it) + 1 for it in labels) > 254:
        raise ValueError(f"{text}: a name is too long, or has an empty label")
    return b"".join(behind_length(it, 1) for it in labels) + b"\0"


def name_to_text(name: bytes) -> str:
    """The text of a name in wire form, with a dot at its end."""
    labels = []
    while name[0]:
        label, name = name[1 : 1 + name[0]], name[1 + name[0] :]
        escaped = re.sub(rb"([. \\])", rb"\\\1", label)
        labels.append(re.sub(rb"[^ -~]", lambda found: b"\\%03d" % found[0][0], escaped).decode() + ".")
    return "".join(labels) or "."


def ds_from_text(text: str) -> bytes:
    """The data of a DS record, as "20326 8 2 E06D44B8..". Raises `ValueError`."""
    words = text.split()
    numbers = [int(it) if it.isdecimal() else -1 for it in words[:3]]
    if len(numbers) < 3 or not (0 <= numbers[0] < 65536 and all(0 <= it < 256 for it in numbers[1:])):
        raise ValueError(f"{text}: not a DS record")
    try:
        digest = binascii.unhexlify("".join(words[3:]))
    except binascii.Error:
        digest = b""
    if len(digest) != DIGESTS.get(numbers[2]):
        raise ValueError(f"{text}: a digest of another length than its type has")
    return numbers[0].to_bytes(2, "big") + bytes(numbers[1:]) + digest


def key_tag(dnskey: bytes) -> int:
    """RFC 4034, appendix B."""
    total = sum(octet << 8 if at % 2 == 0 else octet for at, octet in enumerate(dnskey))
    return total + (total >> 16) & 0xFFFF


def ds_from_key(zone: bytes, dnskey: bytes, digest_type: int = 2) -> bytes:
    """The data of the DS record of a zone's key, by the data of its DNSKEY record; of type 2, SHA-256, or 4, SHA-384."""
    if len(dnskey) < 5 or not int.from_bytes(dnskey[:2], "big") & ZONE_FLAG or dnskey[2] != PROTOCOL:
        raise ValueError("not the key of a zone")
    digest = {2: hashlib.sha256, 4: hashlib.sha384}[digest_type](zone.lower() + dnskey).digest()
    return key_tag(dnskey).to_bytes(2, "big") + bytes([dnskey[3], digest_type]) + digest


def _joined(text: str) -> list[tuple[int, str, str]]:
    """Records with the number of their last line and its comment, parentheses taken out."""
    found, depth, record = [], 0, ""
    for line, whole in enumerate(text.split("\n"), 1):
        code, _, comment = whole.partition(";")
        for letter in code:
            depth += {"(": 1, ")": -1}.get(letter, 0)
            if not 0 <= depth <= 1:
                raise ValueError(f"line {line}: parentheses that do not fit")
        record += code.replace("(", " ").replace(")", " ") + " "
        if depth == 0:
            found.append((line, record, comment))
            record = ""
    if depth:
        raise ValueError("a parenthesis that is not closed")
    return found


def _is_trusted(comment: str) -> bool:
    state = re.search("state=(.?)", comment)
    return state is None or state[1] in TRUSTED


def _data(zone: bytes, words: list[str]) -> bytes | None:
    """The data of the DS record of a record's words behind its owner; None if it does not count."""
    while words and (words[0].upper() == "IN" or words[0].isdecimal()):
        words = words[1:]
    kind, rest = (words or [""])[0].upper(), words[1:]
    if kind == "DS":
        return ds_from_text(" ".join(rest)) if len(rest) < 3 or int(rest[2]) in DIGESTS else None
    if kind != "DNSKEY" or len(rest) < 4:
        raise ValueError("not a DS or a DNSKEY record of class IN")
    flags = int(rest[0])
    dnskey = flags.to_bytes(2, "big") + bytes(map(int, rest[1:3])) + base64.b64decode("".join(rest[3:]), validate=True)
    made = ds_from_key(zone, dnskey)
    return None if flags & REVOKE_FLAG else made


@dataclasses.dataclass
class Anchors:
    """Trust anchors: the DS sets of zones. `/usr/share/dns/root.ds` and root.key files, also those that unbound maintains."""

    zones: dict[bytes, list[bytes]] = dataclasses.field(default_factory=dict)

    @classmethod
    def from_text(cls, text: str) -> Anchors:
        """Of a DNSKEY record the DS record with a SHA-256 digest counts; keys in the states VALID and MISSING of RFC 5011, and without a
        state; no revoked ones. Raises `ValueError`, with the line."""
        anchors = cls()
        if re.search("^;;REVOKED", text, re.MULTILINE):
            raise ValueError("all keys of the zone are revoked")
        for line, record, comment in _joined(text):
            owner, *words = record.split() or [""]
            if not owner or owner.upper() == "$TTL" or (owner.upper(), words) == ("$ORIGIN", ["."]):
                continue
            try:
                zone = name_from_text(owner).lower()
                data = _data(zone, words)
            except (ValueError, OverflowError) as error:
                raise ValueError(f"line {line}: {error}") from error
            if data is not None and _is_trusted(comment) and data not in anchors.zones.setdefault(zone, []):
                anchors.zones[zone].append(data)
        anchors.zones = {zone: ds for zone, ds in anchors.zones.items() if ds}
        if not anchors.zones:
            raise ValueError("there is no record that counts")
        return anchors

    @classmethod
    def from_file(cls, path: str) -> Anchors:
        with open(path, encoding="ascii") as file:
            return cls.from_text(file.read())

    def anchor(self, name: bytes, rtype: int) -> tuple[bytes, list[bytes]] | None:
        """The zone and the DS set to begin a walk with: the lowest anchor at or above a name; for DS, above it."""
        at = name.lower()
        if rtype == DS_TYPE:
            if at == b"\0":
                return None
            at = at[1 + at[0] :]
        while at not in self.zones and at != b"\0":
            at = at[1 + at[0] :]
        return (at, self.zones[at]) if at in self.zones else None
