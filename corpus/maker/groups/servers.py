"""Answers of name servers, as they came: named of BIND, NSD and Knot, about zones whose signatures hold from 2026 to 2036.

They stand in tests/lines/servers/stdin beside what the zones say. Of each question to a zone one server's answer is taken, by turns.
Not taken are referrals with DS, behind which a validator has to ask on, and zones of an algorithm that the corpus leaves out.
"""

from __future__ import annotations

import collections
import dataclasses
import pathlib
import struct
from collections.abc import Iterator

from .. import wire
from ..cases import BOGUS, LIMIT, Expected, Group, of_type, words
from ..wire import DS
from ..zone import NOW

TITLE = "answers of name servers"
ROWS = pathlib.Path(__file__).resolve().parents[3] / "tests/lines/servers/stdin"
ZONES = ["nsec.test", "nsec3.test", "nsec3i.test", "optout.test", "csk.test", "rsa.test", "ed25519.test", "two.test"]
SAYS: dict[str, Expected] = {
    "Records": ("secure", "answer"), "NoType": ("secure", "nodata"), "NoName": ("secure", "nxdomain"), "StarRecords": ("secure", "wildcard"),
    "StarNoType": ("secure", "wildcard-nodata"), "Delegated": ("insecure", "delegated"), "Open": ("insecure", "optout"),
}
RFC = {
    "Records": "RFC 4035, 5.3", "NoType": "RFC 4035, 5.4", "NoName": "RFC 4035, 5.4", "StarRecords": "RFC 4035, 5.3.4",
    "StarNoType": "RFC 4035, 5.4", "Delegated": "RFC 4035, 5.2", "Open": "RFC 5155, 9.2",
}
# By NSEC3.
HASHED = {"NoType": "RFC 5155, 8.5", "NoName": "RFC 5155, 8.4", "StarRecords": "RFC 5155, 8.8", "StarNoType": "RFC 5155, 8.7", "Delegated": "RFC 5155, 8.9"}
CALLED = {
    "Records": "records", "NoType": "NODATA", "NoName": "NXDOMAIN", "StarRecords": "a wildcard's records", "StarNoType": "NODATA from a wildcard",
    "Delegated": "a delegation without DS", "Open": "under opt-out",
}
# Questions whose answers lack a record of the proof, and what the standards have of it.
LACKING = {
    "x.star.nsec.test.": "RFC 4035, 3.1.3.4 and 5.4, want it shown that the wildcard has no such type; the answer has no record for the wildcard, "
    "which exists for the sake of a name below it.",
    "v.optout.test.": "RFC 5155, 8.5, wants a record that matches the name; 7.1 leaves names out that exist for unsigned delegations alone.",
}
LACKING["x.y.star.nsec.test."] = LACKING["x.star.nsec.test."]


@dataclasses.dataclass(frozen=True)
class Row:
    server: str
    zone: str
    ds: tuple[bytes, ...]
    keys: bytes
    name: str
    rtype: int
    says: str
    answer: bytes


def rows() -> Iterator[Row]:
    """The answers of the servers, without those that were altered."""
    server = zone = name = says = ""
    ds: tuple[bytes, ...] = ()
    keys, rtype = b"", 0
    for line in ROWS.read_text().splitlines():
        word, _, rest = line.partition(" ")
        match word:
            case "#":
                server = rest.split(":")[0].split(",")[0].removesuffix(" without compression of names").removesuffix(" with full answers")
            case "zone":
                zone = rest.split()[0]
            case "ds":
                ds = tuple(map(ds_of, rest.split(",")))
            case "keys":
                keys = bytes.fromhex(rest)
            case "ask":
                name, number, says = rest.split()[:3]
                rtype = int(number)
            case "answer" if zone in ZONES and says in SAYS:
                yield Row(server, zone, ds, keys, name, rtype, says, bytes.fromhex(rest))


def ds_of(text: str) -> bytes:
    tag, algorithm, kind, digest = text.split(":")
    return struct.pack(">HBB", int(tag), int(algorithm), int(kind)) + bytes.fromhex(digest)


def add(group: Group) -> None:
    found: dict[tuple[str, str, int], list[Row]] = collections.defaultdict(list)
    keys: dict[str, bytes] = {}
    for row in rows():
        found[row.zone, row.name.lower(), row.rtype].append(row)
        keys.setdefault(row.zone, row.keys)
    for at, same in enumerate(found.values()):
        row = same[at % len(same)]
        # DS at a zone's own apex is the parent's to answer.
        if not refers_to_signed(row) and not is_deep(row, found) and (row.rtype != DS or row.name != row.zone):
            add_row(group, dataclasses.replace(row, keys=keys[row.zone]))


def refers_to_signed(row: Row) -> bool:
    """A referral with a DS set: the octets of its type and class stand behind an owner."""
    return row.says == "Delegated" and b"\x00\x2b\x00\x01\x00" in row.answer[16:]


def is_deep(row: Row, found: dict[tuple[str, str, int], list[Row]]) -> bool:
    """Whether a name is below a delegation which is below another name, whose DS question no server was asked: some validators ask for
    DS label by label."""
    if row.says not in ("Delegated", "Open") or row.rtype == DS:
        return False
    name, apex = wire.name_of(row.name.lower()), wire.name_of(row.zone)
    below = name[: len(name) - len(apex)]
    asked = wire.text_of((below[-1], *apex))[:-1] if below else row.zone
    return len(below) > 1 and (row.zone, f"{below[-2].decode('latin-1')}.{asked}", DS) in found and (row.zone, asked, DS) not in found


def rfc_of(row: Row) -> str:
    """The section that decides an answer by its verdict, and by whether it has NSEC3 records: their type and class stand behind an owner."""
    if b"\x00\x32\x00\x01" not in row.answer:
        return RFC[row.says]
    return "RFC 5155, 8.6" if row.rtype == DS and row.says in ("NoType", "Delegated") else HASHED.get(row.says, RFC[row.says])


def add_row(group: Group, row: Row) -> None:
    apex, name = wire.name_of(row.zone), name_in(row.answer)
    expected = SAYS[row.says]
    server = {"BIND's named": "named", "named": "named"}.get(row.server, row.server)
    text = f"{wire.text_of(name)} {of_type(row.rtype)}"
    also: list[Expected] = []
    lacking = LACKING.get(wire.text_of(name), "") if row.rtype == wire.A else ""
    if lacking:
        expected, also = BOGUS, [expected]
    rest = {"also": [words(*it) for it in also], "open": lacking} if lacking else {}
    group.keep(
        {
            "id": group.id, "group": group.name, "tries": f"The answer of {server} to {text}: {CALLED[row.says]}.", "rfc": rfc_of(row), "kind": "acceptable" if lacking else "valid",
            "zone": row.zone, "apex": wire.wire(apex).hex(), "question": {"name": wire.wire(name).hex(), "type": row.rtype, "text": text},
            "moment": NOW, "nsec3_limit": LIMIT, "expected": words(*expected), "ds": [it.hex() for it in row.ds], "dnskey": row.keys.hex(),
            "answer": row.answer.hex(), **rest,
        },
        expected, also,
    )


def name_in(message: bytes) -> wire.Name:
    """The name of a message's question."""
    labels, at = [], 12
    while message[at]:
        labels.append(message[at + 1 : at + 1 + message[at]])
        at += 1 + message[at]
    return tuple(labels)
