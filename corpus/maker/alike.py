"""Whether two cases say the same: what a case shows, apart from the name of its zone and the octets of signatures and hashes."""

from __future__ import annotations

import functools
from typing import Any

import reference

from . import wire

HERE = b"HERE"


@functools.cache
def hashes(apex: reference.Name, text: str, salt: bytes, iterations: int) -> dict[bytes, bytes]:
    """The names of a zone's text, and those above them, by their hashes."""
    names = {above for word in text.split() for above in wire.parents(wire.name_of(word.split(":")[0]))} - {(b"@",)}
    full = {name: (*name, *reversed(apex)) for name in names | {()}}
    return {wire.nsec3_hash(it, salt, iterations): wire.text_of(name).encode() for name, it in full.items()}


def masked(octets: bytes, case: dict[str, Any]) -> bytes:
    """A message with the apex, the octets of signatures and hashes taken out; names stand in the place of hashes."""
    apex = reference.name_at(bytes.fromhex(case["apex"]), 0)[0]
    try:
        records = reference.read(octets).records
    except (reference.Unreadable, IndexError):
        return octets
    for record in records:
        if record.rtype == reference.RRSIG:
            signature = reference.Signature.of(record.data).octets
            octets = octets.replace(signature, bytes(len(signature))) if len(signature) > 16 else octets
        if record.rtype == reference.NSEC3 and len(record.data) > 25:
            octets = without_hashes(octets, record, apex, case["zone"])
    label = apex[-1] if apex else b""
    return octets.replace(label, b"APEX").replace(label.upper(), b"APEX IN CAPITALS")


def without_hashes(octets: bytes, record: reference.Record, apex: reference.Name, text: str) -> bytes:
    salt_end = 5 + record.data[4]
    iterations = int.from_bytes(record.data[2:4], "big")
    known = hashes(apex, text, record.data[5:salt_end], iterations if iterations <= 100 else 0)
    for digest, name in known.items():
        label = wire.base32hex(digest)
        octets = octets.replace(label, name).replace(label.upper(), b"CAPITALS " + name).replace(digest, name)
    return octets


def fingerprint(case: dict[str, Any]) -> object:
    """Equal for cases that show the same. Where some signature fails, or a case is about them, the sentence tells how."""
    messages = [masked(bytes.fromhex(case[it]), case) for it in ("dnskey", "answer")]
    how = "" if case["group"] not in ("signatures", "caches") and all_pass(case) else case["tries"]
    question = case["question"]
    return repr((case["zone"], ds_of(case), messages, how, question["name"][-8:], question["type"], case["moment"], case["nsec3_limit"]))


def ds_of(case: dict[str, Any]) -> list[object]:
    """DS records, and whether their digests are those of published keys."""
    apex = reference.name_at(bytes.fromhex(case["apex"]), 0)[0]
    try:
        keys = [it.data for it in reference.read(bytes.fromhex(case["dnskey"])).records if it.rtype == reference.DNSKEY]
    except (reference.Unreadable, IndexError):
        keys = []
    return [(it[:8], len(it), any(reference.names(apex, bytes.fromhex(it), reference.Key(key)) for key in keys)) for it in case["ds"]]


def all_pass(case: dict[str, Any]) -> bool:
    """Whether each RRset that has a signature verifies."""
    of = reference.Case.of(case)
    try:
        keys = reference.trusted_keys(of.apex, of.ds, reference.read(of.dnskey), of.now)
        answer = reference.read(of.answer)
    except (reference.Unreadable, IndexError):
        return False
    signed = {(it.owner, it.data[:2]) for it in answer.records if it.rtype == reference.RRSIG}
    return keys is not None and len([*reference.Verifier(of.apex, keys, of.now).facts(answer)]) == len(signed)
