"""The DS records of a zone beside the keys of its DNSKEY answer (RFC 4035, 5.2)."""

from __future__ import annotations

import dataclasses
import hashlib

from . import rtypes
from .data import Ds, Key, read_ds, read_key
from .messages import Message
from .names import Name

# What a DS record is to the keys.
STATES = {
    "names": "names the key of this tag",
    "no-such-key": "missing: the DNSKEY answer has no key of this tag and algorithm",
    "unusable-key": "the key of this tag is none for zones: flag 256 or protocol 3 is missing",
    "other-digest": "the key of this tag has another digest",
    "unknown-digest": "its type of digest is not known",
}
SHA256 = 2


@dataclasses.dataclass(frozen=True)
class DsReason:
    tag: int
    algorithm: int
    digest_type: int
    state: str

    def __str__(self) -> str:
        return f"DS {self.tag} {self.algorithm} {self.digest_type}: {STATES[self.state]}"


@dataclasses.dataclass(frozen=True)
class KeyReason:
    tag: int
    flags: int
    algorithm: int
    is_named: bool

    def __str__(self) -> str:
        named = "a DS record names it" if self.is_named else "no DS record names it"
        return f"DNSKEY {self.tag}: flags {self.flags}, algorithm {self.algorithm}, {named}"


def keys_of(message: Message, apex: Name) -> list[Key]:
    """The keys of a DNSKEY answer, in its order."""
    is_key = (it for it in message.records if (it.rtype, it.rclass, it.owner) == (rtypes.DNSKEY, rtypes.IN, apex))
    found = (read_key(message.data(record)) for record in is_key)
    return [key for key in found if key is not None]


def ds_reasons(ds_set: tuple[bytes, ...], keys: list[Key], apex: Name) -> list[DsReason]:
    records = (read_ds(data) for data in ds_set)
    return [DsReason(ds.tag, ds.algorithm, ds.digest_type, _state(ds, keys, apex)) for ds in records if ds is not None]


def key_reasons(keys: list[Key], ds: list[DsReason]) -> list[KeyReason]:
    named = {(it.tag, it.algorithm) for it in ds if it.state == "names"}
    return [KeyReason(key.tag, key.flags, key.algorithm, (key.tag, key.algorithm) in named) for key in keys]


def _state(ds: Ds, keys: list[Key], apex: Name) -> str:
    """What a DS record is to the keys: of several of its tag and algorithm to one that it names, or else to the last."""
    states = [_beside(ds, key, apex) for key in keys if (key.tag, key.algorithm) == (ds.tag, ds.algorithm)]
    return "names" if "names" in states else states[-1] if states else "no-such-key"


def _beside(ds: Ds, key: Key, apex: Name) -> str:
    if not key.is_usable:
        return "unusable-key"
    if ds.digest_type != SHA256:
        return "unknown-digest"
    # The digest of owner and data (RFC 4034, 5.1.4).
    return "names" if hashlib.sha256(apex.canonical() + key.data).digest() == ds.digest else "other-digest"
