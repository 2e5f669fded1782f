"""What is handed in and what comes back."""

from __future__ import annotations

import dataclasses
import enum
import time
from collections.abc import Sequence
from typing import Protocol, Union

from ._c import behind_length
from .text import name_from_text

# Zermuita's own, of zermuita.h.
ASK, WANT, OUT_OF_MEMORY, TOO_MANY_SIGNATURES = 32, 33, 26, 29


class Wire(Protocol):
    """What dnspython's messages, names and records have."""

    def to_wire(self) -> bytes | None: ...


# Whole messages, and the data of records: octets, or objects of dnspython.
Message = Union[bytes, Wire]
# A name: its wire form, its text, or an object of dnspython, which has to be absolute.
Name = Union[bytes, str, Wire]


def octets_of(given: Message) -> bytes:
    """The octets of a message or of a record's data."""
    return given if isinstance(given, bytes) else given.to_wire() or b""


def name_of(given: Name) -> bytes:
    """The wire form of a name."""
    return name_from_text(given) if isinstance(given, str) else octets_of(given)


def clock(now: int | None) -> int:
    return int(time.time()) if now is None else now


class Verdict(enum.IntEnum):
    """What a zone says, as `enum zermuita_reply` has it."""

    RECORDS = 0
    NODATA = 1
    NXDOMAIN = 2
    WILDCARD = 3
    WILDCARD_NODATA = 4
    DELEGATED = 5
    OPTOUT = 6
    INSECURE = 7
    ALIAS = 8
    WILDCARD_ALIAS = 9
    DNAME = 10
    REFERRAL = 11


class Security(enum.IntEnum):
    """How far an answer may be trusted (RFC 4035, 4.3)."""

    INDETERMINATE = 0
    """Nothing is known: most refusals; and DELEGATED and REFERRAL, which show where the zone ends."""
    BOGUS = 1
    INSECURE = 2
    SECURE = 3


INSECURE = {Verdict.OPTOUT, Verdict.INSECURE}
SECURE = set(Verdict) - INSECURE - {Verdict.DELEGATED, Verdict.REFERRAL}
NO_TRUSTED_KEY, MIXED_NSEC3_PARAMETERS, NOT_PROVEN = 21, 22, 25


def security_of(reply: int) -> Security:
    """How far a reply may be trusted."""
    if reply in SECURE:
        return Security.SECURE
    if reply in INSECURE:
        return Security.INSECURE
    is_bogus = reply in (NO_TRUSTED_KEY, MIXED_NSEC3_PARAMETERS, NOT_PROVEN)
    return Security.BOGUS if is_bogus else Security.INDETERMINATE


@dataclasses.dataclass(frozen=True)
class Wanted:
    """A message that a walk wants, or one that it refuses: the zone whose servers to query, and the question."""

    zone: bytes
    name: bytes
    rtype: int


class Refused(Exception):
    """No verdict: docs/use/REPLIES.md has the table of replies, docs/use/CALLING.md which of them are bogus.

    `reply` is the number of the reason, and `ede` the code of an extended error (RFC 8914), or 0 where there is none. `verifications`
    and `hashes` are as in a `Judgement`. Of a walk `wanted` is the message that is refused, or, where `reply` is WANT, the first one that
    was not fetched.
    """

    def __init__(
        self, reply: int, text: str, ede: int = 0, verifications: int = 0, hashes: int = 0, wanted: Wanted | None = None
    ) -> None:
        super().__init__(text)
        self.reply = reply
        self.ede = ede
        self.verifications = verifications
        self.hashes = hashes
        self.wanted = wanted

    @property
    def security(self) -> Security:
        return security_of(self.reply)


@dataclasses.dataclass(frozen=True)
class Ask:
    """A signature that is to be checked."""

    dnskey: bytes
    """The data of the DNSKEY record."""
    octets: bytes
    """What the signature is made over."""
    signature: bytes

    @property
    def algorithm(self) -> int:
        return self.dnskey[3]

    @property
    def key(self) -> bytes:
        """The key alone, as its algorithm writes it."""
        return self.dnskey[4:]

    def entry(self, passes: bool) -> bytes:
        """The entry of a list of checked signatures, with whether this one passes."""
        parts = behind_length(self.dnskey), behind_length(self.octets, 4), behind_length(self.signature)
        return b"".join(parts) + bytes([passes])


@dataclasses.dataclass(frozen=True)
class Case:
    """What is judged. Names are in wire form, text or dnspython's; messages as they came, or dnspython's; DS records by their data.

    A set of no DS records raises `ValueError`, unless `no_ds` says that the parent proved that there is none.
    """

    apex: Name
    ds: Sequence[Message]
    dnskey: Message
    answer: Message
    name: Name
    rtype: int
    rclass: int = 1
    now: int | None = None
    """In seconds since 1970; the moment of the call where it is None."""
    max_nsec3_iterations: int = 100
    one_moment: bool = False
    as_received: bool = False
    algorithms: Sequence[int] = ()
    """Those that are checked; none: all, or with the function of this module those that it checks. DS records of others are left out."""
    max_signatures: int = 0
    """How many are to be checked at most; 0: 16."""
    other_question: bool = False
    """Whether the answer may be one to another question of the zone."""
    no_ds: bool = False
    places: bool = False
    """Whether a judgement says which records of `answer` are verified for it."""


@dataclasses.dataclass(frozen=True)
class Judgement:
    """A verdict, and what it says besides. Names are in wire form."""

    verdict: Verdict
    records: list[bytes]
    """With RECORDS and WILDCARD, the data of the records."""
    verifications: int
    hashes: int
    ttl: int
    """For how many seconds the verdict may be kept; 0 with INSECURE."""
    until: int
    """The last second, since 1970, in which the verdict stands; 0 with INSECURE."""
    ede: int
    """With INSECURE, why no DS record can be checked: an extended error (RFC 8914), or 0 where there is none."""
    checked: bytes
    """The signatures that were checked: entries, which another call may begin with."""
    target: bytes | None = None
    """With ALIAS and WILDCARD_ALIAS, the name that the alias leads to. With DNAME, the name that `name` of the case becomes, or None
    where that would be too long (RFC 6672, 2.2). Where DS was asked for at a name above the client's, do not follow it."""
    owner: bytes | None = None
    """With DNAME, its owner."""
    cut: bytes | None = None
    """With REFERRAL, the delegation; with DELEGATED, the topmost one, or None where the answer does not prove which that is."""
    ds: list[bytes] = dataclasses.field(default_factory=list)
    """With REFERRAL, the data of the delegation's DS records."""
    delegates: bool | None = None
    """With NODATA for DS, whether the name is a delegation, where the answer proves that; else None."""
    places: list[int] | None = None
    """The numbers of the records of `answer` that are verified for the verdict, counted from 0 over all its sections, ascending; RRSIG
    records have none. With OPTOUT they may be those of a wildcard's records, which are insecure. None with INSECURE, and where the
    case does not want them."""

    @property
    def security(self) -> Security:
        return security_of(self.verdict)


@dataclasses.dataclass(frozen=True)
class Evidence:
    """What a walk begins with: a trust anchor, a question, and messages and signatures of a cache. Names are as in a `Case`."""

    anchor: Name
    ds: Sequence[Message]
    name: Name
    rtype: int
    messages: Sequence[tuple[Wanted, Message]] = ()
    checked: bytes = b""
    algorithms: Sequence[int] = ()
    now: int | None = None
    max_nsec3_iterations: int = 100
    max_cuts: int = 0
    max_aliases: int = 0
    one_moment: bool = False
    max_messages: int = 0
    max_signatures: int = 0
    max_work: int = 0
    """The limits have the library's defaults where they are 0."""


@dataclasses.dataclass(frozen=True)
class Resolution:
    """What a walk ends with."""

    verdict: Verdict
    zone: bytes | None
    """The zone that a secure verdict comes from, or whose opt-out leaves the name open."""
    cut: bytes | None
    """With INSECURE, the delegation below which nothing is signed."""
    aliases: list[bytes]
    """The targets of the aliases on the way."""
    records: list[bytes]
    """With RECORDS and WILDCARD, the data of the records."""
    ttl: int
    until: int
    ede: int
    verifications: int
    hashes: int
    messages: list[tuple[Wanted, bytes]]
    """Those that were passed, and those that were fetched."""
    checked: bytes

    @property
    def security(self) -> Security:
        return security_of(self.verdict)
