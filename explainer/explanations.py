"""A judgement explained: what it comes to, and why, beside what bench and library say of it."""

from __future__ import annotations

import dataclasses
import re
from typing import Any

from .cases import Case
from .dates import moment_text
from .delegation import DsReason, KeyReason
from .judgements import NOT_PROVEN, Judged, judge
from .library_says import WORDS, ErrorReason, Said, left_open, says
from .messages import read_message
from .nsec3 import HashReason
from .rtypes import type_text
from .signatures import SignatureReason

COUNTED = re.compile(r"(?:refused )?(\w+)(?: \S+)? verifications ([0-9]+) hashes ([0-9]+)\Z")
DISAGREES = "the judge's own verdict could not be found again in these messages"


@dataclasses.dataclass
class Reasons:
    """Why a judgement came out so, and what a resolver is told beside it."""

    ttl: int | None
    until: int | None
    extended_error: ErrorReason | None
    because: list[str]
    ds: list[DsReason]
    keys: list[KeyReason]
    signatures: list[SignatureReason]
    hashes: list[HashReason]
    differences: list[str]

    @property
    def agrees(self) -> bool:
        """Whether bench and library say what is found here."""
        return not self.differences

    def lines(self) -> list[str]:
        """The lines of a text."""
        told: list[Any] = [] if self.ttl is None else [f"ttl {self.ttl}"]
        told += [] if self.until is None else [f"until {moment_text(self.until)}"]
        told += [] if self.extended_error is None else [self.extended_error]
        told += [*self.because, *self.ds, *self.keys, *self.signatures, *self.hashes]
        return [*map(str, told), *([] if self.agrees else [*self.differences, DISAGREES])]

    def members(self) -> dict[str, Any]:
        """The members of an object."""
        members = dataclasses.asdict(self)
        members["because"] += members.pop("differences")
        return {**members, "agrees": self.agrees}


@dataclasses.dataclass(frozen=True)
class Explanation:
    words: list[str]
    reasons: Reasons


def explain(case: Case, printed: str) -> Explanation:
    """Explains a case for which the bench printed a line."""
    own, said = judge(case), says(case)
    if own.word == NOT_PROVEN and said.word == "Open":
        said = left_open(said, case)
    differences = _beside_bench(own, printed) + _beside_library(case, own, said)
    because, hashes, seen = own.because, own.hashes, own.seen
    signatures = [it.reason() for it in seen]
    if said.beside is not None:
        other = judge(said.beside)
        differences += _beside_library(said.beside, other, says(said.beside), is_aside=True)
        heading = f"the answer is judged for {said.beside.name} {type_text(said.beside.rtype)} besides"
        because = [*([] if said.is_proof else because), heading, *other.because]
        hashes = other.hashes if said.is_proof else hashes
        signatures = [_joined(*them) for them in zip(signatures, (it.reason() for it in other.seen))]
    reasons = Reasons(said.ttl, said.until, said.error, because, own.ds, own.keys, signatures, hashes, differences)
    # Of what the library does not judge the bench alone says something.
    words = [] if said.is_judged or own.word not in WORDS else [WORDS[own.word]]
    return Explanation([*words, *said.words], reasons)


def _joined(own: SignatureReason, other: SignatureReason) -> SignatureReason:
    """A signature as another judgement has it, if that needs it."""
    return own if other.state == "not-needed" else other


def _beside_bench(own: Judged, printed: str) -> list[str]:
    """What differs from what the bench printed."""
    found = COUNTED.match(printed)
    counts = (own.word, str(own.verifications), str(len(own.hashes)))
    if found and found.groups() == counts:
        return []
    return [f"found here: {counts[0]} verifications {counts[1]} hashes {counts[2]}; the bench prints: {printed}"]


def _beside_library(case: Case, own: Judged, said: Said, *, is_aside: bool = False) -> list[str]:
    """What differs from what the library says."""
    if not said.is_judged:
        return []
    found = []
    # What proves nothing for one question may lead elsewhere by another.
    leads = said.word is None or is_aside
    if own.word != said.word and not (leads and own.word == NOT_PROVEN):
        found.append(f"found here: {own.word}; the library says: {'; '.join(said.words)}")
    tried = {(it.octets, it.signature.signature) for it in own.seen if it.is_tried and it.signature is not None}
    if not tried <= said.asked:
        found.append(f"{len(tried - said.asked)} signatures are tried here that the library did not ask for")
    if said.rests_on_one:
        found += _unlike(case, own, said)
    return found


def _unlike(case: Case, own: Judged, said: Said) -> list[str]:
    """What differs from a verdict of the library that rests on one judgement: its counts, and the records that it vouches for."""
    found = []
    places, counts = _places(case, own), (own.verifications, len(own.hashes))
    if counts != (said.verifications, said.hashes):
        found.append(f"found here: verifications {counts[0]} hashes {counts[1]}; the library counts {said.verifications} and {said.hashes}")
    if said.places is not None and places != set(said.places):
        found.append(f"verified here: the records {sorted(places)}; the library vouches for {said.places}")
    return found


def _places(case: Case, own: Judged) -> set[int]:
    """The places of the records of the answer that are verified."""
    verified = {(it.owner, it.rtype) for it in own.rrsets if it.verified is not None}
    if not verified:
        return set()
    return {at for at, it in enumerate(read_message(case.answer).records) if it.rclass == 1 and (it.owner, it.rtype) in verified}
