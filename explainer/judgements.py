"""A judgement of a case by this program alone: the verdict, the signatures tried, the names hashed, the records that decided
(RFC 4035, 5; RFC 5155, 8). Verdicts and refusals have the names that the bench prints."""

from __future__ import annotations

import dataclasses
from collections.abc import Iterator

from . import rtypes
from .cases import Case
from .data import Key, read_nsec, read_nsec3
from .dates import date_text
from .delegation import DsReason, KeyReason, ds_reasons, key_reasons, keys_of
from .hashes import hash_spelled
from .messages import Message, MessageFault, Record, read_message
from .names import Name
from .nsec import Link, NsecDenial
from .nsec3 import HashLink, HashReason, Nsec3Denial
from .rtypes import type_text
from .signatures import Rrset, Scope, Seen, sought_keys, sought_records

NOT_PROVEN = "NotProven"


@dataclasses.dataclass
class Judged:
    """What a judgement says, and why. The RRsets are those of the answer that are sought."""

    word: str = NOT_PROVEN
    because: list[str] = dataclasses.field(default_factory=list)
    ds: list[DsReason] = dataclasses.field(default_factory=list)
    keys: list[KeyReason] = dataclasses.field(default_factory=list)
    seen: list[Seen] = dataclasses.field(default_factory=list)
    hashes: list[HashReason] = dataclasses.field(default_factory=list)
    rrsets: list[Rrset] = dataclasses.field(default_factory=list)

    @property
    def verifications(self) -> int:
        return sum(it.is_tried for it in self.seen)

    def ended(self, word: str, *because: str) -> Judged:
        self.word = word
        self.because += because
        return self


def judge(case: Case) -> Judged:
    """Judges a case."""
    judged = Judged()
    if not case.is_allowed:
        outside = f"it is asked for a name outside {case.apex}, or for a type that signing adds, an alias or no type of records"
        return judged.ended("QuestionNotAllowed", outside)
    if not case.ds:
        says = "the parent says that the zone is not signed, so nothing is verified"
        return judged.ended("Unsigned", f"the DS set is empty: {says}")
    try:
        read = "BadDnskeyMessage", "DNSKEY answer", case.dnskey
        dnskey = read_message(case.dnskey)
        read = "BadAnswerMessage", "answer", case.answer
        answer = read_message(case.answer)
    except MessageFault as fault:
        word, title, octets = read
        wanting = "wanting: a whole message with one question"
        return judged.ended(word, f"the {title}, of {len(octets)} octets, cannot be read: {fault}; {wanting}")
    mismatches = _mismatches(case, dnskey, answer)
    if mismatches:
        return judged.ended("QuestionMismatch", *mismatches)
    return _Judgement(case, dnskey, answer, judged).made()


def _mismatches(case: Case, dnskey: Message, answer: Message) -> list[str]:
    """What messages ask that do not ask what they have to."""
    wanted = [("DNSKEY answer", dnskey, case.apex, rtypes.DNSKEY)]
    if not case.other_question:
        wanted.append(("answer", answer, case.name, case.rtype))
    return [
        f"the {title} is for {view.name} {type_text(view.rtype)}; wanting: one for {name} {type_text(rtype)}, class IN"
        for title, view, name, rtype in wanted
        if (view.name, view.rtype, view.rclass) != (name, rtype, rtypes.IN)
    ]


class _Judgement:
    """A judgement of two messages that are read."""

    def __init__(self, case: Case, dnskey: Message, answer: Message, judged: Judged) -> None:
        self.case, self.dnskey, self.answer, self.judged = case, dnskey, answer, judged
        self.keys = keys_of(dnskey, case.apex)
        judged.ds = ds_reasons(case.ds, self.keys, case.apex)
        judged.keys = key_reasons(self.keys, judged.ds)
        self.sought = sought_records(answer, case.apex, case.name, case.rtype)
        judged.rrsets = list(self.sought.values())

    def made(self) -> Judged:
        case, judged = self.case, self.judged
        tag = _equal_tag(self.keys)
        is_trusted = self._see_keys(is_reached=tag is None)
        scope = Scope("answer", self.answer, case.apex, self.sought, self.keys, case.moment)
        scope.is_reached = is_trusted
        judged.seen += scope.see()
        if tag is not None:
            because = f"two unlike keys have the tag {tag}, so no signature tells which of them made it"
            return judged.ended("EqualTags", because)
        if not is_trusted:
            wanting = "a signature of the DNSKEY records that holds now and passes under a key that a DS record names"
            return judged.ended("NoTrustedKey", f"wanting: {wanting}")
        return self._by_records()

    def _see_keys(self, *, is_reached: bool) -> bool:
        """Looks at the signatures of the keys; whether a trusted key signs them."""
        named = [key for key, reason in zip(self.keys, self.judged.keys) if reason.is_named and key.is_usable]
        sought = sought_keys(self.case.apex, self.keys)
        scope = Scope("dnskey", self.dnskey, self.case.apex, sought, self.keys, self.case.moment, named, is_reached)
        self.judged.seen += scope.see()
        return any(rrset.verified is not None for rrset in sought.values())

    def _by_records(self) -> Judged:
        """The verdict by what is verified of the answer."""
        judged, case = self.judged, self.case
        verified = [rrset.verified for rrset in self.sought.values() if rrset.verified is not None]
        links = self._hash_links()
        if len({(it.inception, it.expiration) for it in verified}) > 1:
            return judged.ended("MixedVersions", *self._times())
        parameters = [f"an NSEC3 record of {it.data.iterations} iterations and the salt {it.data.salt.hex() or '-'}" for it in links]
        if len({(it.data.iterations, it.data.salt) for it in links}) > 1:
            return judged.ended("MixedNsec3Parameters", *parameters)
        if any(it.data.iterations > case.limit for it in links):
            return judged.ended("IterationsOverLimit", *parameters, f"at most {case.limit} iterations are accepted here")
        return judged.ended(self._decided(links) or NOT_PROVEN)

    def _times(self) -> list[str]:
        """From when until when the signatures hold that passed over the answer."""
        passed = (it for it in self.judged.seen if it.message == "answer" and it.state == "passed")
        times = [
            f"the signature of {it.owner} {type_text(it.signature.covered)} holds from {date_text(it.signature.inception)}"
            f" to {date_text(it.signature.expiration)}"
            for it in passed
            if it.signature is not None
        ]
        return [*times, "wanting: signatures of one answer, which are all made at one moment"]

    def _decided(self, links: list[HashLink]) -> str | None:
        """The verdict, by NSEC3 records if there are any."""
        case, because = self.case, self.judged.because
        verified = self.sought[case.name, case.rtype].verified
        asked = f"{case.name} {type_text(case.rtype)}"
        is_expanded = verified is not None and verified.labels < case.name.signed_labels
        if verified is not None and not is_expanded:
            because.append(f"a signature of {asked} passed")
            return "Records"
        if verified is not None:
            because.append(f"{asked} is a wildcard's: its signature, which passed, counts {verified.labels} labels")
        if not links:
            by_names = NsecDenial(case, self._links(), because)
            return by_names.denied() if verified is None else by_names.expanded(verified.labels)
        by_hashes = Nsec3Denial(case, links, because)
        verdict = by_hashes.denied() if verified is None else by_hashes.expanded(verified.labels)
        self.judged.hashes = by_hashes.reasons()
        return verdict

    def _links(self) -> list[Link]:
        """The verified NSEC records, in the order of the answer."""
        found = ((it.owner, read_nsec(self.answer, it)) for it in self._verified(rtypes.NSEC))
        return [Link(owner, data) for owner, data in found if data is not None]

    def _hash_links(self) -> list[HashLink]:
        """The verified NSEC3 records, in the order of the answer."""
        apex = self.case.apex
        found = ((hash_spelled(apex, it.owner), read_nsec3(self.answer.data(it))) for it in self._verified(rtypes.NSEC3))
        return [HashLink(owner, data) for owner, data in found if owner is not None and data is not None]

    def _verified(self, rtype: int) -> Iterator[Record]:
        """The records of a type whose RRset is verified."""
        for record in self.answer.records:
            rrset = self.sought.get((record.owner, rtype))
            if (record.rtype, record.rclass) == (rtype, rtypes.IN) and rrset is not None and rrset.verified is not None:
                yield record


def _equal_tag(keys: list[Key]) -> int | None:
    """The tag that two unlike keys have, if two have one."""
    data_by_tag: dict[int, bytes] = {}
    for key in keys:
        if data_by_tag.setdefault(key.tag, key.data) != key.data:
            return key.tag
    return None
