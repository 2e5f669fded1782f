"""What the library says of a case, in the field's words: those of docs/use/CALLING.md."""

from __future__ import annotations

import dataclasses

from . import rtypes
from .cases import Case
from .library import judge, stand_in, zermuita
from .names import Name, name_of_wire

Verdict = zermuita.Verdict
# The replies that the bench has a name for, and what is said of each refusal.
VERDICTS = {
    Verdict.RECORDS: "Records",
    Verdict.NODATA: "NoType",
    Verdict.NXDOMAIN: "NoName",
    Verdict.WILDCARD: "StarRecords",
    Verdict.WILDCARD_NODATA: "StarNoType",
    Verdict.DELEGATED: "Delegated",
    Verdict.OPTOUT: "Open",
    Verdict.INSECURE: "Unsigned",
}
REFUSALS = {
    16: ("QuestionNotAllowed", "not judged: question is not allowed"),
    17: ("BadDnskeyMessage", "refused: DNSKEY answer is not a message"),
    18: ("BadAnswerMessage", "refused: zone answer is not a message"),
    19: ("QuestionMismatch", "refused: a message answers another question"),
    20: ("EqualTags", "refused: two unlike keys have one tag"),
    21: ("NoTrustedKey", "bogus: no trusted key signs the keys"),
    22: ("MixedNsec3Parameters", "bogus: NSEC3 records of unlike parameters"),
    23: ("IterationsOverLimit", "refused: iterations are over the limit"),
    25: (
        "NotProven",
        "not proven: the records prove no verdict; bogus, if no other server of the zone and no zone below proves one",
    ),
    27: ("MixedVersions", "refused: signatures of unlike times"),
    51: ("NotProven", "incomplete denial: records verify, but a denial record that the proof needs is missing"),
}
WORDS = {
    "Records": "secure: the records are the zone's",
    "NoType": "secure NODATA: the name exists and has no records of the type",
    "NoName": "secure NXDOMAIN: there is no such name, and no wildcard for it",
    "StarRecords": "secure: a wildcard's records stand for the name, which does not exist",
    "StarNoType": "secure NODATA: a wildcard stands for the name and has no records of the type",
    "Delegated": "delegated: the name is at or below a delegation, so another zone tells of it",
    "Open": "insecure by opt-out: a delegation without signatures may be there, so nothing is proven",
    "Unsigned": "insecure: the DS set is empty, so nothing vouches for the zone's keys",
}
# The purposes of extended errors, as they are registered (RFC 8914, 4; RFC 9276, 6).
EXTENDED_ERRORS = {
    1: "Unsupported DNSKEY Algorithm",
    2: "Unsupported DS Digest Type",
    6: "DNSSEC Bogus",
    7: "Signature Expired",
    8: "Signature Not Yet Valid",
    9: "DNSKEY Missing",
    10: "RRSIGs Missing",
    12: "NSEC Missing",
    27: "Unsupported NSEC3 Iterations Value",
}
UNLIMITED = (1 << 32) - 1
# The library judges no message that costs too much work. The bench does.
TOO_LONG = 28


@dataclasses.dataclass(frozen=True)
class ErrorReason:
    code: int
    name: str

    def __str__(self) -> str:
        return f"extended error {self.code} ({self.name})"


@dataclasses.dataclass(frozen=True)
class Said:
    """What the library says of a case: the bench's name for it, None if the answer leads elsewhere; sentences; how long it lasts; the
    question of the judgement that it rests on besides; the signatures that it asked for, and the records that it vouches for;
    whether it judges at all, whether it is a verdict, and one that rests on no judgement for another question."""

    word: str | None
    words: list[str]
    verifications: int
    hashes: int
    asked: set[tuple[bytes, bytes]]
    ttl: int | None = None
    until: int | None = None
    error: ErrorReason | None = None
    beside: Case | None = None
    places: list[int] | None = None
    is_judged: bool = True
    is_proof: bool = True
    rests_on_one: bool = False


def says(case: Case) -> Said:
    """What the library says of a case whose signatures are stand-ins."""
    asked: set[tuple[bytes, bytes]] = set()

    def passes(ask: zermuita.Ask) -> bool:
        asked.add((ask.octets, ask.signature))
        return stand_in(ask.dnskey, ask.octets) == ask.signature

    handed = zermuita.Case(
        case.apex.wire(),
        case.ds,
        case.dnskey,
        case.answer,
        case.name.wire(),
        case.rtype,
        now=case.moment,
        max_nsec3_iterations=case.limit,
        one_moment=True,
        as_received=True,
        max_signatures=UNLIMITED,
        other_question=case.other_question,
        no_ds=not case.ds,
        places=True,
    )
    try:
        judgement = judge().judge(handed, passes)
    except zermuita.Refused as refused:
        return _refused(case, refused, asked)
    return _proved(case, judgement, asked)


def _refused(case: Case, refused: zermuita.Refused, asked: set[tuple[bytes, bytes]]) -> Said:
    word, sentence = REFUSALS.get(refused.reply, (str(refused), f"the library does not judge this: {refused}"))
    error = ErrorReason(refused.ede, EXTENDED_ERRORS.get(refused.ede, "")) if refused.ede else None
    beside = case.suggested() if word == "NotProven" else None
    counts, is_judged = (refused.verifications, refused.hashes), refused.reply != TOO_LONG
    return Said(word, [sentence], *counts, asked, error=error, beside=beside, is_judged=is_judged, is_proof=False)


def _proved(case: Case, judgement: zermuita.Judgement, asked: set[tuple[bytes, bytes]]) -> Said:
    word, beside = _beside(case, judgement)
    words = [WORDS[word], *_more(case, judgement)] if word else [_lead(case, judgement)]
    lasts = None if judgement.verdict == Verdict.INSECURE else (judgement.ttl, judgement.until)
    ttl, until = lasts or (None, None)
    counts = judgement.verifications, judgement.hashes
    is_one = word not in (None, "Delegated", "Unsigned") and (word, case.rtype) != ("NoType", rtypes.DS)
    return Said(word, words, *counts, asked, ttl, until, beside=beside, places=judgement.places, rests_on_one=is_one)


def _beside(case: Case, judgement: zermuita.Judgement) -> tuple[str | None, Case | None]:
    """The bench's name for a verdict; or that of an answer that leads elsewhere, with the question that proves where."""
    verdict = judgement.verdict
    if verdict in (Verdict.ALIAS, Verdict.WILDCARD_ALIAS):
        return None, case.asking(case.name, rtypes.CNAME)
    if verdict == Verdict.DNAME:
        return None, case.asking(_name(judgement.owner), rtypes.DNAME)
    if verdict == Verdict.REFERRAL:
        return None, case.asking(_name(judgement.cut), rtypes.DS)
    return VERDICTS[verdict], None


def _more(case: Case, judgement: zermuita.Judgement) -> list[str]:
    """What is found beside a verdict: which delegation it is, or whether there is one."""
    if judgement.verdict == Verdict.DELEGATED and judgement.cut:
        return [f"the topmost delegation is {_name(judgement.cut)}"]
    if judgement.delegates is None or case.rtype != rtypes.DS:
        return []
    is_one = "a delegation, to a zone that is not signed" if judgement.delegates else "no delegation: the zone itself answers for it"
    return [f"the name is {is_one}"]


def _lead(case: Case, judgement: zermuita.Judgement) -> str:
    """Where an answer leads."""
    verdict = judgement.verdict
    if verdict == Verdict.REFERRAL:
        cut = _name(judgement.cut)
        return f"referral: the name is at or below the delegation {cut}, which has DS records, so another zone tells of it"
    if verdict == Verdict.DNAME:
        has = f"secure DNAME: {_name(judgement.owner)} has a DNAME record, by which the name"
        return f"{has} leads to {_name(judgement.target)}" if judgement.target else f"{has} would have more than 255 octets (YXDOMAIN)"
    leads = f"has a CNAME record, which leads to {_name(judgement.target)}"
    if verdict == Verdict.ALIAS:
        return f"secure alias: the name {leads}"
    return f"secure wildcard alias: a wildcard stands for the name and {leads}"


def left_open(said: Said, case: Case) -> Said:
    """What is said where opt-out leaves a wildcard's alias open: its own judgement proves nothing, and that for CNAME does."""
    sentence = "insecure by opt-out: a delegation without signatures may be there in place of a wildcard's alias"
    aside = case.asking(case.name, rtypes.CNAME)
    return dataclasses.replace(said, word=None, words=[sentence], beside=aside, rests_on_one=False)


def _name(wire: bytes | None) -> Name:
    return name_of_wire(wire or b"\0")[0]
