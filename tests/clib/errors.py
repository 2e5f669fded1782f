"""Extended errors of refusals, told from messages by RFC 8914, 4, and RFC 9276, 3.2: a second reading beside the library's. And the rows
of tests/lines/extended_errors, whose errors come from there too, as they are handed to a caller of the library for C."""

from __future__ import annotations

import dataclasses
import hashlib
import pathlib
from collections.abc import Iterator

from answers import DNAME, DNAME_TYPE, INCOMPLETE_DENIAL, NOT_PROVEN, Answered, Reply, part, wire
from copies import Copies, key_tag, message, signed
from findings import over, rests_on, rrsets, told_of, unproven
from lasting import DNSKEY, Signature

ROWS = pathlib.Path(__file__).resolve().parents[1] / "lines/extended_errors"
BOGUS, EXPIRED, NOT_YET, NO_KEY, NO_SIGNATURE, NO_DENIAL, ITERATIONS = 6, 7, 8, 9, 10, 12, 27
NO_TRUSTED_KEY = 21
# What a refusal alone says; others say nothing, since the answer is not bogus or the library lacked something.
PLAIN = {17: BOGUS, 18: BOGUS, 22: BOGUS, 23: ITERATIONS, 27: BOGUS, INCOMPLETE_DENIAL: NO_DENIAL}
DIGESTS = {2: hashlib.sha256, 4: hashlib.sha384}
# The refusals of those rows, by their words, in the order of enum zermuita_reply.
REFUSALS = {
    "question is not allowed": 16,
    "DNSKEY answer is not a message": 17,
    "zone answer is not a message": 18,
    "a message answers another question": 19,
    "two unlike keys have one tag": 20,
    "no trusted key signs the keys": NO_TRUSTED_KEY,
    "NSEC3 records of unlike parameters": 22,
    "iterations are over the limit": 23,
    "the records prove no verdict": NOT_PROVEN,
    "signatures of unlike times": 27,
}


def is_named(key: bytes, ds: bytes, apex: bytes) -> bool:
    """Whether a DS record names a key, one that signs in the zone (RFC 4034, 2.1 and 5.1; RFC 4035, 5.2)."""
    tag, algorithm, kind = int.from_bytes(ds[:2], "big"), ds[2], ds[3]
    if not (key[0] & 1 and key[2] == 3) or (tag, algorithm) != (key_tag(key), key[3]) or kind not in DIGESTS:
        return False
    return DIGESTS[kind](apex.lower() + key).digest() == ds[4:]


def of_signatures(signatures: list[Signature], now: int) -> int:
    """Why none of some signatures can be used at a moment: 0 where one can."""
    if not signatures:
        return NO_SIGNATURE
    if any(it.inception <= now <= it.expiration for it in signatures):
        return 0
    return EXPIRED if any(it.expiration < now for it in signatures) else NOT_YET


def of_keys(it: Answered) -> int:
    apex = it.apex.lower()
    keys = rrsets(it.dnskey).get((apex, DNSKEY), [])
    if not any(is_named(key.raw, ds, it.apex) for key in keys for ds in it.ds):
        return NO_KEY
    return of_signatures(over(it.dnskey, it.apex, [(apex, DNSKEY)]), it.now) or BOGUS


def of_answer(case: Answered) -> int:
    """Of an answer of which nothing is verified."""
    it = told_of(case)
    sets = rests_on(it)
    return (of_signatures(over(it.answer, it.apex, sets), it.now) or BOGUS) if sets else NO_DENIAL


def extended_error(it: Answered) -> int:
    """The code beside a reply, or 0 for none."""
    number = it.reply.number
    if number == NO_TRUSTED_KEY:
        return of_keys(it)
    return of_answer(it) if number == NOT_PROVEN else PLAIN.get(number, it.ede)


@dataclasses.dataclass(frozen=True)
class Row:
    """A case, whether its answer must be of one moment, and what is said of it. A signature passes if it is a copy of what it is made
    over."""

    case: Answered
    one_moment: bool
    what: str


def rows() -> Iterator[Row]:
    """Each row. Where no DS record has a digest that is made, the zone is insecure here (RFC 4035, 5.2). Where nothing is proven there
    are two replies: the line tells which, and a second reading."""
    printed = (it for it in (ROWS / "stdout").read_text().splitlines() if it.startswith("error "))
    state: dict = {"limit": 0, "verdict": None, "data": []}
    what, ds = "", ""
    for line in (ROWS / "stdin").read_text().splitlines():
        name, *words = line.split(" ")
        if name == "#":
            what = " ".join(words)
        elif name == "zone":
            state["apex"] = wire(words[0])
        elif name == "ds":
            ds = words[0]
        elif name in ("keys", "answer"):
            state["dnskey" if name == "keys" else name] = bytes.fromhex(words[0])
        elif name == "error":
            refusal, code = next(printed).split(": ", 1)[1].split("; ")
            reply, ede = REFUSALS[refusal], int(code.split(" ")[0])
            question = {"name": wire(words[0]), "rtype": int(words[1]), "now": int(words[2])}
            case = Answered(**state | question, ds=[ds_of(it, state) for it in ds.split(",")], reply=Reply(reply), ede=ede)
            if ede == 2:
                case = dataclasses.replace(case, reply=Reply(7))
            if reply == NOT_PROVEN:
                case = dataclasses.replace(case, reply=unproven(case, Copies()))
                if code.endswith(", incomplete denial") != (case.reply.number == INCOMPLETE_DENIAL):
                    raise ValueError(f"{what} {code}, and by the message {case.reply}")
            yield Row(case, reply == 27, what)


def renamed() -> Iterator[Row]:
    """Questions below a DNAME record of the same zone: whose name becomes one of 255 octets, and one that would have 256."""
    first = next(rows()).case
    owner, target = wire("far.example"), wire(".".join(letter * 61 for letter in "abcd"))
    for label in (b"fives", b"sixsix"):
        name = part(label, 1) + owner
        answer = message(name, 1, signed(owner, DNAME_TYPE, target), [])
        octets = owner + (part(label, 1) + target if len(label) + 1 + len(target) <= 255 else b"")
        case = dataclasses.replace(first, name=name, rtype=1, now=1500, answer=answer, reply=Reply(DNAME, octets), ede=0)
        yield Row(case, False, f"a DNAME above {label.decode()}")


def ds_of(word: str, state: dict) -> bytes:
    """A DS record with the digest of the key that has its tag, or with one of none."""
    tag, kind = map(int, word.split(":"))
    keys = [it.raw for it in rrsets(state["dnskey"]).get((state["apex"], DNSKEY), [])]
    key = next((it for it in keys if key_tag(it) == tag and it[0] & 1), b"")
    return tag.to_bytes(2, "big") + bytes([13, kind]) + (hashlib.sha256(state["apex"] + key).digest() if key else bytes(32))
