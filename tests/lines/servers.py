"""Judgements of what name servers answered, whole and altered, beside what the zone says.

- `key FLAGS PROTOCOL ALGORITHM OCTETS`: a key; `passes SIGNATURE OCTETS`: a signature of these octets that passes under it.
- `zone APEX LIMIT MOMENT`: begins a zone, whose answers are judged at that moment with that limit of iterations; `ds LIST`: its DS
  set, each record a tag, an algorithm, a type of digest and a digest, as `1054:13:2:07`; `keys OCTETS`: its DNSKEY answer.
- `ask NAME TYPE VERDICT`, `ask NAME TYPE VERDICT DATA,..`: a question, and what the zone says of it.
- `message OCTETS`: holds an answer; `answer OCTETS`: holds it, and judges it.
- The answer that is held is judged altered by `altered KIND OCTETS` (other octets in its place), `cut COUNT` (without so many octets
  at its end), `at MOMENT` (at another moment) and `beside LIST` (beside another DS set, `-` for none). As it is it is judged `with
  one-moment`, all its signatures of one inception and expiration; `with as-received`, as its octets stand; `with other-question`,
  where it may answer another question; `with algorithms LIST`, DS records of others left out; and `with max-signatures COUNT`.
- `find`: what is said of the answer that is held, with all data and names.
- `tally`: how many were judged, and what was said.
"""

from __future__ import annotations

import collections
from collections.abc import Iterator

from library import Library, Reply
from words import ALIASES, CODES, FIRST_REFUSAL, Signatures, data, ds_set, name, name_and_rest, text

SILENT = ("key", "passes", "ds", "keys", "message")


def said_of(reply: Reply) -> str:
    """A reply in words, with all that it says."""
    word, octets = CODES[reply.code], reply.octets
    if reply.code >= FIRST_REFUSAL:
        return f"refused {word}"
    match word:
        case "NoType" if reply.report.delegates:
            return ["NoDs of a delegation", "NoDs of no delegation"][reply.report.delegates - 1]
        case "Records" | "StarRecords":
            return f"{word} {data(octets)}"
        case "Alias" | "WildcardAlias" | "Delegated":
            return f"{word} {text(octets)}" if octets else word
        case "Dname":
            owner, target = name_and_rest(octets)
            return f"Dname {text(owner)} to {text(target)}" if target else f"Dname {text(owner)} too long"
        case "Referral":
            cut, records = name_and_rest(octets)
            return f"Referral {text(cut)} {data(records)}"
    return word


class Judged:
    """The zone, question and answer that the lines so far handed in."""

    def __init__(self, library: Library):
        self.library, self.signatures = library, Signatures()
        self.case: dict = {"answer": b""}
        self.zone_says = ""
        self.counts: collections.Counter[str] = collections.Counter()

    def take(self, word: str, words: list[str]):
        match word, words:
            case "zone", [apex, limit, now]:
                self.case |= {"apex": name(apex), "max_nsec3_iterations": int(limit), "now": int(now)}
            case "ds", [words]:
                self.case["ds"] = ds_set(words)
            case "keys", [octets]:
                self.case["dnskey"] = bytes.fromhex(octets)
            case "ask", [qname, rtype, *says]:
                self.case |= {"name": name(qname), "rtype": int(rtype)}
                self.zone_says = " ".join(says)
            case "message" | "answer", [octets]:
                self.case["answer"] = bytes.fromhex(octets)
            case _:
                self.signatures.take(word, words)

    def judged(self, **other) -> Reply:
        return self.library.judge(self.signatures.pass_, **self.case | other)

    def told(self, reply: Reply) -> str:
        """What a judgement says, beside what the zone says, and what it took."""
        word, words = CODES[reply.code], said_of(reply)
        is_beyond = word in ("Delegated", "Referral", *ALIASES)
        if word == "Unsigned" or reply.code >= FIRST_REFUSAL:
            self.counts["unsigned" if word == "Unsigned" else "refused"] += 1
            told = words
        else:
            beyond = {"NoType": "NoType", "Delegated": "Delegated", "Referral": "Delegated"} | dict.fromkeys(ALIASES, "Alias")
            is_as_zone = beyond.get(word, words) == self.zone_says
            self.counts["as the zone says" if is_as_zone else "otherwise"] += 1
            told = f"{words}, not as the zone says"
            if is_as_zone:
                told = f"{words}, as the zone says" if is_beyond else f"{word} as the zone says"
        report = reply.report
        if is_beyond or word in ("NotProven", "IncompleteDenial") or report.delegates:
            return told
        error = f", extended error {report.ede}" if report.ede else ""
        return f"{told}; {report.verifications} verified, {report.hashes} hashed{error}"

    def tally(self) -> str:
        kinds = ("as the zone says", "otherwise", "unsigned", "refused")
        return f"{self.counts.total()} judged: " + ", ".join(f"{self.counts[it]} {it}" for it in kinds)


def change(word: str, words: list[str], answer: bytes) -> dict:
    """What a line judges in place of what is held."""
    match word, words:
        case "altered", [_, octets]:
            return {"answer": bytes.fromhex(octets)}
        case "cut", [count]:
            return {"answer": answer[: -int(count)]}
        case "at", [now]:
            return {"now": int(now)}
        case "beside", [words]:
            return {"ds": ds_set(words)}
        case "with", ["algorithms", numbers]:
            return {"algorithms": bytes(map(int, numbers.split(",")))}
        case "with", ["max-signatures", count]:
            return {"max_signatures": int(count)}
        case "with", [flag]:
            return {flag.replace("-", "_"): 1}
    raise ValueError(word)


def printed(library: Library, lines: list[str]) -> Iterator[str]:
    """What is printed of the lines."""
    judged = Judged(library)
    for line in lines:
        word, *words = line.split(" ")
        match word:
            case "" | "#":
                yield line
            case "find":
                yield f"find: {said_of(judged.judged())}"
            case "tally":
                yield judged.tally()
            case "altered" | "cut" | "at" | "beside" | "with":
                yield f"{word} {words[0]}: {judged.told(judged.judged(**change(word, words, judged.case['answer'])))}"
            case _:
                judged.take(word, words)
                if word == "answer":
                    yield f"answer: {judged.told(judged.judged())}"
                elif word not in SILENT:
                    yield line
