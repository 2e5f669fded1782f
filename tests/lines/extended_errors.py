"""Extended errors of refused answers (RFC 8914), and the records of answers that are verified.

A signature is a copy of the octets that it is made over.

- `zone APEX`: begins a zone; `ds LIST`: its DS set, each record a tag and a type of digest, as `1054:2`: of the key of that tag in the
  DNSKEY answer, or of none; `keys OCTETS`: its DNSKEY answer.
- `answer OCTETS`: holds an answer.
- `error NAME TYPE MOMENT LIMIT`: judges the answer that is held, with a limit of iterations, and says why it is refused, with the code
  and its purpose; and behind the code that two have whether the denial is incomplete. Where no DS record has a digest that is made the
  zone is insecure here, with the same extended error.
- `records NAME TYPE MOMENT LIMIT`: says which records of the answer that is held are verified, by their numbers. The library says so of
  a verdict alone, so other lines are passed over.
"""

from __future__ import annotations

import pathlib
import sys
from collections.abc import Iterator

from library import Ask, Library, Reply, behind_length
from words import CODES, FIRST_REFUSAL, name

sys.path.append(str(pathlib.Path(__file__).resolve().parents[1] / "clib"))
import errors  # noqa: E402

# Refusals by their numbers, and the purposes of codes as they are registered (RFC 8914, 5.2; RFC 9276, 6).
REFUSALS = {number: it for it, number in errors.REFUSALS.items()}
PURPOSES = {
    0: "Other Error",
    2: "Unsupported DS Digest Type",
    6: "DNSSEC Bogus",
    7: "Signature Expired",
    8: "Signature Not Yet Valid",
    9: "DNSKEY Missing",
    10: "RRSIGs Missing",
    12: "NSEC Missing",
    27: "Unsupported NSEC3 Iterations Value",
}
# Replies of the library in the place of a refusal: a zone is insecure, a denial lacks a record.
INSECURE, NO_TRUSTED_KEY, INCOMPLETE_DENIAL, NOT_PROVEN = 7, 21, 51, 25


def is_copy(ask: Ask) -> bool:
    return ask.signature == ask.octets


def error_of(reply: Reply) -> str:
    """Why an answer is refused, and the extended error of that."""
    if reply.code < FIRST_REFUSAL and not (reply.code == INSECURE and reply.report.ede):
        return f"a verdict: {CODES[reply.code]}"
    number = {INSECURE: NO_TRUSTED_KEY, INCOMPLETE_DENIAL: NOT_PROVEN}.get(reply.code, reply.code)
    more = ", incomplete denial" if reply.code == INCOMPLETE_DENIAL else ""
    return f"{REFUSALS[number]}; {reply.report.ede} {PURPOSES[reply.report.ede]}{more}"


def numbers_of(reply: Reply) -> str | None:
    """The numbers of the records that are verified for a verdict."""
    if reply.code >= FIRST_REFUSAL:
        return None
    count = int.from_bytes(reply.octets[:4], "big")
    return " ".join(str(int.from_bytes(reply.octets[at : at + 4], "big")) for at in range(4, 4 + 4 * count, 4))


def printed(library: Library, lines: list[str]) -> Iterator[str | None]:
    """What is printed of the lines; nothing of one that is passed over."""
    state: dict = {}
    ds = ""
    for line in lines:
        word, *words = line.split(" ")
        match word, words:
            case ("" | "#"), _:
                yield line
            case "zone", [apex]:
                state["apex"] = name(apex)
            case "ds", [ds]:
                pass
            case ("keys" | "answer"), [octets]:
                state["dnskey" if word == "keys" else word] = bytes.fromhex(octets)
            case ("error" | "records"), [qname, rtype, now, limit]:
                question = {"name": name(qname), "rtype": int(rtype), "now": int(now), "max_nsec3_iterations": int(limit)}
                records = b"".join(behind_length(errors.ds_of(it, state)) for it in ds.split(","))
                reply = library.judge(is_copy, **state, **question, ds=records, one_moment=1, places=int(word == "records"))
                said = error_of(reply) if word == "error" else numbers_of(reply)
                yield said and f"{line}: {said}"
