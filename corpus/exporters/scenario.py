"""Scenarios of unbound's testbound, and of Deckard, which Knot Resolver is tested by; both write them alike."""

from __future__ import annotations

import time
from collections.abc import Iterator

import dns.flags
import dns.rdatatype
from maker import wire

from .scene import Message, Scene, head

SECTIONS = ("ANSWER", "AUTHORITY", "ADDITIONAL")


def question_line(message: Message) -> str:
    return f"{wire.text_of(message.name)} IN {dns.rdatatype.to_text(dns.rdatatype.RdataType.make(message.rtype))}"


def flags_of(message: Message) -> str:
    shown = message.text
    names = [it for it in ("QR", "AA") if shown.flags & dns.flags.from_text(it)]
    return " ".join([*names, dns.rcode.to_text(shown.rcode())])


def sections(message: Message) -> Iterator[str]:
    shown = message.text
    for name, rrsets in zip(SECTIONS, (shown.answer, shown.authority, shown.additional), strict=True):
        if rrsets:
            yield f"SECTION {name}"
            yield from (line for it in rrsets for line in it.to_text().splitlines())


def entry(match: str, reply: str, message: Message, has_records: bool, adjust: str = "copy_id") -> Iterator[str]:
    yield from ("ENTRY_BEGIN", f"MATCH {match}", *([f"ADJUST {adjust}"] if adjust else []), f"REPLY {reply}", "SECTION QUESTION", question_line(message))
    if has_records:
        yield from sections(message)
    yield from ("ENTRY_END", "")


def answers(address: str, messages: list[Message], refuses: Message | None = None) -> Iterator[str]:
    """What a server answers; to all else below a name it says REFUSED, if it is given."""
    yield from ("RANGE_BEGIN 0 1000", f"    ADDRESS {address}")
    for it in messages:
        match, adjust = ("opcode subdomain", "copy_id copy_query") if it.is_referral else ("opcode qtype qname", "copy_id")
        yield from entry(match, flags_of(it), it, True, adjust)
    if refuses:
        yield from entry("opcode subdomain", "QR REFUSED", refuses, False, "copy_id copy_query")
    yield from ("RANGE_END", "")


def steps(scene: Scene, check: str) -> Iterator[str]:
    """The questions; of the last one the answer is checked."""
    at = 1
    for it in scene.before:
        yield f"STEP {at} QUERY"
        yield from entry("all", "RD DO AD", it, False, "")
        yield f"STEP {at + 1} CHECK_ANSWER"
        yield from entry("qname qtype", "QR", it, False, "")
        at += 2
    yield f"STEP {at} QUERY"
    yield from entry("all", "RD DO AD", scene.question, False, "")
    flags = "QR RD RA DO" + (" AD" if scene.is_secure else "")
    yield f"STEP {at + 1} CHECK_ANSWER"
    yield from entry(check, f"{flags} {scene.rcode}", scene.question, not scene.is_bogus, "")


def body(scene: Scene, check: str) -> Iterator[str]:
    yield f"SCENARIO_BEGIN {scene.case['id']}"
    yield ""
    yield from answers(scene.root_address, scene.of_root())
    yield from answers(scene.zone_address, scene.of_zone(), scene.of_zone()[0])
    yield from steps(scene, check)
    yield "SCENARIO_END"


def unbound(scene: Scene) -> dict[str, str]:
    """A file of testdata of unbound."""
    date = time.strftime("%Y%m%d%H%M%S", time.gmtime(scene.case["moment"]))
    minimises = "yes" if scene.before else "no"
    lines = [
        *head(scene.case, ";"), "server:", f'    trust-anchor: ". 3600 IN DS {scene.anchor_ds}"', f'    val-override-date: "{date}"',
        '    target-fetch-policy: "0 0 0 0 0"', f"    qname-minimisation: {minimises}", f"    aggressive-nsec: {minimises}",
        "    trust-anchor-signaling: no", "    minimal-responses: no", "    rrset-roundrobin: no",
        "stub-zone:", '    name: "."', f"    stub-addr: {scene.root_address}", "CONFIG_END", "", *body(scene, "all"),
    ]
    return {f"val_{scene.case['id'].replace('-', '_')}.rpl": "\n".join(lines) + "\n"}


def deckard(scene: Scene) -> dict[str, str]:
    """A scenario of Deckard."""
    date = time.strftime("%Y%m%d%H%M%S", time.gmtime(scene.case["moment"]))
    lines = [
        *head(scene.case, ";"), "server:", f'    trust-anchor: ". 3600 IN DS {scene.anchor_ds}"', f'    val-override-date: "{date}"',
        f'    query-minimization: {"on" if scene.before else "off"}', f"    stub-addr: {scene.root_address}", "CONFIG_END", "",
        *body(scene, "flags rcode question answer"),
    ]
    return {f"val_{scene.case['id'].replace('-', '_')}.rpl": "\n".join(lines) + "\n"}
