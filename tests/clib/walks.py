"""The walks of tests/lines/walk, as they are handed to a caller of the library for C; and what its tree of zones says of questions."""

from __future__ import annotations

import dataclasses
import functools
import pathlib
import re
import sys

import copies
from answers import DNAME, DS_TYPE, INCOMPLETE_DENIAL, INSECURE, NS_TYPE, NUMBERS, OPTOUT
from answers import Reply, above, ds_set, labels, part, wire
from errors import NO_DENIAL, rows
from findings import first_name, rrsets
from lasting import DNSKEY, NSEC, RRSIG, records

TESTS = pathlib.Path(__file__).resolve().parents[1]
WALK = TESTS / "lines/walk"
sys.path += [str(TESTS / it) for it in ("aliases", "walk")]
import found as aliases  # noqa: E402
import zones as made  # noqa: E402
from wire import text  # noqa: E402
from wire import wire as wire_of  # noqa: E402
from zone import ZoneOfLines  # noqa: E402

# Replies of zermuita_resolve alone, by the words that are printed for them; and words of others.
TOO_MANY = {"too many cuts": 48, "too many aliases": 49, "too many messages": 50}
NOTHING_TOLD, OUTSIDE, WANT = 30, 31, 33
A_TYPE, SOA_TYPE = 1, 6
# Types that are not judged.
NOT_JUDGED = {0, 41, RRSIG, NSEC, DNSKEY, 50, 51, *range(128, 256)}
# The algorithm of all zones that are not insecure or bogus, and of one that is insecure where it is not checked; zones that are bogus.
SIGNED_BY, OLD = 13, 5
BAD = ("late.test", "lost.test")
MOST_ITERATIONS, MOST_ALIASES = 150, 16
LIMITS = {"cuts": 32, "aliases": 11, "messages": 128}


@dataclasses.dataclass(frozen=True)
class Message:
    """What a server of a zone answered to a question."""

    zone: bytes
    name: bytes
    rtype: int
    octets: bytes

    def line(self) -> str:
        return f"message {self.rtype} {self.zone.hex()} {self.name.hex()} {self.octets.hex()}"


@dataclasses.dataclass(frozen=True)
class Walk:
    """A question, what is walked from, limits, and the messages that are not there, by their numbers. What is to be replied; how many
    messages it takes; TTL and last second; and, where a line says it, an extended error, and how often is verified and hashed."""

    said: str
    name: bytes
    rtype: int
    anchor: bytes
    ds: tuple[bytes, ...]
    now: int
    reply: Reply
    messages: int
    ttl: int = 0
    until: int = 0
    ede: int | None = None
    counts: tuple[int, int] | None = None
    cuts: int = LIMITS["cuts"]
    aliases: int = LIMITS["aliases"]
    max_messages: int = LIMITS["messages"]
    max_signatures: int = 0
    without: tuple[int, ...] = ()

    def line(self) -> str:
        """As programs in C read it."""
        without = b"".join(it.to_bytes(4, "big") for it in self.without)
        octets = bytes([SIGNED_BY]), self.anchor, self.name, b"".join(map(part, self.ds)), without
        limits = self.cuts, self.aliases, self.max_messages, self.max_signatures
        numbers = self.rtype, MOST_ITERATIONS, self.now, 0, *limits
        may_be = f"{self.reply.number}:{self.reply.octets.hex() or '-'}:0"
        return " ".join(["walk", may_be, *map(str, numbers), *(it.hex() or "-" for it in octets)])


def names_led(names: list[str]) -> bytes:
    """The names that aliases led through, in front of a reply's octets."""
    return len(names).to_bytes(4, "big") + b"".join(map(wire_name, names))


def wire_name(dotted: str) -> bytes:
    return wire(dotted) if dotted != "." else b"\0"


def question(words: list[str]) -> bytes:
    zone, name, rtype = words
    return wire_name(zone) + wire_name(name) + int(rtype).to_bytes(2, "big")


def replied(said: str) -> Reply:
    """A reply, by what is printed of it."""
    ending, _, through = said.partition("; through ")
    led = names_led(through.split(" ") if through else [])
    match ending.split(" "):
        case ["secure", zone, word, *data]:
            parts = b"".join(part(bytes.fromhex(it)) for it in data[0].split(",")) if data else b""
            return Reply(NUMBERS[word], led + wire_name(zone) + parts)
        case ["insecure", "below", cut]:
            return Reply(INSECURE, led + wire_name(cut))
        case ["insecure,", "left", "open", "by", zone]:
            return Reply(OPTOUT, led + wire_name(zone))
        case ["an", "alias", "of", "no", "name"]:
            return Reply(DNAME, led)
        case ["bogus", *words, word]:
            return Reply(NUMBERS[word], led + question(words))
        case ["incomplete", "denial", *words]:
            return Reply(INCOMPLETE_DENIAL, led + question(words))
        case ["wants", *_words]:
            wanted = ending.removeprefix("wants ").split(", ")
            return Reply(WANT, b"".join(question(it.split(" ")) for it in wanted))
        case ["outside"]:
            return Reply(OUTSIDE, led)
        case [word]:
            return Reply(NUMBERS[word])
    return Reply(TOO_MANY[ending], led)


def walk_of(said: str, state: dict, words: list[str]) -> Walk:
    """A walk, by its line and what the lines before it set."""
    ((says, messages, more),) = re.findall(r"^[^:]*: (.*); (\d+) messages(.*)$", said)
    lasts = re.search(r"; TTL (\d+) until (\d+)", more)
    ttl, until = map(int, lasts.groups()) if lasts else (0, 0)
    ede = re.search(r"; EDE (\d+)", more)
    errors = int(ede[1]) if ede else 0
    # Of a refusal whose line is not one from octets to octets no extended error is told.
    told = None if said.startswith("resolve ") and " bogus " in said else errors
    reply: dict = {"reply": replied(says), "messages": int(messages), "ttl": ttl, "until": until, "ede": told}
    return Walk(said, wire_name(words[0]), int(words[1]), **reply, **state)


def lines() -> tuple[list[Message], list[Walk]]:
    """All messages that are there, and all walks from octets to octets, and those of the last lines; each question with its counts."""
    printed = [it for it in (WALK / "stdout").read_text().splitlines() if not it.startswith("#")]
    messages: list[Message] = []
    walks: dict = {}
    state: dict = {}
    without: set = set()
    limits = dict(LIMITS)
    for line in (WALK / "stdin").read_text().splitlines():
        name, *words = line.split(" ")
        match name:
            case "message":
                zone, qname, rtype, octets = words
                messages.append(Message(wire_name(zone), wire_name(qname), int(rtype), bytes.fromhex(octets)))
            case "anchor":
                state = {"anchor": wire_name(words[0]), "ds": tuple(ds_set(words[1])), "now": int(words[2])}
            case "limits":
                limits = LIMITS | dict(zip(LIMITS, map(int, words)))
            case "most":
                state["max_signatures"] = int(words[0])
            case "without":
                without.add((wire_name(words[0]), wire_name(words[1]).lower(), int(words[2])))
            case "with":
                without = set()
            case "octets" | "resolve":
                said = next(it for it in printed if it.startswith(f"{line}: "))
                printed = printed[printed.index(said) + 1 :]
                left = tuple(at for at, it in enumerate(messages) if (it.zone, it.name.lower(), it.rtype) in without)
                limited = {"cuts": limits["cuts"], "aliases": limits["aliases"], "max_messages": limits["messages"], "without": left}
                walk = walk_of(said, state | limited, words)
                key = *words, *limits.values(), walk.max_signatures, left
                if name == "octets" or key not in walks:
                    walks[key] = walk
            case "counts":
                said = next(it for it in printed if it.startswith(f"{line}: "))
                key = *words, *LIMITS.values(), 0, ()
                walks[key] = dataclasses.replace(walks[key], counts=tuple(map(int, re.findall(r"(\d+) (?:verified|hashed)", said))))
    return messages, list(walks.values())


def denied(question: bytes, owner: str, rtype: int) -> bytes:
    """A message with the NSEC record of a name, which has a type."""
    return copies.message(question, A_TYPE, [], copies.signed(wire(owner), NSEC, copies.nsec("zz.example", rtype)))


def in_one_zone(
    said: str, name: bytes, told: Reply, ede: int, asked: list[tuple[bytes, int, bytes]]
) -> tuple[list[bytes], list[Message], Walk]:
    """A walk in one zone, for a name's address, by answers to names and types, and what it is refused for. In front of it the
    signatures that pass, and the messages."""
    first = next(rows()).case
    zone = first.apex
    messages = [Message(zone, zone, DNSKEY, first.dnskey), *(Message(zone, *it) for it in asked)]
    keys = {copies.key_tag(it.raw): it.raw for it in rrsets(first.dnskey)[zone, DNSKEY]}
    passing = []
    for it in [signature for message in messages for _, signature in records(message.octets) if signature]:
        passing.append(part(keys[int.from_bytes(it.fields[16:18], "big")]) + part(it.signature, 4) + part(it.signature))
    reply = dataclasses.replace(told, octets=bytes(4) + zone + told.octets)
    return passing, messages, Walk(said, name, A_TYPE, zone, tuple(first.ds), 1500, reply, len(messages), ede=ede)


def untold() -> tuple[list[bytes], list[Message], Walk]:
    """A walk in a zone that changes between its answers, which so tell nothing: the name is below a delegation, and then there is
    none."""
    name = wire("x.cut.example")
    below, none = denied(name, "cut.example", NS_TYPE), denied(name, "cut.example", A_TYPE)
    asked = [(name, A_TYPE, below), *((it, DS_TYPE, none) for it in (name, above(name)[1]))]
    return in_one_zone("a zone that changes", name, Reply(NOTHING_TOLD, name + bytes([0, A_TYPE])), 0, asked)


def incomplete() -> list[tuple[list[bytes], list[Message], Walk]]:
    """Walks in a zone whose server denies another name: in its answer to the question, where the one for DS shows that there is no
    delegation; and in both."""
    name = wire("a.example")
    other, own = denied(name, "m.example", A_TYPE), denied(name, "a.example", A_TYPE)
    found = []
    for what, rtype, of_ds in (("the answer", A_TYPE, own), ("the answer for DS", DS_TYPE, other)):
        told = Reply(INCOMPLETE_DENIAL, name + bytes([0, rtype]))
        found.append(in_one_zone(f"{what} denies another name", name, told, NO_DENIAL, [(name, A_TYPE, other), (name, DS_TYPE, of_ds)]))
    return found


def zone_of(apex: str, cuts: dict[str, list[bytes]]) -> ZoneOfLines:
    """A zone of tests/walk, by the lines of its file, and by its delegations with their DS sets."""
    lines = made.ZONES[apex]
    for cut, ds in cuts.items():
        lines += f"{cut}. {made.DS_TTL} NS ns.test.\n"
        for it in ds:
            lines += f"{cut}. {made.DS_TTL} DS {int.from_bytes(it[:2], 'big')} {it[2]} {it[3]} {it[4:].hex()}\n"
    return ZoneOfLines(apex.rstrip("."), lines, "-A" in made.HOW.get(apex, made.How()).chain)


@functools.cache
def zones() -> dict[tuple[bytes, ...], ZoneOfLines]:
    """All zones, by their labels; DS sets are those that the servers of the zone above have."""
    ds: dict = {}
    for message in lines()[0]:
        for (owner, rtype), rrset in rrsets(message.octets).items():
            if rtype == DS_TYPE:
                ds[labels(owner)] = sorted({it.raw for it in rrset})
    cuts = {apex: {cut: ds.get(made.name(cut), []) for cut in made.cuts_of(apex)} for apex in made.ZONES}
    return {made.name(apex): zone_of(apex, cuts[apex]) for apex in made.ZONES}


def insecure_with(algorithms: bytes) -> set[tuple[bytes, ...]]:
    """The zones that are insecure where these algorithms are checked; of none all are."""
    return {made.name(it) for it in made.UNSIGNED} | ({made.name("old.test")} if OLD not in algorithms and algorithms else set())


@functools.lru_cache(1 << 16)
def told(name: bytes, rtype: int, algorithms: bytes = bytes([SIGNED_BY])) -> Reply | None:
    """What the tree says of a question, down from the root; nothing where that is no verdict. A question for a type that is not judged
    has none of a zone that has the name: it may be insecure."""
    if algorithms and SIGNED_BY not in algorithms:
        return None
    qname = tuple(it.lower() for it in labels(name))
    led: list = []
    while len(led) <= MOST_ALIASES:
        front = len(led).to_bytes(4, "big") + b"".join(map(wire_of, led))
        zone, word, data = down(qname, rtype, insecure_with(algorithms))
        if word == "Alias":
            qname = aliases.led(zone, qname)[-1]
            if len(wire_of(qname)) > 255:
                return Reply(DNAME, front)
            led.append(qname)
        elif word in ("Open", "Unsigned") or word and rtype not in NOT_JUDGED:
            return Reply(NUMBERS[word], front + wire_of(zone.apex if zone else data) + (b"".join(map(part, data)) if zone else b""))
        else:
            return None
    return None


def lowered(reply: Reply | None) -> Reply | None:
    """A reply, the letters of its names in lower case: those that aliases led through, and one behind them."""
    if reply is None:
        return None
    names, rest = reply.octets[:4], reply.octets[4:]
    for _ in range(int.from_bytes(names, "big") + 1):
        name = first_name(rest)
        names, rest = names + name.lower(), rest[len(name) :]
    return dataclasses.replace(reply, octets=names + rest)


def down(qname, rtype, insecure):
    """The zone that has a name, and what it says; or no zone, and what is insecure from where on; or nothing, where it is bogus."""
    zone = zones()[()]
    while True:
        it = zone.says(qname, rtype, *zone.records[zone.apex][SOA_TYPE])
        if it.word != "Delegated":
            return zone, it.word, it.data
        cut = next(it for it in reversed(zone.above(qname)) if it in zone.cuts)
        if cut in insecure:
            return None, "Unsigned", cut
        if text(cut) in BAD or cut == made.name("old.test"):
            return None, "", ()
        zone = zones()[cut]


def below_root(walks: list[Walk]) -> list[Walk]:
    """Walks from zones below the root, whose names have capitals: those that lead nowhere else."""
    found = []
    for it in walks:
        if it.reply != told(it.name, it.rtype) or it.reply.octets[:4] != bytes(4):
            continue
        for name in above(it.name.lower())[:-1]:
            apex = labels(name)
            ds = zones()[apex[1:]].records.get(apex, {}).get(DS_TYPE) if apex in zones() and apex[1:] in zones() else None
            if ds and not (name == it.name.lower() and it.rtype == DS_TYPE) and apex not in insecure_with(bytes([SIGNED_BY])):
                found.append(dataclasses.replace(it, anchor=name.upper(), ds=tuple(ds), ede=None, counts=None))
    return found
