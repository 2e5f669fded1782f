"""Walks from a trust anchor down, over messages of name servers.

- `key FLAGS PROTOCOL ALGORITHM OCTETS`: a key; `passes SIGNATURE OCTETS`: a signature of these octets that passes under it.
- `anchor NAME DS MOMENT`: the trust anchor, as a zone's name and a DS record of it, as `1054:13:2:07`, and the moment at which all is
  judged.
- `message ZONE NAME TYPE OCTETS`: what a server of a zone answered to a question.
- `resolve NAME TYPE`: what is said of a question, from no message on: each that is wanted is handed in if it is there. If another
  thing is said where these are all handed in at once, that is printed behind it. `octets NAME TYPE`: the same, with the extended error.
- `replay NAME TYPE`: how often it was tried to hand in another message in the place of one of these, and how often something else was
  said then: another verdict, another alias, or insecure what is secure.
- `counts NAME TYPE`: how often was verified and hashed for the last reply to it.
- `cut PART NAME TYPE`: what is said in the end where a part of the octets lacks the last: the `anchor`, the `ds` set, the `name`, the
  `messages` or the `checked` signatures.
- `most NUMBER`: so many signatures may be checked from here on; `limits CUTS ALIASES MESSAGES`: so many delegations, aliases and
  messages, none of them 0, of messages 128 where nothing is said.
- `without ZONE NAME TYPE`: this message is not there from here on; `with all`: each is again.
"""

from __future__ import annotations

import dataclasses
from collections.abc import Iterator, Sequence

from library import ASK, WANT, Library, Reply, answered, behind_length
from words import CODES, Signatures, data, ds_set, name, name_and_rest, names, text

# The one algorithm whose signatures are checked, ECDSA P-256 (RFC 6605), and how many iterations of a hash are allowed.
ALGORITHMS, ITERATIONS, MOST_MESSAGES = bytes([13]), 150, 128
PLAIN = {"Dname": "an alias of no name", "TooManyCuts": "too many cuts", "TooManyAliases": "too many aliases"}
PLAIN |= {"TooManyMessages": "too many messages", "Outside": "outside"}
LAST_VERDICT = 7
# A zone's name, a question's, and a type.
Wanted = tuple[bytes, bytes, bytes]


def wanted_of(octets: bytes) -> tuple[Wanted, bytes]:
    (zone, qname), rest = names(octets, 2)
    return (zone, qname, rest[:2]), rest[2:]


def question_text(octets: bytes) -> str:
    zone, qname, rtype = wanted_of(octets)[0]
    return f"{text(zone)} {text(qname)} {int.from_bytes(rtype, 'big')}"


def all_wanted(octets: bytes) -> list[Wanted]:
    found = []
    while octets:
        first, octets = wanted_of(octets)
        found.append(first)
    return found


def ending_of(word: str, code: int, octets: bytes) -> str:
    """A reply in words, its octets behind the names that aliases led through."""
    if word in PLAIN:
        return PLAIN[word]
    if word in ("Unsigned", "Open"):
        return f"{'insecure below' if word == 'Unsigned' else 'insecure, left open by'} {text(name_and_rest(octets)[0])}"
    if code <= LAST_VERDICT:
        zone, rest = name_and_rest(octets)
        return f"secure {text(zone)} {word}" + (f" {data(rest)}" if rest else "")
    question = question_text(octets)
    return {"NothingTold": f"nothing told {question}", "IncompleteDenial": f"incomplete denial {question}"}.get(
        word, f"bogus {question} {word}"
    )


def said_of(reply: Reply) -> str:
    word, octets = CODES[reply.code], reply.octets
    if word == "Want":
        return "wants " + ", ".join(question_text(b"".join(it)) for it in all_wanted(octets))
    if not octets:
        return word
    through, rest = names(octets[4:], int.from_bytes(octets[:4], "big"))
    led = "; through " + " ".join(map(text, through)) if through else ""
    return ending_of(word, reply.code, rest) + led


def lasting(reply: Reply) -> str:
    report = reply.report
    return f"; TTL {report.ttl} until {report.until}" if report.until else ""


def kind_of(reply: Reply) -> str:
    """How far what is said may be told."""
    if CODES[reply.code] in ("Unsigned", "Open"):
        return "insecure"
    return "secure" if reply.code <= LAST_VERDICT or CODES[reply.code] == "Dname" else "nothing"


@dataclasses.dataclass(frozen=True)
class Walked:
    """The last reply of a walk, the messages that it was handed, by their numbers, and the octets of its last call."""

    reply: Reply
    places: list[int]
    handed: dict


class Walks:
    """The anchor and the messages that the lines so far handed in."""

    def __init__(self, library: Library):
        self.library, self.signatures = library, Signatures()
        self.questions: list[Wanted] = []
        self.messages: list[bytes] = []
        self.evidence: dict = {"algorithms": ALGORITHMS, "max_nsec3_iterations": ITERATIONS}
        self.without: set[int] = set()
        self.limit(["32", "11"])

    def limit(self, words: list[str]):
        self.evidence |= dict(zip(("max_cuts", "max_aliases", "max_messages"), map(int, [*words, str(MOST_MESSAGES)])))

    def places_of(self, zone: bytes, qname: bytes, rtype: bytes) -> list[int]:
        """The numbers of the messages that answer a question and are there."""
        key = zone.lower(), qname.lower(), rtype
        return [place for place, its in enumerate(self.questions) if its == key and place not in self.without]

    def take(self, word: str, words: list[str]):
        match word, words:
            case "anchor", [anchor, ds, now]:
                self.evidence |= {"anchor": name(anchor), "ds": ds_set(ds), "now": int(now)}
            case "message", [zone, qname, rtype, octets]:
                self.questions.append((name(zone).lower(), name(qname).lower(), int(rtype).to_bytes(2, "big")))
                self.messages.append(bytes.fromhex(octets))
            case "limits", _:
                self.limit(words)
            case "most", [count]:
                self.evidence["max_signatures"] = int(count)
            case "without", [zone, qname, rtype]:
                self.without |= set(self.places_of(name(zone), name(qname), int(rtype).to_bytes(2, "big")))
            case "with", ["all"]:
                self.without = set()
            case _:
                self.signatures.take(word, words)

    def handed(self, places: Sequence[int], wanted: Sequence[Wanted], replay: tuple[int, int] | None) -> bytes:
        """Messages behind what they answer; one in the place of another where one is replayed."""
        by = dict([replay] if replay else [])
        octets = [b"".join(it) + behind_length(self.messages[by.get(place, place)], 4) for place, it in zip(places, wanted)]
        return b"".join(behind_names(it) for it in octets)

    def walk(self, qname: str, rtype: str, places: Sequence[int] = (), replay: tuple[int, int] | None = None) -> Walked:
        """Walks from these messages on, and with each that is wanted then, if it is there."""
        taken, wanted = list(places), [self.questions[it] for it in places]
        question = {"name": name(qname), "rtype": int(rtype)}
        checked = b""
        while True:
            handed = self.evidence | question | {"messages": self.handed(taken, wanted, replay), "checked": checked}
            reply = self.library.resolve(**handed)
            if reply.code == ASK:
                checked += answered(reply.octets, self.signatures.pass_)
                continue
            asked = all_wanted(reply.octets) if reply.code == WANT else []
            more = [(places[0], it) for it in asked if (places := self.places_of(*it))]
            if not more:
                return Walked(reply, taken, handed)
            taken += [place for place, _ in more]
            wanted += [it for _, it in more]

    def resolved(self, qname: str, rtype: str) -> str:
        walked = self.walk(qname, rtype)
        again = self.walk(qname, rtype, walked.places).reply
        said, at_once = ((said_of(it), lasting(it)) for it in (walked.reply, again))
        other = "" if said == at_once else f"; at once {''.join(at_once)}"
        return f"{said[0]}; {len(walked.places)} messages{said[1]}{other}"

    def from_octets(self, qname: str, rtype: str) -> str:
        walked = self.walk(qname, rtype)
        return told(walked.reply, len(walked.places))

    def cut(self, part: str, qname: str, rtype: str) -> str:
        walked = self.walk(qname, rtype)
        reply = self.library.resolve(**walked.handed | {part: walked.handed[part][:-1]})
        return told(reply, len(walked.places))

    def counts(self, qname: str, rtype: str) -> str:
        report = self.walk(qname, rtype).reply.report
        return f"{report.verifications} verified, {report.hashes} hashed"

    def replayed(self, qname: str, rtype: str) -> str:
        honest = self.walk(qname, rtype)
        tries = [(place, by) for place in honest.places for by in range(len(self.messages)) if by != place]
        otherwise = sum(not is_as(self.walk(qname, rtype, (), it).reply, honest.reply) for it in tries)
        return f"{len(tries)} tries, {otherwise} otherwise"


def is_as(reply: Reply, honest: Reply) -> bool:
    """Whether nothing else is said where a message is replayed."""
    match kind_of(reply):
        case "secure":
            return said_of(reply) == said_of(honest)
        case "insecure":
            return kind_of(honest) == "insecure"
    return True


def behind_names(octets: bytes) -> bytes:
    """A message with both names of its question behind their lengths."""
    (zone, qname), rest = names(octets, 2)
    return behind_length(zone) + behind_length(qname) + rest


def told(reply: Reply, count: int) -> str:
    error = f"; EDE {reply.report.ede}" if reply.report.ede else ""
    return f"{said_of(reply)}; {count} messages{lasting(reply)}{error}"


def printed(library: Library, lines: list[str]) -> Iterator[str]:
    """What is printed of the lines."""
    walks = Walks(library)
    asked = {"resolve": walks.resolved, "octets": walks.from_octets, "counts": walks.counts, "replay": walks.replayed, "cut": walks.cut}
    for line in lines:
        word, *words = line.split(" ")
        if word in ("", "#"):
            yield line
        elif word in asked:
            yield f"{line}: {asked[word](*words)}"
        else:
            walks.take(word, words)
            if word == "anchor":
                yield f"anchor {words[0]} {words[2]}"
            elif word not in ("key", "passes", "message"):
                yield line
