"""The answers of name servers of tests/lines/servers, as they are handed to a caller of the library for C."""

from __future__ import annotations

import dataclasses
import functools
import pathlib
import re

SERVERS = pathlib.Path(__file__).resolve().parents[1] / "lines/servers"
# The words of those lines for what a judge answers, in the order of enum zermuita_reply; and reasons for refusals, from 16 on.
VERDICTS = ["Records", "NoType", "NoName", "StarRecords", "StarNoType", "Delegated", "Open", "Unsigned"]
VERDICTS += ["Alias", "WildcardAlias", "Dname", "Referral"]
REFUSALS = [
    *("QuestionNotAllowed", "BadDnskeyMessage", "BadAnswerMessage", "QuestionMismatch", "EqualTags", "NoTrustedKey"),
    *("MixedNsec3Parameters", "IterationsOverLimit", "HashFailed", "NotProven", "OutOfMemory", "MixedVersions"),
    *("MessageTooLong", "TooManySignatures"),
]
NUMBERS = {word: at for at, word in enumerate(VERDICTS)} | {word: 16 + at for at, word in enumerate(REFUSALS)} | {"IncompleteDenial": 51}
RECORDS, NODATA, WILDCARD, DELEGATED, OPTOUT, INSECURE, ALIAS, WILDCARD_ALIAS, DNAME, REFERRAL = 0, 1, 3, 5, 6, 7, 8, 9, 10, 11
NOT_PROVEN, INCOMPLETE_DENIAL = 25, 51
CNAME_TYPE, DNAME_TYPE, NS_TYPE, DS_TYPE = 5, 39, 2, 43


def part(octets: bytes, width: int = 2) -> bytes:
    """Octets behind their length."""
    return len(octets).to_bytes(width, "big") + octets


def wire(text: str) -> bytes:
    """The wire form of a name's text."""
    octets, labels = text.encode(), [bytearray()]
    while octets:
        if octets[:1] == b".":
            labels.append(bytearray())
            octets = octets[1:]
        elif octets[:1] == b"\\" and octets[1:2].isdigit():
            labels[-1].append(int(octets[1:4]))
            octets = octets[4:]
        elif octets[:1] == b"\\":
            labels[-1] += octets[1:2]
            octets = octets[2:]
        else:
            labels[-1] += octets[:1]
            octets = octets[1:]
    return b"".join(bytes([len(label)]) + label for label in labels) + b"\0"


def above(name: bytes) -> list[bytes]:
    """A name and those above it, down from it to the root."""
    found = [name]
    while name[0]:
        name = name[1 + name[0] :]
        found.append(name)
    return found


def labels(name: bytes) -> tuple[bytes, ...]:
    return tuple(it[1 : 1 + it[0]] for it in above(name) if it[0])


def ds_set(words: str) -> list[bytes]:
    """The data of DS records; of "-" none."""
    records = (word.split(":") for word in words.split(",") if word != "-")
    return [
        int(tag).to_bytes(2, "big") + bytes([int(algorithm), int(kind)]) + bytes.fromhex(digest)
        for tag, algorithm, kind, digest in records
    ]


@dataclasses.dataclass(frozen=True, order=True)
class Reply:
    """A reply, its octets, and whether a name without DS is a delegation: 1 or 2, or 0 where nothing is said of that."""

    number: int
    octets: bytes = b""
    delegates: int = 0


@dataclasses.dataclass(frozen=True)
class Answered:
    """A question and messages; the verdict that the zone has on it, which on an alias is none, and what may be replied of it; and what
    is to be replied of these messages: which, what the judge itself says with its counts, and an extended error beside a verdict."""

    verdict: int | None
    data: list[bytes]
    rtype: int
    limit: int
    now: int
    apex: bytes
    name: bytes
    ds: list[bytes]
    dnskey: bytes
    answer: bytes
    said: str = ""
    told: tuple[int, int | None, int | None] = (0, 0, 0)
    reply: Reply = Reply(0)
    ede: int = 0
    may_be: tuple[Reply, ...] = ()
    one_moment: int = 0
    as_received: int = 0
    other_question: int = 0
    max_signatures: int = 0
    places: int = 0
    algorithms: bytes = b""

    def line(self) -> str:
        """As programs in C read it."""
        octets = self.algorithms, self.apex, self.name, b"".join(map(part, self.ds)), self.dnskey, self.answer
        may_be = ",".join(f"{it.number}:{it.octets.hex() or '-'}:{it.delegates}" for it in self.may_be)
        flags = self.one_moment, self.as_received, self.other_question, self.max_signatures, self.places
        numbers = self.rtype, self.limit, self.now, *flags
        return " ".join(["case", may_be, *map(str, numbers), *(it.hex() or "-" for it in octets)])


def told(printed: str) -> tuple[tuple[int, int | None, int | None], int]:
    """What a line says of a judgement: the reply and both counts, where one judgement alone says it; an extended error, or 0."""
    said, _, counts = printed.split(": ", 1)[1].partition("; ")
    verifications, hashes, ede = ([int(number) for number in re.findall(r"\d+", counts)] + [0])[:3] if counts else (None, None, 0)
    if "not as the zone says" in said:
        raise ValueError(printed)
    return (NUMBERS[said.removeprefix("refused ").split(" ")[0]], verifications, hashes), ede


def beyond(printed: str) -> Reply | None:
    """What a line says beyond a judge's verdict, of an alias or a delegation."""
    said = printed.partition(": ")[2].removesuffix(", as the zone says")
    return found(f": {said}") if said.split(" ")[0] in ("Delegated", "Alias", "WildcardAlias", "Dname", "Referral") else None


def flag(words: list[str]) -> dict:
    """How an answer is judged besides, by the words of a line."""
    match words:
        case ["algorithms", numbers]:
            return {"algorithms": bytes(map(int, numbers.split(",")))}
        case ["max-signatures", count]:
            return {"max_signatures": int(count)}
        case [name]:
            return {name.replace("-", "_"): 1}
    raise ValueError(words)


def found(printed: str) -> Reply:
    """What is found of an answer, by its line."""
    words = printed.split(" ")[1:]
    match words:
        case ["Alias" | "WildcardAlias" as word, target]:
            return Reply(NUMBERS[word], wire(target))
        case ["Dname", owner, "to", name]:
            return Reply(DNAME, wire(owner) + wire(name))
        case ["Dname", owner, "too", "long"]:
            return Reply(DNAME, wire(owner))
        case ["Referral", cut, data]:
            return Reply(REFERRAL, wire(cut) + b"".join(part(bytes.fromhex(it)) for it in data.split(",")))
        case ["Delegated", cut]:
            return Reply(DELEGATED, wire(cut))
        case ["NoDs", "of", *rest]:
            return Reply(NODATA, b"", 1 if rest == ["a", "delegation"] else 2)
        case ["Records" | "StarRecords" as word, data]:
            return Reply(NUMBERS[word], b"".join(part(bytes.fromhex(it)) for it in data.split(",")))
        case ["refused", "NotProven;", "in", "octets", "refused", word] | ["refused", word] | [word]:
            return Reply(NUMBERS[word])
    raise ValueError(printed)


def entries(folder: pathlib.Path = SERVERS) -> list[bytes]:
    """The signatures that pass by the lines of a folder, as entries without their last octets."""
    found = []
    signer = b""
    for line in (folder / "stdin").read_text().splitlines():
        name, *words = line.split(" ")
        if name == "key":
            flags, protocol, algorithm, key = words
            signer = int(flags).to_bytes(2, "big") + bytes([int(protocol), int(algorithm)]) + bytes.fromhex(key)
        elif name == "passes":
            signature, octets = map(bytes.fromhex, words)
            found.append(part(signer) + part(octets, 4) + part(signature))
    return found


def judged() -> list[tuple[Answered, Reply | None]]:
    """All that is judged there, in its order: answers as they came, and altered ones; and what is found of them, where a line says it."""
    printed = iter((SERVERS / "stdout").read_text().splitlines())
    state: dict = {}
    judged: list[tuple[Answered, Reply | None]] = []
    for line in (SERVERS / "stdin").read_text().splitlines():
        name, *words = line.split(" ")
        change: dict = {}
        if name == "zone":
            state = {"apex": wire(words[0]), "limit": int(words[1]), "now": int(words[2])}
        elif name == "ds":
            state["ds"] = ds_set(words[0])
        elif name == "keys":
            state["dnskey"] = bytes.fromhex(words[0])
        elif name == "ask":
            data = [bytes.fromhex(it) for it in words[3].split(",")] if len(words) > 3 else []
            verdict = None if words[2] == "Alias" else NUMBERS[words[2]]
            state |= {"name": wire(words[0]), "rtype": int(words[1]), "verdict": verdict, "data": data}
        elif name in ("message", "answer"):
            state["answer"] = bytes.fromhex(words[0])
        elif name == "altered":
            change = {"answer": bytes.fromhex(words[1])}
        elif name == "cut":
            change = {"answer": state["answer"][: -int(words[0])]}
        elif name == "at":
            change = {"now": int(words[0])}
        elif name == "beside":
            change = {"ds": ds_set(words[0])}
        elif name == "with":
            change = flag(words)
        if name in ("answer", "altered", "cut", "at", "beside", "with"):
            said = next(it for it in printed if it.startswith(f"{name}: " if name == "answer" else f"{name} "))
            words_told, ede = told(said)
            judged.append((Answered(**(state | change), said=said, told=words_told, ede=ede), None))
        elif name == "find":
            judged[-1] = judged[-1][0], found(next(it for it in printed if it.startswith("find: ")))
    return judged


@functools.cache
def answers() -> tuple[Answered, ...]:
    """All of them, with what is to be replied."""
    import findings  # which reads messages as this does

    return tuple(findings.replied(judged()))
