"""Words of lines: names and octets as they are handed in, replies as they are printed."""

from __future__ import annotations

import re

from library import behind_length, parts

# The replies of judgements and walks by their numbers.
CODES = dict(enumerate("Records NoType NoName StarRecords StarNoType Delegated Open Unsigned Alias WildcardAlias Dname Referral".split()))
CODES |= {
    16 + at: it
    for at, it in enumerate(
        "QuestionNotAllowed BadDnskeyMessage BadAnswerMessage QuestionMismatch EqualTags NoTrustedKey MixedNsec3Parameters "
        "IterationsOverLimit HashFailed NotProven OutOfMemory MixedVersions MessageTooLong TooManySignatures NothingTold Outside "
        "Ask Want BufferTooSmall BadApex BadDsSet BadName BadSignatures BadCase BadMessages".split()
    )
}
CODES |= {48: "TooManyCuts", 49: "TooManyAliases", 50: "TooManyMessages", 51: "IncompleteDenial", 52: "TooMuchWork"}
ALIASES = ("Alias", "WildcardAlias", "Dname")
# Of replies below this number verdicts, from it on refusals and others.
FIRST_REFUSAL = 16


def name(text: str) -> bytes:
    """The wire form of the name of a text (RFC 1035, 3.1 and 5.1)."""
    labels, octets = [], text.encode()
    for label in re.findall(rb"((?:\\\d{3}|\\.|[^.\\])+)\.?", octets, re.DOTALL):
        whole = re.sub(rb"\\(\d{3}|.)", lambda it: bytes([int(it[1])]) if len(it[1]) == 3 else it[1], label, flags=re.DOTALL)
        labels.append(behind_length(whole, 1))
    return b"".join(labels) + b"\0"


def name_and_rest(octets: bytes) -> tuple[bytes, bytes]:
    """The name in front of octets, and what is behind it."""
    end = 0
    while octets[end]:
        end += 1 + octets[end]
    return octets[: end + 1], octets[end + 1 :]


def names(octets: bytes, count: int) -> tuple[list[bytes], bytes]:
    """So many names from the front of octets, and what is behind them."""
    found = []
    for _ in range(count):
        first, octets = name_and_rest(octets)
        found.append(first)
    return found, octets


def text(wire: bytes) -> str:
    """The text of a name, without a dot at its end but for the root."""
    labels = []
    while wire[0]:
        label, wire = wire[1 : 1 + wire[0]], wire[1 + wire[0] :]
        labels.append("".join(spelled(it) for it in label))
    return ".".join(labels) or "."


def spelled(octet: int) -> str:
    if not 0x20 < octet < 0x7F:
        return f"\\{octet:03}"
    return f"\\{chr(octet)}" if chr(octet) in ".\\" else chr(octet)


def data(octets: bytes) -> str:
    """Data behind their lengths as digits, joined by commas."""
    return ",".join(it.hex() for it in parts(octets)) or "-"


def ds_set(words: str) -> bytes:
    """DS records, each behind its length; of `-` none."""
    records = (word.split(":") for word in words.split(",") if word != "-")
    return b"".join(
        behind_length(int(tag).to_bytes(2, "big") + bytes([int(algorithm), int(kind)]) + bytes.fromhex(digest))
        for tag, algorithm, kind, digest in records
    )


class Signatures:
    """The table of signatures that pass, by the first lines."""

    def __init__(self):
        self.key, self.passing = b"", set()

    def take(self, word: str, words: list[str]):
        if word == "key":
            flags, protocol, algorithm, key = words
            self.key = int(flags).to_bytes(2, "big") + bytes([int(protocol), int(algorithm)]) + bytes.fromhex(key)
        else:
            signature, octets = map(bytes.fromhex, words)
            self.passing.add((self.key, octets, signature))

    def pass_(self, ask) -> bool:
        return (ask.dnskey, ask.octets, ask.signature) in self.passing
