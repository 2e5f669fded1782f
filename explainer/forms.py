"""The forms of lines of a session: their fields, and a right one of each (docs/use/SESSIONS.md)."""

from __future__ import annotations

import dataclasses


@dataclasses.dataclass(frozen=True)
class Form:
    """A form of line: what its fields are called, the first, a word, as it is written; what they are, and a right line."""

    fields: tuple[str, ...]
    takes: str
    example: str

    @property
    def word(self) -> str:
        return self.fields[0]

    def __str__(self) -> str:
        return " ".join(self.fields)

    def advice(self) -> str:
        return f"`{self.word}` takes {self.takes}: `{self.example}`"


def _form(fields: str, takes: str, example: str) -> Form:
    return Form(tuple(fields.split()), takes, example)


ZONE = _form(
    "zone APEX nsec LIMIT LIFE",
    "the name of a zone, `nsec`, a limit of iterations and the life of signatures",
    "zone example nsec 0 86400",
)
HASHED_ZONE = _form(
    "zone APEX nsec3 ITERATIONS SALT LIMIT LIFE",
    "the name of a zone, `nsec3` or `nsec3optout`, iterations, a salt, a limit and a life",
    "zone example nsec3 0 - 0 86400",
)
RECORD = _form(
    "rr OWNER TTL CLASS TYPE HEX",
    "an owner, a TTL, a class, a type and data in hexadecimal",
    "rr www.example 3600 1 1 c0000250",
)
REPLACE = _form("replace M", "a moment", "replace 7900")
ASK = _form("ask NAME TYPE M", "a name, a type and a moment", "ask a.example 15 3600")
EVENTS = {
    it.word: it
    for it in (
        _form(
            "key KIND REF ALGORITHM BASE64 M",
            "a kind, a reference, an algorithm, a key in base64 and a moment",
            "key zsk second-zsk 13 em9uZQ== 0",
        ),
        _form("start ROLL OLD NEW M", "a roll, old keys, new keys and a moment", "start zsk-roll first-zsk second-zsk 100"),
        _form("report1 ROLL TTL M", "a roll, a TTL and a moment", "report1 zsk-roll 3600 200"),
        _form("wait1 ROLL M", "a roll and a moment", "wait1 zsk-roll 3800"),
        _form("report2 ROLL TTL M", "a roll, a TTL and a moment", "report2 zsk-roll 3600 4000"),
        _form("wait2 ROLL M", "a roll and a moment", "wait2 zsk-roll 7600"),
        _form("done ROLL M", "a roll and a moment", "done zsk-roll 7700"),
        _form("delete REF M", "a reference and a moment", "delete first-zsk 7800"),
        REPLACE,
        _form("ds M", "a moment", "ds 8000"),
        _form("dnskey M", "a moment", "dnskey 8000"),
        _form("cds M", "a moment", "cds 8000"),
        _form("cdnskey M", "a moment", "cdnskey 8000"),
        ASK,
        _form(
            "judge DS DNSKEY ANSWER M",
            "the places of a DS set, a DNSKEY answer and an answer, and a moment",
            "judge 0 1 2 8000",
        ),
        _form(
            "bytes DS HEX HEX NAME TYPE M",
            "the place of a DS set, a DNSKEY answer and an answer in hexadecimal, a name, a type and a moment",
            "bytes 0 - - a.example 15 8000",
        ),
    )
}
