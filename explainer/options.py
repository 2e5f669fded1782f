"""What the words behind the program's name ask for. Each option holds for the words behind it."""

from __future__ import annotations

import dataclasses

OPTIONS = "--octets, --text, --json, --agree, --zone, --origin=NAME, --date: `--json FILE`"
SESSION, ZONE, DATE = "session", "zone", "date"
STYLES = {"--text": "text", "--json": "object", "--agree": "agreement"}


class OptionFault(ValueError):
    """A word that is no option."""


@dataclasses.dataclass(frozen=True)
class Options:
    """What is done with a word that is no option, what is printed of an event, whether messages are in octets, and the origin of
    relative names in master files; empty where the files say it."""

    task: str = SESSION
    style: str = "text"
    has_octets: bool = False
    origin: str = ""

    def with_option(self, word: str) -> Options:
        if word.startswith("--origin="):
            return dataclasses.replace(self, origin=word.split("=", 1)[1])
        if word in STYLES:
            return dataclasses.replace(self, task=SESSION, style=STYLES[word])
        changes = {"--octets": {"has_octets": True}, "--zone": {"task": ZONE}, "--date": {"task": DATE}}
        if word not in changes:
            raise OptionFault(f"{word} is no option: {OPTIONS}")
        return dataclasses.replace(self, **changes[word])  # type: ignore[arg-type]


def is_option(word: str) -> bool:
    return word.startswith("--")
