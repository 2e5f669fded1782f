"""What is said of one event, for people and for programs."""

from __future__ import annotations

import dataclasses
import json
from collections.abc import Iterator

from .explanations import Reasons
from .sessions import Line


@dataclasses.dataclass
class Explained:
    """What is said of an event, or of the line for which a session is not run."""

    line: Line
    printed: str = ""
    records: list[str] = dataclasses.field(default_factory=list)
    notes: list[str] = dataclasses.field(default_factory=list)
    shown: list[str] = dataclasses.field(default_factory=list)
    reasons: Reasons | None = None

    def text(self) -> str:
        """Text for people."""
        return "".join(f"{line}\n" for line in self._lines())

    def _lines(self) -> Iterator[str]:
        yield from self.records
        yield str(self.line)
        if self.printed:
            yield f"  > {self.printed}"
        for line in [*self.notes, *self.shown, *(self.reasons.lines() if self.reasons else [])]:
            yield f"  {line}"

    def object(self) -> str:
        """One JSON object, in a line."""
        members = {
            "line": self.line.number,
            "event": self.line.text,
            "printed": self.printed,
            "records": self.records,
            "notes": self.notes,
            "shown": self.shown,
            "reasons": self.reasons.members() if self.reasons else None,
        }
        return json.dumps(members, ensure_ascii=False, separators=(",", ":")) + "\n"

    def agreement(self) -> str:
        """Whether the verdict of a judgement was found again."""
        if self.reasons is None:
            return ""
        return f"{self.line.number}: {'found again' if self.reasons.agrees else 'not found again'}\n"
