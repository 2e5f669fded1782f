"""What the bench prints of a session."""

from __future__ import annotations

import re
import subprocess

from .parts import Missing, bench

UNREADABLE = re.compile(r"line ([0-9]+): cannot be read\Z")
BAD_LINE = 1


def printed(session: bytes) -> list[str]:
    """The lines that the bench prints: one for each event, or one for a session or a zone that it refuses."""
    words, folder = bench()
    try:
        ran = subprocess.run(words, input=session, capture_output=True, cwd=folder)
    except OSError as error:
        raise Missing(f"denialbench does not run: {error}") from None
    if ran.returncode not in (0, BAD_LINE):
        raise Missing(f"denialbench ended with status {ran.returncode}: {ran.stderr.decode(errors='replace')}")
    return ran.stdout.decode().splitlines()


def unreadable_line(lines: list[str]) -> int | None:
    """The number of the line that the bench cannot read, if there is one."""
    found = UNREADABLE.match(lines[0]) if len(lines) == 1 else None
    return int(found[1]) if found else None
