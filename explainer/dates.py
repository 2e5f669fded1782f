"""Moments as RRSIG data have them: YYYYMMDDHHmmSS in UTC (RFC 4034, 3.2)."""

from __future__ import annotations

import datetime
import re

FORM = "%Y%m%d%H%M%S"
DATE = re.compile(r"[0-9]{14}\Z")
BEGIN = datetime.datetime(1970, 1, 1, tzinfo=datetime.timezone.utc)
LATEST = (1 << 32) - 1


class DateFault(ValueError):
    """A text that is neither a date nor seconds."""


def date_text(seconds: int) -> str:
    """The date of seconds since 1970."""
    return (BEGIN + datetime.timedelta(seconds=seconds)).strftime(FORM)


def moment_text(seconds: int) -> str:
    """Seconds, and their date, if RRSIG data can have it."""
    return f"{seconds} ({date_text(seconds)})" if seconds <= LATEST else str(seconds)


def seconds_of(text: str) -> int:
    """The seconds of a date."""
    try:
        if not DATE.match(text):
            raise ValueError(text)
        moment = datetime.datetime.strptime(text, FORM).replace(tzinfo=datetime.timezone.utc)
        seconds = int((moment - BEGIN).total_seconds())
        if not 0 <= seconds <= LATEST:
            raise ValueError(text)
    except ValueError:
        raise DateFault("no date of the years 1970 to 2106 as YYYYMMDDHHmmSS: 20260131235959") from None
    return seconds


def converted(text: str) -> str:
    """The seconds of a date, or the date of seconds."""
    try:
        return str(seconds_of(text))
    except DateFault:
        if re.match(r"[0-9]+\Z", text) and int(text) <= LATEST:
            return date_text(int(text))
        raise
