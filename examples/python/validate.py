#!/usr/bin/env python3
"""Prints what a signed zone says of a name, as examples/c/validate.c does. The package `cryptography` checks the signatures.

usage: validate.py APEX DS DNSKEY NAME TYPE ANSWER [MOMENT]

DS, DNSKEY and ANSWER are files: DS records' data, each behind its length in two octets, and two messages; `-` instead of DS says that the
parent proved a delegation without DS records. The type is a number, and the moment, else now, is in seconds since 1970. The status is 0
for a verdict, else 1.
"""

from __future__ import annotations

import pathlib
import sys

import zermuita


def records_of_file(path: str) -> list[bytes]:
    """The data of DS records, each behind its length in two octets."""
    rest, records = pathlib.Path(path).read_bytes(), []
    while rest:
        end = 2 + int.from_bytes(rest[:2], "big")
        if len(rest) < end:
            raise ValueError(f"{path}: its last record has fewer octets than its length says")
        records.append(rest[2:end])
        rest = rest[end:]
    return records


def main(apex: str, ds: str, dnskey: str, name: str, rtype: str, answer: str, moment: str | None = None) -> int:
    is_unsigned = ds == "-"  # the parent proved a delegation without DS records; a file without one is refused
    messages = pathlib.Path(dnskey).read_bytes(), pathlib.Path(answer).read_bytes()
    now = int(moment) if moment else None
    records: list[bytes] = [] if is_unsigned else records_of_file(ds)
    case = zermuita.Case(apex, records, *messages, name, int(rtype), now=now, no_ds=is_unsigned)
    library = zermuita.Library()
    try:
        said = library.judge(case)
    except zermuita.Refused as refused:
        print(f"{refused}\n{refused.security.name.lower()}, TTL 0, until 0, EDE {refused.ede}")
        return 1
    print(library.strerror(said.verdict))
    print(f"{said.security.name.lower()}, TTL {said.ttl}, until {said.until}, EDE {said.ede}")
    for line in [zermuita.name_to_text(said.target)] if said.target else [data.hex() for data in said.records]:
        print(line)
    return 0


if __name__ == "__main__":
    sys.exit(main(*sys.argv[1:]) if 7 <= len(sys.argv) <= 8 else __doc__)
