#!/usr/bin/env python3
"""What is found of an answer beyond a verdict, by the zone's records (zone.py).

usage: tests/aliases/found.py

As a program it puts what is found behind each answer of the lines that are kept in tests/lines/servers, in the place of what stood
there.
"""
import pathlib

from wire import CNAME, DNAME, DS, name, text
from zone import DS_DATA, Zone

LINES = pathlib.Path(__file__).resolve().parents[1] / "lines/servers"


def target(data):
    """The name of a CNAME or DNAME record's data, which are written in full."""
    labels, at = [], 0
    while data[at]:
        labels.append(data[at + 1 : at + 1 + data[at]])
        at += 1 + data[at]
    return tuple(labels)


def led(zone, qname):
    """Where a name leads that is an alias, by the DNAME above it, by its own CNAME, or by a wildcard's: which, the owner of that, and the
    name that it leads to."""
    for owner in zone.above(qname)[1:]:
        if owner in zone.dnames:
            return "Dname", owner, qname[: len(qname) - len(owner)] + target(zone.records[owner][DNAME][0])
    encloser = next(it for it in zone.above(qname) if it in zone.names)
    word, owner = ("Alias", qname) if encloser == qname else ("WildcardAlias", (b"*", *encloser))
    return word, owner, target(zone.records[owner][CNAME][0])


def lead(zone, qname):
    """The same in words."""
    word, owner, there = led(zone, qname)
    return f"{word} {text(owner)} to {text(there)}" if word == "Dname" else f"{word} {text(there)}"


def found(zone, qname, rtype, says, judged):
    """What is found: an alias and a signed referral where the judge's own verdict is that nothing is proven, the cut beside
    Delegated, whether a name without DS is delegated, and else what the judge says."""
    if judged.startswith("refused QuestionNotAllowed"):
        return "refused QuestionNotAllowed"
    word = says.split(" ")[0]
    if word == "Alias":
        return lead(zone, qname)
    if word == "Open":
        more = "; in octets refused IncompleteDenial" if judged == "refused IncompleteDenial" else ""
        return "Open" if judged.startswith("Open") else f"refused NotProven{more}"
    if word == "Delegated":
        cut = next(it for it in reversed(zone.above(qname)) if it in zone.cuts)
        return f"Referral {text(cut)} {DS_DATA.hex()}" if judged.startswith(("refused", "Referral")) else f"Delegated {text(cut)}"
    if word == "NoType" and rtype == DS:
        return "NoDs of a delegation" if qname in zone.cuts else "NoDs of no delegation"
    return says


def renewed(read, printed):
    """Lines that are read and printed, with what is found behind each answer about aliases."""
    into, out, zone, asked = [], [], None, None
    printed = iter([it for it in printed if not it.startswith("find: ")])
    silent = ("key ", "passes ", "ds ", "keys ", "message ")
    for line in read:
        if line == "find":
            continue
        into.append(line)
        if line.startswith(silent):
            continue
        said = next(printed)
        out.append(said)
        word, *fields = line.split(" ")
        if word == "zone":
            parts = fields[0].split(".")
            zone = Zone(*parts[:3]) if parts[0] in ("alias", "dname") and len(parts) == 4 else None
        if word == "ask":
            asked = (name(fields[0]), int(fields[1]), " ".join(fields[2:]))
        if word == "answer" and zone:
            into.append("find")
            out.append("find: " + found(zone, *asked, said.split(": ", 1)[1]))
    return into, out


if __name__ == "__main__":
    read, printed = (LINES / it for it in ("stdin", "stdout"))
    lines = renewed(read.read_text().splitlines(), printed.read_text().splitlines())
    for path, those in zip((read, printed), lines):
        path.write_text("\n".join([*those, ""]))
