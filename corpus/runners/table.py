"""The tables of corpus/README.md and corpus/said/differences.tsv, from what was kept of the runs."""

from __future__ import annotations

import collections
import json
import re
from typing import Any

from .differences import REASONS, Reason
from .outcome import SAID, TOP, Case, Said, groups, mark, verdict

ORDER = ["zermuita", "unbound", "bind", "ldns", "knot-resolver", "powerdns", "dnspython", "dnsmasq", "systemd-resolved"]
BEGIN, END = "<!-- written by corpus/run table: begin -->\n", "<!-- written by corpus/run table: end -->\n"
README = TOP / "README.md"
DIFFERENCES = SAID / "differences.tsv"
MARKS = {"accepts": "+", "refuses": "-", "differs": "~"}


def kept() -> dict[str, dict[str, Any]]:
    return {it: json.loads((SAID / f"{it}.json").read_text()) for it in ORDER if (SAID / f"{it}.json").exists()}


def verdicts(cases: list[Case], said: dict[str, list[str]]) -> dict[str, str]:
    """Of cases that have changed since nothing was said."""
    known = {it["id"]: said[it["id"]] for it in cases if said.get(it["id"], [])[3:] == [mark(it)]}
    return {it["id"]: verdict(it, Said(*known[it["id"]][:3])) if it["id"] in known else "none" for it in cases}


def cell(of: dict[str, str]) -> str:
    """What a validator says of a group: how many agree of those that it was asked, and how the others differ."""
    counts = collections.Counter(of.values())
    asked = sum(counts.values()) - counts["none"]
    if not asked:
        return "none"
    return f"{counts['agrees']}/{asked}" + "".join(f" {mark}{counts[it]}" for it, mark in MARKS.items() if counts[it])


def of_lines(head: list[str], rows: list[list[str]]) -> str:
    first, *others = ("| " + " | ".join(it) + " |\n" for it in [head, *rows])
    return "".join([first, "|---" * len(head) + "|\n", *others])


def by_group(all_cases: dict[str, list[Case]], told: dict[str, dict[str, Any]]) -> str:
    rows = []
    total: dict[str, dict[str, str]] = {it: {} for it in told}
    for name, cases in all_cases.items():
        row = [name, str(len(cases))]
        for validator, of in told.items():
            found = verdicts(cases, of["said"])
            total[validator].update(found)
            row.append(cell(found))
        rows.append(row)
    every = sum(map(len, all_cases.values()))
    rows.append(["all", str(every), *(cell(total[it]) for it in told)])
    return of_lines(["group", "cases", *told], rows)


def reason_of(validator: str, kind: str, case: Case) -> Reason | None:
    return next((it for it in REASONS if it.fits(validator, kind, case)), None)


def differences(all_cases: dict[str, list[Case]], told: dict[str, dict[str, Any]]) -> tuple[str, list[str]]:
    """A line for each reason, with the cases; and what has none."""
    found: dict[tuple[str, Reason], list[str]] = collections.defaultdict(list)
    unknown = []
    for validator, of in told.items():
        for cases in all_cases.values():
            of_cases = verdicts(cases, of["said"])
            for case in cases:
                kind = of_cases[case["id"]]
                if kind in MARKS:
                    reason = reason_of(validator, kind, case)
                    if reason is None:
                        unknown.append(f"{validator} {kind} {case['id']}: {' '.join(of['said'][case['id']][:3])}: {case['tries']}")
                    else:
                        found[validator, reason].append(case["id"])
    rows = [[validator, reason.text, spans(ids)] for (validator, reason), ids in found.items()]
    return "".join("\t".join(it) + "\n" for it in [["validator", "difference", "cases"], *rows]), unknown


def spans(ids: list[str]) -> str:
    """Ids in a row in short: `matching-001` to `matching-003` as `matching-001 to 003`."""
    found: list[list[str]] = []
    for it in ids:
        group, number = it.rsplit("-", 1)
        last = found[-1] if found else None
        if last and last[0] == group and int(last[2]) + 1 == int(number):
            last[2] = number
        else:
            found.append([group, number, number])
    parts, before = [], ""
    for group, first, last_number in found:
        name = first if group == before else f"{group}-{first}"
        before = group
        parts.append(name if first == last_number else f"{name} to {last_number}")
    return ", ".join(parts)


def write() -> int:
    told, all_cases = kept(), groups([])
    versions = of_lines(["validator", "version", "last run"], [[name, of["version"], of["date"]] for name, of in told.items()])
    rows, unknown = differences(all_cases, told)
    DIFFERENCES.write_text(rows)
    text = f"{BEGIN}\n{versions}\n{by_group(all_cases, told)}\n{END}"
    page = README.read_text()
    page, count = re.subn(re.escape(BEGIN) + ".*" + re.escape(END), lambda _it: text, page, flags=re.DOTALL)
    if count != 1:
        raise SystemExit(f"{README} has no place for the tables")
    README.write_text(page)
    print("\n".join([*unknown, f"{len(unknown)} differences without a sentence"]))
    return 1 if unknown else 0
