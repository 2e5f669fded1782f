"""What a validator says of a case, and whether that agrees with what is expected."""

from __future__ import annotations

import dataclasses
import datetime
import hashlib
import json
import pathlib
import sys
from typing import Any

TOP = pathlib.Path(__file__).resolve().parent.parent
SAID = TOP / "said"
Case = dict[str, Any]

SECURE, INSECURE, BOGUS = "secure", "insecure", "bogus"
# What a resolver's answer lets see of a secure result: the response code, and whether there are records.
SEEN = {
    "nxdomain": {"nxdomain"},
    # The alias is in the answer, and what it leads to does not exist.
    "alias-nxdomain": {"alias"},
    "records": {"answer", "wildcard", "alias", "delegated"},
    "none": {"nodata", "wildcard-nodata"},
    # Which denial it is, is not told, or only by a record that is passed on.
    "denied": {"nodata", "wildcard-nodata", "nxdomain"},
}


@dataclasses.dataclass(frozen=True)
class Said:
    """A result; of a secure one which it is, or what is seen of that (a key of SEEN); why, in the validator's words."""

    result: str
    which: str = ""
    why: str = ""

    def fits(self, expected: dict[str, str]) -> bool:
        if self.result != expected["result"]:
            return False
        if self.result != SECURE or not self.which:
            return True
        return expected["which"] in SEEN.get(self.which, {self.which})


def verdict(case: Case, said: Said) -> str:
    """`agrees`; `accepts` a message that has to be refused; `refuses` one that is right; `differs` otherwise; `none`: not asked, or
    no answer."""
    if said.result not in (SECURE, INSECURE, BOGUS):
        return "none"
    allowed = [case["expected"], *case.get("also", [])]
    if any(said.fits(it) for it in allowed):
        return "agrees"
    if case["kind"] == "valid" and case["expected"].get("which") == "delegated" and said.result == case["expected"]["result"]:
        # A resolver asks on, and says what the zone below says.
        return "agrees"
    if said.result == BOGUS:
        return "refuses"
    # A resolver that doesn't say secure claims no proof.
    return "accepts" if case["expected"]["result"] == BOGUS else "differs"


def groups(names: list[str]) -> dict[str, list[Case]]:
    """The cases of groups; of all where none is named."""
    paths = sorted((TOP / "cases").glob("*.json"))
    found = {it.stem: json.loads(it.read_text())["cases"] for it in paths if not names or it.stem in names}
    if missing := {*names} - {*found}:
        raise SystemExit(f"no group {', '.join(sorted(missing))}")
    return found


def named(cases: list[Case], ids: list[str]) -> list[Case]:
    """The cases with these ids."""
    by_id = {it["id"]: it for it in cases}
    if missing := [it for it in ids if it not in by_id]:
        raise SystemExit(f"no case {', '.join(missing)}")
    return [by_id[it] for it in ids]


def taken(words: list[str], option: str) -> list[str]:
    """The values of an option, which are taken out of the words."""
    found = []
    while option in words[:-1]:
        at = words.index(option)
        found.append(words[at + 1])
        del words[at : at + 2]
    return found


def mark(case: Case) -> str:
    """By this it is seen whether something was said of the case as it is now."""
    shown = [case[it] for it in ("apex", "question", "moment", "ds", "dnskey", "answer", "before") if it in case]
    return hashlib.sha256(json.dumps(shown).encode()).hexdigest()[:8]


def kept(validator: str, cases: list[Case]) -> dict[str, Said]:
    """What the kept run has of cases that have not changed since."""
    path = SAID / f"{validator}.json"
    known = json.loads(path.read_text())["said"] if path.exists() else {}
    return {it["id"]: Said(*known[it["id"]][:3]) for it in cases if known.get(it["id"], [])[3:] == [mark(it)]}


def agreeing(validator: str, cases: list[Case]) -> set[str]:
    """The cases that agreed in the kept run."""
    known = kept(validator, cases)
    return {it["id"] for it in cases if it["id"] in known and verdict(it, known[it["id"]]) == "agrees"}


def store(validator: str, version: str, told: dict[str, Said]) -> None:
    """Keeps what was said of cases, in the place of what was said of them before."""
    path = SAID / f"{validator}.json"
    SAID.mkdir(exist_ok=True)
    before = json.loads(path.read_text()) if path.exists() else {"said": {}}
    known = before["said"]
    if before.get("version", version) != version and known.keys() - told.keys():
        print(f"{path}: what {before['version']} said of other cases now stands below {version}", file=sys.stderr)
    marks = {it["id"]: mark(it) for of in groups([]).values() for it in of}
    known.update({it: [said.result, said.which, said.why, marks[it]] for it, said in told.items()})
    head = {"validator": validator, "version": version, "date": datetime.date.today().isoformat()}
    rows = ",\n".join(f"{json.dumps(it)}: {json.dumps(known[it])}" for it in sorted(known) if known[it][3:] == [marks.get(it)])
    path.write_text(json.dumps(head)[:-1] + ', "said": {\n' + rows + "\n}}\n")
