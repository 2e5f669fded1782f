"""libldns, by a program in C over its calls (ldns.c), which is built for the run."""

from __future__ import annotations

import pathlib
import re
import subprocess
import tempfile

from .outcome import INSECURE, SECURE, Case, Said

PROGRAM = pathlib.Path(__file__).resolve().parent / "ldns.c"


def line(case: Case) -> str:
    question = case["question"]
    words = case["apex"], ",".join(case["ds"]), case["dnskey"], case["answer"], question["name"], question["type"], case["moment"]
    return " ".join(map(str, words)) + "\n"


def unjudged(case: Case) -> Said | None:
    """What follows from the DS set alone, which the library has no call for."""
    ds = [bytes.fromhex(it) for it in case["ds"]]
    if not ds:
        return Said(INSECURE, "no-ds")
    if not any(it[2] in (8, 13, 15) and it[3] in (1, 2, 4) for it in ds):
        return Said(INSECURE, "algorithms")
    return None


def told(case: Case, text: str) -> Said:
    result, which, why = text.split("\t")
    if which == "denied":
        # The library doesn't tell which denial it is, nor whether opt-out leaves it open.
        allowed = [case["expected"], *case.get("also", [])]
        is_open = any(it == {"result": INSECURE, "which": "optout"} for it in allowed)
        return Said(INSECURE if is_open else SECURE, "denied", why)
    return Said(result, which, why)


def run(cases: list[Case], _library: str) -> tuple[str, dict[str, Said]]:
    found = {it["id"]: said for it in cases if (said := unjudged(it))}
    asked = [it for it in cases if it["id"] not in found]
    with tempfile.TemporaryDirectory(prefix="corpus-") as room:
        program = pathlib.Path(room) / "ldns"
        subprocess.run(["cc", "-O2", "-Wno-deprecated-declarations", "-o", program, PROGRAM, "-lldns"], check=True)
        ran = subprocess.run([program], input="".join(map(line, asked)), capture_output=True, text=True, check=True)
    found |= {case["id"]: told(case, text) for case, text in zip(asked, ran.stdout.splitlines(), strict=True)}
    version = subprocess.run(["dpkg-query", "-W", "-f", "${Version}", "libldns3"], capture_output=True, text=True, check=True).stdout
    return f"libldns {re.sub('^[0-9]+:', '', version)}", found
