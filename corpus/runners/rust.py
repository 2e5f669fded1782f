"""The library of this repository, by its crate for Rust: what is said must be what the library says through C."""

from __future__ import annotations

import json
import os
import subprocess
import sys

from . import outcome
from .outcome import TOP, Case, Said

CARGO = os.environ.get("CARGO", "/usr/bin/cargo")


def run(cases: list[Case], _path: str) -> tuple[str, dict[str, Said]]:
    words = [CARGO, "run", "--offline", "--quiet", "--release", "-p", "zermuita", "--example", "corpus"]
    lines = "".join(json.dumps(it) + "\n" for it in cases)
    environment = {"RUSTC": "/usr/bin/rustc"} | os.environ
    ran = subprocess.run(words, cwd=TOP.parent / "rust", input=lines, stdout=subprocess.PIPE, text=True, check=True, env=environment)
    version, *told = ran.stdout.splitlines()
    return f"crate {version}", {name: Said(*said) for name, *said in map(json.loads, told)}


def differences(cases: list[Case], told: dict[str, Said]) -> int:
    """Prints what the crate says otherwise than the library through C, as it is kept, and gives how many cases that are."""
    kept, count = outcome.kept("zermuita", cases), 0
    for name, said in told.items():
        before = kept.get(name)
        if before is None or (before.result, before.which) != (said.result, said.which):
            count += 1
            print(f"    {name}: {said}, and through C {before}", file=sys.stderr)
    print(f"{len(told)} cases, {count} otherwise than through C")
    return count
