"""Where the bench and the library for C are."""

from __future__ import annotations

import os
import pathlib
import shutil
import subprocess
import sys

TOP = pathlib.Path(__file__).resolve().parents[1]
CRATE = TOP / "crates/denialbench"
BENCH = CRATE / "out/denialbench"
TRY = ["rt", "try", "--steps", "1", "--seconds", "600"]
ARCHIVES = tuple(TOP / f"crates/{it}/out/lib{it}.a" for it in ("zermuita", "zermuita_zone"))
# What tools/install put together of the archives.
INSTALLED = TOP / "crates/zermuita/out/installed"


class Missing(Exception):
    """A part is not there; how to build it."""


def bench() -> tuple[list[str], pathlib.Path]:
    """The words that replay a session, and the folder to run them in: DENIALBENCH of the environment, the bench of this checkout, or
    the same compiled anew without its proof."""
    found = os.environ.get("DENIALBENCH") or (str(BENCH) if _is_built(BENCH) else None)
    if found:
        return [found], pathlib.Path.cwd()
    if shutil.which("rt"):
        print("explain: the bench is compiled first, which takes about a minute: rt run in its crate builds it", file=sys.stderr)
        return TRY, CRATE
    raise Missing("no denialbench: rt run in crates/denialbench proves and builds it; DENIALBENCH may name one")


def _is_built(*files: pathlib.Path) -> bool:
    """Whether files of this checkout are there and no code is newer."""
    if not all(map(pathlib.Path.is_file, files)):
        return False
    newest = max(it.stat().st_mtime for it in TOP.glob("crates/*/src/**/*.rt"))
    return all(it.stat().st_mtime >= newest for it in files)


def library(soname: str) -> str:
    """The shared object: below ZERMUITA_PREFIX of the environment, of this checkout's archives, or that of the system."""
    prefix = os.environ.get("ZERMUITA_PREFIX")
    if prefix:
        return str(pathlib.Path(prefix, "lib", soname))
    if not _is_built(*ARCHIVES):
        return soname
    built = INSTALLED / "lib" / soname
    if not built.is_file() or any(it.stat().st_mtime > built.stat().st_mtime for it in ARCHIVES):
        ran = subprocess.run([TOP / "tools/install", INSTALLED], stdout=subprocess.DEVNULL, stderr=sys.stderr)
        if ran.returncode:
            raise Missing("tools/install could not put the library together")
    return str(built)
