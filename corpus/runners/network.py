"""A network namespace of a run's own, with the addresses that its servers and validators have."""

from __future__ import annotations

import os
import sys
from collections.abc import Iterable

INSIDE = "OWN_NAMESPACE"


def enter(program: str, words: list[str], addresses: Iterable[str], more: str = "") -> None:
    """Runs a program again in a namespace, unless it is in one. `more` is what else the shell does there, behind the addresses."""
    if INSIDE in os.environ:
        return
    add = "".join(f"ip address add {it}/32 dev lo; " for it in addresses)
    user = [] if os.geteuid() == 0 else ["--map-root-user"]
    os.environ[INSIDE] = "1"
    command = f'ip link set lo up; {add}{more}exec "$@"'
    os.execvp("unshare", ["unshare", "--net", *user, "sh", "-ec", command, "sh", sys.executable, program, *words])
