#!/usr/bin/env python3
"""Runs `rt ci`, and what is run behind it over what it proved. Measures what it costs, crate by crate: processor time of proofs, tests
and wrong bodies.

usage: tools/gate.py [--table | FILE]

It passes on what `rt ci` prints and looks at its processes twice a second. The row `rt` is what all of them but the prover
take: `rt ci` itself, links, and runs. A crate that an earlier run passed on this machine is not proved again and has no row.
Behind each crate it says how many are done, how long that took and how long the rest will take, by the minutes that
docs/proof/gate.tsv has. Before the last line, which stays the last, it prints once more the lines that say what failed.
RT_JOBS says on how many processors the gate runs.

FILE gets the table so far each minute, so that a run that is stopped tells what it cost. A run that passed and took nothing from an
earlier one puts its table into docs/proof/gate.tsv: after lines that begin with `#`, which have its date, commit, processors and
minutes, a line for each crate with tabs between: its name, the minutes of one processor that its proof, its test functions and its wrong
bodies took, and how many wrong bodies the gate tried. --table prints what docs/proof/gate.tsv has as a table, and runs nothing.

The last line is that of `rt ci`, unless something behind it failed: then it is the name of that.
"""

from __future__ import annotations

import collections
import concurrent.futures
import datetime
import os
import pathlib
import re
import subprocess
import sys
import threading
import time

TOP = pathlib.Path(__file__).resolve().parent.parent
TABLE = TOP / "docs/proof/gate.tsv"
PHASES = ("proof", "tests", "edits")
HEAD = ("crate", "proof", "tests", "wrong bodies", "of these")
# What is run behind `rt ci`.
BEHIND = (
    "tests/cases examples/sessions tests/sessions",
    "tests/inputs",
    "tests/process",
    "tests/streams",
    "cd examples/sessions && ../../tests/growths/run first_wait opt_out own_zone",
    "tests/refusals --part",
    "tools/archive && tests/lines/run && tests/explained/run",
    "tests/pictures",
    "tests/signers | cmp - tests/sessions/octets_of_signers",
    "tests/pages/run",
)
TICKS = os.sysconf("SC_CLK_TCK")
# Lines that say what was refused and why; of them the last so many are printed again.
FAULT = re.compile(r": error: |FAILED|NOT REFUSED|BAD EDIT|NOT TRIED|no proof: |was killed|differ first at|panicked")
FAULTS = 60
# Lines that end a crate's proof, or one of its edits.
DONE = re.compile(r"rt: (?:(\w+) (?:proved|is kept)|must-fail (\w+)/)")


def is_below(entry):
    """Whether a process was started by this one, or by one that it started."""
    while entry not in ("0", "1"):
        if entry == str(os.getpid()):
            return True
        entry = pathlib.Path(f"/proc/{entry}/stat").read_text(errors="replace").rpartition(")")[2].split()[1]
    return False


def part_of(words, entry):
    """Returns the crate and the phase that a process works for: the prover's of one crate, or those of `rt`."""
    if not words[0].endswith("/rattle") or "--crate-name" not in words:
        return "rt", "proof"
    folder = os.readlink(f"/proc/{entry}/cwd")
    phase = "edits" if "rt-edit-" in folder else "tests" if "--test" in words else "proof"
    return words[words.index("--crate-name") + 1], phase


def processes():
    """Yields each process below this one: what tells it from others, its crate and phase, its own processor seconds so far."""
    for entry in filter(str.isdigit, os.listdir("/proc")):
        try:
            if entry == str(os.getpid()) or not is_below(entry):
                continue
            words = pathlib.Path(f"/proc/{entry}/cmdline").read_text(errors="replace").split("\0")
            times = pathlib.Path(f"/proc/{entry}/stat").read_text(errors="replace").rpartition(")")[2].split()
            # one that has ended, and was counted while it ran, has no words left
            if not words[0]:
                continue
            part = part_of(words, entry)
        except (OSError, IndexError):
            # it has ended, or becomes another just now
            continue
        yield (entry, times[19]), part, (int(times[11]) + int(times[12])) / TICKS


def watch(seconds, is_over, file):
    """Notes the processor seconds of each crate and phase until the run is over."""
    began = written = time.monotonic()
    while not is_over.wait(0.5):
        for process, part, used in processes():
            # a process may become another by `exec`, or be read while it ends
            seen = seconds[part].get(process, 0)
            seconds[part][process] = max(used, seen)
        now = time.monotonic()
        if file and now - written > 60:
            file.write_text(table(seconds, (now - began) / 60))
            written = now


def edits_of(name):
    """How many wrong bodies of a crate the gate tries."""
    return len(list((TOP / "crates" / name / "must-fail").glob("*.edit")))


def measured():
    """The minutes that the last whole run took, of each crate: its proof, its tests, its wrong bodies, and the number of these."""
    lines = TABLE.read_text().splitlines() if TABLE.is_file() else []
    rows = [line.split("\t") for line in lines if not line.startswith("#")]
    return {name: [float(cell or 0) for cell in cells] for name, *cells in rows[1:]}


class Progress:
    """How far a run is: crates done of all, and minutes of one processor that they took when they were measured."""

    def __init__(self):
        lines = (TOP / "crates.txt").read_text().splitlines()
        names = [line.split(":")[0].split()[0] for line in lines if ":" in line and not line.startswith("#")]
        before = measured()
        self.proofs = {name: before.get(name, [3])[0] for name in names}
        # one whose number has changed takes as long as it took each of those that there were
        self.edits = {name: edits / number for name in names for _, _, edits, number in [before.get(name, [0, 0, 2, 1])] if number}
        self.edits = {name: self.edits.get(name, 2) for name in names}
        self.left = sum(self.proofs.values()) + sum(self.edits[name] * edits_of(name) for name in names)
        self.spent, self.done, self.kept, self.began = 0, 0, 0, time.monotonic()

    def after(self, line):
        """What is said behind a line that ends a part of the run; nothing behind others."""
        found = DONE.match(line)
        if not found or not {found[1], found[2]} & self.proofs.keys():
            return ""
        took = self.proofs[found[1]] if found[1] else self.edits[found[2]]
        self.done += bool(found[1])
        self.left -= took
        # what an earlier run proved takes no time
        is_kept = "is kept" in line
        self.kept += is_kept
        self.spent += 0 if is_kept else took
        minutes = (time.monotonic() - self.began) / 60
        rest = f", some {max(0, self.left) * minutes / self.spent:.0f} left" if self.spent > 5 else ""
        return f"gate: {self.done} of {len(self.proofs)} crates done, {minutes:.0f} minutes so far{rest}\n"


def commit():
    """The commit of the code that is there, with a + where a file differs from it."""
    said = subprocess.run(["git", "describe", "--always", "--abbrev=12", "--exclude=*", "--dirty=+"], cwd=TOP, capture_output=True, text=True)
    return said.stdout.strip() or "unknown"


def table(seconds, minutes):
    """What was measured, as docs/proof/gate.tsv has it."""
    spent = {part: sum(used.values()) for part, used in seconds.items()}
    today = datetime.datetime.now(datetime.timezone.utc).date()
    processors = len(os.sched_getaffinity(0))
    lines = [f"# date {today}\n# commit {commit()}\n# processors {processors}\n# minutes {minutes:.0f}", "\t".join(HEAD)]
    for crate in dict.fromkeys(crate for crate, _ in spent):
        cells = [f"{spent[crate, phase] / 60:.1f}" if spent.get((crate, phase)) else "" for phase in PHASES]
        number = edits_of(crate) if cells[2] else 0
        lines.append("\t".join([crate, *cells, str(number or "")]))
    return "\n".join(lines) + "\n"


def printed_table():
    """The table of docs/proof/gate.tsv for a page, with sums."""
    lines = TABLE.read_text().splitlines()
    rows = list(measured().items())
    sums = [sum(cells[at] for _, cells in rows) for at in range(4)]
    head = ["".join(f"{line[2:]}\n" for line in lines if line.startswith("#")), row(*HEAD), "|---" * len(HEAD) + "|"]
    cells = [row(f"`{name}`", *(f"{it:.1f}" if it else "" for it in of[:3]), f"{of[3]:.0f}" if of[3] else "") for name, of in rows]
    return "\n".join([*head, *cells, row("all", *(f"{it:.1f}" for it in sums[:3]), f"{sums[3]:.0f}")])


def row(*cells):
    return f"| {' | '.join(cells)} |"


def behind():
    """Runs what is run behind `rt ci`, side by side, and gives what failed."""

    def run(command):
        streams = {"stdin": subprocess.DEVNULL, "stdout": subprocess.PIPE, "stderr": subprocess.STDOUT}
        # one that fails in front of a pipe fails, too
        return subprocess.run(["bash", "-o", "pipefail", "-c", command], cwd=TOP, **streams)

    with concurrent.futures.ThreadPoolExecutor() as pool:
        ran = list(pool.map(run, BEHIND))
    for command, it in zip(BEHIND, ran):
        print(f"gate: {command}\n{it.stdout.decode(errors='replace')}", end="", flush=True)
    return [command for command, it in zip(BEHIND, ran) if it.returncode]


def main():
    if sys.argv[1:] == ["--table"]:
        print(printed_table())
        return 0
    if len(sys.argv) > 2 or sys.argv[1:2] and sys.argv[1].startswith("-"):
        sys.exit("usage: tools/gate.py [--table | FILE]")
    seconds, is_over = collections.defaultdict(dict), threading.Event()
    file = pathlib.Path(sys.argv[1]) if len(sys.argv) > 1 else None
    began, last, faults = time.monotonic(), "", collections.deque(maxlen=FAULTS)
    progress = Progress()
    watcher = threading.Thread(target=watch, args=(seconds, is_over, file), daemon=True)
    watcher.start()
    with subprocess.Popen(["rt", "ci"], cwd=TOP, stdout=subprocess.PIPE, text=True, errors="replace") as gate:
        for line in gate.stdout:
            print(last + progress.after(last), end="", flush=True)
            last = line
            if FAULT.search(line):
                faults.append(line)
    failed = [] if gate.returncode else behind()
    is_over.set()
    watcher.join()
    print("".join(faults), end="")
    minutes = (time.monotonic() - began) / 60
    print(f"gate: {minutes:.0f} minutes, of one processor {sum(sum(it.values()) for it in seconds.values()) / 60:.0f}")
    if file:
        file.write_text(table(seconds, minutes))
    if not gate.returncode and not failed and not progress.kept:
        TABLE.write_text(table(seconds, minutes))
        # a page has its sums
        subprocess.run([TOP / "tools/pages"], check=True)
        print(f"gate: each crate's minutes are in {TABLE.relative_to(TOP)}")
    print(f"FAILED: {'; '.join(failed)}" if failed else last.rstrip("\n"), flush=True)
    return gate.returncode or (1 if failed else 0)


if __name__ == "__main__":
    sys.exit(main())
