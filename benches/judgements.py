#!/usr/bin/env python3
"""Counts the instructions and the blocks of memory of an owner's set-up, of an answer and of a judgement, with callgrind and
memcheck.

A session is run once as it is and once more with more of the same lines, and the difference is divided by their number. What
an event costs that only says that its place holds nothing is taken off answers and judgements, so that reading a line and
printing fall away; an owner's set-up has the reading of its line in it. The bench's stand-in for
signatures and digests, SHA-256, is part of the counts; how much of a judgement it is stands beside it, and how much it takes to
decide from the facts that were verified. Zones have NSEC records, where ten owners are asked and 10,000, or NSEC3 records,
where ten are. Run it from anywhere; it builds crates/denialbench first.

usage: benches/judgements.py [OWNERS..]: with numbers only answers, by both chains, of zones of so many owners
"""
import re
import subprocess
import sys
import tempfile

from counting import TOP, build, counted, program

BENCH = "denialbench"
TIMES = 50
ASKED = (
    ("records", "n000004.example 1"),
    ("NODATA", "n000004.example 15"),
    ("NXDOMAIN", "n000004x.example 1"),
    ("a wildcard", "x.w.example 16"),
    ("wildcard NODATA", "x.w.example 1"),
    ("a referral", "x.d.example 1"),
)
# a wildcard and a delegation beside the addresses
OTHERS = (
    "rr *.w.example 3600 1 16 0474657874",
    "rr d.example 3600 1 2 026e73076578616d706c6500",
)
CHAINS = {"NSEC": "nsec 0 86400", "NSEC3": "nsec3 0 - 0 86400"}
TOOLS = ("callgrind", "memcheck")
DECIDE = r"deciding::judge_proof\b"


def opening(owners, chain="NSEC"):
    """A zone of so many owners whose keys have finished their first roll, and its DS set and DNSKEY answer."""
    words = [sys.executable, str(TOP / "benches/session.py"), str(owners)]
    session = subprocess.run(words, capture_output=True, text=True, check=True)
    lines = [line for line in session.stdout.split("\n") if line and line.split()[0] not in ("ask", "judge")]
    return [f"zone example {CHAINS[chain]}", lines[1], *OTHERS, *lines[2:]]


def within(lines, function, *flags):
    """Instructions within the functions whose names have a form."""
    with tempfile.NamedTemporaryFile() as profile:
        words = ["valgrind", "--tool=callgrind", f"--callgrind-out-file={profile.name}", str(program(BENCH))]
        subprocess.run(words, input="\n".join([*lines, ""]), capture_output=True, text=True, check=True)
        words = ["callgrind_annotate", "--threshold=100", *flags, profile.name]
        table = subprocess.run(words, capture_output=True, text=True, check=True).stdout
    found = re.findall(rf"^ *([\d,]+) .*\b{function}", table, re.MULTILINE)
    return sum(int(it.replace(",", "")) for it in found)


def stand_in(lines):
    """Instructions within SHA-256."""
    return within(lines, "sha2::")


def hashing(lines):
    """Instructions within SHA-1."""
    return within(lines, "sha1::")


def deciding(lines):
    """Instructions of deciding, those of what it calls included."""
    return within(lines, DECIDE, "--inclusive=yes")


def counts(fewer, more, times):
    """Instructions and blocks of what one session has more than another."""
    return [(counted(BENCH, more, tool)[0] - counted(BENCH, fewer, tool)[0]) / times for tool in TOOLS]


def row(what, cells):
    return f"| {what} | " + " | ".join(f"{cell:,.0f}" for cell in cells) + " |"


def answers(owners, chain):
    """Instructions of an answer to each question."""
    start = [*opening(owners, chain), *(f"ask {asked} 7200" for _, asked in ASKED)]
    idle = counted(BENCH, start + ["judge 0 1 9999 7200"] * TIMES)[0]
    return [(counted(BENCH, start + [f"ask {asked} 7200"] * TIMES)[0] - idle) / TIMES for _, asked in ASKED]


def grown(sizes):
    """Prints what answers take in zones of so many owners."""
    for chain in CHAINS:
        print(f"\n| an answer, by {chain}, of | " + " | ".join(f"{owners:,} owners" for owners in sizes) + " |")
        print("|---" * (len(sizes) + 1) + "|")
        for (what, _), cells in zip(ASKED, zip(*(answers(owners, chain) for owners in sizes))):
            print(row(what, cells), flush=True)


def main():
    build(BENCH, (TOP / "examples/sessions/first_wait").read_text(encoding="utf-8").split("\n"))
    if len(sys.argv) > 1:
        return grown([int(it) for it in sys.argv[1:]])
    print("| owners | set-up of an owner | blocks |\n|---|---|---|")
    for owners in (1_000, 10_000, 100_000):
        print(row(f"{owners:,}", counts(opening(owners), opening(2 * owners), owners)))
    for owners, chain in ((10, "NSEC"), (10_000, "NSEC"), (10, "NSEC3")):
        start = [*opening(owners, chain), *(f"ask {asked} 7200" for _, asked in ASKED)]
        idle = counts(start, start + ["judge 0 1 9999 7200"] * TIMES, TIMES)
        heads = ("an answer", "blocks", "its judgement", "blocks", "SHA-256", "SHA-1", "deciding")
        print(f"\n| what is asked of {owners:,} owners, {chain} | {' | '.join(heads)} |")
        print("|---" * (len(heads) + 1) + "|")
        for place, (what, asked) in enumerate(ASKED):
            answer = counts(start, start + [f"ask {asked} 7200"] * TIMES, TIMES)
            judged = start + [f"judge 0 1 {place + 2} 7200"] * TIMES
            judgement = counts(start, judged, TIMES)
            cells = [one - none for found in (answer, judgement) for one, none in zip(found, idle)]
            parts = [(part(judged) - part(start)) / TIMES for part in (stand_in, hashing, deciding)]
            print(row(what, [*cells, *parts]), flush=True)


if __name__ == "__main__":
    main()
