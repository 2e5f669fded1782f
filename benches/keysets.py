#!/usr/bin/env python3
"""Counts the instructions of the calls of a roll on large key sets, with callgrind.

The calls are made up to one and up to the one before, and the difference is divided by the keys. Run it from anywhere; it
builds crates/bench_counts first.
"""
import sys

from counting import BENCH, build, counted

SIZES = (100, 1000, 4000)
CALLS = (
    "`start_roll`, each key listed",
    "`propagation1_complete`",
    "`cache_expired1`",
    "`propagation2_complete`",
    "`cache_expired2`",
    "`roll_done`",
)


def run(keys, calls):
    count, made = counted(BENCH, [f"# keysets {keys} {calls}"])
    if made != f"{calls}\n":
        sys.exit(f"of {calls} calls on {keys} keys {made.strip()} were made")
    return count


def main():
    build(BENCH, [f"# keysets {SIZES[0]} 0"])
    print("| call | " + " | ".join(f"{keys:,} keys" for keys in SIZES) + " |\n" + "|---" * (len(SIZES) + 1) + "|")
    counts = {keys: [run(keys, calls) for calls in range(len(CALLS) + 1)] for keys in SIZES}
    for step, what in enumerate(CALLS):
        cells = [f"{(counts[keys][step + 1] - counts[keys][step]) / keys:,.0f}" for keys in SIZES]
        print(f"| {what} | " + " | ".join(cells) + " |", flush=True)


if __name__ == "__main__":
    main()
