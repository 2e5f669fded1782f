#!/usr/bin/env python3
"""Counts the instructions of making NSEC chains, with callgrind.

A chain is made once and once more of the same records, and the difference is divided by the records that were made, so
that reading the input, sorting and starting the program fall away; what the tests of the conditions cost is counted by
itself and taken off. Run it from anywhere; it builds crates/bench_counts first.

usage: benches/chains.py [RECORDS]: zones of at most so many, 100,000 without it
"""
import random
import sys

from counting import BENCH, PLAIN, build, counted

APEX = ["example. 6 soa", "example. 2 ns1"]


def word(chance, low, high):
    return "".join(chance.choices(PLAIN, k=chance.randint(low, high)))


def mixed(count):
    """So many owners: hosts with addresses and text, delegations, some with a DS record. The same at each run."""
    chance, owners, records = random.Random(1), set(), list(APEX)
    while len(owners) + 1 < count:
        owner = f"{word(chance, 6, 12)}.example."
        if owner in owners:
            continue
        owners.add(owner)
        types = chance.choice([[1], [1, 28], [1, 15, 16], [2, 2], [2, 43]])
        records += [f"{owner} {rtype} {word(chance, 4, 20)}" for rtype in types]
    return records


def delegations(count):
    return APEX + [f"d{at:06}.example. 2 ns" for at in range(count - 1)]


def deep(count):
    """So many owners below one name of 100 labels."""
    under = ".".join(["a"] * 99)
    return APEX + [f"h{at:06}.{under}.example. 1 x" for at in range(count - 1)]


def typed(count):
    """One owner with so many types. The chain adds those of signatures and links, 46 and 47."""
    others = [rtype for rtype in range(1, count + 3) if rtype not in (6, 46, 47)]
    return ["example. 6 soa"] + [f"example. {rtype} x" for rtype in others]


def instructions(task, rounds, records):
    count, made = counted(BENCH, [f"# nsec {task} {rounds}", *records])
    return count, int(made)


def row(what, zone):
    once, made = instructions("nsec", 1, zone)
    twice, _ = instructions("nsec", 2, zone)
    tests = instructions("tests", 2, zone)[0] - instructions("tests", 1, zone)[0]
    print(f"| {what} | {made:,} | {(twice - once - tests) / made:,.0f} |", flush=True)


def main():
    build(BENCH)
    print("| zone | NSEC records | instructions a record |\n|---|---|---|")
    most = int(sys.argv[1]) if len(sys.argv) > 1 else 100_000
    for count in (1_000, 10_000, 100_000):
        if count <= most:
            row("hosts and delegations", mixed(count))
    row("delegations alone", delegations(most))
    row("owners below one name of 100 labels", deep(most))
    row("one owner with 1,000 types", typed(1_000))


if __name__ == "__main__":
    main()
