#!/usr/bin/env python3
"""Counts the instructions of calls on sorted records, with callgrind.

A pass is done once and once more on the same records, and the difference is divided by them, so that reading the input
and starting the program fall away. Run it from anywhere; it builds crates/bench_counts first.

usage: benches/sorted.py [RECORDS]: so many, 100,000 without it
"""
import random
import sys

from counting import BENCH, PLAIN, build, counted

OWNERS = 12_581


def zone(count):
    """So many records of a zone: SOA and NS records of the apex, delegations with one or two servers and now and then a
    DS record, and hosts with addresses and text. In canonical order; the same at each run."""
    chance = random.Random(1)
    records = ["example. 6 soa", "example. 2 ns1", "example. 2 ns2"]
    owners = set()
    while len(records) < count:
        labels = ["".join(chance.choices(PLAIN, k=chance.randint(3, 12))) for _ in range(chance.randint(1, 3))]
        owner = ".".join(labels) + ".example."
        if owner in owners:
            continue
        owners.add(owner)
        if chance.random() < 0.5:
            types = [2, 2, 43] if chance.random() < 0.2 else [2, 2]
        else:
            types = chance.choice([[1], [1, 28], [1, 1, 28], [1, 15, 16]])
        records += [f"{owner} {rtype} {''.join(chance.choices(PLAIN, k=chance.randint(4, 20)))}" for rtype in types]
    records = records[:count]

    def key(line):
        owner, rtype, data = line.split(" ")
        return [it.encode() for it in owner.rstrip(".").split(".")[::-1]], int(rtype), data.encode()

    return sorted(records, key=key)


def hosts(count):
    """As many owners as there are, each with one record; in no order, the same at each run."""
    chance = random.Random(3)
    owners = {f"{''.join(chance.choices(PLAIN, k=chance.randint(3, 12)))}.example." for _ in range(count)}
    while len(owners) < count:
        owners.add(f"{''.join(chance.choices(PLAIN, k=12))}.example.")
    return shuffled([f"{owner} 1 data" for owner in sorted(owners)])


def shuffled(records):
    records = list(records)
    random.Random(2).shuffle(records)
    return records


def instructions(task, rounds, records):
    return counted(BENCH, [f"# sorted {task} {rounds}", *records])[0]


def row(what, count):
    print(f"| {what} | {count:,.0f} |", flush=True)


def main():
    build(BENCH)
    count = int(sys.argv[1]) if len(sys.argv) > 1 else 100_000
    ordered = zone(count)
    mixed = shuffled(ordered)
    owners = len({it.split(" ")[0] for it in ordered})
    print(f"{count:,} records of {owners:,} owners\n\n| call | instructions |\n|---|---|")
    read = instructions("read", 0, mixed)
    sort = instructions("sort", 0, mixed) - read
    row("`from_vec` of records in no order, an owner", sort / owners)
    row("`from_vec` of records in no order, a record", sort / count)
    row("`from_vec` of records in order, an owner", (instructions("sort", 0, ordered) - instructions("read", 0, ordered)) / owners)
    single = hosts(OWNERS)
    taken = instructions("sort", 0, single) - instructions("read", 0, single)
    row(f"`from_vec` of {OWNERS:,} owners with one record each, in no order, an owner", taken / OWNERS)
    put = 100
    row("`insert`", (instructions("sort", put, mixed) - read - sort * (count - put) / count) / put)
    for task, what in (("owners", "`owner_rrs`"), ("sets", "`rrsets`")):
        taken = instructions(task, 2, ordered) - instructions(task, 1, ordered)
        row(f"a pass over `{what[1:-1]}`, a record", taken / count)
    taken = instructions("found", 2, ordered) - instructions("found", 1, ordered)
    row("`find_owner`, and a walk over what it finds", taken / len(ordered[::100]))
    row("`find_soa`", instructions("soa", 2, ordered) - instructions("soa", 1, ordered))


if __name__ == "__main__":
    main()
