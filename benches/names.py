#!/usr/bin/env python3
"""Counts the instructions of calls on names, with callgrind, and the blocks of memory that comparing takes.

A task is done once and once more on the same names, and the difference is divided by the calls of one time, so that
reading the input and starting the program fall away. Run it from anywhere; it builds crates/bench_counts first.
"""
import random
import re

from counting import BENCH, PLAIN, TOP, build, counted



def text(wire):
    """The text of a name in wire form, each octet that is no letter, digit or hyphen as three digits."""
    labels = []
    while wire[0]:
        label, wire = wire[1 : 1 + wire[0]], wire[1 + wire[0] :]
        labels.append("".join(chr(it) if chr(it).isalnum() and it < 128 or it == 45 else f"\\{it:03}" for it in label))
    return ".".join(labels) + "."


def order_names():
    """The names of the table of canonical order: pairs of neighbours, a line each behind lines that say so."""
    lines = (TOP / "crates/test_rdata/stdin").read_text(encoding="utf-8")
    pairs = re.search(r"^# names in canonical order.*\n(?:#.*\n)*((?:pair .*\n)+)", lines, re.MULTILINE)[1]
    return [text(bytes.fromhex(it)) for it in dict.fromkeys(re.findall(r"\b(?:[0-9a-f]{2})+\b", pairs))]


def zone_names(count):
    """Names of two to four labels under one apex, in no order; the same at each run."""
    chance = random.Random(1)
    names = set()
    while len(names) < count:
        labels = ("".join(chance.choices(PLAIN, k=chance.randint(3, 12))) for _ in range(chance.randint(1, 3)))
        names.add(".".join(labels) + ".example.")
    names = sorted(names)
    chance.shuffle(names)
    return names


def more(tool, task, names, before):
    """What one time more of a task counts."""
    fewer, one_more = (counted(BENCH, [f"# names {task} {rounds}", *names], tool)[0] for rounds in (before, before + 1))
    return one_more - fewer


def instructions(task, names, before=1):
    return more("callgrind", task, names, before)


def blocks(task, names, before=1):
    return more("memcheck", task, names, before)


def row(what, count, calls, taken):
    print(f"| {what} | {count / calls:,.0f} | {round(taken / calls, 1):g} |", flush=True)


def main():
    build(BENCH)
    order, zone = order_names(), zone_names(10_000)
    print("| call | instructions | blocks of memory |\n|---|---|---|")
    for task, what in (("compare", "`name_cmp`"), ("equal", "`name_eq`")):
        pairs = len(order) ** 2
        row(f"{what} of two of the {len(order)} names of the table of canonical order", instructions(task, order), pairs, blocks(task, order))
        some = zone[:100]
        row(f"{what} of two of 100 names of a zone", instructions(task, some), len(some) ** 2, blocks(task, some))
    sort = instructions("sort", zone, before=0), blocks("sort", zone, before=0)
    row(f"sorting {len(zone):,} names of a zone, a name", sort[0], len(zone), sort[1])
    for task, what in (("read", "`Name::vec_from_str`"), ("print", "`to_string`"), ("copy", "`to_vec`")):
        row(f"{what} of a name of the table", instructions(task, order), len(order), blocks(task, order))
        row(f"{what} of a name of a zone", instructions(task, zone), len(zone), blocks(task, zone))
    longest = ["a." * 127]
    for task, what in (("walk", "`iter` to its end from the front"), ("walk_back", "`iter` to its end from the back")):
        row(f"{what}, of a name of a zone", instructions(task, zone), len(zone), blocks(task, zone))
        row(f"{what}, of a name of 127 labels", instructions(task, longest), len(longest), blocks(task, longest))


if __name__ == "__main__":
    main()
