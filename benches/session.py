#!/usr/bin/env python3
"""Writes a session of so many records and 200 questions, each answered and judged.

usage: benches/session.py RECORDS >session

The zone has one address at each of its owners, and its keys have finished their first roll. Half of the questions
ask for a type that an owner lacks, half for a name that does not exist. Run the program on it with

    time crates/denialbench/out/denialbench <session >/dev/null
"""
import sys

QUESTIONS = 200


def session(records):
    yield "zone example nsec 0 86400"
    yield "rr example 3600 1 6 00000000000100000e10000003840001518000000e10"
    for i in range(records):
        yield f"rr n{i:06}.example 3600 1 1 {0x0A000000 + i:08x}"
    yield "key ksk K 13 ABA= 0"
    yield "key zsk A 13 AAEAAA== 0"
    yield "start algorithm-roll - K,A 0"
    yield "report1 algorithm-roll 3600 0"
    yield "wait1 algorithm-roll 3600"
    yield "report2 algorithm-roll 3600 3600"
    yield "wait2 algorithm-roll 7200"
    yield "done algorithm-roll 7200"
    yield "ds 7200"
    yield "dnskey 7200"
    for question in range(QUESTIONS):
        i = question * records // QUESTIONS
        name = f"n{i:06}.example" if question % 2 == 0 else f"n{i:06}x.example"
        yield f"ask {name} 15 7200"
        yield f"judge 0 1 {question + 2} 7200"


if __name__ == "__main__":
    if len(sys.argv) != 2:
        sys.exit("usage: benches/session.py RECORDS >session")
    print(*session(int(sys.argv[1])), sep="\n")
