#!/usr/bin/env python3
"""Counts the instructions of calls on names in messages, with callgrind.

A task is done once and once more on the same names, and the difference is divided by the names, so that reading the input
and starting the program fall away. Run it from anywhere; it builds crates/bench_counts first.
"""
from counting import BENCH, build, counted



def wire(name):
    return b"".join(bytes([len(it)]) + it.encode() for it in name.split(".") if it) + b"\0"


def pointer(place):
    return bytes([0xC0 | place >> 8, place & 0xFF])


def referral():
    """A referral of com as a root server writes it: a question, 13 NS records and 13 addresses, names compressed; and
    the places of its names, those in NS data too."""
    message, places = bytearray(12), [12]
    message += wire("www.example.com") + b"\0\1\0\1"
    com, servers = 24, []
    for letter in "abcdefghijklm":
        places.append(len(message))
        message += pointer(com) + b"\0\2\0\1\0\2\xa3\0"
        if servers:
            data = b"\1" + letter.encode() + pointer(servers[0] + 2)
        else:
            data = b"\1" + letter.encode() + b"\x0cgtld-servers\3net\0"
        message += len(data).to_bytes(2, "big")
        servers.append(len(message))
        places.append(len(message))
        message += data
    for at in servers:
        places.append(len(message))
        message += pointer(at) + b"\0\1\0\1\0\2\xa3\0\0\4\xc0\0\2\1"
    return bytes(message), places


def deep():
    """100 names, each of 100 labels over 100 pointers."""
    message, last = bytearray(12), 0
    for depth in range(100):
        place = len(message)
        message += b"\1a" + (pointer(last) if depth else b"\0")
        last = place
    places = []
    for _ in range(100):
        places.append(len(message))
        message += pointer(last)
    return bytes(message), places


def run(task, rounds, message, places):
    return counted(BENCH, [f"# messages {task} {rounds}", message.hex(), *map(str, places)])[0]


def main():
    build(BENCH)
    print("| call | a name of a referral | a name of 100 labels over 100 pointers |\n|---|---|---|")
    for task, what in (
        ("read", "`ParsedName::parse`"),
        ("skip", "`ParsedName::skip`"),
        ("walk", "`parse`, and each label by `iter`"),
        ("compose", "`parse`, and `compose_name`"),
        ("order", "`parse` of two, and `cmp`"),
        ("equal", "`parse` of two, and `==`"),
    ):
        counts = []
        for message, places in (referral(), deep()):
            once, twice = (run(task, rounds, message, places) for rounds in (1, 2))
            counts.append(f"{(twice - once) / len(places):,.0f}")
        print(f"| {what} | {counts[0]} | {counts[1]} |", flush=True)


if __name__ == "__main__":
    main()
