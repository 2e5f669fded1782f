#!/usr/bin/env python3
"""Counts the instructions of judging messages of 65,535 octets and of half as many, with callgrind.

Each message is as full as it can be of one thing: owners, signatures, keys, records of one RRset, records of a chain. It is
judged once and three times, and half of the difference is printed. A signature is a copy of the octets that it is made over,
so that verifying costs next to nothing. Run it from anywhere; it builds crates/bench_counts first.
"""
from counting import BENCH, build, counted

FULL = 65_535
QUESTION, APEX = b"\xc0\x0c", b"\xc0\x0e"
A, DNSKEY, RRSIG, NSEC, NSEC3, OTHER = 1, 48, 46, 47, 50, 65_280
KSK, ZSK = bytes.fromhex("0101030d0010"), bytes.fromhex("0100030d0001")
DIGITS = "0123456789abcdefghijklmnopqrstuv"


def tag(data):
    total = sum(octet << 8 if place % 2 == 0 else octet for place, octet in enumerate(data))
    return (total + (total >> 16)) & 0xFFFF


def name(text):
    return b"".join(bytes([len(label)]) + label.encode() for label in text.split(".")) + b"\0"


def record(owner, rtype, data):
    return owner + rtype.to_bytes(2, "big") + b"\0\1\0\0\1\x2c" + len(data).to_bytes(2, "big") + data


def fields(rtype, labels, key_tag):
    """What a signature from 1000 to 2000 says before its signer."""
    numbers = ((rtype, 2), (13, 1), (labels, 1), (300, 4), (2000, 4), (1000, 4), (key_tag, 2))
    return b"".join(number.to_bytes(size, "big") for number, size in numbers)


def signature(owner, rtype, labels, key_tag, octets=b"\0"):
    return record(owner, RRSIG, fields(rtype, labels, key_tag) + APEX + octets)


def verified(owner, first, rtype, data):
    """The signature of one record right under the apex, whose data are written out."""
    says = fields(rtype, 2, tag(ZSK))
    return signature(owner, rtype, 2, tag(ZSK), says + name("example") + record(first + name("example"), rtype, data))


def message(question, rtype, records):
    head = b"\0\0\x84\0\0\1" + len(records).to_bytes(2, "big") + b"\0\0\0\0"
    return head + name(question) + rtype.to_bytes(2, "big") + b"\0\1" + b"".join(records)


def keys_answer(keys):
    """Keys, which the first one signs."""
    says = fields(DNSKEY, 1, tag(keys[0])) + name("example")
    signed = b"".join(record(name("example"), DNSKEY, key) for key in sorted(set(keys)))
    signs = record(QUESTION, RRSIG, says + says + signed)
    return message("example", DNSKEY, [record(QUESTION, DNSKEY, key) for key in keys] + [signs])


def scattered(place):
    """Numbers below 17,576 in no order, each once."""
    return place * 40_503 % 17_576


def label(place):
    return b"\3" + bytes(97 + scattered(place) // 26**power % 26 for power in (2, 1, 0))


def hash_label(place):
    """Two octets in base32hex."""
    number = scattered(place) << 4
    return b"\4" + "".join(DIGITS[number >> shift & 31] for shift in (15, 10, 5, 0)).encode()


def owner(place):
    return [record(label(place) + APEX, A, b"\xc0\0\2\1")]


ADDRESS = [record(QUESTION, A, b"\xc0\0\2\1")]


def signed(place):
    return [signature(QUESTION, A, 2, tag(ZSK))]


def unsigned(place):
    return [signature(QUESTION, A, 2, 40_000 + scattered(place))]


def datum(place):
    return [record(QUESTION, A, (65_535 - place).to_bytes(2, "big"))]


def link(place):
    return [record(label(place) + APEX, NSEC, APEX + b"\0\1\x40")]


def covering(place):
    """An NSEC record that covers the name that is asked for, and not the wildcard beside it."""
    return [record(b"\1" + b"0" + APEX, NSEC, b"\1b" + APEX + b"\0\1\x40")]


COVERING = [verified(b"\1" + b"0" + APEX, b"\1" + b"0", NSEC, b"\1b" + name("example") + b"\0\1\x40")]


def signed_link(place):
    signs = verified(label(place) + APEX, label(place), NSEC, name("example") + b"\0\1\x40")
    return [*link(place), signs]


def hash_link(place):
    return [record(hash_label(place) + APEX, NSEC3, b"\1\0\0\0\0\2\0\1")]


def signed_hash_link(place):
    signs = verified(hash_label(place) + APEX, hash_label(place), NSEC3, b"\1\0\0\0\0\2\0\1")
    return [*hash_link(place), signs]


def unsigned_link(place):
    return [*link(place), signature(label(place) + APEX, NSEC, 2, tag(ZSK))]


def key(place):
    """A zone's key, each of another tag."""
    return bytes.fromhex("0100030d") + (scattered(place) + 32).to_bytes(2, "big")


def filled(size, made, front=()):
    """A message with some records and as many others behind them as fit it, and how many all are."""
    records, left, place = list(front), size - len(message("a.example", A, list(front))), 0
    while sum(map(len, made(place))) <= left:
        records += made(place)
        left -= sum(map(len, made(place)))
        place += 1
    return message("a.example", A, records), len(records)


def with_keys(size, made):
    """Answers of a size, one of as many keys as fit."""
    count = (size - 200) // 43
    keys = [KSK, ZSK, *map(key, range(count))]
    answer, records = filled(size, made, ADDRESS)
    return keys_answer(keys), answer, records + len(keys)


def with_two(size, made, front=()):
    """An answer of a size beside two keys."""
    return keys_answer([KSK, ZSK]), *filled(size, made, front)


def with_address(size, made):
    """The same, an address of the name that is asked for in front: so its signatures are tried."""
    return with_two(size, made, ADDRESS)


def with_signature(size, made):
    """The same, in front the signature of the NSEC record that covers the name."""
    return with_two(size, made, COVERING)


def alike(size, made):
    """A DNSKEY answer of as many keys as fit, which no key signs."""
    count = (size - 27) // 18 - 1
    keys = [record(QUESTION, DNSKEY, KSK), *(record(QUESTION, DNSKEY, key(place)) for place in range(count))]
    return message("example", DNSKEY, keys), message("a.example", A, []), count + 1


def copies(size, made):
    """A DNSKEY answer of as many copies of one key as fit, and as many DS records of its tag that do not name it."""
    count = (size - 25) // 18
    keys = [record(QUESTION, DNSKEY, KSK)] * count
    return message("example", DNSKEY, keys), message("a.example", A, []), count, count


ROWS = (
    ("addresses, each of another owner", with_two, owner),
    ("signatures of one RRset, none of which verifies it", with_address, signed),
    ("signatures of one RRset under keys that are not there", with_address, unsigned),
    ("signatures of an RRset that is not there", with_two, signed),
    ("records of one RRset", with_two, datum),
    ("NSEC records, each of another owner", with_two, link),
    ("NSEC records, each with a signature that does not verify it", with_two, unsigned_link),
    ("NSEC records, each verified", with_two, signed_link),
    ("copies of one NSEC record, verified, that covers the name", with_signature, covering),
    ("NSEC3 records, each of another owner", with_two, hash_link),
    ("NSEC3 records, each verified", with_two, signed_hash_link),
    ("keys with different tags, unsigned", alike, None),
    ("copies of one key, unsigned, beside as many DS records of its tag", copies, None),
    ("signed keys with different tags, and signatures of one RRset under other keys", with_keys, unsigned),
)


def judged(keys, answer, _records, others=0):
    """Instructions of a judgement, beside some DS records that name no key."""
    lines = [keys.hex(), answer.hex(), str(others)]
    once, more = (counted(BENCH, [f"# judge messages {rounds}", *lines])[0] for rounds in (1, 3))
    return (more - once) / 2


def main():
    build(BENCH)
    print("| a message of 65,535 octets is full of | records | instructions | of half as many | grows by |\n|---|---|---|---|---|")
    for what, made, one in ROWS:
        full, half = made(FULL, one), made(FULL // 2, one)
        whole, less = judged(*full), judged(*half)
        print(f"| {what} | {full[2]:,} | {whole:,.0f} | {less:,.0f} | {whole / less:.2f} |", flush=True)


if __name__ == "__main__":
    main()
