#!/usr/bin/python3
"""Reads a release of the corpus by dnspython: usage: reader.py denial-corpus-VERSION.json (python3-dnspython)."""

import collections
import json
import sys

import dns.exception
import dns.message


def is_read(name, rtype, octets):
    """Whether a message can be read, asks the question, and has as many records as its header counts."""
    try:
        message = dns.message.from_wire(octets, one_rr_per_rrset=True)
    except dns.exception.DNSException:
        return False
    question = message.question[0]
    sections = (message.answer, message.authority, message.additional)
    count = sum(map(len, sections)) + (message.opt is not None)
    headed = sum(int.from_bytes(octets[at : at + 2], "big") for at in (6, 8, 10))
    return (question.name.to_wire(), question.rdtype, count) == (name, rtype, headed)


groups = json.load(open(sys.argv[1], encoding="utf-8"))["groups"]
cases, found = [case for group in groups for case in group["cases"]], collections.defaultdict(list)
for case in cases:
    messages = [(case["apex"], 48, case["dnskey"]), (case["question"]["name"], case["question"]["type"], case["answer"])]
    messages += [(it["name"], it["type"], it["message"]) for it in [*case.get("before", []), *case.get("more", [])]]
    for name, rtype, message in messages:
        found[is_read(bytes.fromhex(name), rtype, bytes.fromhex(message))].append(case["id"])
print(f"dnspython: {len(cases)} cases, {len(found[True])} messages read, {len(found[False])} not: {' '.join(sorted(set(found[False])))}")
