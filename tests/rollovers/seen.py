"""What was seen of a zone and its parent, and what of it a cache could hold together."""

import collections
import itertools
import json
import math

from messages import TYPES, data_of, records

# By the roll, the last bit of the flags of keys that it replaces (RFC 4034, 2.1.1).
REPLACED = {"zsk": {0}, "ksk": {1}, "csk": {1}, "algorithm": {0, 1}}
CHAINS = {TYPES["NSEC"], TYPES["NSEC3"]}


class Seen:
    """A recording of `record`."""

    def __init__(self, path):
        of = json.loads(path.read_text())
        self.apex, self.server, self.events = of["apex"], of["server"], of["events"]
        self.roll, self.chain = self.apex.split(".")[:2]
        self.octets = [bytes.fromhex(it) for it in of["octets"]]
        # Of the DS set, of the DNSKEY set and of each question, by its number: when which octets were seen, for how long a cache
        # may hold them, and at which server.
        self.looks = {}
        for moment, what, number, ttl, place in of["seen"]:
            self.looks.setdefault(what, []).append((moment, number, ttl, place))

    @property
    def questions(self):
        return [what for what in self.looks if what not in ("ds", "dnskey")]

    def longest_pause(self):
        """The longest time between two looks, in seconds."""
        moments = [it[0] for it in self.looks["ds"]]
        return max(after - before for before, after in zip(moments, moments[1:]))

    def is_over(self):
        """Whether nothing is there any more of what the roll replaces: keys, or the records of a chain."""
        first, last = ([self.octets[of[place][1]] for of in self.looks.values()] for place in (0, -1))
        if self.roll == "chain":
            chains = ({rtype for it in messages[1:] for _section, rtype, *_ in records(it)} & CHAINS for messages in (first, last))
            return not set.intersection(*chains)
        replaced = {key for key in data_of(first[1], "DNSKEY") if key[1] & 1 in REPLACED[self.roll.removeprefix("early-")]}
        return replaced.isdisjoint(data_of(last[1], "DNSKEY"))

    def held(self, what):
        """By the second, what a cache may hold."""
        held = collections.defaultdict(set)
        for at, number, ttl, _place in self.looks[what]:
            for moment in range(math.ceil(at), math.floor(at + ttl) + 1):
                held[moment].add(number)
        return held

    def first(self, what):
        """When each was seen first."""
        first = {}
        for moment, number, *_ in self.looks[what]:
            first.setdefault(number, moment)
        return first

    def together(self):
        """Each question with a DS set, a DNSKEY answer and an answer that a cache could hold together, and each second of that."""
        ds_sets, dnskeys = self.held("ds"), self.held("dnskey")
        for question in self.questions:
            for moment, answers in self.held(question).items():
                for those in itertools.product(ds_sets[moment], dnskeys[moment], answers):
                    yield (question, *those), moment

    def apart(self, together):
        """The others, with the moment at which the last of the three was seen first."""
        for question in self.questions:
            firsts = [self.first(what) for what in ("ds", "dnskey", question)]
            for those in itertools.product(*firsts):
                if (question, *those) not in together:
                    yield (question, *those), math.ceil(max(first[it] for first, it in zip(firsts, those)))
