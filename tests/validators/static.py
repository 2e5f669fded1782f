"""Small zones that need no roll: the root, the parent of the zones under test, and those below their delegations. One key signs
them, with a chain of NSEC records, or none does."""

import bisect
import time

import wire
from wire import DNSKEY, DS, NS, NSEC, RRSIG, SOA, Message, Record

TTL = 3600


def times():
    """When signatures begin and end: an hour ago, and in thirty days."""
    now = int(time.time())
    return now - 3600, now + 30 * 86400


class Static:
    """A zone at an apex. `records` are owner, type and data."""

    def __init__(self, apex, key, records, ttl=TTL):
        self.apex, self.key, self.ttl = apex, key, ttl
        self.times = times()
        self.sets, self.signatures = {}, {}
        numbers = b"".join(it.to_bytes(4, "big") for it in (1, 3600, 900, 86400, ttl))
        self.add(apex, SOA, wire.wire("ns.parent") + wire.wire("admin.parent") + numbers)
        if key:
            self.add(apex, DNSKEY, key.data)
        for record in records:
            self.add(*record)
        self.close()

    def add(self, owner, rtype, data):
        self.sets.setdefault((owner, rtype), []).append(data)

    def close(self):
        """Makes the chain, once all records are there."""
        self.types = {}
        for owner, rtype in self.sets:
            self.types.setdefault(owner, set()).add(rtype)
        self.names = {above for owner in self.types for above in wire.parents(owner) if wire.is_below(above, self.apex)}
        self.owners = sorted((it for it in self.types if self.cut(it) in (None, it)), key=wire.canonical_order)
        self.orders = [wire.canonical_order(it) for it in self.owners]

    def replace(self, owner, rtype, of):
        """Puts another RRset in the place of one; none, where it is empty. The types of the owner are as at `close`."""
        self.sets[owner, rtype] = of

    def cut(self, name):
        """The delegation at a name or above it."""
        found = None
        for above in wire.parents(name):
            if above == self.apex:
                return found
            found = above if (above, NS) in self.sets else found

    def signed(self, owner, rtype, data, ttl=None):
        """An RRset and its signature."""
        ttl = self.ttl if ttl is None else ttl
        records = [Record(owner, rtype, ttl, it) for it in data]
        if not self.key or not data:
            return records
        at = owner, rtype, tuple(data)
        if at not in self.signatures:
            self.signatures[at] = self.key.rrsig(owner, rtype, ttl, data, self.apex, self.times)
        return [*records, Record(owner, RRSIG, ttl, self.signatures[at])]

    def of(self, owner, rtype):
        return self.signed(owner, rtype, self.sets[owner, rtype])

    def denial(self, name):
        """The NSEC record that matches or covers a name, with its signature."""
        if not self.key:
            return []
        at = bisect.bisect_right(self.orders, wire.canonical_order(name)) - 1
        owner, following = self.owners[at], self.owners[(at + 1) % len(self.owners)]
        types = {it for it in self.types[owner] if self.sets[owner, it]} | {NSEC, RRSIG}
        if self.cut(owner):
            types &= {NS, DS, NSEC, RRSIG}
        return self.signed(owner, NSEC, [following + wire.bitmap(types)])

    def answer(self, name, rtype):
        """What the zone answers: a message without a number."""
        cut = self.cut(name)
        if cut and (name != cut or rtype != DS):
            servers = [Record(cut, NS, self.ttl, it) for it in self.sets[cut, NS]]
            proof = self.of(cut, DS) if self.sets.get((cut, DS)) else self.denial(cut)
            return self.message(name, rtype, 0, wire.NOERROR, [], servers + proof)
        if self.sets.get((name, rtype)):
            return self.message(name, rtype, wire.AA, wire.NOERROR, self.of(name, rtype), [])
        soa = self.of(self.apex, SOA)
        if name in self.names:
            return self.message(name, rtype, wire.AA, wire.NOERROR, [], soa + self.denial(name))
        encloser = next(it for it in wire.parents(name) if it in self.names)
        proof = dict.fromkeys(self.denial(name) + self.denial(b"\1*" + encloser))
        return self.message(name, rtype, wire.AA, wire.NXDOMAIN, [], soa + [*proof])

    @staticmethod
    def message(name, rtype, flags, rcode, answer, authority):
        return Message(0, wire.QR | flags | rcode, name, rtype, [answer, authority, []])
