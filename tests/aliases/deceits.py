"""Answers that were altered to deceive: each has records that the zone signed, in a place where they prove nothing, or that another
zone's signer signed by a key of this zone. No verdict may come of them but the zone's."""

import struct

from cryptography.hazmat.primitives.asymmetric import ec, utils
from cryptography.hazmat.primitives.hashes import SHA256

from counts import covering, rrsets
from signers import BEGIN, END
from wire import A, CNAME, DNAME, DNSKEY, DS, MX, NS, NSEC, NSEC3, RRSIG, SOA, TYPES
from wire import Hashed, Message, Record, hash_of, key_tag, signed_octets, wire
from zone import ADDRESS

TXT = TYPES["TXT"]


def bitmap(*types):
    octets = bytearray(max(types) // 8 + 1)
    for rtype in types:
        octets[rtype // 8] |= 128 >> rtype % 8
    return bytes([0, len(octets)]) + bytes(octets)


class Deceits:
    """Altered answers of a zone. `whole` are all its records, `asked` gives a server's answer, `private` the numbers of its keys by
    tag, and `other` the records of another zone."""

    def __init__(self, zone, whole, asked, private, other):
        self.zone, self.asked, self.private, self.other = zone, asked, private, other
        self.rrsets = rrsets(whole)
        self.links = [it for it in whole if it.rtype in (NSEC, NSEC3)]

    def named(self, owner):
        return self.zone.named(owner)

    def signed(self, owner, rtype):
        """An RRset of the zone with its signatures."""
        rrset, signatures = self.rrsets[owner, rtype]
        return [*rrset, *signatures]

    def matching(self, owner):
        """The chain's record of a name, signed."""
        if self.zone.chain == "nsec":
            return self.signed(owner, NSEC)
        found = next(it for it in self.links if Hashed.of(it).own == hash_of(owner))
        return self.signed(found.owner, NSEC3)

    def covering(self, owner):
        """The chain's record that covers a name, signed."""
        if self.zone.chain == "nsec":
            return self.signed(covering(self.links, owner).owner, NSEC)
        found = next(it for it in self.links if Hashed.of(it).covers(hash_of(owner)))
        return self.signed(found.owner, NSEC3)

    def denying(self, encloser, closer):
        """The records that deny a name below an encloser."""
        own = [] if self.zone.chain == "nsec" else self.matching(encloser)
        return [*own, *self.covering(closer), *self.covering((b"*", *encloser))]

    def made(self, owner, rtype, answer=(), authority=(), code=0):
        """A message with these records."""
        soa = self.signed(self.zone.apex, SOA)
        sections = list(dict.fromkeys(answer)), list(dict.fromkeys([*soa, *authority])), []
        return Message((owner, rtype), 0x8400 | code, sections)

    def without(self, owner, rtype, *left_out):
        """A server's answer without the records of these owners and types, and their signatures."""
        message = self.asked(owner, rtype)

        def stays(it):
            return (it.owner, it.covered if it.rtype == RRSIG else it.rtype) not in left_out

        return message._replace(sections=tuple([it for it in section if stays(it)] for section in message.sections))

    def renamed(self, owner, rtype, to):
        """An RRset of the zone with its signatures, under another owner."""
        return [it._replace(owner=to) for it in self.signed(owner, rtype)]

    def by_signer(self, signer, owner, rtype, data):
        """A record that another signer signs with this zone's key."""
        keys = [it.data for it in self.rrsets[self.zone.apex, DNSKEY][0]]
        key = next(it for it in keys if it[:2] == b"\1\0")
        tag = key_tag(key)
        record = Record(owner, rtype, 3600, data)
        labels = len(owner) - (owner[:1] == (b"*",))
        head = struct.pack(">HBBIIIH", rtype, 13, labels, 3600, END, BEGIN, tag) + wire(signer)
        signature = Record(owner, RRSIG, 3600, head)
        octets = signed_octets(signature, [record])
        made = ec.derive_private_key(self.private[tag], ec.SECP256R1()).sign(octets, ec.ECDSA(SHA256()))
        numbers = b"".join(it.to_bytes(32, "big") for it in utils.decode_dss_signature(made))
        return [record, signature._replace(data=head + numbers)]

    def all(self):
        """Kinds and messages."""
        if self.zone.kind == "alias":
            for kinds in (self.of_dropped, self.of_denials, self.of_expanded, self.of_moved):
                yield from kinds()
        else:
            yield from self.of_apex()
        if self.private:
            yield from self.of_signers()

    def of_dropped(self):
        """The alias dropped, so that what it leads to is left, or what denies that, as if it were said of the alias."""
        it = self.named
        for owner, rtype, *dropped in (
            ("alias", A, "alias"),
            ("alias", MX, "alias"),
            ("c1", A, "c1"),
            ("c1", A, "c1", "c2"),
            ("c1", A, "c1", "c2", "c3"),
            ("here.w", A, "here.w"),
            ("here.w", MX, "here.w"),
            ("gone", A, "gone"),
            ("less", A, "less"),
            ("via", A, "via"),
            ("via", MX, "via"),
            ("into", A, "into"),
            ("any.wild", A, "any.wild"),
            ("any.wild", MX, "any.wild"),
            ("any.away", A, "any.away"),
        ):
            yield "alias-dropped", self.without(it(owner), rtype, *((it(name), CNAME) for name in dropped))
        yield "dname-dropped", self.without(it("x.dn"), A, (it("dn"), DNAME), (it("x.dn"), CNAME))
        yield "dname-dropped", self.without(it("any.dn"), MX, (it("dn"), DNAME), (it("any.dn"), CNAME))
        yield "dname-dropped", self.without(it("x.dn"), A, (it("dn"), DNAME))

    def of_denials(self):
        """Denials: by the alias's own record, which has CNAME among its types; by the wildcard's own record, in the place of its
        alias; and without it."""
        it, apex = self.named, self.zone.apex
        for owner, rtype in (("alias", A), ("here.w", TXT), ("c1", DS), ("out", NS), ("gone", A)):
            yield "own-record", self.made(it(owner), rtype, (), self.matching(it(owner)))
        own = [] if self.zone.chain == "nsec" else self.matching(it("wild"))
        for rtype in (A, TXT, DS):
            records = [*own, *self.covering(it("any.wild")), *self.matching(it("*.wild"))]
            yield "wildcard-record", self.made(it("any.wild"), rtype, (), records)
        records = [*self.matching(apex), *self.covering(it("any.wild")), *self.covering(it("*"))]
        yield "wildcard-denied", self.made(it("any.wild"), A, (), records, 3)

    def of_expanded(self):
        """A wildcard's records for an alias below it; names below DNAME denied by the record above."""
        it, apex = self.named, self.zone.apex
        expanded = self.renamed(it("*.w"), A, it("here.w"))
        yield "wildcard-expanded", self.made(it("here.w"), A, expanded, self.covering(it("no.here.w")))
        yield "wildcard-expanded", self.made(it("here.w"), A, expanded, self.matching(it("here.w")))
        expanded = [*self.renamed(it("*.wild"), CNAME, it("there.wild")), *self.signed(it("www"), A)]
        yield "wildcard-expanded", self.made(it("there.wild"), A, expanded, self.covering(it("any.wild")))
        for owner, rtype in (("any.dn", A), ("x.dn", A), ("a.b.dn", DS), ("any.far", TXT)):
            above = self.named(owner)[-len(apex) - 1 :]
            closer = self.named(owner)[-len(apex) - 2 :]
            records = [*self.matching(above), *self.denying(above, closer)]
            yield "below-dname-denied", self.made(it(owner), rtype, (), records, 3)
            yield "below-dname-denied", self.made(it(owner), rtype, (), self.matching(above))

    def of_moved(self):
        """Records in the place of others: the target's under the alias's name, an alias without its signature or at another name, and
        those of another zone."""
        it = self.named
        yield "target-renamed", self.made(it("alias"), A, self.renamed(it("www"), A, it("alias")))
        yield "target-renamed", self.made(it("x.dn"), A, self.renamed(it("x.target"), A, it("x.dn")))
        unsigned = self.rrsets[it("alias"), CNAME][0]
        yield "alias-unsigned", self.made(it("alias"), A, [*unsigned, *self.signed(it("www"), A)], self.matching(it("alias")))
        moved = self.renamed(it("alias"), CNAME, it("www"))
        yield "alias-renamed", self.made(it("www"), MX, [*moved, *self.signed(it("mail"), A)])
        yield "other-zone", self.made(it("alias"), A, [record for record in self.other if record.owner[:1] == (b"www",)])
        links = [record for record in self.other if record.rtype in (NSEC, NSEC3)]
        links += [record for record in self.other if record.rtype == RRSIG and record.covered in (NSEC, NSEC3)]
        yield "other-zone", self.made(it("www"), MX, (), links[:4] + links[-4:])

    def of_apex(self):
        it, apex = self.named, self.zone.apex
        for owner, rtype in (("any", A), ("a.b", MX), ("any", DS)):
            closer = self.named(owner)[-len(apex) - 1 :]
            yield "dname-dropped", self.without(it(owner), rtype, (apex, DNAME))
            yield "below-dname-denied", self.made(it(owner), rtype, (), self.matching(apex))
            yield "below-dname-denied", self.made(it(owner), rtype, (), [*self.matching(apex), *self.denying(apex, closer)], 3)
        renamed = self.renamed(apex, MX, it("any"))
        yield "target-renamed", self.made(it("any"), MX, renamed, self.matching(apex))

    def of_signers(self):
        """Of a parent and of a child that are signed with a key of the zone."""
        it, apex = self.named, self.zone.apex
        cut = bitmap(NS, DS, RRSIG, NSEC)
        above = self.by_signer(apex[1:], apex, NSEC, wire((b"z", *apex[1:])) + cut)
        yield "parent-signer", self.made(apex, MX, (), above)
        yield "parent-signer", self.made(it("any"), A, (), above, 3)
        if self.zone.kind == "dname":
            return
        yield "parent-signer", self.made(it("alias"), A, self.by_signer(apex[1:], it("alias"), A, ADDRESS))
        yield "child-signer", self.made(it("alias"), A, self.by_signer(it("alias"), it("alias"), A, ADDRESS))
        yield "child-signer", self.made(it("x.dn"), A, self.by_signer(it("dn"), it("x.dn"), A, ADDRESS))
        yield "child-signer", self.made(it("host.secure"), A, self.by_signer(it("secure"), it("host.secure"), A, ADDRESS))
        denied = self.by_signer(it("secure"), it("secure"), NSEC, wire(it("z.secure")) + bitmap(NS, SOA, RRSIG, NSEC, DNSKEY))
        yield "child-signer", self.made(it("host.secure"), A, (), denied, 3)
        denied = self.by_signer(it("dn"), it("dn"), NSEC, wire(it("z.dn")) + bitmap(NS, SOA, RRSIG, NSEC, DNSKEY))
        yield "child-signer", self.made(it("x.dn"), A, (), denied, 3)
