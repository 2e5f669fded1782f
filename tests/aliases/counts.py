"""How often a judge verifies and hashes for an answer, by docs/use/SESSIONS.md, "Counts"."""

import struct

from cryptography.exceptions import InvalidSignature
from cryptography.hazmat.primitives.asymmetric import ec, utils
from cryptography.hazmat.primitives.hashes import SHA256

from wire import DNAME, DNSKEY, NS, NSEC, NSEC3, RRSIG, SOA
from wire import Hashed, canonical, hash_of, key_tag, nsec_of, signature_of, signed_octets, signer_of


class Keys:
    """The keys of a DNSKEY answer, by tag, and signatures that were verified by a library under them."""

    def __init__(self, message):
        self.rrset = [it for it in message.signed if it.rtype == DNSKEY]
        self.keys = {key_tag(it.data): it.data for it in self.rrset}
        self.passing = {}

    def passes(self, signature, rrset):
        """Whether a signature passes for an RRset. If so it is kept: key, signature and octets."""
        key = self.keys.get(int.from_bytes(signature.data[16:18], "big"))
        if key is None:
            return False
        octets, made = signed_octets(signature, rrset), signature_of(signature)
        if (key, made, octets) not in self.passing:
            x, y = int.from_bytes(key[4:36], "big"), int.from_bytes(key[36:], "big")
            public = ec.EllipticCurvePublicNumbers(x, y, ec.SECP256R1()).public_key()
            numbers = utils.encode_dss_signature(int.from_bytes(made[:32], "big"), int.from_bytes(made[32:], "big"))
            try:
                public.verify(numbers, octets, ec.ECDSA(SHA256()))
                self.passing[key, made, octets] = True
            except InvalidSignature:
                self.passing[key, made, octets] = False
        return self.passing[key, made, octets]


    def entry(self, signature, rrset):
        """The key that a signature names, the signature, and what it signs."""
        return self.keys[int.from_bytes(signature.data[16:18], "big")], signature_of(signature), signed_octets(signature, rrset)


def rrsets(records):
    """RRsets by owner and type, with their signatures."""
    found = {}
    for it in records:
        if it.rtype != RRSIG:
            found.setdefault((it.owner, it.rtype), ([], []))[0].append(it)
    for it in records:
        if it.rtype == RRSIG and (it.owner, it.covered) in found:
            found[it.owner, it.covered][1].append(it)
    return found


def is_tried(signature, apex, moment):
    """Whether a judge tries a signature: in time, by the zone, of no more labels than its owner has."""
    expiration, inception = struct.unpack(">II", signature.data[8:16])
    labels = len(signature.owner) - (signature.owner[:1] == (b"*",))
    return inception <= moment <= expiration and signer_of(signature) == apex and signature.data[3] <= labels


def verified(records, keys, apex, moment, sought):
    """The signatures that are tried of the RRsets that are sought, and of each RRset that passes the first signature that does."""
    tried, passed = 0, {}
    for (owner, rtype), (rrset, signatures) in rrsets(records).items():
        if not sought(owner, rtype):
            continue
        for it in signatures:
            if is_tried(it, apex, moment) and int.from_bytes(it.data[16:18], "big") in keys.keys:
                tried += 1
                if keys.passes(it, rrset):
                    passed[owner, rtype] = (rrset, it)
                    break
    return tried, passed


def is_incomplete(question, message, keys, apex, moment):
    """Whether an RRset of an answer is verified that a verdict could rest on: that of the question, or where it is not there an NSEC or
    NSEC3 record. Then it is a record beside it that is missing, where nothing is proven."""
    found = rrsets(message.signed)
    chain = [it for it, (rrset, _signatures) in found.items() if it[1] in (NSEC, NSEC3) and len(set(rrset)) == 1]
    rests_on = [question] if question in found else chain
    _tried, passed = verified(message.signed, keys, apex, moment, lambda *it: it in rests_on)
    return bool(passed)


def counts(question, message, keys, apex, moment):
    """How many signatures a judge tries of an answer, that of the keys counted, and how many names it hashes."""
    qname, rtype = question
    is_sought = lambda owner, of: (owner, of) == (qname, rtype) or of in (NSEC, NSEC3)  # noqa: E731
    tried, passed = verified(message.signed, keys, apex, moment, is_sought)
    return 1 + tried, hashed(qname, rtype, passed, apex)


def hashed(qname, rtype, passed, apex):
    links = [Hashed.of(rrset[0]) for (_owner, of), (rrset, _signature) in passed.items() if of == NSEC3]
    if not links:
        return 0
    if (qname, rtype) in passed:
        _rrset, signature = passed[qname, rtype]
        return int(signature.data[3] < len(qname) - (qname[:1] == (b"*",)))
    count, closer = 0, None
    for at in range(len(qname) - len(apex) + 1):
        count += 1
        matching = [it for it in links if it.own == hash_of(qname[at:])]
        if not matching:
            closer = qname[at:]
            continue
        link = next((it for it in matching if DNAME not in it.types), None)
        is_end = closer is None or link is None or (NS in link.types and SOA not in link.types)
        if is_end or not any(it.covers(hash_of(closer)) and not it.is_opt_out for it in links):
            return count
        return count + 1
    return count


def covering(links, name):
    """The NSEC record that covers a name, of those in canonical order."""
    ordered = sorted(links, key=lambda it: canonical(it.owner))
    below = [it for it in ordered if canonical(it.owner) < canonical(name)]
    found = (below or ordered)[-1]
    following = nsec_of(found)[0]
    assert canonical(name) < canonical(following) or canonical(following) <= canonical(found.owner), name
    return found
