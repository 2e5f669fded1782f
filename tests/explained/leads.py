#!/usr/bin/env python3
"""Writes a session of answers that lead elsewhere, or prove nothing: keys and signatures are those of tests/signers.

usage: tests/explained/leads.py >tests/explained/leads

What is to be said of each, by docs/use/CALLING.md and RFC 4035, 5155, 6672 and 8914, is in tests/explained/leads.explained.
"""
import hashlib
import importlib.machinery
import importlib.util
import pathlib
import struct
import sys

sys.dont_write_bytecode = True
loader = importlib.machinery.SourceFileLoader("signers", str(pathlib.Path(__file__).resolve().parent.parent / "signers"))
signers = importlib.util.module_from_spec(importlib.util.spec_from_loader("signers", loader))
loader.exec_module(signers)
A, NS, CNAME, DNAME, DS, RRSIG = (getattr(signers, it) for it in ("A", "NS", "CNAME", "DNAME", "DS", "RRSIG"))
HEAD = """\
# Answers that lead elsewhere, or prove nothing: aliases, wildcards' aliases, DNAME records, referrals, beside the DS set of K.
# `tests/explained/leads.py` writes this.
"""


def signed(owner, rtype, data, ttl=signers.TTL, expiration=signers.EXPIRATION, star=None, key=signers.ZSK):
    """A record and its signature; with `star` the record is a wildcard's, expanded to the owner (RFC 4035, 5.3.2)."""
    labels = signers.labels_of(star or owner)
    fields = struct.pack(">HBBIIIH", rtype, key[3], labels, ttl, expiration, signers.INCEPTION, signers.tag(key)) + signers.name("example")
    over = signers.name(star or owner) + struct.pack(">HHIH", rtype, 1, ttl, len(data)) + data
    signature = hashlib.sha256(key + fields + over).digest()
    return [with_ttl(owner, rtype, data, ttl), with_ttl(owner, RRSIG, fields + signature, ttl)]


def with_ttl(owner, rtype, data, ttl):
    return signers.name(owner) + struct.pack(">HHIH", rtype, 1, ttl, len(data)) + data


def failing(owner, rtype, count):
    """Signatures that fail, each of other octets."""
    fields = struct.pack(">HBBIIIH", rtype, 13, signers.labels_of(owner), signers.TTL, signers.EXPIRATION, signers.INCEPTION, signers.tag(signers.ZSK))
    return [with_ttl(owner, RRSIG, fields + signers.name("example") + bytes([place]) * 32, signers.TTL) for place in range(count)]


def aliases():
    target = signers.name("a.example")
    judged = signers.judged
    address = signers.rrset("a.example", A, signers.ADDRESS)
    judged("a CNAME record at the name", "www.example", A, [*signed("www.example", CNAME, target, ttl=300), *address])
    expanded = signed("x.w.example", CNAME, target, star="*.w.example")
    covering = signers.nsec("*.w.example", "example", CNAME)
    judged("a wildcard's, and the NSEC record that covers the name", "x.w.example", A, [*expanded, *covering])
    judged("without that record", "x.w.example", A, expanded)
    opting_out = signers.nsec3("c.example", (A,), signers.hashed("c.example"), flags=1)
    judged("with one of NSEC3 that covers the name by opt-out (RFC 5155, 6), and none that matches a name above", "x.w.example", A, [*expanded, *opting_out])
    expired = signed("www.example", CNAME, target, expiration=signers.INCEPTION - 1)
    judged("a CNAME record whose signature has expired", "www.example", A, expired)
    one, passing = signed("www.example", CNAME, target)
    judged("one with two signatures that fail in front of one that passes", "www.example", A, [one, *failing("www.example", CNAME, 2), passing])


def names_above():
    judged = signers.judged
    leading = signed("d.example", DNAME, signers.name("e.example"))
    made = with_ttl("y.d.example", CNAME, signers.name("y.e.example"), signers.TTL)
    judged("a DNAME record above the name, and the CNAME record that a server makes (RFC 6672, 3.1)", "y.d.example", A, [*leading, made])
    far = ".".join([letter * 60 for letter in "stu"] + ["example"])
    long = ".".join(["v" * 60, "w" * 60, "d.example"])
    judged("one by which the name grows too long (RFC 6672, 2.2)", long, A, signed("d.example", DNAME, signers.name(far)))
    ns = with_ttl("s.example", NS, signers.name("ns.s.example"), signers.TTL)
    ds = signed("s.example", DS, bytes.fromhex("041e0d02") + bytes(32), ttl=600)
    judged("a referral with DS records", "x.s.example", A, [ns, *ds])
    judged("without their signature", "x.s.example", A, [ns, ds[0]])


def no_delegation():
    signers.judged("no DS record at a name that is no delegation", "a.example", DS, signers.nsec("a.example", "example", A))


def unknown_flag():
    link = signers.nsec3("a.example", (A,), signers.hashed("a.example"), flags=2)
    signers.judged("an NSEC3 record with a flag that is not known (RFC 5155, 8.2)", "a.example", DS, link)


if __name__ == "__main__":
    print(HEAD + signers.HEAD.split("\n", 2)[2])
    aliases()
    names_above()
    no_delegation()
    unknown_flag()
