"""dnspython, by its calls for RRsets: `make_ds` and `validate` of dns.dnssec. It has none for denials, nor for what has to be shown
beside a wildcard's records: cases whose answer has no RRset of the question are not asked."""

from __future__ import annotations

import dns.dnssec
import dns.exception
import dns.flags
import dns.message
import dns.name
import dns.rdataclass
import dns.rdatatype
import dns.rrset
import dns.version

from .outcome import BOGUS, INSECURE, SECURE, Case, Said

DIGESTS = {1: "SHA1", 2: "SHA256", 4: "SHA384"}


def rrset_of(message: dns.message.Message, name: dns.name.Name, rtype: int) -> dns.rrset.RRset | None:
    return message.get_rrset(message.answer, name, dns.rdataclass.IN, rtype)


def signatures_of(message: dns.message.Message, name: dns.name.Name, rtype: int) -> dns.rrset.RRset | None:
    return message.get_rrset(message.answer, name, dns.rdataclass.IN, dns.rdatatype.RRSIG, rtype)


def named(apex: dns.name.Name, keys: dns.rrset.RRset, ds: list[bytes]) -> list[object]:
    """The keys that a DS record names."""
    found = []
    for key in keys:
        made = [dns.dnssec.make_ds(apex, key, it, validating=True).to_wire() for it in DIGESTS.values()]
        if any(it in made for it in ds):
            found.append(key)
    return found


def said(case: Case) -> Said:
    apex, name = (dns.name.from_wire(bytes.fromhex(it), 0)[0] for it in (case["apex"], case["question"]["name"]))
    rtype, ds = case["question"]["type"], [bytes.fromhex(it) for it in case["ds"]]
    try:
        dnskey, answer = (dns.message.from_wire(bytes.fromhex(case[it])) for it in ("dnskey", "answer"))
        rrset, keys = rrset_of(answer, name, rtype), rrset_of(dnskey, apex, dns.rdatatype.DNSKEY)
        if rrset is None or not len(rrset):
            return Said("not asked", "", "no call for denials")
        if is_expanded(name, signatures_of(answer, name, rtype)):
            return Said("not asked", "", "no call for what is shown beside a wildcard's records")
        if not ds:
            return Said(INSECURE, "no-ds")
        if not any(it[2] in (8, 13, 15) and it[3] in DIGESTS for it in ds):
            return Said(INSECURE, "algorithms")
        if keys is None:
            return Said(BOGUS, "", "no DNSKEY set")
        points = dns.rrset.from_rdata_list(apex, keys.ttl, named(apex, keys, ds))
        check(keys, signatures_of(dnskey, apex, dns.rdatatype.DNSKEY), {apex: points}, case["moment"])
        check(rrset, signatures_of(answer, name, rtype), {apex: keys}, case["moment"])
    except (dns.exception.DNSException, ValueError) as error:
        return Said(BOGUS, "", f"{type(error).__name__}: {error}")
    return Said(SECURE, "answer")


def is_expanded(name: dns.name.Name, signatures: dns.rrset.RRset | None) -> bool:
    count = len(name.labels) - 1 - name.is_wild()
    return any(it.labels < count for it in signatures or [])


def check(rrset: dns.rrset.RRset, signatures: dns.rrset.RRset | None, keys: object, now: int) -> None:
    if signatures is None:
        raise dns.dnssec.ValidationFailure("no signature")
    dns.dnssec.validate(rrset, signatures, keys, now=now)


def run(cases: list[Case], _library: str) -> tuple[str, dict[str, Said]]:
    return f"dnspython {dns.version.version}", {it["id"]: said(it) for it in cases}
