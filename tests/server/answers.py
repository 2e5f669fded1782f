"""What dig and delv say of the answers to questions of all kinds."""

import re

from served import DENIED, PORT, SECURE, asked, delv, dig, fail, records_of, run

# By UDP and by TCP, with DO, without DO, and without EDNS.
WAYS = (["+notcp", "+dnssec"], ["+tcp", "+dnssec"], ["+notcp", "+nodnssec"], ["+notcp", "+noedns"])
# Name, type, what dig must say of it (its status, and the data of its answer), and what delv must say.
QUESTIONS = [
    ("example.", "SOA", "NOERROR", "ns.example. hostmaster.example. 1 3600 900 86400 300", SECURE),
    ("example.", "NS", "NOERROR", "ns.example.", SECURE),
    ("example.", "MX", "NOERROR", "10 mail.example.", SECURE),
    ("example.", "TXT", "NOERROR", '"v=spf1 mx -all"', SECURE),
    ("mail.example.", "A", "NOERROR", "192.0.2.25", SECURE),
    ("www.example.", "AAAA", "NOERROR", "2001:db8::80", SECURE),
    ("wWw.eXample.", "A", "NOERROR", "192.0.2.80", SECURE),
    ("a.b.wild.example.", "TXT", "NOERROR", '"any name below"', SECURE),
    ("www.example.", "TXT", "NOERROR", "", DENIED),
    ("example.", "NSEC3PARAM", "NOERROR", "", DENIED),
    ("wild.example.", "TXT", "NOERROR", "", DENIED),
    ("x.wild.example.", "A", "NOERROR", "", DENIED),
    ("none.example.", "A", "NXDOMAIN", "", DENIED),
    ("a.www.example.", "A", "NXDOMAIN", "", DENIED),
    ("below.example.", "DS", "NOERROR", "", DENIED),
    ("other.", "A", "REFUSED", "", None),
]


def check(server, questions=QUESTIONS):
    for name, rtype, status, data, validated in questions:
        for how in ("+notcp", "+tcp"):
            said = dig(name, rtype, how)
            answers = records_of(said)
            found = [it[4] for it in answers if it[3] == rtype]
            if f"status: {status}" not in said or found != [data] * bool(data):
                fail(name, rtype, how, said)
            if data and not any(it[3] == "RRSIG" for it in answers):
                fail(name, rtype, "is not signed:", said)
        said = delv(server, name, rtype) if validated else ""
        if validated and validated not in said:
            fail(name, rtype, "is not validated:", said)
    print(f"{len(questions)} questions: dig by UDP and TCP, delv")


def check_plain():
    """Without EDNS nothing is signed; no answer has more octets than its client takes."""
    said = asked("www.example.", "A", "+noedns")
    if "192.0.2.80" not in said or "RRSIG" in said:
        fail("without EDNS:", said)
    for name, rtype, status in (("example.", "DNSKEY", "NOERROR"), ("none.example.", "A", "NXDOMAIN")):
        said = dig(name, rtype, "+notcp", "+bufsize=512", "+ignore", "+stats")
        size = re.search(r"MSG SIZE +rcvd: (\d+)", said)
        if f"status: {status}" not in said or not size or int(size[1]) > 512:
            fail("512 octets:", said)


def check_keys(server):
    """The DNSKEY set that the server tells is the one that it answers with."""
    told = {tuple(it.split()[1:]) for it in server.tell("dnskey").splitlines()}
    data = (it[4].split(None, 3) for it in records_of(dig("example.", "DNSKEY", "+tcp")) if it[3] == "DNSKEY")
    answered = {(flags, protocol, algorithm, key.replace(" ", "")) for flags, protocol, algorithm, key in data}
    if not told or told != answered:
        fail("the DNSKEY set is told as", told, "and answered as", answered)


def check_glue():
    """A referral has the address of its name server below the delegation, unsigned, with DO and without; other answers have none."""
    for name, rtype in (("www.below.example.", "A"), ("ns.below.example.", "A"), ("below.example.", "NS"), ("NS.below.example.", "CNAME")):
        for words in WAYS:
            said = asked(name, rtype, "+authority", "+additional", *words)
            records = records_of(said)
            servers = [it[0] for it in records if it[3] == "NS"]
            addresses = [(it[0], it[4]) for it in records if it[3] in ("A", "AAAA")]
            signed = [it for it in records if it[3] == "RRSIG" and it[4].split()[0] in ("A", "AAAA")]
            flags = re.search(r"flags: ([a-z ]*);", said)[1].split()
            if servers != ["below.example."] or addresses != [("ns.below.example.", "192.0.2.53")] or signed or "aa" in flags:
                fail(name, rtype, *words, "is no referral with its glue:", said)
    said = asked("below.example.", "DS", "+authority", "+additional")
    if "192.0.2.53" in said:
        fail("glue beside a denial:", said)
    print("referrals with their glue")


def check_all_types():
    """ANY and RRSIG: one RRset of the name or of its wildcard, signed with DO, and for RRSIG always; at a delegation a referral."""
    for name, kind in (("www.example.", "A"), ("example.", "NS"), ("x.wild.example.", "TXT")):
        for rtype in ("ANY", "RRSIG"):
            for words in WAYS:
                said = asked(name, rtype, *words)
                found = [it[3] for it in records_of(said)]
                signed = rtype == "RRSIG" or "+dnssec" in words
                if "status: NOERROR" not in said or found != [kind] + ["RRSIG"] * signed:
                    fail(name, rtype, *words, "is no single RRset:", said)
    for name, status in (("none.example.", "NXDOMAIN"), ("below.example.", "NOERROR")):
        said = dig(name, "ANY", "+notcp")
        if f"status: {status}" not in said or "ANSWER: 0" not in said:
            fail(name, "ANY", said)
    print("ANY and RRSIG: one RRset")


def check_links():
    """NSEC: the record of a name, signed with DO; a name without one is denied, one of a wildcard is refused; at a delegation a referral."""
    questions = [
        ("mail.example.", "NOERROR", "ns.example. A AAAA RRSIG NSEC"),
        ("*.wild.example.", "NOERROR", "www.example. TXT RRSIG NSEC"),
        ("wild.example.", "NOERROR", ""),
        ("none.example.", "NXDOMAIN", ""),
        ("x.wild.example.", "REFUSED", ""),
        ("below.example.", "NOERROR", ""),
    ]
    for name, status, data in questions:
        for words in WAYS:
            said = asked(name, "NSEC", *words)
            found = [it[3:] for it in records_of(said)]
            signed = bool(data) and "+dnssec" in words
            if f"status: {status}" not in said or [it[0] for it in found] != ["NSEC"] * bool(data) + ["RRSIG"] * signed:
                fail(name, "NSEC", *words, said)
            if data and found[0][1] != data:
                fail(name, "NSEC", *words, "has other data:", said)
    print("NSEC: the record of the name")

# Name, type, and the records of the answer, signatures aside: owner, type, data.
ALIASES = [
    ("docs.example.", "AAAA", [("docs.example.", "CNAME", "www.example.")]),
    ("dOCS.example.", "CNAME", [("dOCS.example.", "CNAME", "www.example.")]),
    ("docs.example.", "ANY", [("docs.example.", "CNAME", "www.example.")]),
    ("x.apps.example.", "A", [("x.apps.example.", "CNAME", "www.example.")]),
    ("x.legacy.example.", "TXT", [("legacy.example.", "DNAME", "wild.example."), ("x.legacy.example.", "CNAME", "x.wild.example.")]),
    ("a.x.LEGACY.example.", "TXT", [("LEGACY.example.", "DNAME", "wild.example."), ("a.x.LEGACY.example.", "CNAME", "a.x.wild.example.")]),
    ("legacy.example.", "DNAME", [("legacy.example.", "DNAME", "wild.example.")]),
    ("legacy.example.", "ANY", [("legacy.example.", "DNAME", "wild.example.")]),
]


def check_aliases(server):
    """A CNAME or DNAME record answers, signed with DO; the CNAME record that is made of a name below a DNAME record is not signed."""
    for name, rtype, wanted in ALIASES:
        for words in WAYS:
            said = asked(name, rtype, *words)
            records = records_of(said)
            found = [(owner, kind, data) for owner, _, _, kind, data in records if kind != "RRSIG"]
            signed = [data.split()[0] for _, _, _, kind, data in records if kind == "RRSIG"]
            if "status: NOERROR" not in said or found != wanted or signed != [wanted[0][1]] * ("+dnssec" in words):
                fail(name, rtype, *words, "is no alias as it must be:", said)
        said = delv(server, name, rtype) if rtype != "ANY" else SECURE
        if SECURE not in said:
            fail(name, rtype, "is not validated:", said)
    print("aliases: dig and delv")


def check_addresses(server):
    """A server on all addresses answers from the one that was asked."""
    server.stop()
    server.start("--address=0.0.0.0")
    said = run("dig", "@127.0.0.2", "-p", PORT, "+notcp", "+tries=1", "+time=10", "+noall", "+answer", "www.example.", "A").stdout
    if "192.0.2.80" not in said:
        fail("no answer from the address that was asked:", said)
    server.stop()
    server.start()
    print("on all addresses: an answer from the one that was asked")
