"""Questions, what the tree says of each, and how many messages a walk asks for: by the zones, not by the program."""

import typing

from wire import DNSKEY, DS, name, wire
from zones import DENIAL_TTL, DS_TTL, SERVED, UNSIGNED, UNTIL, above, ttls_at

A, NS, CNAME, SOA, MX, TXT, AAAA, DNAME = 1, 2, 5, 6, 15, 16, 28, 39

HEAD = """\
# Walks from the root's trust anchor down, over messages of named, NSD and Knot that tests/walk/run made. The zones are in its zones.py,
# and what the tree says of each question in its questions.py. A message counts once it is asked for. Where all that a question needs
# is handed in at once, the same must be said.""".splitlines()


class Said(typing.NamedTuple):
    """What is said, and the names that aliases lead through; `{ds:ZONE}` stands for a zone's DS data."""

    says: str
    through: tuple = ()


def records(zone, *datas):
    return f"secure {zone} Records {','.join(datas)}"


def address(last):
    return f"c00002{last:02x}"


SOA_DATA = (wire(name("ns.test")) + wire(name("host.test")) + b"".join(it.to_bytes(4, "big") for it in (1, 3600, 600, 86400, 300))).hex()
STAR = "0473746172"
ROUND = ("round.signed.test", "round.test")
IN_ONE_ZONE = {
    ("www.test", A): Said(records("test", address(1))),
    ("www.test", AAAA): Said("secure test NoType"),
    ("deep.test", A): Said("secure test NoType"),
    ("none.test", A): Said("secure test NoName"),
    ("a.wild.test", TXT): Said(f"secure test StarRecords {STAR}"),
    ("a.wild.test", A): Said("secure test StarNoType"),
    ("mail.deep.test", MX): Said(records("test", "000a" + wire(name("www.test")).hex())),
    ("test", SOA): Said(records("test", SOA_DATA)),
    (".", NS): Said(records(".", wire(name("ns.test")).hex())),
    ("com", A): Said("secure . NoName"),
    ("down.test", A): Said("secure test NoType"),
    ("none.down.test", A): Said("secure test NoName"),
}
FURTHER_DOWN = {
    ("www.signed.test", A): Said(records("signed.test", address(2))),
    ("WWW.Signed.TEST", A): Said(records("signed.test", address(2))),
    ("none.signed.test", A): Said("secure signed.test NoName"),
    ("www.one.test", A): Said(records("one.test", address(12))),
    ("www.low.down.test", A): Said(records("low.down.test", address(10))),
    ("none.low.down.test", A): Said("secure low.down.test NoName"),
    ("www.safe.opt", A): Said(records("safe.opt", address(3))),
    ("none.safe.opt", A): Said("secure safe.opt NoName"),
}
DELEGATIONS = {
    ("test", DS): Said("secure . Records {ds:test}"),
    ("signed.test", DS): Said("secure test Records {ds:signed.test}"),
    ("both.test", DS): Said("secure test Records {ds:both.test}"),
    ("plain.test", DS): Said("secure test NoType"),
    ("www.test", DS): Said("secure test NoType"),
    ("www.sub.both.test", DS): Said("secure both.test NoType"),
    ("alias.test", DS): Said("secure test NoType", ("www.test",)),
    (".", DS): Said("outside"),
}
SHARED = {
    ("www.sub.both.test", A): Said(records("both.test", address(8))),
    ("none.both.test", A): Said("secure both.test NoName"),
    ("both.test", SOA): Said(records("both.test", SOA_DATA)),
    ("www.bare.test", A): Said("insecure below bare.test"),
    ("none.bare.test", A): Said("insecure below bare.test"),
}
INSECURE = {
    ("www.plain.test", A): Said("insecure below plain.test"),
    ("www.old.test", A): Said("insecure below old.test"),
    ("www.opt", A): Said(records("opt", address(20))),
    ("none.opt", A): Said("insecure, left open by opt"),
    ("a.wild.opt", TXT): Said("insecure, left open by opt"),
    ("www.open.opt", A): Said("insecure, left open by opt"),
}
BOGUS = {
    ("www.late.test", A): Said("bogus late.test www.late.test 1 NoTrustedKey"),
    ("www.lost.test", A): Said("bogus lost.test www.lost.test 1 NoTrustedKey"),
}
ALIASES = {
    ("alias.test", A): Said(records("test", address(1)), ("www.test",)),
    ("out.test", A): Said(records("signed.test", address(2)), ("www.signed.test",)),
    ("over.test", A): Said(records("safe.opt", address(3)), ("www.safe.opt",)),
    ("alias.opt", A): Said(records("safe.opt", address(3)), ("www.safe.opt",)),
    ("a.leads.test", A): Said(records("test", address(1)), ("www.test",)),
    ("gone.test", A): Said("secure test NoName", ("none.test",)),
    ("www.moved.test", A): Said(records("signed.test", address(2)), ("www.signed.test",)),
    ("none.moved.test", A): Said("secure signed.test NoName", ("none.signed.test",)),
    ("longer-name.far.test", A): Said("an alias of no name"),
    ("in.test", A): Said("insecure below plain.test", ("www.plain.test",)),
    ("round.test", A): Said("too many aliases", (ROUND * 6)[:11]),
}
TURNS = (
    ("# Names of the root and of one zone below it.", IN_ONE_ZONE),
    ("# Zones further down.", FURTHER_DOWN),
    ("# DS records, which the zone above has.", DELEGATIONS),
    ("# One server has the zone above too, and sends no referral.", SHARED),
    ("# A delegation without DS, one of an unknown algorithm, and opt-out.", INSECURE),
    ("# Signatures that have expired, and such that were lost.", BOGUS),
    ("# Aliases.", ALIASES),
)
QUESTIONS = {it: said for _comment, questions in TURNS for it, said in questions.items()}

# Zones below which nothing is asked: unsigned, or signed by an algorithm that is not checked. Zones whose keys are not signed in time.
CLOSED, BAD = (*UNSIGNED, "old.test"), ("late.test", "lost.test")


def server_of(apex):
    return next(number for number, (_kind, apexes) in enumerate(SERVED) if apex in apexes)


def on_the_way(qname, rtype):
    """The messages that a walk asks for a name: of each zone its keys and its answer; and where its server has the zone below too, so
    that it sends no referral, DS at each name down to that zone."""
    if (qname, rtype) == (".", DS):
        return
    zones = [it for it in above(qname) if not (name(it) == name(qname) and rtype == DS)]
    for at, apex in enumerate(zones):
        if apex in CLOSED:
            return
        yield apex, name(apex), DNSKEY
        yield apex, name(qname), rtype
        if apex in BAD:
            return
        below = zones[at + 1] if at + 1 < len(zones) else None
        if below and server_of(below) == server_of(apex):
            labels = name(qname)
            names = [labels[it:] for it in range(len(labels))]
            yield from ((apex, it, DS) for it in names if len(name(apex)) < len(it) <= len(name(below)))


def ttls_of(qname, rtype, says):
    """The TTLs of what a walk for a name rests on, where it ends so: of the DS records on the way, and of the zone's answer, or of the
    denial that a delegation has DS records. Those of keys do not count."""
    zones = [it for it in above(qname) if not (name(it) == name(qname) and rtype == DS)]
    for apex, below in zip(zones, zones[1:]):
        if below in UNSIGNED:
            yield DENIAL_TTL
            return
        yield DS_TTL
        if below in CLOSED:
            return
    yield from ttls_at(zones[-1], qname, rtype) if "Records" in says or "alias" in says else [DENIAL_TTL]


def lasts(qname, rtype):
    """How long what is said lasts: the least of the ways of all names. Nothing where neither secure nor insecure is said."""
    said = QUESTIONS[qname, rtype]
    if not said.says.startswith(("secure", "insecure", "an alias")):
        return ""
    names = (qname, *said.through)
    says = ["alias"] * len(said.through) + [said.says]
    ttl = min(it for at, what in zip(names, says) for it in ttls_of(at, rtype, what))
    return f"; TTL {ttl} until {UNTIL}"


# The codes of RFC 8914 for zones whose keys are not signed in time: 7 where the signatures have expired; 9 where no key is there. For
# delegations with DS records that are insecure: 1 where these are of an algorithm that is not checked.
ERRORS, UNSUPPORTED = {"late.test": 7, "lost.test": 9}, {"old.test": 1}


def error(says):
    """The extended error of what is bogus, and of what is insecure though there are DS records."""
    *words, zone = says.split()
    if words[:1] == ["bogus"]:
        return f"; EDE {ERRORS[words[1]]}"
    return f"; EDE {UNSUPPORTED[zone]}" if words == ["insecure", "below"] and zone in UNSUPPORTED else ""


def messages_of(qname, rtype):
    """How many messages a walk asks for, through aliases; one that many follow, for as many as the limit allows."""
    said = QUESTIONS[qname, rtype]
    return len({it for at in (qname, *said.through) for it in on_the_way(at, rtype)})


def count_of(*questions):
    return len({it for qname in questions for it in on_the_way(qname, A)})


# Lines behind the questions, and what is printed of each: nothing else where that is none.
LIMITED = (
    ("# Limits: delegations on the way, aliases, and messages.", None),
    ("limits 1 11", None),
    ("resolve www.signed.test 1", f"too many cuts; {count_of('www.test')} messages"),
    ("resolve www.test 1", f"{records('test', address(1))}; {count_of('www.test')} messages{lasts('www.test', A)}"),
    ("limits 32 11 3", None),
    ("resolve www.signed.test 1", f"too many messages; {count_of('www.test')} messages"),
    ("resolve www.test 1", f"{records('test', address(1))}; {count_of('www.test')} messages{lasts('www.test', A)}"),
    ("limits 32 11", None),
    ("# Messages that nobody has: these are wanted.", None),
    ("without test test 48", None),
    ("resolve www.signed.test 1", f"wants test test 48; {count_of('www.test') - 1} messages"),
    ("without test www.signed.test 1", None),
    ("resolve www.signed.test 1", f"wants test test 48, test www.signed.test 1; {count_of('com')} messages"),
    ("with all", None),
    ("without test both.test 43", None),
    ("resolve www.sub.both.test 1", f"wants test both.test 43; {count_of('www.test')} messages"),
    ("with all", None),
)


def by_octets():
    """Each question from octets to octets, and what is said of it."""
    for (qname, rtype), said in QUESTIONS.items():
        through = "; through " + " ".join(said.through) if said.through else ""
        yield f"octets {qname} {rtype}", f"{said.says}{through}; {messages_of(qname, rtype)} messages{lasts(qname, rtype)}{error(said.says)}"


# From octets: what a limit of signatures allows, one for each set of keys and one for each DS set and answer on the way; and which part
# of the octets cannot be read where the last one of it is missing.
OCTETS = (
    ("# The same from octets to octets, as callers in other languages hand them in.", None),
    *by_octets(),
    ("limits 1 11", None),
    ("octets www.signed.test 1", f"too many cuts; {count_of('www.test')} messages"),
    ("limits 32 1", None),
    ("octets round.test 1", f"too many aliases; through round.signed.test; {count_of(*ROUND)} messages"),
    ("limits 32 11 3", None),
    ("octets www.signed.test 1", f"too many messages; {count_of('www.test')} messages"),
    ("limits 32 11", None),
    ("without test test 48", None),
    ("without test www.signed.test 1", None),
    ("octets www.signed.test 1", f"wants test test 48, test www.signed.test 1; {count_of('com')} messages"),
    ("with all", None),
    ("most 5", None),
    ("octets www.signed.test 1", f"TooManySignatures; {count_of('www.signed.test')} messages"),
    ("most 6", None),
    ("octets www.signed.test 1", f"{records('signed.test', address(2))}; {count_of('www.signed.test')} messages{lasts('www.signed.test', A)}"),
    ("most 0", None),
    ("# Verified are of a referral the keys twice, for the question and for DS, and the DS set; of an answer the keys and the answer.", None),
    ("counts www.test 1", "5 verified, 0 hashed"),
    ("counts www.signed.test 1", "8 verified, 0 hashed"),
    ("counts com 1", "2 verified, 0 hashed"),
    *(
        (f"cut {part} www.test 1", f"{code}; {count_of('www.test')} messages")
        for part, code in (
            ("anchor", "BadApex"),
            ("ds", "BadDsSet"),
            ("name", "BadName"),
            ("messages", "BadMessages"),
            ("checked", "BadSignatures"),
        )
    ),
)
# Each message that a walk asks for, in the place of each other one: nothing else may be said than without. The lines that are kept
# have the first of these, since they are many walks; the others are made too, into a file of their own.
REPLAYED = ("www.plain.test", "www.sub.both.test", "none.moved.test")


def replay(*questions):
    yield "# Each message that is asked for, one at a time, in the place of each other message.", None
    for it in questions:
        yield f"replay {it} 1", f"{{tries:{it}}} tries, 0 otherwise"


BEHIND = (*LIMITED, *OCTETS, *replay(*REPLAYED[:1]))
# An answer about something else tells nothing of a name, so that DS is asked for at the names between: down to one that does not
# exist, and no further; past one that exists without records, until an answer is not there. `{octets:ZONE NAME TYPE}` stands for
# those of another message: the root's is a referral to the same zone; `{forged:ZONE NAME TYPE}` for those with the last octet of the
# last signature altered, which is that of the NSEC record. These lines are the last, since they hand in more messages.
BETWEEN = (
    ("# An answer about something else, and DS at the names between: none is asked for below a name that does not exist.", None),
    ("message . a.b.none.test 1 {octets:. none.test 1}", None),
    ("message test a.b.none.test 1 {octets:test www.test 1}", None),
    ("resolve a.b.none.test 1", f"bogus test a.b.none.test 1 NotProven; {count_of('none.test') + 1} messages"),
    ("octets a.b.none.test 1", f"bogus test a.b.none.test 1 NotProven; {count_of('none.test') + 1} messages; EDE 12"),
    ("message . a.mail.deep.test 1 {octets:. none.test 1}", None),
    ("message test a.mail.deep.test 1 {octets:test www.test 1}", None),
    ("resolve a.mail.deep.test 1", f"wants test a.mail.deep.test 43; {count_of('none.test') + 2} messages"),
    ("# A denial of another name: it is incomplete, and bogus where its signature fails. The answer for DS denies the name.", None),
    ("message . nope.test 1 {octets:. none.test 1}", None),
    ("message test nope.test 1 {octets:test deep.test 1}", None),
    ("message test nope.test 43 {octets:test none.test 1}", None),
    ("octets nope.test 1", f"incomplete denial test nope.test 1; {count_of('none.test') + 1} messages; EDE 12"),
    ("message . nose.test 1 {octets:. none.test 1}", None),
    ("message test nose.test 1 {forged:test deep.test 1}", None),
    ("message test nose.test 43 {octets:test none.test 1}", None),
    ("octets nose.test 1", f"bogus test nose.test 1 NotProven; {count_of('none.test') + 1} messages; EDE 6"),
)
