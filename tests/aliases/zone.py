"""The zones: aliases in all places, their questions, and what each zone says of a question by RFC 1034, 4.3.2, RFC 4592, RFC 5155 and
RFC 6672. Nothing here looks at an answer, or at what the judge says."""

import socket
import typing

from wire import CNAME, DNAME, DS, NS, TYPES, name, wire

CHAINS = ("nsec", "nsec3", "optout")
ADDRESS, TEXT = bytes([192, 0, 2, 1]), b"\4text"
DS_DATA = bytes.fromhex("04d20d02") + bytes(range(32))
# Owner, type and data of a zone with aliases in all places; `@` stands for the apex, names without a last dot are below it.
ALIASES = """\
@ NS ns
@ MX 10 mail
@ TXT
ns A
www A
www TXT
mail A
alias CNAME www
out CNAME www.example.net.
c1 CNAME c2
c2 CNAME c3
c3 CNAME www
loop CNAME loop
gone CNAME nothing
less CNAME ent
*.wild CNAME www
there.wild TXT
*.away CNAME www.example.net.
*.w A
*.w TXT
here.w CNAME www
via CNAME any.w
a.ent A
dn DNAME target
dn TXT
target TXT
x.target A
far DNAME example.net.
through CNAME x.dn
secure NS ns.secure
ns.secure A
secure DS
open NS ns.open
ns.open A
into CNAME host.open
"""
# A zone with a DNAME record at its apex, below which nothing stands.
REDIRECTED = """\
@ NS ns.example.net.
@ MX 10 mail.example.net.
@ TXT
@ DNAME example.net.
"""
# Each name that is asked, with the place of an alias that it shows, or none, and types; a star stands for types that all are asked.
COMMON = "A MX TXT DS NS"
ASKED = """\
@ - * SOA DNAME
ns - *
www - *
mail - *
alias at-a-name * CNAME
out out-of-the-zone * CNAME
c1 chain-of-three *
c2 chain-of-two A
loop to-itself A
gone to-a-missing-name *
less to-an-empty-non-terminal A TXT
*.wild wildcard-itself A TXT CNAME
any.wild at-a-wildcard * CNAME
a.b.wild at-a-wildcard A DS
wild - A TXT
there.wild - *
no.there.wild - A
any.away at-a-wildcard-out * CNAME
*.w - A MX
any.w - *
a.b.w - A MX
here.w below-a-wildcard *
no.here.w - A TXT
via to-a-wildcard *
ent - A NS
a.ent - A TXT
no.ent - A
dn - * DNAME
any.dn below-dname *
x.dn below-dname A TXT
a.b.dn below-dname A DS
target - TXT A
any.target - A
far - A DNAME DS
any.far below-dname-out *
through to-below-dname *
secure - *
host.secure - A
open - *
host.open - A
into into-a-delegation A DS
nothing - *
no.alias - *
no.mail - A
"""
ASKED_REDIRECTED = """\
@ - * SOA DNAME
any below-the-apex *
a.b below-the-apex *
*.any below-the-apex A
"""


class Question(typing.NamedTuple):
    """A name and a type, and the place of an alias that the name shows, if any."""

    qname: tuple
    rtype: int
    place: str


class Said(typing.NamedTuple):
    """What a zone says: one of the eight verdicts or `Alias`, with data of records."""

    word: str
    data: tuple = ()

    def __str__(self):
        return " ".join([self.word, *([",".join(it.hex() for it in self.data)] if self.data else [])])


class Records:
    """A zone by its records, rows of owner, type and data; `optout` is one chain by which it may be signed."""

    def __init__(self, apex_text, chain, rows):
        self.apex_text, self.chain, self.rows = apex_text, chain, rows
        self.apex = name(apex_text)
        self.records = {}
        for owner, rtype, *fields in self.rows:
            of = self.records.setdefault(self.named(owner), {}).setdefault(TYPES[rtype], [])
            of.append(self.data(rtype, fields))
        self.cuts = {it for it, types in self.records.items() if NS in types and it != self.apex}
        self.dnames = {it for it, types in self.records.items() if DNAME in types}
        # Delegations that opt-out leaves out of the chain, which it may of those without DS records (RFC 5155, 7.1).
        self.left_out = set()
        # Owners, and what stands above them: empty non-terminals.
        self.names = {owner[at:] for owner in self.records for at in range(len(owner) - len(self.apex) + 1)}

    def named(self, owner):
        if owner.endswith("."):
            return name(owner)
        return self.apex if owner == "@" else name(owner) + self.apex

    def data(self, rtype, fields):
        if rtype == "A":
            return ADDRESS
        if rtype == "TXT":
            return TEXT
        if rtype == "DS":
            return DS_DATA
        before = int(fields[0]).to_bytes(2, "big") if rtype == "MX" else b""
        return before + wire(self.named(fields[-1]))

    def above(self, labels):
        """The names from a name up to the apex."""
        return [labels[at:] for at in range(len(labels) - len(self.apex) + 1)]

    def says(self, qname, rtype, soa=b""):
        """What the zone says of a question. The SOA record's data are handed in."""
        cut = next((it for it in reversed(self.above(qname)) if it in self.cuts), None)
        if cut in self.left_out:
            return Said("Open")
        if cut and (qname != cut or rtype != DS):
            return Said("Delegated")
        if any(it in self.dnames for it in self.above(qname)[1:]):
            return Said("Alias")
        if qname in self.names:
            types = self.records.get(qname, {}) | ({TYPES["SOA"]: [soa]} if qname == self.apex else {})
            if CNAME in types and rtype != CNAME:
                return Said("Alias")
            return Said("Records", tuple(sorted(types[rtype]))) if rtype in types else Said("NoType")
        encloser = next(it for it in self.above(qname) if it in self.names)
        types = self.records.get((b"*", *encloser), {})
        # The next closer name could be a delegation that the chain leaves out (RFC 5155, 6).
        if self.chain == "optout":
            return Said("Open")
        if CNAME in types and rtype != CNAME:
            return Said("Alias")
        if (b"*", *encloser) not in self.names:
            return Said("NoName")
        return Said("StarRecords", tuple(sorted(types[rtype]))) if rtype in types else Said("StarNoType")


class ZoneOfLines(Records):
    """A zone by the lines of its file: owner, TTL, type and data. An opt-out chain leaves out its delegations without DS records."""

    def __init__(self, apex_text, lines, is_open):
        rows = [(owner, *rest) for owner, _ttl, *rest in map(str.split, lines.splitlines())]
        super().__init__(apex_text, "optout" if is_open else "other", rows)
        if is_open:
            self.left_out = {it for it in self.cuts if DS not in self.records[it]}
            seen = [it for it in self.records if not any(above in self.left_out for above in self.above(it))]
            self.names = {owner[at:] for owner in seen for at in range(len(owner) - len(self.apex) + 1)}

    def data(self, rtype, fields):
        match rtype:
            case "A":
                return socket.inet_aton(fields[0])
            case "TXT":
                return bytes([len(fields[0])]) + fields[0].encode()
            case "DS":
                tag, algorithm, digest = map(int, fields[:3])
                return tag.to_bytes(2, "big") + bytes([algorithm, digest]) + bytes.fromhex("".join(fields[3:]))
            case "SOA":
                numbers = (int(it).to_bytes(4, "big") for it in fields[2:])
                return b"".join([wire(self.named(fields[0])), wire(self.named(fields[1])), *numbers])
        return super().data(rtype, fields)


class Zone(Records):
    """A zone of a kind (`alias` or `dname`), chain and signer."""

    def __init__(self, kind, chain, signer):
        self.kind, self.signer = kind, signer
        rows = [line.split(" ") for line in (ALIASES if kind == "alias" else REDIRECTED).splitlines()]
        super().__init__(f"{kind}.{chain}.{signer}.test", chain, rows)

    def file(self):
        """The zone as a master file."""
        texts = {"A": "192.0.2.1", "TXT": '"text"', "DS": f"1234 13 2 {DS_DATA[4:].hex()}"}
        soa = f"{self.apex_text}. 3600 IN SOA ns.example.net. host.example.net. 1 3600 900 1209600 900"
        lines = [f"$ORIGIN {self.apex_text}.", soa]
        lines += [f"{owner} 3600 IN {rtype} {' '.join(fields) or texts[rtype]}" for owner, rtype, *fields in self.rows]
        return "\n".join([*lines, ""])

    def questions(self):
        for line in (ASKED if self.kind == "alias" else ASKED_REDIRECTED).splitlines():
            owner, place, *types = line.split(" ")
            for rtype in " ".join(types).replace("*", COMMON).split(" "):
                yield Question(self.named(owner), TYPES[rtype], place)
