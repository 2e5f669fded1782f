#!/usr/bin/env python3
"""The tree of zones that resolvers walk down, what it says of questions, and the servers that have it.

usage: tests/trace/served.py make FOLDER     signs the zones; FOLDER/anchor, FOLDER/servers and FOLDER/questions tell of them
       tests/trace/served.py serve FOLDER    serves them until its input ends
"""
import base64
import json
import pathlib
import sys
import tempfile

HERE = pathlib.Path(__file__).resolve().parent
sys.path[1:1] = [str(HERE.parent / it) for it in ("aliases", "walk", "shadow")]

import asked
from addresses import SERVERS
from found import led
from plan import ZONES
from questions import QUESTIONS
from servers import Knot, Named, Nsd, serve
from tree import changed
from wire import DNSKEY, TYPES, name, text, wire
from zone import ZoneOfLines
from zones import sign

KINDS = {"named": Named, "NSD": Nsd, "Knot": Knot}
TYPES |= {"AAAA": 28}
SOA = "@ 900 SOA {0} host 1 3600 600 86400 300\n@ 900 NS {0}\n{0} 400 A {1}\n"
CLOSED = ("unsigned", "island", "unknown", "undigested", "old")
BOGUS = ("altered", "stripped", "lost", "stranger")
# Of these the DNSKEY set holds.
KEYS_HOLD = ("altered", "stripped")
MOST_ALIASES = 16
# What a zone says, in words for whoever asks.
WORDS = {"Records": "secure records", "NoType": "secure NODATA", "NoName": "secure NXDOMAIN", "StarRecords": "secure records",
         "StarNoType": "secure NODATA", "Open": "insecure", "Alias": "Alias"}


class Zone(ZoneOfLines):
    """A zone with its keys, and the name of its server."""

    def __init__(self, apex_text, lines, is_open):
        super().__init__(apex_text, lines, is_open)
        self.server = self.named(self.rows[2][0])

    def data(self, rtype, fields):
        if rtype == "DNSKEY":
            return int(fields[0]).to_bytes(2, "big") + bytes(map(int, fields[1:3])) + base64.b64decode("".join(fields[3:]))
        return super().data(rtype, fields)


class Tree:
    """The zones, in folders below one."""

    def __init__(self, folder):
        self.folder = pathlib.Path(folder).resolve()
        self.zones, self.ds = {}, {}

    def file(self, apex):
        served = "unsigned" if ZONES[apex].state in ("unsigned", "lost") else "signed"
        return self.folder / (apex.strip(".") or "root") / served

    def make(self):
        self.folder.mkdir(parents=True, exist_ok=True)
        for apex in sorted(ZONES, key=lambda it: (it != ".", it.count(".")), reverse=True):
            self.sign(apex)
        (self.folder / "anchor").write_text(self.ds["."])
        servers = {apex: SERVERS[it.server][1] for apex, it in ZONES.items()}
        (self.folder / "servers").write_text(json.dumps(servers))
        for (qname, rtype), expected in QUESTIONS.items():
            if not is_as_walked(self.told(name(qname), rtype), expected):
                raise ValueError(f"{qname} {rtype}: {self.told(name(qname), rtype)}, and tests/walk has {expected}")
        told = ({**it._asdict(), **self.told(name(it.name), TYPES[it.type])} for it in asked.questions(self))
        (self.folder / "questions").write_text("".join(json.dumps(it) + "\n" for it in told))

    def sign(self, apex):
        """Writes a zone with its delegations, and signs it."""
        has, dotted = ZONES[apex], apex.rstrip(".") + "."
        at = self.file(apex).parent
        at.mkdir()
        server = "a.root." if apex == "." else "ns"
        lines = SOA.format(server, SERVERS[has.server][1]) + has.records
        for it in self.cuts_of(apex):
            lines += f"{it}. 420 NS ns.{it}.\nns.{it}. 421 A {SERVERS[ZONES[it].server][1]}\n{self.ds[it]}"
        (at / "unsigned").write_text(f"$ORIGIN {dotted}\n{lines}")
        ds = sign(at, dotted, has.how) if has.state != "unsigned" else ""
        if self.file(apex).name == "signed":
            signed = (at / "signed").read_text().splitlines()
            (at / "signed").write_text("\n".join([*changed(signed, has.state), ""]))
            lines += keys_of(at)
        self.ds[apex] = ds_told(dotted, ds, has.state)
        self.zones[name(apex)] = Zone(apex.rstrip("."), lines.replace(" IN ", " "), "-A" in has.how.chain)

    def is_secure(self, apex):
        """Whether no zone from the root down to this one is insecure or bogus."""
        return all(state_of(it) == "right" for it in self.above(apex))

    def cuts_of(self, apex):
        """The zones that a zone delegates."""
        return [it for it in ZONES if it != apex and self.above(name(it)[1:])[-1] == apex]

    @staticmethod
    def above(labels):
        """The zones at or above a name, the root first."""
        found = [it for it in ZONES if labels[len(labels) - len(name(it)) :] == name(it)]
        return sorted(found, key=lambda it: len(name(it)))

    def told(self, qname, rtype):
        """What the tree says of a question: the word for it, the names that aliases lead through, and data of records."""
        through = []
        for _ in range(MOST_ALIASES + 1):
            word, zone, data = self.down(qname, rtype)
            if word != "Alias":
                return said(word, through, data)
            qname = led(zone, qname)[-1]
            if len(wire(qname)) > 255:
                return said("secure YXDOMAIN", through, ())
            through.append(text(qname) or ".")
        return said("SERVFAIL", [], ())

    def down(self, qname, rtype):
        """What is said of a name by the zone that has it, aliases aside."""
        zone, state = self.zones[()], "right"
        while state == "right":
            it = zone.says(qname, rtype, *zone.records[zone.apex][TYPES["SOA"]])
            if it.word != "Delegated":
                return WORDS[it.word], zone, it.data
            cut = next(it for it in reversed(zone.above(qname)) if it in zone.cuts)
            zone, state = self.zones[cut], state_of(text(cut))
            if state == "bogus" and (qname, rtype) == (cut, DNSKEY) and ZONES[text(cut)].state in KEYS_HOLD:
                state = "right"
        return state, zone, ()

    def servers(self):
        """The servers, as they are made."""
        logs = pathlib.Path(tempfile.mkdtemp(prefix="servers-", dir=self.folder))
        logs.chmod(0o755)
        for server, (kind, address) in SERVERS.items():
            zones = [(name(apex), self.file(apex)) for apex, it in ZONES.items() if it.server == server]
            yield KINDS[kind](logs / server, zones, address, 53)


# What tests/walk has for these, by its last word, or in full.
WALKED = {"Records": "secure records", "StarRecords": "secure records", "NoType": "secure NODATA", "StarNoType": "secure NODATA",
          "NoName": "secure NXDOMAIN", "too many aliases": "SERVFAIL", "an alias of no name": "secure YXDOMAIN",
          "outside": "secure NODATA"}


def is_as_walked(told, expected):
    """Whether what is told is what tests/walk has, worked out by hand for the same records."""
    word, *more = expected.says.split(" ")
    word = word.rstrip(",")
    if word not in ("insecure", "bogus"):
        word = WALKED[more[1] if word == "secure" else expected.says]
    is_address = len(more) == 3 and len(more[2]) == 8
    is_led = tuple(told["through"]) == expected.through or word == "SERVFAIL"
    return told["says"] == word and is_led and (not is_address or told["data"] == [more[2]])


def said(word, through, data):
    return {"says": word, "through": through, "data": sorted(it.hex() for it in data)}


def keys_of(at):
    """The keys of a zone, as lines of its file."""
    texts = (path.read_text() for path in sorted(at.glob("K*.key")))
    return "".join(f"@ 900 DNSKEY {it.split(' DNSKEY ')[1]}" for it in texts)


def state_of(apex):
    """`right`, `insecure` or `bogus`."""
    has = ZONES[apex]
    if has.state in CLOSED:
        return "insecure"
    return "bogus" if has.state in BOGUS or has.how.dates != ZONES["."].how.dates else "right"


def ds_told(dotted, ds, state):
    """The DS record that the zone above has."""
    match state:
        case "unsigned" | "island":
            return ""
        case "stranger":
            return f"{dotted} 440 IN DS 1234 13 2 {bytes(range(32)).hex()}\n"
    owner, ttl, _class, _type, tag, algorithm, digest, *octets = ds.split()
    algorithm, digest = ("200" if state == it else was for it, was in (("unknown", algorithm), ("undigested", digest)))
    return " ".join([owner, ttl, "IN DS", tag, algorithm, digest, *octets]) + "\n"


def main(words):
    if words[:1] == ["make"] and len(words) == 2:
        Tree(words[1]).make()
    elif words[:1] == ["serve"] and len(words) == 2:
        serve(Tree(words[1]).servers())
    else:
        sys.exit(__doc__.split("\n\n")[1])


if __name__ == "__main__":
    main(sys.argv[1:])
