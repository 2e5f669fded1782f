"""The zone that is signed, the questions that it is asked, and what it says of each."""

import ipaddress

from messages import wire

TTL = 4
# Owners below the apex, types and data. There are two wildcards, two delegations, one of them signed, and names without records.
RECORDS = """
@         SOA   ns1 hostmaster 1 3600 900 86400 4
@         NS    ns1
@         NS    ns2
@         MX    10 mail
ns1       A     192.0.2.1
ns2       AAAA  2001:db8::2
mail      A     192.0.2.3
www       A     192.0.2.9
www       A     192.0.2.10
*.w       A     192.0.2.12
*.w       TXT   star
sub.w     A     192.0.2.13
*.mx      MX    20 mail
a.b.ent   A     192.0.2.14
plain     NS    ns.plain
ns.plain  A     192.0.2.53
secure    NS    ns.secure
secure    DS    12345 13 2 00112233445566778899AABBCCDDEEFF00112233445566778899AABBCCDDEEFF
ns.secure A     192.0.2.54
"""
# A question; what the zone says of it, and behind a stroke what it says where its chain has opt-out and that differs. The records
# of a wildcard are those of the owner that is named; a delegation has its name.
QUESTIONS = """
@ SOA               RECORDS
@ NS                RECORDS
ns2 AAAA            RECORDS
www A               RECORDS
www TXT             NODATA
ent A               NODATA
b.ent TXT           NODATA
a.b.ent A           RECORDS
nothere A           NXDOMAIN | OPTOUT
below.www A         NXDOMAIN | OPTOUT
x.b.ent A           NXDOMAIN | OPTOUT
one.w A             WILDCARD *.w | OPTOUT
two.one.w TXT       WILDCARD *.w | OPTOUT
one.w MX            WILDCARD_NODATA | OPTOUT
*.w TXT             RECORDS
sub.w TXT           NODATA
below.sub.w A       NXDOMAIN | OPTOUT
plain A             DELEGATED plain | OPTOUT
plain DS            NODATA | OPTOUT
host.plain A        DELEGATED plain | OPTOUT
secure DS           RECORDS
"""


def below(owner, apex):
    return apex if owner == "@" else f"{owner}.{apex}"


def rows(text):
    return [line.split(None, 2) for line in text.strip().splitlines()]


def file_of(apex):
    """The zone as a master file."""
    lines = [f"$ORIGIN {apex}.", f"$TTL {TTL}"]
    return "\n".join(lines + [f"{owner} IN {rtype} {text}" for owner, rtype, text in rows(RECORDS)]) + "\n"


def octets(rtype, text, apex):
    """The data of a record, of an SOA record those without its serial number."""
    words = text.split()
    match rtype:
        case "A" | "AAAA":
            return ipaddress.ip_address(text).packed
        case "NS":
            return wire(below(text, apex))
        case "MX":
            return int(words[0]).to_bytes(2, "big") + wire(below(words[1], apex))
        case "TXT":
            return bytes([len(text)]) + text.encode()
        case "DS":
            tag, algorithm, kind = map(int, words[:3])
            return tag.to_bytes(2, "big") + bytes([algorithm, kind]) + bytes.fromhex(words[3])
        case "SOA":
            names = wire(below(words[0], apex)) + wire(below(words[1], apex))
            return names + b"".join(int(word).to_bytes(4, "big") for word in words[3:])


class Question:
    """A question of a zone, and what the zone says of it."""

    def __init__(self, row, apex, opt_out):
        owner, self.rtype, says = row
        self.name = below(owner, apex)
        said = says.split("|")[-1 if opt_out else 0].split()
        self.verdict = said[0]
        of = said[1] if len(said) > 1 else owner
        has_data = self.verdict in ("RECORDS", "WILDCARD")
        self.texts = [text for it, rtype, text in rows(RECORDS) if has_data and (it, rtype) == (of, self.rtype)]
        self.data = sorted(octets(self.rtype, text, apex) for text in self.texts)
        if self.verdict == "DELEGATED":
            self.data = [wire(below(of, apex))]

    def is_answered_by(self, verdict, data):
        """Whether a verdict with its data is the zone's; the serial number of its SOA record changes as it is signed."""
        if self.rtype == "SOA":
            data = [it[:-20] + it[-16:] for it in data]
        return (verdict, data) == (self.verdict, self.data)


def questions(apex, opt_out):
    return [Question(row, apex, opt_out) for row in rows(QUESTIONS)]
