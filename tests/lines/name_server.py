"""What a server of the zone `example` answers. A signature is SHA-256 of the octets that it is made over.

- `soa OWNER SERIAL`, `ns OWNER TTL NAME`, `rr OWNER TTL TYPE OCTETS`: records of the zone; `publish LIFE`: publishes them with a chain
  of names, signatures living so many seconds; `publish LIFE ITERATIONS SALT`: with a chain of hashes, with opt-out where `opt-out`
  stands behind the salt.
- `key OCTETS`: adds a key of algorithm 13 that signs keys and zone.
- `ask TRANSPORT BACKDATE SECONDS OCTETS`: asks the server at a time of its clock, of which answers are so many seconds behind, by `tcp`
  or by a datagram of so many octets at most. Printed are the number of signatures that it asks for, and its reply, or `nothing`. It
  takes 1232 octets by UDP.
- `query SIZE OCTETS`: what a client sends to a server of the zone `invalid` that takes so many octets by UDP. Printed are `id ID opcode
  OPCODE`, `rd` where it is set, `NAME TYPE CLASS` with the octets of the name as spelled, and `edns VERSION` where there is an OPT
  record, with `do`, as the response has them; or, where the query is refused, the octets of the reply, or `nothing`. What is stored has
  `cd` too, and behind the version how many octets the client takes: neither shows in such a response.
"""

from __future__ import annotations

import base64
import hashlib
import re
from collections.abc import Iterator

from library import ZONE_NO_RESPONSE, ZONE_RESPONSE, ZONE_SIGN, Library, Reply, Zone, behind_length, entries
from words import name, name_and_rest

UDP_SIZE, MOST_ITERATIONS = 1232, 100
# Refresh to minimum of each SOA record, and its TTL.
SOA_TIMES, SOA_TTL = (3600, 600, 86400, 300), 3600
# Of a header: the bit of recursion, and the code REFUSED.
RD, REFUSED = 0x0100, 5
# The zone that is asked for other names, its key, and when.
ELSEWHERE, KEY, NOW = "invalid", "0102", 1000000000
UNSEEN = re.compile(r" cd(?= )|(?<=edns \d) \d+")


def record_of(word: str, words: list[str]) -> str:
    """The line of a journal for a record."""
    match word, words:
        case "soa", [owner, serial]:
            numbers = b"".join(int(it).to_bytes(4, "big") for it in (serial, *SOA_TIMES))
            return f"rr {owner} {SOA_TTL} 1 6 {(name(owner) * 2 + numbers).hex()}"
        case "ns", [owner, ttl, server]:
            return f"rr {owner} {ttl} 1 2 {name(server).hex()}"
        case _, [owner, ttl, rtype, octets]:
            return f"rr {owner} {ttl} 1 {rtype} {octets}"
    raise ValueError(word)


def zone_of(words: list[str], apex: str = "example") -> str:
    """The line of a journal for a zone."""
    life, *chain = words
    if not chain:
        return f"zone {apex} nsec {MOST_ITERATIONS} {life}"
    iterations, salt, *opt_out = chain
    return f"zone {apex} nsec3{'optout' if opt_out else ''} {iterations} {salt} {MOST_ITERATIONS} {life}"


def keys_of(octets: str) -> list[str]:
    key = base64.b64encode(bytes.fromhex(octets)).decode()
    return [f"key csk key 13 {key} 0", "start algorithm-roll - key 0"]


def signed(asked: bytes) -> tuple[bytes, int]:
    """The entries of the signatures that are asked for, once they are made, and how many they are."""
    made = [behind_length(it.dnskey) + behind_length(it.octets, 4) + behind_length(sha256(it.octets)) for it in entries(asked, gap=0)]
    return b"".join(made), len(made)


def sha256(octets: bytes) -> bytes:
    return hashlib.sha256(octets).digest()


def opened(library: Library, journal: list[str]) -> Zone:
    return Zone(library, "".join(f"{it}\n" for it in journal).encode())


class Server:
    """The zone that the lines make, and one that is asked for other names."""

    def __init__(self, library: Library):
        self.library = library
        self.records: list[str] = []
        self.journal: list[str] = []
        self.zone: Zone | None = None
        self.elsewhere = opened(library, [zone_of(["604800"], ELSEWHERE), record_of("soa", [ELSEWHERE, "1"]), *keys_of(KEY)])

    def take(self, word: str, words: list[str]):
        match word:
            case "publish":
                self.journal, self.records = [zone_of(words), *self.records], []
            case "key":
                self.close()
                self.zone = opened(self.library, [*self.journal, *keys_of(*words)])
            case _:
                self.records.append(record_of(word, words))

    def close(self):
        if self.zone:
            self.zone.close()

    def respond(self, octets: bytes, **terms) -> tuple[int, Reply]:
        """How many signatures are asked for, and the reply with these."""
        reply = self.zone.respond(request=octets, **terms)
        if reply.code != ZONE_SIGN:
            return 0, reply
        made, count = signed(reply.octets)
        return count, self.zone.respond(request=octets, made=made, **terms)

    def ask(self, transport: str, backdate: str, now: str, octets: str) -> str:
        carried = {"stream": 1} if transport == "tcp" else {"limit": int(transport)}
        terms = {"now": int(now), "backdate": int(backdate), "udp_size": UDP_SIZE} | carried
        count, reply = self.respond(bytes.fromhex(octets), **terms)
        return f"{count} {octets_of(reply)}"

    def query(self, size: str, octets: str) -> str:
        request = bytes.fromhex(octets if octets != "-" else "")
        reply = self.elsewhere.respond(request=request, now=NOW, limit=UDP_SIZE, udp_size=int(size))
        if reply.code == ZONE_RESPONSE and int.from_bytes(reply.octets[2:4], "big") & 15 == REFUSED:
            return read(reply.octets)
        return octets_of(reply)


def octets_of(reply: Reply) -> str:
    if reply.code == ZONE_NO_RESPONSE:
        return "nothing"
    return reply.octets.hex() if reply.code == ZONE_RESPONSE else f"reply {reply.code}"


def read(response: bytes) -> str:
    """What a response says of its query."""
    flags = int.from_bytes(response[2:4], "big")
    words = [f"id {int.from_bytes(response[:2], 'big')} opcode {flags >> 11 & 15}"]
    words += ["rd"] * bool(flags & RD)
    qname, rest = name_and_rest(response[12:])
    words += [qname.hex(), str(int.from_bytes(rest[:2], "big")), str(int.from_bytes(rest[2:4], "big"))]
    if int.from_bytes(response[10:12], "big"):
        # The octets of the TTL, behind type and class of the question, and the root's name, type and size of OPT (RFC 6891, 6.1.2).
        version, bits = rest[10], int.from_bytes(rest[11:13], "big")
        words += [f"edns {version}"] + ["do"] * bool(bits & 0x8000)
    return " ".join(words)


def printed(library: Library, lines: list[str]) -> Iterator[str]:
    """What is printed of the lines."""
    server = Server(library)
    for line in lines:
        yield line
        word, *words = line.split(" ")
        match word:
            case "" | "#":
                pass
            case "ask":
                yield server.ask(*words)
            case "query":
                yield server.query(*words)
            case _:
                server.take(word, words)
                yield "ok"
    server.close()
    server.elsewhere.close()


def compared(line: str) -> str:
    """What is compared of a line that is expected."""
    return UNSEEN.sub("", line)
