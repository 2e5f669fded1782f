"""Servers between the forwarder and a resolver, which say what they make of its answers."""
import random
import socket
import struct
import threading
import time

import dns.flags
import dns.message
import dns.rdatatype

PATIENCE = 10
FORGED = b"\xcb\x00\x71\x63"


def exchanged(server, query):
    """What a server answers by UDP, or by TCP where that is cut off."""
    with socket.socket(socket.AF_INET, socket.SOCK_DGRAM) as it:
        it.settimeout(PATIENCE)
        it.connect((server, 53))
        it.send(query)
        answer = it.recv(65535)
    if len(answer) > 2 and answer[2] & 2:
        with socket.create_connection((server, 53), PATIENCE) as it:
            it.sendall(struct.pack(">H", len(query)) + query)
            answer = taken(it)
    return answer


def taken(connection):
    """A message behind its length."""
    octets = b""
    while len(octets) < 2 or len(octets) < 2 + int.from_bytes(octets[:2], "big"):
        more = connection.recv(65535)
        if not more:
            raise ConnectionError("closed")
        octets += more
    return octets[2:]


def addresses_forged(message, _drawn):
    """Other addresses in the place of those that the zone has."""
    for rrset in message.answer:
        if rrset.rdtype == dns.rdatatype.A:
            rrset.clear()
            rrset.add(dns.rdata.from_wire(1, 1, FORGED, 0, 4))
    return message


def signatures_stripped(message, _drawn):
    for section in (message.answer, message.authority):
        section[:] = [it for it in section if it.rdtype != dns.rdatatype.RRSIG]
    return message


def denied(message, _drawn):
    """NXDOMAIN, with whatever denial the message has."""
    message.answer.clear()
    message.set_rcode(3)
    return message


def proofs_dropped(message, drawn):
    """Denial records that are left out."""
    denials = (dns.rdatatype.NSEC, dns.rdatatype.NSEC3)
    message.authority[:] = [it for it in message.authority if it.rdtype not in denials or drawn.random() < 0.5]
    return message


def aliases_forged(message, _drawn):
    """An alias that nobody signed in front of the answer."""
    if message.question and message.question[0].rdtype == 1:
        name = message.question[0].name
        message.answer[:] = [dns.rrset.from_text(name, 300, "IN", "CNAME", "www.plain.test."),
                             dns.rrset.from_text("www.plain.test.", 300, "IN", "A", "203.0.113.99")]
    return message


def said_secure(message, _drawn):
    """A forged answer with AD, as though it had been checked."""
    message = addresses_forged(message, None)
    message.flags |= dns.flags.AD
    return signatures_stripped(message, None)


LIES = [addresses_forged, signatures_stripped, denied, proofs_dropped, aliases_forged, said_secure]


class Between:
    """A server at an address, over a resolver. `made` makes what is sent by UDP, and `streamed` by TCP; None sends nothing. If it
    keeps what the resolver says it asks each question once."""

    def __init__(self, address, server, made, streamed=None, keeps=False):
        self.server, self.made, self.streamed = server, made, streamed or made
        self.kept = {} if keeps else None
        self.udp = socket.socket(socket.AF_INET, socket.SOCK_DGRAM)
        self.udp.bind((address, 53))
        self.tcp = socket.create_server((address, 53), backlog=64)
        for serve in (self.serve_udp, self.serve_tcp):
            threading.Thread(target=serve, daemon=True).start()

    def exchanged(self, query):
        if self.kept is None:
            return exchanged(self.server, query)
        if query[2:] not in self.kept:
            self.kept[query[2:]] = exchanged(self.server, query)[2:]
        return query[:2] + self.kept[query[2:]]

    def answer(self, query, made):
        try:
            return made(self.exchanged(query))
        except (OSError, ValueError):
            return None

    def serve_udp(self):
        while True:
            query, asker = self.udp.recvfrom(65535)
            threading.Thread(target=self.send, args=(query, asker), daemon=True).start()

    def send(self, query, asker):
        sent = self.answer(query, self.made)
        if sent:
            self.udp.sendto(sent, asker)

    def serve_tcp(self):
        while True:
            connection, _asker = self.tcp.accept()
            threading.Thread(target=self.send_by_stream, args=(connection,), daemon=True).start()

    def send_by_stream(self, connection):
        with connection:
            try:
                sent = self.answer(taken(connection), self.streamed)
                if sent:
                    connection.sendall(struct.pack(">H", len(sent)) + sent)
            except OSError:
                pass


def liar(seed):
    """Makes lies of answers, of each kind in turn as drawn."""
    drawn = random.Random(seed)

    def made(octets):
        message = drawn.choice(LIES)(dns.message.from_wire(octets), drawn)
        return message.to_wire(max_size=65535)

    return made


def mutated(octets, drawn):
    """Octets with up to eight of them changed, cut off or made longer; an answer keeps its id."""
    changed = bytearray(octets)
    for _ in range(drawn.randrange(1, 9)):
        at = drawn.randrange(2, len(changed)) if len(changed) > 2 else 0
        changed[at] = drawn.choice((0, 1, 0x3F, 0x40, 0x80, 0xC0, 0xFF, drawn.randrange(256), changed[at] ^ 1 << drawn.randrange(8)))
    if drawn.random() < 0.1:
        del changed[drawn.randrange(len(changed)) :]
    if drawn.random() < 0.1:
        changed += bytes(drawn.randrange(64))
    return bytes(changed)


class Mutator:
    """Mutates a share of the answers, and counts them."""

    def __init__(self, seed, share):
        self.drawn, self.share, self.count = random.Random(seed), share, 0

    def __call__(self, octets):
        if self.drawn.random() >= self.share:
            return octets
        self.count += 1
        return mutated(octets, self.drawn)


def cut_off(octets):
    return octets[:2] + bytes([octets[2] | 2]) + octets[3:]


def slow(seconds):
    def made(octets):
        time.sleep(seconds)
        return octets

    return made
