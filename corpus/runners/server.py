"""A name server that hands out the messages of cases below a signed root of its own, on addresses of a network namespace.

A case's zone is delegated by the root with the case's DS set. It answers the case's question, its DNSKEY question and those of its
`more`, with their octets; to all else it says REFUSED. Zones below delegations are unsigned, unless `more` has their messages.
"""

from __future__ import annotations

import asyncio
import struct
from collections.abc import Iterable

from maker import wire
from maker.keys import key
from maker.wire import A, DNSKEY, DS, NS, SOA, Name, Rrset
from maker.zone import Keys, Shown, Zone, honest

from .outcome import Case

ROOT, CASES, BELOW, VALIDATOR = "198.51.100.1", "198.51.100.3", "198.51.100.4", "198.51.100.21"
# Where the zones of the group `servers` say that their servers are: validators ask there, once they have seen such an answer.
THEIRS = ["192.0.2.1", "192.0.2.2"]
# A forwarder asks here: the root's answers and those of the zones, as a resolver gives them that does not validate.
RECURSIVE = "198.51.100.5"
ADDRESSES = [ROOT, CASES, BELOW, RECURSIVE, *THEIRS]
REFUSED, TRUNCATED, LIMIT, OPT = 5, 0x0200, 1232, 41
SERVER = wire.name_of("server.root")
ROOT_KEY = key("C root")
DAY = 86400


def octets_of(address: str) -> bytes:
    return bytes(map(int, address.split(".")))


def read_name(octets: bytes, at: int) -> tuple[Name, int]:
    labels = []
    while octets[at]:
        labels.append(octets[at + 1 : at + 1 + octets[at]])
        at += 1 + octets[at]
    return tuple(labels), at + 1


class Root(Zone):
    """The root: delegations of the cases' zones, each with its DS set."""

    def __init__(self, cases: Iterable[Case], moment: int, address: str = ROOT, below: str = CASES) -> None:
        super().__init__((), "", keys=Keys([ROOT_KEY], [ROOT_KEY], [ROOT_KEY], [ROOT_KEY]))
        self.times = moment - 20 * DAY, moment + 20 * DAY
        self.sets[()][NS] = (wire.wire(SERVER),)
        self.below = below
        self.sets[SERVER] = {A: (octets_of(address),)}
        self.sets[wire.name_of("cases.root")] = {A: (octets_of(below),)}
        for case in cases:
            apex = read_name(bytes.fromhex(case["apex"]), 0)[0]
            self.sets[apex] = {NS: (wire.wire(wire.name_of("cases.root")),)}
            if case["ds"]:
                self.sets[apex][DS] = tuple(map(bytes.fromhex, case["ds"]))
        self.made: dict[tuple[Name, int], bytes] = {}

    def has(self, name: Name, rtype: int) -> bool:
        """Whether the answer is the root's own, and no zone's below it."""
        cut = self.cut_above(name)
        return cut is None or (wire.lower(cut) == wire.lower(name) and rtype == DS)

    def answer(self, name: Name, rtype: int) -> bytes:
        at = wire.lower(name), rtype
        if at not in self.made:
            self.made[at] = self.made_answer(name, rtype)
        return self.made[at]

    def made_answer(self, name: Name, rtype: int, compresses: bool = True) -> bytes:
        shown = honest(self, name, rtype)
        glue = [Rrset(wire.name_of("cases.root"), A, 3600, (octets_of(self.below),))] if not shown.is_authoritative else []
        flags = wire.QR | shown.rcode | (wire.AA if shown.is_authoritative else 0)
        return wire.message(name, rtype, [shown.answer, shown.authority, glue], flags, compresses)


class Zones:
    """The cases' zones, and those below their delegations."""

    def __init__(self, cases: Iterable[Case]) -> None:
        self.messages: dict[tuple[Name, int], bytes] = {}
        self.below: dict[tuple[Name, int], bytes] = {}
        for case in cases:
            apex = read_name(bytes.fromhex(case["apex"]), 0)[0]
            name = read_name(bytes.fromhex(case["question"]["name"]), 0)[0]
            for more in [*case.get("more", []), *case.get("before", [])]:
                of = wire.lower(read_name(bytes.fromhex(more["name"]), 0)[0]), more["type"]
                self.messages[of] = self.below[of] = bytes.fromhex(more["message"])
            self.messages[wire.lower(apex), DNSKEY] = with_glue(bytes.fromhex(case["dnskey"]))
            self.messages[wire.lower(name), case["question"]["type"]] = with_glue(bytes.fromhex(case["answer"]))

    def answer(self, name: Name, rtype: int) -> bytes | None:
        return self.messages.get((wire.lower(name), rtype))

    def answer_below(self, name: Name, rtype: int) -> bytes:
        """What an unsigned zone answers: one record of any type that data are at hand for."""
        found = self.below.get((wire.lower(name), rtype))
        if found:
            return found
        data = {A: bytes([192, 0, 2, 200]), wire.TXT: b"\5below", wire.MX: b"\0\1\0"}.get(rtype)
        soa = Rrset(name, SOA, 60, (b"\0\0" + bytes(20),))
        shown = Shown([Rrset(name, rtype, 60, (data,))], []) if data else Shown([], [soa])
        return shown.octets(name, rtype)


def records_of(message: bytes) -> list[tuple[int, int, int, int]]:
    """Where records begin, where their data begin and end, and their types."""
    _name, at = read_name(message, 12)
    at, found = at + 4, []
    for _ in range(sum(struct.unpack(">3H", message[6:12]))):
        begin, at = at, behind_name(message, at)
        rtype, _class, _ttl, length = struct.unpack(">HHIH", message[at : at + 10])
        found.append((begin, at + 10, at + 10 + length, rtype))
        at += 10 + length
    return found


def behind_name(message: bytes, at: int) -> int:
    while message[at] and message[at] < 0xC0:
        at += 1 + message[at]
    return at + (2 if message[at] else 1)


def with_glue(message: bytes) -> bytes:
    """As a message is handed out: without the record of EDNS that it came with; a referral with the address of the servers that it
    names, which are in the zone below."""
    for begin, _data, end, rtype in records_of(message):
        if rtype == OPT:
            count = int.from_bytes(message[10:12], "big") - 1
            message = message[:10] + struct.pack(">H", count) + message[12:begin] + message[end:]
    if message[2] & 4 or message[6:8] != b"\0\0":
        return message
    count = int.from_bytes(message[10:12], "big")
    # A target's pointers lead to places in the message, so that they may be copied.
    glue = [message[data:end] + struct.pack(">HHIH", A, 1, 3600, 4) + octets_of(BELOW) for _begin, data, end, rtype in records_of(message) if rtype == NS]
    return message[:10] + struct.pack(">H", count + len(glue)) + message[12:] + b"".join(glue)


class Question:
    """A question in octets, as a resolver asks it."""

    def __init__(self, octets: bytes) -> None:
        self.octets = octets
        self.number, self.flags, _count, _an, _ns, additional = struct.unpack(">6H", octets[:12])
        self.name, self.end = read_name(octets, 12)
        self.rtype = int.from_bytes(octets[self.end : self.end + 2], "big")
        self.end += 4
        self.has_edns = additional > 0
        self.size = int.from_bytes(octets[self.end + 3 : self.end + 5], "big") if self.has_edns else 512

    def head(self, flags: int, counts: tuple[int, int, int]) -> bytes:
        return struct.pack(">6H", self.number, flags, 1, *counts) + self.octets[12 : self.end]


class Server:
    """Answers at one address."""

    def __init__(self, address: str, root: Root, zones: Zones) -> None:
        self.address, self.root, self.zones = address, root, zones

    def found(self, question: Question) -> bytes | None:
        if self.address == ROOT:
            return self.root.answer(question.name, question.rtype)
        if self.address == BELOW:
            return self.zones.answer_below(question.name, question.rtype)
        found = self.zones.answer(question.name, question.rtype)
        if self.address != RECURSIVE:
            return found
        found = self.root.answer(question.name, question.rtype) if found is None and self.root.has(question.name, question.rtype) else found
        return found and found[:2] + bytes([found[2] & ~4, found[3] | 0x80]) + found[4:]

    def answered(self, octets: bytes, limit: int | None = None) -> bytes:
        question = Question(octets)
        message = self.found(question)
        edns = b"\0" + struct.pack(">HHIH", OPT, LIMIT, 0x8000, 0) if question.has_edns else b""
        kept = question.flags & 0x0110
        if message is None:
            return question.head(wire.QR | REFUSED | kept, (0, 0, bool(edns))) + edns
        flags, _questions, *counts = struct.unpack(">5H", message[2:12])
        of = counts[0], counts[1], counts[2] + bool(edns)
        whole = question.head(flags | kept, of) + message[question.end :] + edns
        if limit is not None and len(whole) > min(max(question.size, 512), limit):
            return question.head(flags & 0xFFF0 | kept | TRUNCATED, (0, 0, bool(edns))) + edns
        return whole


class Datagrams(asyncio.DatagramProtocol):
    def __init__(self, server: Server) -> None:
        self.server = server

    def connection_made(self, transport: asyncio.BaseTransport) -> None:
        self.transport = transport

    def datagram_received(self, data: bytes, peer: object) -> None:
        self.transport.sendto(self.server.answered(data, LIMIT), peer)  # type: ignore[attr-defined]


async def stream(server: Server, reader: asyncio.StreamReader, writer: asyncio.StreamWriter) -> None:
    try:
        while True:
            length = int.from_bytes(await reader.readexactly(2), "big")
            answer = server.answered(await reader.readexactly(length))
            writer.write(len(answer).to_bytes(2, "big") + answer)
            await writer.drain()
    except (asyncio.IncompleteReadError, asyncio.CancelledError, ConnectionError):
        pass
    finally:
        writer.close()


class Serving:
    """The servers of some cases, for the time of a run."""

    def __init__(self, cases: list[Case], moment: int) -> None:
        self.root, self.zones = Root(cases, moment), Zones(cases)
        self.open: list[asyncio.BaseTransport | asyncio.AbstractServer] = []

    async def __aenter__(self) -> Serving:
        loop = asyncio.get_running_loop()
        for address in ADDRESSES:
            server = Server(address, self.root, self.zones)
            transport, _ = await loop.create_datagram_endpoint(lambda server=server: Datagrams(server), local_addr=(address, 53))
            self.open.append(transport)
            self.open.append(await asyncio.start_server(lambda *pair, server=server: stream(server, *pair), address, 53))
        return self

    async def __aexit__(self, *_error: object) -> None:
        for it in self.open:
            it.close()
        # Sockets close at the loop's next turn.
        await asyncio.sleep(0.2)
