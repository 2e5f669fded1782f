"""A name server on addresses of its own: the root, the parent, and the zones below delegations (see static.py), each on another
address. On one address it answers for all of them, as a server does that forwards, for programs that only validate.

Zones under test have servers of their own, which validators ask by themselves. Where the parent's server has such a zone too, where
stages are mixed, and on the address for all of them, a question's octets are handed to the zone's server, by UDP or TCP as they came,
and its answer's octets handed back. Of BIND's zones it hands out messages that named gave before, to which it adds what a server has
to add, and nothing else: number, question as it was asked, EDNS, addresses of servers (glue), truncation.
"""

import asyncio
import collections
import socket
import struct
import typing

import wire
from runners.programs import by_stream
from served import dotted
from static import Static
from wire import A, DS, NS, OPT, Record
from zones import BELOW, SERVER

ROOT, PARENT = bytes([198, 51, 100, 1]), bytes([198, 51, 100, 2])
FORWARD = bytes([198, 51, 100, 5])
ADDRESSES = [ROOT, PARENT, SERVER, BELOW, FORWARD]
ABOVE = wire.wire("parent")
LIMIT = 1232
# Seconds in which a server has to answer.
PATIENCE = 5


class Relay(typing.NamedTuple):
    """A server at an address, which answers a question."""

    address: bytes

    async def by_datagram(self, octets):
        loop = asyncio.get_running_loop()
        with socket.socket(socket.AF_INET, socket.SOCK_DGRAM) as it:
            it.setblocking(False)
            it.connect((dotted(self.address), 53))
            await loop.sock_sendall(it, octets)
            return await asyncio.wait_for(loop.sock_recv(it, 65535), PATIENCE)

    async def by_stream(self, octets):
        return await by_stream((dotted(self.address), 53), octets)


class Packed(typing.NamedTuple):
    """A message without its head: flags with the RCODE, the counts of the sections, the octets behind the question."""

    flags: int
    counts: tuple
    body: bytes


def packed(message, address_of):
    """A message, in octets, with the addresses of the servers that a referral names (glue)."""
    answer, authority, additional = message.sections
    glue = []
    if not answer:
        for record in authority:
            if record.rtype == NS:
                glue += (Record(record.data, A, record.ttl, it) for it in address_of(record.data.lower()))
    sections = [answer, authority, [*additional, *glue]]
    whole = message._replace(sections=sections)
    return Packed(message.flags, tuple(map(len, sections)), wire.body(whole))


class Missing(Exception):
    """What a zone under test answers is not known yet: `find` answers it, which takes a while."""

    def __init__(self, find):
        self.find = find


class Tree:
    """The root, the parent, and the zones under test with what is below them.

    A zone under test has `apex`, `ds()`, `servers()`, `addresses(target)`, `below()` (zones by their apexes) and `answer(name, rtype)`:
    a message that is packed, a server that answers, or none; it may raise `Missing`. The servers at some addresses may be so many
    seconds late.
    """

    def __init__(self, keys, ttl=3600):
        self.keys, self.ttl, self.cases, self.children = keys, ttl, {}, {}
        self.refused = collections.Counter()
        self.late = {}

    def add(self, case):
        self.cases[case.apex] = case
        self.children.update(case.below())

    def close(self):
        """Makes the parent and the root, once all zones are there."""
        server = wire.wire("ns.parent")
        records = [(ABOVE, NS, server), (server, A, PARENT), (server, A, SERVER)]
        for apex, case in self.cases.items():
            records += [(apex, NS, it) for it in case.servers()]
            records += [(apex, DS, it) for it in case.ds()]
        self.parent = Static(ABOVE, self.keys.by_name["parent"], records, self.ttl)
        root_server = wire.wire("a.root")
        ds = self.keys.by_name["parent"].ds(ABOVE)
        records = [(b"\0", NS, root_server), (root_server, A, ROOT), (ABOVE, NS, server), (ABOVE, DS, ds)]
        self.root = Static(b"\0", self.keys.by_name["root"], records)

    @staticmethod
    def zone_of(name, zones):
        return next((zones[above] for above in wire.parents(name) if above in zones), None)

    def at(self, address, name, rtype):
        """What the server at an address answers."""
        above = name[1 + name[0] :] if rtype == DS and name != b"\0" else name
        if address == ROOT:
            return self.packed(self.root.answer(name, rtype))
        if address == BELOW:
            return self.packed_of(self.zone_of(name, self.children), name, rtype)
        child = self.zone_of(above, self.children)
        if address == FORWARD and child:
            return self.packed(child.answer(name, rtype))
        case = self.zone_of(above, self.cases)
        if case:
            return self.of_case(case, name, rtype)
        if wire.is_below(above, ABOVE):
            return self.of_parent(name, rtype)
        return self.packed(self.root.answer(name, rtype)) if address == FORWARD else None

    def packed_of(self, zone, name, rtype):
        return zone and self.packed(zone.answer(name, rtype))

    def of_case(self, case, name, rtype):
        answer = case.answer(name, rtype)
        if answer is None:
            self.refused[wire.NAMES.get(rtype, str(rtype))] += 1
        return answer

    def of_parent(self, name, rtype):
        case = self.zone_of(name, self.cases)
        if case:
            self.parent.replace(case.apex, DS, case.ds())
        return self.packed(self.parent.answer(name, rtype))

    def packed(self, message):
        return packed(message, self.addresses)

    def addresses(self, target):
        """The addresses of a server."""
        known = {wire.wire("ns.parent"): [PARENT, SERVER], wire.wire("a.root"): [ROOT]}
        case = self.zone_of(target, self.cases)
        return known.get(target) or (case.addresses(target) if case else [])


class Question:
    """A question in octets."""

    def __init__(self, octets):
        self.octets = octets
        self.number, self.flags, questions, _answers, _authority, additional = struct.unpack(">6H", octets[:12])
        if questions != 1 or self.flags & wire.QR:
            raise ValueError("not a question")
        self.name, end = wire.read_name(octets, 12)
        self.rtype = int.from_bytes(octets[end : end + 2], "big")
        self.end = end + 4
        # The record of EDNS is the only additional one.
        self.has_edns = additional > 0
        self.size = int.from_bytes(octets[end + 7 : end + 9], "big") if self.has_edns else 512


class Server:
    """Answers questions about a tree at one address."""

    def __init__(self, tree, address):
        self.tree, self.address, self.finding = tree, address, {}

    async def answered(self, octets, limit=None):
        """The answer to a question in octets, cut off behind a limit where it came by a datagram."""
        question = Question(octets)
        if self.address in self.tree.late:
            await asyncio.sleep(self.tree.late[self.address])
        answer = await self.found(question)
        if isinstance(answer, Relay):
            return await (answer.by_stream(octets) if limit is None else answer.by_datagram(octets))
        return self.whole(question, answer, limit)

    def whole(self, question, answer, limit):
        flags = question.flags & (wire.RD | wire.CD) | (wire.RA if self.address == FORWARD else 0)
        edns = b"\0" + struct.pack(">HHIH", OPT, LIMIT, 0x8000, 0) if question.has_edns else b""
        if answer is None:
            return self.head(question, wire.QR | wire.REFUSED | flags, (0, 0, bool(edns))) + edns
        flags |= answer.flags
        counts = (*answer.counts[:2], answer.counts[2] + bool(edns))
        whole = self.head(question, flags, counts) + answer.body + edns
        if limit is not None and len(whole) > min(max(question.size, 512), limit):
            return self.head(question, flags | wire.TC, (0, 0, bool(edns))) + edns
        return whole

    async def found(self, question):
        """What the tree says, when it knows it. What many ask for is found once."""
        asked = question.name.lower(), question.rtype
        try:
            return self.tree.at(self.address, *asked)
        except Missing as missing:
            if asked not in self.finding:
                self.finding[asked] = asyncio.get_running_loop().run_in_executor(None, missing.find)
                self.finding[asked].add_done_callback(lambda _it: self.finding.pop(asked))
            return await self.finding[asked]

    @staticmethod
    def head(question, flags, counts):
        return struct.pack(">6H", question.number, flags, 1, *counts) + question.octets[12 : question.end]


class Datagrams(asyncio.DatagramProtocol):
    def __init__(self, server):
        self.server = server
        self.tasks = set()

    def connection_made(self, transport):
        self.transport = transport

    def datagram_received(self, data, peer):
        task = asyncio.get_running_loop().create_task(self.answer(data, peer))
        self.tasks.add(task)
        task.add_done_callback(self.tasks.discard)

    async def answer(self, data, peer):
        try:
            self.transport.sendto(await self.server.answered(data, LIMIT), peer)
        except (asyncio.TimeoutError, ConnectionError):
            pass


async def stream(server, reader, writer):
    """Answers the questions of a connection."""
    try:
        while True:
            length = int.from_bytes(await reader.readexactly(2), "big")
            answer = await server.answered(await reader.readexactly(length))
            writer.write(len(answer).to_bytes(2, "big") + answer)
            await writer.drain()
    except (asyncio.IncompleteReadError, asyncio.CancelledError, asyncio.TimeoutError, ConnectionError):
        pass
    finally:
        writer.close()


async def serve(tree, is_shared=False):
    """Answers at all addresses, for ever."""
    loop = asyncio.get_running_loop()
    for address in ADDRESSES:
        server = Server(tree, address)
        where = dotted(address), 53
        how = {"reuse_port": is_shared}
        await loop.create_datagram_endpoint(lambda server=server: Datagrams(server), local_addr=where, **how)
        await asyncio.start_server(lambda *pair, server=server: stream(server, *pair), *where, **how)
