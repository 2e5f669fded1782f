"""Mutated queries, connections that are slow, cut, unread and too many, and more datagrams than a rate allows."""

import random
import select
import socket
import struct
import subprocess
import time

from served import PORT, cargo, dig, fail, logged


def queries():
    """Queries as clients send them."""
    made = []
    for name, rtype in ((b"\3www\7example\0", 1), (b"\4none\7example\0", 1), (b"\7example\0", 48), (b"\1a\4wild\7example\0", 16)):
        head = struct.pack(">HHHHHH", 4660, 0x100, 1, 0, 0, 1)
        made.append(head + name + struct.pack(">HH", rtype, 1) + b"\0" + struct.pack(">HHIH", 41, 1232, 0x8000, 0))
        made.append(head[:10] + b"\0\0" + name + struct.pack(">HH", rtype, 1))
    return made


def mutated(rng, query):
    octets = bytearray(query)
    for _ in range(rng.randint(1, 4)):
        at, kind = rng.randrange(len(octets)) if octets else 0, rng.randrange(5)
        if kind == 0 and octets:
            octets[at] ^= 1 << rng.randrange(8)
        elif kind == 1 and octets:
            octets[at] = rng.randrange(256)
        elif kind == 2:
            octets[at:at] = bytes(rng.randrange(256) for _ in range(rng.randrange(1, 12)))
        elif kind == 3:
            del octets[at : at + rng.randrange(1, 12)]
        else:
            octets += octets[: rng.randrange(40)]
    return bytes(octets)


def passed_name(octets, at):
    """Where a name ends that begins here."""
    while True:
        head = octets[at]
        if head >= 192:
            return at + 2
        if head > 63:
            raise IndexError
        at += 1 + head
        if head == 0:
            return at


def is_message(octets):
    """Whether octets are a reply with all records that its header counts, and nothing behind them."""
    if len(octets) < 12 or not octets[2] & 0x80:
        return False
    counts = struct.unpack(">HHHH", octets[4:12])
    at = 12
    try:
        for _ in range(counts[0]):
            at = passed_name(octets, at) + 4
        for _ in range(sum(counts[1:])):
            at = passed_name(octets, at)
            at += 10 + struct.unpack(">H", octets[at + 8 : at + 10])[0]
    except (IndexError, struct.error):
        return False
    return at == len(octets)


def check_mutated(server, count):
    rng, originals, replies = random.Random(7), queries(), 0
    with socket.socket(socket.AF_INET, socket.SOCK_DGRAM) as it:
        it.connect(("127.0.0.1", PORT))
        it.settimeout(5)
        for begin in range(0, count, 32):
            for _ in range(min(32, count - begin)):
                it.send(mutated(rng, rng.choice(originals))[:60000])
            it.send(b"\xff\xff" + originals[0][2:])  # answered last
            while True:
                octets = it.recv(65535)
                replies += 1
                if not is_message(octets):
                    fail("no message:", octets.hex())
                if octets[:2] == b"\xff\xff":
                    break
            if not server.is_up():
                fail("the server ended:", server.log().read_text()[-4000:])
    print(f"{count} mutated queries, {replies} replies, each a message")


def check_in_process(server, program, count):
    """Mutated queries that the code of examples/server gets without sockets, on the folder of a server that does not run."""
    server.stop()
    ran = subprocess.run([program, server.folder, str(count), "1"], capture_output=True, text=True)
    if ran.returncode != 0:
        fail(ran.stdout, ran.stderr[-4000:])
    print(f"in a process without sockets, {ran.stdout.strip()}")
    server.start()


def check_serve_in_process(count):
    """Mutated queries that the code of zermuita serve gets without sockets, by a test of its own."""
    ran = cargo(["test", "mutated", "--", "--nocapture"], env={"ZERMUITA_MUTATED": str(count)}, capture_output=True, text=True)
    said = [it for it in ran.stdout.splitlines() if "mutated queries" in it]
    if ran.returncode != 0 or not said:
        fail(ran.stdout[-4000:], ran.stderr[-4000:])
    print(f"in a process without sockets, {said[0]}")


def connected():
    it = socket.create_connection(("127.0.0.1", PORT), timeout=30)
    it.setsockopt(socket.IPPROTO_TCP, socket.TCP_NODELAY, 1)
    return it


def framed(query):
    return struct.pack(">H", len(query)) + query


def read_reply(it):
    """The next reply of a connection; nothing where it is closed."""
    octets = b""
    while len(octets) < 2 or len(octets) < 2 + struct.unpack(">H", octets[:2])[0]:
        more = it.recv(2 + struct.unpack(">H", octets[:2])[0] - len(octets) if len(octets) >= 2 else 2 - len(octets))
        if not more:
            return None
        octets += more
    if not is_message(octets[2:]):
        fail("no message by TCP:", octets.hex())
    return octets[2:]


def is_closed(it, seconds):
    """Whether the other side closes a connection within so many seconds. What comes is read."""
    end = time.monotonic() + seconds
    while time.monotonic() < end:
        try:
            if select.select([it], [], [], 0.2)[0] and not it.recv(65536):
                return True
        except ConnectionError:
            return True
    return False


def check_streams(server, count):
    """Connections that are whole, slow, cut, never read, and too many."""
    check_whole_streams()
    check_cut_streams(count)
    check_held_streams()
    check_many_streams(server)
    print(f"50 queries by TCP together, one octet by octet, {count} mutated or cut; slow, unread and too many connections are closed")


def check_whole_streams():
    """Queries that come together, and octet by octet."""
    query = queries()[0]
    with connected() as it:
        numbered = [struct.pack(">H", i) + query[2:] for i in range(50)]
        it.sendall(b"".join(map(framed, numbered)))
        if [read_reply(it)[:2] for _ in numbered] != [each[:2] for each in numbered]:
            fail("queries that come together are not answered in their order")
        for octet in framed(query):
            it.sendall(bytes([octet]))
            time.sleep(0.002)
        if read_reply(it)[:2] != query[:2]:
            fail("a query octet by octet is not answered")


def check_cut_streams(count):
    """Mutated queries, half of them cut."""
    rng = random.Random(9)
    for _ in range(count):
        with connected() as it:
            octets = framed(mutated(rng, rng.choice(queries())))
            it.sendall(octets[: rng.randrange(len(octets) + 1)] if rng.randrange(2) else octets)
            it.shutdown(socket.SHUT_WR)
            while read_reply(it) is not None:
                pass


def check_held_streams():
    """A connection that is slow, and one that is not read, beside which others are answered."""
    with connected() as slow, connected() as deaf:
        slow.sendall(framed(queries()[0])[:10])
        deaf.setsockopt(socket.SOL_SOCKET, socket.SO_RCVBUF, 4096)
        deaf.setblocking(False)
        begin, is_over, dots = time.monotonic(), False, 0
        while time.monotonic() < begin + 120 and not is_over:
            try:
                while time.monotonic() < begin + 120:
                    deaf.send(framed(queries()[2]) * 64)
            except BlockingIOError:
                pass
            except ConnectionError:
                is_over = True
            if time.monotonic() < begin + 9 and time.monotonic() - begin > dots:
                slow.sendall(b"\0")
                dots += 1
            if "status: NOERROR" not in dig("www.example.", "A", "+tcp"):
                fail("nobody is answered beside a connection that is not read")
            time.sleep(0.1)
        if not is_over or not is_closed(slow, 12):
            fail("a slow connection, or one that is not read, stays open")


def check_many_streams(server):
    """The 17th connection of a network is closed, which the log tells."""
    many = [connected() for _ in range(17)]
    closed = [it for it in many if is_closed(it, 0.3)]
    if len(closed) != 1:
        fail("of 17 connections these are closed:", len(closed))
    if not any(it["event"] == "failure" and it["what"] == "connection" and it["from"] == "127.0.0.1" for it in logged(server)):
        fail("the log does not tell the connection that was refused")
    for it in many:
        it.close()
    time.sleep(0.5)
    if "status: NOERROR" not in dig("www.example.", "A", "+tcp"):
        fail("no connection is taken behind many")


def check_rate(server):
    """Above 20 responses in a second every second query is told to use TCP."""
    server.stop()
    server.start("--rate=20")
    query, whole, cut = queries()[0], 0, 0
    with socket.socket(socket.AF_INET, socket.SOCK_DGRAM) as it:
        it.connect(("127.0.0.1", PORT))
        it.settimeout(2)
        time.sleep(1.02 - time.time() % 1)
        for _ in range(200):
            it.send(query)
        seconds = {int(time.time())}
        try:
            while True:
                octets = it.recv(65535)
                seconds.add(int(time.time()))
                if not is_message(octets) or octets[11] != 1:
                    fail("no message, or one without EDNS:", octets.hex())
                cut += octets[2] >> 1 & 1
                whole += not octets[2] >> 1 & 1
        except TimeoutError:
            pass
    # A slow machine may answer in more than one second.
    if whole > 20 * len(seconds) or len(seconds) == 1 and (whole, cut) != (20, 90):
        fail("of 200 datagrams in", len(seconds), "seconds", whole, "are answered and", cut, "told to use TCP")
    if "status: NOERROR" not in dig("www.example.", "A", "+notcp"):
        fail("nothing is answered a second later")
    server.stop()
    server.start()
    print(f"200 datagrams in {len(seconds)} seconds at a rate of 20: {whole} answered, {cut} told to use TCP, the others dropped")
