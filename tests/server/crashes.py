"""Servers that are killed, several of a folder, and a disk that is full."""

import random
import re
import socket
import struct
import threading
import time

from answers import QUESTIONS, check
from octets import passed_name
from served import PORT, Server, dig, fail, first_key, logged, run, serial_of, text_of, zone_of


def signed_serial():
    """The serial, and the second in which its signature begins."""
    said = dig("example.", "SOA")
    found = re.search(r"RRSIG\s+SOA \d+ \d+ \d+ \d{14} (\d{14})", said)
    return (serial_of(said), int(found[1])) if found else fail("no signed SOA record:", said)


def wait_behind(last):
    """Waits until signatures begin in a later second."""
    end = time.monotonic() + 60
    while signed_serial()[1] == last:
        if time.monotonic() > end:
            fail("no signature begins later than", last)
        time.sleep(0.1)


def check_moments(server):
    """Behind a crash, or with moments that lie further behind the clock, no answer is of a moment before an earlier one, and none of a
    replacement is of a second that an answer had before it."""
    file, serial = server.folder / "next.zone", 1
    for how in ([], ["--backdate=7200"], ["--backdate=3600"]):
        # Each replacement behind an answer takes a second of its own, so that moments run ahead of the clock.
        for _ in range(5):
            serial += 1
            file.write_text(zone_of(serial, 0))
            server.done(f"reload {file}")
            at, last = signed_serial()
        # The last moment is an answer's, not a line's, where the clock has come there.
        if how:
            wait_behind(last)
        at, last = signed_serial()
        server.process.kill()
        server.process.wait()
        server.start(*how)
        if signed_serial() < (serial, last):
            fail("behind kill -9 moments go back", how, "from", last, "to", signed_serial())
        server.process.kill()
        server.process.wait()
        server.start(*how)
        serial += 1
        file.write_text(zone_of(serial, 0))
        server.done(f"reload {file}")
        if at != serial - 1 or signed_serial()[0] != serial or signed_serial()[1] <= last:
            fail("behind kill -9 a replacement has a second of an answer before it:", last, signed_serial())
        server.stop()
        server.start()
    print("behind kill -9: moments and replacements go on where answers were")


def begin_again(server):
    """A new journal, and a first key in it."""
    server.stop()
    (server.folder / "journal").unlink()
    (server.folder / "answered").unlink()
    server.start()
    first_key(server)


def check_kills(server, count):
    """Replacements, and kill -9 in their midst. Behind each the zone has the last one that was accepted, or the one behind it."""
    accepted, sent, all_accepted, rng = 1, 1, 0, random.Random(4)
    file = server.folder / "next.zone"
    for number in range(count):
        if number % 10 == 0:
            begin_again(server)
            accepted = sent = 1
        moment = time.monotonic() + rng.uniform(0.0, 1.0)
        killer = threading.Timer(moment - time.monotonic(), server.process.kill)
        killer.start()
        while True:
            sent += 1
            file.write_text(zone_of(sent, 40))
            said = server.tell(f"reload {file}", quiet=True)
            if said is None or not said.startswith("ok"):
                break
            accepted = sent
            all_accepted += 1
        killer.join()
        server.process.wait()
        server.start()
        found = serial_of(dig("example.", "SOA"))
        texts = {text_of(dig(f"n{i}.example.", "TXT")) for i in (0, 39)} if found != 1 else {1}
        if found is None or not accepted <= found <= sent or texts != {found}:
            fail("behind kill -9 the serial is", found, "with", texts, "where", accepted, "was accepted and", sent, "sent")
        accepted = found
    print(f"{count} times kill -9, {all_accepted} replacements accepted: none lost, none half there")


def check_full_disk(program, room):
    """A disk that is full: a replacement is refused, the zone stays as it was, and goes on once there is room."""
    disk = room / "disk"
    disk.mkdir()
    if run("mount", "-t", "tmpfs", "-o", "size=256k", "tmpfs", disk).returncode != 0:
        print("no full disk: no tmpfs can be mounted here")
        return
    try:
        server = Server(program, disk, "--step=1")
        server.start()
        first_key(server)
        check(server, QUESTIONS[:3])
        size = (disk / "journal").stat().st_size
        filler = disk / "filler"
        with open(filler, "wb", buffering=0) as it:
            try:
                while it.write(b"0" * 1024):
                    pass
            except OSError:
                pass
        file = room / "full.zone"
        file.write_text(zone_of(9, 400))
        for _ in range(3):
            said = server.tell(f"reload {file}")
            if "the journal was not written" not in said or (disk / "journal").stat().st_size != size:
                fail("a full disk:", said)
            check(server, QUESTIONS[:3])
        if [it["what"] for it in logged(server) if it["event"] == "failure"][-3:] != ["journal"] * 3:
            fail("the log does not tell that the disk was full")
        filler.unlink()
        server.done(f"reload {file}")
        server.stop()
        server.start()
        if serial_of(dig("example.", "SOA")) != 9 or text_of(dig("n399.example.", "TXT")) != 9:
            fail("behind a full disk a replacement is lost")
        server.stop()
    finally:
        if run("umount", disk).returncode != 0:
            run("umount", "-l", disk)
    print("a full disk: three replacements refused, one accepted behind it")


def versions():
    """The serial and the second in which its signature begins, of the server that this port comes to; nothing where it is gone."""
    head = struct.pack(">HHHHHH", random.randrange(65536), 0x100, 1, 0, 0, 1)
    query = head + b"\7example\0" + struct.pack(">HH", 6, 1) + b"\0" + struct.pack(">HHIH", 41, 1232, 0x8000, 0)
    serial, inception = None, None
    with socket.socket(socket.AF_INET, socket.SOCK_DGRAM) as it:
        it.settimeout(2)
        it.connect(("127.0.0.1", PORT))
        try:
            it.send(query)
            octets = it.recv(65535)
        except OSError:
            return None
    at = 12 + len(b"\7example\0") + 4
    for _ in range(struct.unpack(">H", octets[6:8])[0]):
        at = passed_name(octets, at)
        rtype, size = struct.unpack(">H", octets[at : at + 2])[0], struct.unpack(">H", octets[at + 8 : at + 10])[0]
        at += 10
        if rtype == 6:
            serial = struct.unpack(">I", octets[at + size - 20 : at + size - 16])[0]
        elif rtype == 46:
            inception = struct.unpack(">I", octets[at + 12 : at + 16])[0]
        at += size
    return (inception, serial) if octets[3] & 15 == 0 else fail("a server of several fails:", octets.hex())


def reload_shared(server, file, serial):
    """Replaces the records while the process that takes commands may be killed; gives whether it was accepted. The next answers of
    all servers have them then."""
    file.write_text(zone_of(serial, 400))
    said = server.tell(f"reload {file}", quiet=True)
    if said is None:
        return False
    if not said.startswith("ok"):
        fail("several servers: a replacement is answered", said)
    late = {it[1] for it in [versions() for _ in range(12)] if it is not None and it[1] < serial}
    if late:
        fail("several servers: behind replacement", serial, "answers have", late)
    return True


def next_taker(server, processes):
    """The process that takes commands behind one that was killed, once all answer."""
    for _ in range(200):
        started = {it["pid"] for it in logged(server) if it["event"] == "start"}
        if server.tell("status", quiet=True) is not None and started >= {it.pid for it in processes}:
            return [it["pid"] for it in logged(server) if it["event"] == "commands"][-1]
        time.sleep(0.1)
    fail("several servers: no other takes commands, or one does not start", server.log().read_text()[-4000:])


def check_torn(server, serial):
    """What a killed server leaves of a replacement is applied by no other, and gone soon."""
    journal = server.folder / "journal"
    size = journal.stat().st_size
    with open(journal, "ab") as it:
        it.write(b"rr example. 5 1 6 00000000270f00000e10000003840001518000000e10\nrr n1.example. 5 1 16 01")
    if any(it is not None and it[1] != serial for it in [versions() for _ in range(12)]):
        fail("several servers: half a replacement is answered by")
    for _ in range(100):
        if journal.stat().st_size == size:
            return
        time.sleep(0.1)
    fail("several servers: half a replacement stays in the journal")


def check_shared(program, room, count):
    """Servers of one folder: whichever is asked or killed, no second has two versions."""
    server, seen = Server(program, room / "shared", "--step=1", "--rate=0", "--share"), set()
    is_over, rng, faults = threading.Event(), random.Random(5), []
    server.start()
    first_key(server)
    file, serial, accepted, killed = server.folder / "next.zone", 1, 0, 0
    processes = [server.process, server.launch(), server.launch()]

    def ask():
        """Asks until all is over. What fails here ends this thread alone, so that it is kept for the test."""
        try:
            while not is_over.is_set():
                seen.add(versions())
        except BaseException as fault:
            faults.append(fault)

    askers = [threading.Thread(target=ask, daemon=True) for _ in range(3)]
    for it in askers:
        it.start()
    next_taker(server, processes)
    server.key("late", "-algorithm", "ED25519")
    for command in ("key csk late", "start algorithm-roll p256 late"):
        server.done(command)
    for number in range(count):
        serial += 1
        killer = None
        if number % 5 == 2:
            killer = threading.Timer(rng.uniform(0, 0.1), processes[0].kill)
            killer.start()
            killed += 1
        accepted += reload_shared(server, file, serial)
        if killer is not None:
            killer.join()
            processes.pop(0).wait()
            processes.append(server.launch())
            taken = next_taker(server, processes)
            processes.sort(key=lambda it: it.pid != taken)
        if number == count // 2:
            check_torn(server, versions()[1])
    is_over.set()
    for it in askers:
        it.join()
    if faults:
        raise faults[0]
    seen.discard(None)
    inceptions = [it[0] for it in seen]
    twice = {it for it in seen if inceptions.count(it[0]) > 1}
    if twice or [it[1] for it in sorted(seen)] != sorted(it[1] for it in seen):
        fail("several servers: seconds with two versions, or versions that go back:", sorted(twice))
    for it in processes:
        it.terminate()
    if any(it.wait(60) for it in processes):
        fail("several servers: one ends with", [it.returncode for it in processes], server.log().read_text()[-4000:])
    counts = {it["pid"]: it["udp"] for it in logged(server) if it["event"] == "counts"}
    if not all(counts[it.pid] for it in processes):
        fail("several servers: one was not asked:", counts)
    print(f"three servers of a folder, {killed} killed: {accepted} replacements, answers of {len(seen)} seconds, each of one version")
