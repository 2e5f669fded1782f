"""Rolls of keys, with waits by hand and by the server itself, with reports late in a second, and with reports of a server that watches
others."""

import datetime
import socket
import struct
import threading
import time

from answers import QUESTIONS, check
from octets import framed, passed_name
from served import PARENT_PORT, PORT, WATCHED_PORT, Server, fail, first_key, is_logged, logged, zone_of


def is_next(server, step):
    """Whether a step of a roll is next, or comes to be so within seconds."""
    for _ in range(100):
        if f": {step} is next" in server.tell("status"):
            return True
        time.sleep(0.1)
    return False


def roll(server, kind, old, new, is_auto=False):
    """Rolls all keys, which are combined ones, with waits of a second, which the server makes itself where it is told to."""
    server.done(f"start {kind} {old} {new}")
    check(server, QUESTIONS[:6])
    for step in ("1", "2"):
        server.done(f"report{step} {kind} 1")
        if is_auto:
            if not is_next(server, "report2" if step == "1" else "done"):
                fail("the server does not wait by itself:", server.tell("status"))
        else:
            said = server.tell(f"wait{step} {kind}")
            if not said.startswith(("refused Wait", "ok")):
                fail(f"wait{step}", said)
            time.sleep(2.1)
            if said.startswith("refused"):
                server.done(f"wait{step} {kind}")
        check(server, QUESTIONS[:6])
    server.done(f"done {kind}")
    print(f"{kind} from {old} to {new}")


ZSK_ROLL = "zsk-double-signature-roll"
# In seconds: the TTL of reports, and what a line of the log may be late.
TTL, LATE = 3, 0.1


def until_late():
    """Waits until nine tenths of a second have passed."""
    time.sleep((0.9 - time.time()) % 1)


def report_late(server, step):
    """Reports late in a second. Gives when."""
    until_late()
    reported = time.time()
    server.done(f"report{step} {ZSK_ROLL} {TTL}")
    return reported


def wait_until_over(server, step, reported):
    """Tries a wait until it is accepted, which is not before its TTL has passed by the clock."""
    while not (said := server.tell(f"wait{step} {ZSK_ROLL}")).startswith("ok"):
        if not said.startswith("refused Wait") or time.time() > reported + TTL + 2:
            fail(f"wait{step} is answered", said)
        time.sleep(0.02)
    if time.time() < reported + TTL:
        fail(f"wait{step} is accepted {time.time() - reported:.2f} seconds behind a report of TTL {TTL}")


def check_late_reports(program, room):
    """Reports late in a second: no wait ends early, neither by hand, nor by the server itself, nor where replacements come faster than
    seconds, so that lines are ahead of the clock."""
    server, file = Server(program, room / "late", "--step=1", "--rate=0"), room / "late.zone"
    for name in ("a", "b", "c"):
        server.key(name, "-algorithm", "EC", "-pkeyopt", "ec_paramgen_curve:P-256")
    file.write_text(zone_of(1, 2))
    server.zone, begun = file, len(logged(server))
    server.start()
    first_key(server, "ksk p256", "zsk a")
    for command in ("key zsk b", "key zsk c", f"start {ZSK_ROLL} a b"):
        server.done(command)
    wait_until_over(server, 1, report_late(server, 1))
    reported = report_late(server, 2)
    for serial in range(2, 9):
        file.write_text(zone_of(serial, 2))
        server.done(f"reload {file}")
    wait_until_over(server, 2, reported)
    server.done(f"done {ZSK_ROLL}")
    server.stop()
    server.start("--auto", "--look=1", f"--watch=127.0.0.1:{PORT}")
    server.done(f"start {ZSK_ROLL} b c")
    report_late(server, 1)
    if not is_logged(server, begun, event="watch", line=f"done {ZSK_ROLL}", done=True):
        fail("a roll is not ended:", server.tell("status"))
    server.stop()
    print(f"{check_waits(server, begun)} waits behind reports, most of them late in a second: none ended early")


def check_waits(server, begun):
    """In the log no wait was accepted before the TTL of its report had passed. Gives how many there are."""
    reports, count = {}, 0
    for it in logged(server)[begun:]:
        if it["event"] not in ("command", "wait") or not it["done"]:
            continue
        step, *words = it["line"].split()
        time_of = datetime.datetime.fromisoformat(it["time"].replace("Z", "+00:00")).timestamp()
        if step.startswith("report"):
            reports[step[-1], words[0]] = time_of, int(words[1])
        elif step.startswith("wait"):
            reported, ttl = reports[step[-1], words[0]]
            if time_of - reported < ttl - LATE:
                fail(it["line"], f"was accepted {time_of - reported:.2f} seconds behind a report of TTL {ttl}")
            count += 1
    return count


class Parent(threading.Thread):
    """A server of the parent: it says a DS set, with a TTL, to all that it is asked by TCP."""

    def __init__(self, port=PARENT_PORT):
        super().__init__(daemon=True)
        self.records, self.ttl, self.listener = [], 0, socket.create_server(("127.0.0.1", port))

    def run(self):
        while True:
            it, _from = self.listener.accept()
            with it:
                query = it.recv(65536)
                end = passed_name(query, 14) + 4
                parts = (struct.pack(">HHHIH", 49164, 43, 1, self.ttl, len(data)) + data for data in self.records)
                head = query[2:4] + b"\x84\0" + struct.pack(">HHHH", 1, len(self.records), 0, 0)
                it.sendall(framed(head + query[14:end] + b"".join(parts)))

    def take(self, server, ttl):
        lines = (it.split() for it in server.tell("ds").splitlines())
        self.records = [struct.pack(">HBB", *map(int, of[1:4])) + bytes.fromhex(of[4]) for of in lines]
        self.ttl = ttl


def check_watch(program, room):
    """Reports of a server that watches itself, another server of its zone and one of the parent."""
    parent, zone = Parent(), room / "watch.zone"
    zone.write_text(zone_of(1, 2))
    places = [f"--watch=127.0.0.1:{PORT}", f"--watch=127.0.0.1:{WATCHED_PORT}", f"--parent=127.0.0.1:{PARENT_PORT}"]
    server, other = Server(program, room / "watch", "--step=1", "--rate=0"), Server(program, room / "watch-other", "--step=1")
    server.zone = other.zone = zone
    other.port = WATCHED_PORT
    begun = len(logged(server))  # the log is that of all servers, and rolls before this one made the same waits
    server.start()
    first_key(server)
    server.stop()

    def follow():
        """The other server comes to what the first one has."""
        if other.process is not None:
            other.stop()
        for name in ("keys/p256.pem", "keys/ed25519.pem", "journal"):
            (other.folder / name).write_bytes((server.folder / name).read_bytes())
        other.start()

    follow()
    server.start("--auto", "--look=1", *places)
    parent.take(server, 3)
    parent.start()
    server.done("key csk ed25519")
    server.done("start algorithm-roll p256 ed25519")
    if not is_logged(server, begun, event="lacks", server=f"127.0.0.1:{WATCHED_PORT}", what="DNSKEY"):
        fail("nothing is said of a server without the change")
    time.sleep(3)
    if "report1 is next" not in server.tell("status"):
        fail("a change that one server lacks is reported")
    follow()
    if not is_logged(server, begun, event="watch", line="report1 algorithm-roll 5", done=True):
        fail("a change that all servers have is not reported:", server.tell("status"))
    if not is_logged(server, begun, event="lacks", server=f"127.0.0.1:{PARENT_PORT}", what="DS"):
        fail("nothing is said of a parent without the change:", server.tell("status"))
    time.sleep(3)
    if "report2 is next" not in server.tell("status"):
        fail("a change that the parent lacks is reported")
    parent.take(server, 1)
    if not is_logged(server, begun, event="watch", line="report2 algorithm-roll 3", done=True):
        fail("a change that the parent has is not reported:", server.tell("status"))
    if not is_logged(server, begun, event="wait", line="wait2 algorithm-roll", done=True):
        fail("no wait behind a report:", server.tell("status"))
    follow()
    if not is_logged(server, begun, event="watch", line="done algorithm-roll", done=True):
        fail("a roll is not ended:", server.tell("status"))
    for it in (server, other):
        it.stop()
    check_waits(server, begun)
    print("a roll whose reports are made once two servers and the parent's show the change")
