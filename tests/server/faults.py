"""What an operator does wrong or a machine does: logs that are moved, keys and journals that are lost, pipes, clocks that jump, a process
that ends, a parent that publishes other digests."""

import base64
import hashlib
import os
import pathlib
import signal
import struct
import subprocess
import time

import rolls
from served import EXAMPLE, PORT, SECURE, Server, delv, dig, fail, first_key, is_logged, logged, run, zone_of

HERE = pathlib.Path(__file__).resolve().parent


def refused_start(server, why):
    """A start that fails within seconds, with a line of the log that says why. Nothing of the folder changes."""
    before = {it.name: it.read_bytes() for it in server.folder.iterdir() if it.is_file()}
    begun = len(logged(server))
    process = server.launch()
    try:
        status = process.wait(30)
    except subprocess.TimeoutExpired:
        fail("the server starts, though", why)
    said = [it for it in logged(server)[begun:] if it["event"] == "failure"]
    if status != 1 or not any(why in it["why"] for it in said):
        fail("no start, and the log does not say that", why, status, said)
    if before != {it.name: it.read_bytes() for it in server.folder.iterdir() if it.is_file()}:
        fail("a start that is refused changes the folder:", why)


def check_log_moved(program, room):
    """Behind SIGHUP the log goes to a new file of the same name, for the process that watches too, and the server goes on."""
    log, moved = room / "moved.log", room / "moved.log.1"
    server = Server(program, room / "moved", "--step=1", f"--log={log}", "--look=1", f"--watch=127.0.0.1:{PORT}")
    server.start()
    first_key(server)
    server.done("key csk ed25519")
    server.done("start algorithm-roll p256 ed25519")
    log.rename(moved)
    server.process.send_signal(signal.SIGHUP)
    end = time.monotonic() + 20
    for who in ("server", "watch"):
        while f'"event":"reopened","who":"{who}"' not in (log.read_text() if log.exists() else ""):
            if time.monotonic() > end or not server.is_up():
                fail("no log is opened again, or the server ends for SIGHUP:", who, moved.read_text()[-1000:])
            time.sleep(0.1)
    left = moved.read_text()
    server.tell("status")
    if moved.read_text() != left:
        fail("the server writes to the log that was moved")
    server.stop()
    print("a log that is moved is opened again")


def check_watch_again(program, room):
    """The process that watches begins again where it ended, and has none of the server's memory or descriptors."""
    server = Server(program, room / "again", "--step=1", "--look=1", f"--watch=127.0.0.1:{PORT}")
    server.start()
    first_key(server)

    def watcher(other_than=None):
        end = time.monotonic() + 30
        while time.monotonic() < end:
            found = run("pgrep", "-P", server.process.pid).stdout.split()
            if found and found != [other_than]:
                return found[0]
            time.sleep(0.1)
        return fail("no process watches")

    first = watcher()
    files = [os.readlink(it) for it in pathlib.Path(f"/proc/{first}/fd").iterdir()]
    if any("/journal" in it or "/answered" in it or "socket:" in it for it in files):
        fail("the process that watches has what is the server's:", files)
    begun = len(logged(server))
    os.kill(int(first), signal.SIGKILL)
    if not is_logged(server, begun, 30, event="failure", what="watch") or watcher(first) == first:
        fail("a process that ended does not begin again")
    server.stop()
    print("the process that watches begins again")


def check_lost(program, room):
    """A start without a private key that signs, or without the journal of a folder that has answered, is refused."""
    server = Server(program, room / "lost", "--step=1")
    server.start()
    first_key(server)
    dig("example.", "SOA")
    server.stop()
    key, journal = server.folder / "keys" / "p256.pem", server.folder / "journal"
    octets = key.read_bytes()
    key.unlink()
    refused_start(server, "private key")
    key.write_bytes(octets)
    octets = journal.read_bytes()
    journal.unlink()
    refused_start(server, "journal is gone")
    journal.write_bytes(b"")
    refused_start_of_empty(server)
    journal.write_bytes(octets)
    server.start()
    if SECURE not in delv(server, "example.", "SOA"):
        fail("the zone does not go on with its key and its journal")
    server.stop()
    print("no start without a key that signs, nor without the journal")


def refused_start_of_empty(server):
    """An empty journal is as good as none."""
    if server.launch().wait(30) != 1:
        fail("an empty journal begins a new zone")


def check_pipe(server):
    """A pipe is no master file: it is refused at once, and answers go on."""
    pipe = server.folder / "pipe"
    os.mkfifo(pipe)
    begun = time.monotonic()
    said = server.tell(f"reload {pipe}")
    if said != f"{pipe}: Invalid argument\n" or time.monotonic() - begun > 5:
        fail("a pipe is taken for a master file:", said)
    print("a pipe is no master file")


def check_records_logged(server):
    """A replacement is one line of the log, with the number of its records."""
    begun, file = len(logged(server)), server.folder / "many.zone"
    file.write_text(zone_of(77, 500))
    server.done(f"reload {file}")
    found = [it for it in logged(server)[begun:] if it["event"] == "journal"]
    if [(it["line"].split()[0], it["records"]) for it in found] != [("replace", 503)]:
        fail("the log of a replacement:", found[:3])
    server.done(f"reload {EXAMPLE / 'example.zone'}")
    print("a replacement of 503 records is one line of the log")


def check_clock(program, room, compiler):
    """A wall clock that jumps a day ahead ends no wait; the time that has passed does."""
    library, ahead = room / "clock.so", room / "ahead"
    if run(compiler, "-shared", "-fPIC", "-o", library, HERE / "clock.c", "-ldl").returncode != 0:
        fail("clock.c")
    ahead.write_text("0")
    server = Server(program, room / "clock", "--step=1", "--auto")
    os.environ.update(LD_PRELOAD=str(library), AHEAD=str(ahead))
    try:
        server.start()
    finally:
        del os.environ["LD_PRELOAD"], os.environ["AHEAD"]
    first_key(server)
    server.done("key csk ed25519")
    server.done("start algorithm-roll p256 ed25519")
    server.done("report1 algorithm-roll 12")
    time.sleep(2)
    ahead.write_text("86400")
    time.sleep(4)
    if "wait1 is next" not in server.tell("status"):
        fail("a clock that jumps ends a wait:", server.tell("status"))
    if not rolls.is_next(server, "report2"):
        fail("a wait does not end once its time has passed:", server.tell("status"))
    server.stop()
    print("a clock that jumps ahead ends no wait")


class OtherParent(rolls.Parent):
    """A parent that publishes digests of its own choice."""

    def take_digests(self, server, ttl, kinds):
        """DS records of the keys that the DS set is to name, with SHA-384 (4) or a wrong SHA-384 (-4) of each."""
        wanted = {(int(it.split()[1]), int(it.split()[2])) for it in server.tell("ds").splitlines()}
        self.records, self.ttl = [], ttl
        for line in server.tell("dnskey").splitlines():
            _, flags, protocol, algorithm, text = line.split(maxsplit=4)
            data = struct.pack(">HBB", int(flags), int(protocol), int(algorithm)) + base64.b64decode(text)
            total = sum(octet << 8 if i % 2 == 0 else octet for i, octet in enumerate(data))
            tag = total + (total >> 16) & 0xFFFF
            if (tag, int(algorithm)) in wanted:
                digest = hashlib.sha384(b"\7example\0" + data).digest()
                for kind in kinds:
                    said = digest if kind > 0 else bytes(48)
                    self.records.append(struct.pack(">HBB", tag, int(algorithm), 4) + said)


def check_other_digests(program, room):
    """A parent that publishes SHA-384 alone has the DS set; one whose digest is wrong has not."""
    parent = OtherParent(0)
    server = Server(program, room / "digests", "--step=1", "--rate=0", "--auto", "--look=1", f"--watch=127.0.0.1:{PORT}",
                    f"--parent=127.0.0.1:{parent.listener.getsockname()[1]}")
    server.zone = room / "digests.zone"
    server.zone.write_text(zone_of(1, 2))
    server.start()
    first_key(server)
    parent.take_digests(server, 2, [4])
    parent.start()
    server.done("key csk ed25519")
    begun = len(logged(server))
    server.done("start algorithm-roll p256 ed25519")
    if not is_logged(server, begun, event="lacks", what="DS"):
        fail("nothing is said of a parent with the old DS set")
    parent.take_digests(server, 2, [-4])
    time.sleep(3)
    if "report2 is next" not in server.tell("status"):
        fail("a wrong digest counts")
    parent.take_digests(server, 2, [4])
    if not is_logged(server, begun, event="watch", line="report2 algorithm-roll 2", done=True):
        fail("a digest of SHA-384 does not count:", server.tell("status"))
    server.stop()
    print("a parent that publishes SHA-384 alone")
