"""Commands, master files that are read and refused, first starts, and what the log tells of them."""

import socket

from served import EXAMPLE, FIRST_PORT, SECURE, Server, delv, dig, fail, logged, records_of, run, serial_of, zone_of

# A master file as people write them, without an origin.
READ = r"""$TTL 5s
@ SOA ns hostmaster ( 8 ; serial
    1h 15m
    1d 5m )
  NS ns
ns A 127.0.0.1
x\.y 1m IN A 192.0.2.9
Living\ Room IN 1m txt ( "a\"b" "semi;colon"
    plain )
r CAA 0 issue "ca.example"
"""


def check_read(server):
    """Units, parentheses, escapes and entries of several lines are read, and relative names stand below the zone's."""
    file = server.folder / "read.zone"
    file.write_text(READ)
    server.done(f"reload {file}")
    for name, rtype, ttl, data in (
        ("example.", "SOA", "5", "ns.example. hostmaster.example. 8 3600 900 86400 300"),
        ("x\\.y.example.", "A", "60", "192.0.2.9"),
        ("living\\032room.example.", "TXT", "60", '"a\\"b" "semi;colon" "plain"'),
        ("r.example.", "CAA", "5", '0 issue "ca.example"'),
    ):
        said = dig(name, rtype)
        if [(it[1], it[4]) for it in records_of(said) if it[3] == rtype] != [(ttl, data)]:
            fail("a master file is read otherwise:", name, rtype, said)
        if SECURE not in delv(server, name, rtype):
            fail(name, rtype, "is not validated:", delv(server, name, rtype))
    server.done(f"reload {EXAMPLE / 'example.zone'}")
    print("a master file as people write them")


def check_unread(server):
    """A master file with a line that is not read, one of another zone, and what is none, replaces nothing."""
    lines = ['x TXT "no end', 'x TXT ( "a"', "x..y A 192.0.2.1", "x A 192.0.2.256", "x NSEC y A", "$INCLUDE other", "x 2147483648 A 192.0.2.1"]
    file = server.folder / "unread.zone"
    for line in lines:
        file.write_text(f"{zone_of(7, 0)}{line}\nlast A 192.0.2.1\n")
        said = server.tell(f"reload {file}")
        if not said.startswith(f"{file}: line 6: ") or said.count("\n") != 1:
            fail("a line that is not read is taken:", line, said)
    for text, why in (
        (zone_of(7, 0).replace("example.", "other."), "line 3: an SOA record of another zone"),
        ("www A 192.0.2.1\n", "line 1: no TTL"),
        ("", "no SOA record"),
    ):
        file.write_text(text)
        said = server.tell(f"reload {file}")
        if not said.startswith(f"{file}: {why}"):
            fail("a master file that is no zone's is taken:", text, said)
    said = server.tell(f"reload {server.folder}")
    if said != f"{server.folder}: Is a directory\n" or serial_of(dig("example.", "SOA")) == 7:
        fail("what is no master file is taken:", said)
    print(f"{len(lines) + 3} master files that are not read, and a folder: nothing is replaced")


def check_refused(program, room):
    """A first start whose chain is none, or whose file has no origin, leaves no journal, so that the next one may have another. An
    origin may be said."""
    folder = room / "refused"
    (folder / "keys").mkdir(parents=True)
    file = room / "no_origin.zone"
    file.write_text(READ)
    for words in (["--chain=nsec5 0 1", folder, EXAMPLE / "example.zone"], [folder, file], ["--origin=a..b", folder, file]):
        ran = run(*program.words, f"--port={FIRST_PORT}", *words)
        if ran.returncode == 0 or (folder / "journal").exists():
            fail("a first start that is none:", words, ran.returncode, ran.stderr[-2000:])
    server = Server(program, folder, "--origin=example.")
    server.port, server.zone = FIRST_PORT, file
    server.start()
    server.stop()


def check_log(server):
    """Commands of any octets are told as they are; so is each line that is behind the journal."""
    odd = bytes(it for it in range(1, 256) if it != 10)
    with socket.socket(socket.AF_UNIX) as it:
        it.connect(f"{server.folder}/ctl")
        it.sendall(odd + b"\n")
        while it.recv(65536):
            pass
    server.tell("report1 ksk-roll 1")
    server.tell("status")
    with socket.socket(socket.AF_UNIX) as it:
        it.connect(f"{server.folder}/ctl")
        it.sendall(b"a" * 2047)
        it.recv(1)
    events = logged(server)
    if not any(it["event"] == "failure" and it["what"] == "command" for it in events):
        fail("the log does not tell a command that is too long")
    commands = {(it["line"], it["done"]) for it in events if it["event"] == "command"}
    if not {(odd.decode("latin-1"), False), ("report1 ksk-roll 1", False), ("status", True), ("key csk p256", True)} <= commands:
        fail("commands that the log does not tell:", commands)
    lines = [it["line"] for it in events if it["event"] == "journal" and "line" in it]
    if [it for it in (server.folder / "journal").read_text().splitlines() if not it.startswith("rr ")] != lines:
        fail("the log does not tell the lines of the journal:", lines)
    counts = [it for it in events if it["event"] == "counts"][-1]
    if not all(it["time"].endswith("Z") and it["pid"] for it in events) or counts["udp"] < 15 or counts["NXDOMAIN"] < 4:
        fail("no times, no processes or no counts:", counts)
    print(f"{len(events)} lines of the log, {len(commands)} of them commands")
