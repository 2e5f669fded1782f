"""What zermuita serve does besides: idle connections give way, cookies, answers while a zone is loaded, files that are included or read
again."""

import contextlib
import random
import signal
import socket
import struct
import threading
import time
import urllib.request

from octets import connected, is_message, queries
from served import PORT, SECURE, Server, delv, dig, fail, first_key, free_port, records_of, run, serial_of, zone_of

COOKIE = 10


def option_of(octets):
    """The cookie of a message whose OPT record is at the end and has no other option."""
    size = 11 + 4 + 24
    opt = octets[-size:]
    head = struct.unpack(">HHH", opt[9:15])
    return opt[15:] if opt[:3] == b"\0\0\x29" and head == (28, COOKIE, 24) else None


def with_cookie(cookie):
    """A query with a cookie."""
    query = queries()[0]
    return query[:-2] + struct.pack(">HHH", 4 + len(cookie), COOKIE, len(cookie)) + cookie


def heard(it, seconds=2):
    """All datagrams that come until none does for a while."""
    found = []
    it.settimeout(seconds)
    with contextlib.suppress(TimeoutError):
        while True:
            found.append(it.recv(65535))
    return found


def check_cookies(server):
    """A client gets a cookie (RFC 7873); with it none of its queries is above the rate, with a made one they are; a wrong length is
    FORMERR."""
    server.stop()
    server.start("--rate=20")
    with socket.socket(socket.AF_INET, socket.SOCK_DGRAM) as it:
        it.connect(("127.0.0.1", PORT))
        it.settimeout(10)
        it.send(with_cookie(b"12345678"))
        octets = it.recv(65535)
        cookie = option_of(octets)
        if cookie is None or cookie[:8] != b"12345678" or not is_message(octets):
            fail("no cookie:", octets.hex())
        for said, is_known in ((cookie, True), (cookie[:-1] + bytes([cookie[-1] ^ 1]), False)):
            for _ in range(200):
                it.send(with_cookie(said))
            cut = [octets for octets in heard(it) if octets[2] & 2]
            if bool(cut) == is_known:
                fail("with a cookie that is known:" if is_known else "with a made cookie:", len(cut), "are told to use TCP")
        it.send(with_cookie(b"1234567"))
        octets = it.recv(65535)
        if octets[3] & 15 != 1:
            fail("a cookie of seven octets:", octets.hex())
    server.stop()
    server.start()
    print("cookies: a client that has one is not above the rate")


def check_idle_streams():
    """Sixteen idle connections of each of four networks shut TCP to nobody."""
    with contextlib.ExitStack() as held:
        for network in range(1, 5):
            for host in range(1, 17):
                how = {"timeout": 30, "source_address": (f"127.0.{network}.{host}", 0)}
                held.enter_context(socket.create_connection(("127.0.0.1", PORT), **how))
        for network in range(5, 9):
            said = run("dig", "@127.0.0.1", "-b", f"127.0.{network}.1", "-p", PORT, "+tcp", "+tries=1", "+time=10", "www.example.", "A").stdout
            if "192.0.2.80" not in said:
                fail("idle connections shut TCP to others:", said)
    with connected():
        pass
    print("64 idle connections of four networks: others are answered by TCP")


def ask_serials(port, is_over, seen):
    """Asks for the serial again and again, and notes each with the time."""
    head = struct.pack(">HHHHHH", random.randrange(65536), 0, 1, 0, 0, 0)
    query = head + b"\7example\0" + struct.pack(">HH", 6, 1)
    with socket.socket(socket.AF_INET, socket.SOCK_DGRAM) as it:
        it.settimeout(5)
        it.connect(("127.0.0.1", port))
        while not is_over.is_set():
            it.send(query)
            with contextlib.suppress(TimeoutError):
                octets = it.recv(65535)
                seen.append((time.monotonic(), struct.unpack(">I", octets[-20:-16])[0]))


def check_beside(program, room):
    """While many records are loaded the zone before is answered, and behind the command the new one alone."""
    server, file = Server(program, room / "beside", "--step=1", "--rate=0"), room / "beside.zone"
    server.start()
    first_key(server)
    is_over, seen = threading.Event(), []
    asker = threading.Thread(target=ask_serials, args=(server.port, is_over, seen), daemon=True)
    asker.start()
    for serial in (2, 3, 4):
        file.write_text(zone_of(serial, 20_000))
        begun = time.monotonic()
        server.done(f"reload {file}")
        ended = time.monotonic()
        time.sleep(0.5)
        meanwhile = [it[1] for it in list(seen) if begun < it[0] < ended]
        if len(meanwhile) < 5 or any(it[1] != serial for it in list(seen) if it[0] > ended + 0.1):
            fail("while records are loaded", len(meanwhile), "answers come, and behind it", seen[-3:])
    is_over.set()
    asker.join()
    serials = [it[1] for it in seen]
    if serials != sorted(serials):
        fail("serials go back:", serials[:9])
    server.stop()
    print(f"three times 20,000 records, {len(seen)} answers meanwhile: none late, none of an older version")


def check_parsed(program, room):
    """Where several servers share a folder, a long file is read while requests are answered."""
    server, file = Server(program, room / "parsed", "--step=1", "--rate=0", "--share"), room / "parsed.zone"
    server.start()
    first_key(server)
    file.write_text(zone_of(2, 2) + f";{'x' * 98}\n" * 1_000_000)
    is_over, seen = threading.Event(), []
    asker = threading.Thread(target=ask_serials, args=(server.port, is_over, seen), daemon=True)
    asker.start()
    begun = time.monotonic()
    server.done(f"reload {file}")
    ended = time.monotonic()
    is_over.set()
    asker.join()
    times = [begun, *(it[0] for it in seen if begun < it[0] < ended), ended]
    longest = max(after - before for before, after in zip(times, times[1:]))
    if len(times) < 20 or longest > (ended - begun) / 2:
        fail("while a file is read", len(times) - 2, "answers come in", ended - begun, "seconds, at most", longest, "apart")
    server.stop()
    print(f"a long file is read in {ended - begun:.1f} seconds, {len(times) - 2} answers meanwhile")


def check_included(program, room):
    """A master file has others ($INCLUDE), below their own origin: by paths from the file that names them. What is wrong in one is told
    with its line, and SIGHUP reads all again if one has changed."""
    server, folder = Server(program, room / "including", "--step=1"), room / "zones"
    (folder / "sub").mkdir(parents=True)
    server.zone, hosts = folder / "example.zone", folder / "sub" / "hosts"
    server.zone.write_text(zone_of(1, 0) + "www A 192.0.2.80\n$INCLUDE sub/hosts below\n TXT behind\n")
    hosts.write_text("$INCLUDE more\n")
    (folder / "sub" / "more").write_text("@ TXT one\nx A 192.0.2.9\n")
    server.start()
    first_key(server)

    def data_of(name, rtype):
        said = dig(name, rtype)
        if SECURE not in delv(server, name, rtype):
            fail(name, rtype, "of an included file is not validated")
        return [it[4] for it in records_of(said) if it[3] == rtype]

    for name, rtype, data in (("below.example.", "TXT", '"one"'), ("x.below.example.", "A", "192.0.2.9"), ("www.example.", "TXT", '"behind"')):
        if data_of(name, rtype) != [data]:
            fail("an included file is read otherwise:", name, rtype, dig(name, rtype))
    (folder / "sub" / "more").write_text("\n\nx A 192.0.2.256\n")
    if not (said := server.tell(f"reload {server.zone}")).startswith(f"{folder}/sub/more: line 3: not the data of an A record"):
        fail("a line of an included file is told otherwise:", said)
    (folder / "sub" / "more").unlink()
    if (said := server.tell(f"reload {server.zone}")) != f"{hosts}: line 1: {folder}/sub/more: No such file or directory\n":
        fail("a file that is not there is told otherwise:", said)
    hosts.write_text("@ TXT two\n")
    server.process.send_signal(signal.SIGHUP)
    end = time.monotonic() + 20
    while data_of("below.example.", "TXT") != ['"two"']:
        if time.monotonic() > end or not server.is_up():
            fail("an included file that has changed is not read again")
        time.sleep(0.2)
    server.stop()
    print("files that master files include")


def check_file_again(program, room):
    """SIGHUP: a zone's file that has changed is read again, one that has not is not; what is wrong changes nothing."""
    server, file = Server(program, room / "again-read", "--step=1"), room / "again-read.zone"
    server.zone, metrics = file, free_port()
    file.write_text(zone_of(1, 2))
    server.start(f"--metrics=127.0.0.1:{metrics}")
    first_key(server)
    for text, serial in ((zone_of(5, 2), 5), ("x", 5), (zone_of(6, 3), 6)):
        file.write_text(text)
        server.process.send_signal(signal.SIGHUP)
        end = time.monotonic() + 20
        while serial_of(dig("example.", "SOA")) != serial:
            if time.monotonic() > end or not server.is_up():
                fail("a file that has changed is not read again:", serial)
            time.sleep(0.2)
    size = (server.folder / "journal").stat().st_size
    file.touch()
    server.process.send_signal(signal.SIGHUP)
    time.sleep(2)
    if not server.is_up() or (server.folder / "journal").stat().st_size != size:
        fail("a file with the same records replaces them")
    page = urllib.request.urlopen(f"http://127.0.0.1:{metrics}/metrics", timeout=10).read().decode()
    if "zermuita_serve_replacements_total 2" not in page:
        fail("the page of metrics:", page)
    server.stop()
    print("a zone's file is read again at SIGHUP")


def check_configuration(program, room):
    """A configuration is printed, checked and used; what is wrong in it is named."""
    zermuita, folder = program.words[:-2], room / "configured"
    (folder / "keys").mkdir(parents=True)
    config = room / "serve.toml"
    shown = run(*zermuita, "serve", "defaults").stdout
    config.write_text(shown.replace('folder = "/var/lib/zermuita-server"', f'folder = "{folder}"').replace("backdate = 3600", "backdate = 60"))
    said = run(*zermuita, "serve", "check", "--config", config)
    if said.returncode != 0 or "backdate = 60" not in said.stdout:
        fail("a configuration is refused:", said.stdout, said.stderr)
    config.write_text(config.read_text().replace("step = 60", "step = 0"))
    said = run(*zermuita, "serve", "check", "--config", config)
    if said.returncode != 1 or "step" not in said.stderr:
        fail("a wrong configuration is not named:", said.returncode, said.stderr)
    print("a configuration is printed and checked")


def check(server, program, room):
    check_cookies(server)
    check_idle_streams()
    check_beside(program, room)
    check_parsed(program, room)
    check_included(program, room)
    check_file_again(program, room)
    check_configuration(program, room)
