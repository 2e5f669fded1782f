"""Other name servers, as benches/servers/run starts them."""

import base64
import pathlib
import re
import shutil
import socket
import struct
import subprocess
import time


def run(*words):
    ran = subprocess.run([*map(str, words)], capture_output=True, text=True, timeout=120)
    if ran.returncode:
        raise RuntimeError(f"{' '.join(map(str, words))}: {ran.stdout}{ran.stderr}")
    return ran.stdout


def version(package):
    return re.sub(r"^\d+:|[-+].*", "", run("dpkg-query", "-W", "-f=${Version}", package))


def children(pid):
    """A process and all that it started."""
    found = [pid]
    for task in pathlib.Path(f"/proc/{pid}/task").iterdir():
        for it in (task / "children").read_text().split():
            found += children(int(it))
    return found


class Peer:
    """A server in a new folder, which is gone behind it."""

    PACKAGE = ""

    def __init__(self, room, threads, options):
        self.room, self.threads, self.chain = room, threads, options["chain"]
        self.folder = room / "peer"

    def title(self):
        return f"{self.NAME} {version(self.PACKAGE)}{self.HOW}"

    def __enter__(self):
        shutil.rmtree(self.folder, ignore_errors=True)
        self.folder.mkdir()
        self.folder.chmod(0o777)
        self.prepare()
        with open(self.folder / "log", "wb") as log:
            how = {"stdin": subprocess.DEVNULL, "stdout": log, "stderr": log, "cwd": self.folder}
            self.process = subprocess.Popen([*map(str, self.command())], **how)
        try:
            self.wait()
        except BaseException:
            self.__exit__()
            raise
        return self

    def write(self, name, text):
        (self.folder / name).write_text(text)
        return self.folder / name

    def wait(self):
        """Until it answers for the SOA record, which is none of the questions."""
        query = struct.pack(">6H", 1, 0, 1, 0, 0, 0) + b"\7example\0" + struct.pack(">HH", 6, 1)
        with socket.socket(socket.AF_INET, socket.SOCK_DGRAM) as it:
            it.settimeout(0.2)
            for _ in range(150):
                try:
                    it.sendto(query, ("127.0.0.1", self.PORT))
                    # Another server may have the port.
                    if it.recv(4096)[3] & 15 == 0 and self.process.poll() is None:
                        return
                except OSError:
                    time.sleep(0.1)
        raise TimeoutError(f"{self.NAME}: {(self.folder / 'log').read_text()}")

    def before_warm(self):
        pass

    def pids(self):
        return children(self.process.pid)

    def __exit__(self, *_error):
        self.process.terminate()
        try:
            self.process.wait(timeout=30)
        except subprocess.TimeoutExpired:
            self.process.kill()
            self.process.wait()


class Knot(Peer):
    """By the module onlinesign, which signs each answer anew, and denies by NSEC records made for the question."""

    NAME, PACKAGE, HOW, PORT = "Knot DNS", "knot", ", onlinesign", 5402

    def prepare(self):
        (self.folder / "db").mkdir()
        self.write(
            "knot.conf",
            f"""
server:
    rundir: "{self.folder}"
    user: root:root
    listen: 127.0.0.1@{self.PORT}
    udp-workers: {self.threads}
    tcp-workers: 1
    background-workers: 1
database:
    storage: "{self.folder}/db"
policy:
  - id: online
    algorithm: ecdsap256sha256
    manual: on
    single-type-signing: on
mod-onlinesign:
  - id: online
    policy: online
zone:
  - domain: example.
    file: "{self.room}/zone"
    zonefile-sync: -1
    journal-content: none
    module: mod-onlinesign/online
log:
  - target: stderr
    any: warning
""",
        )
        attributes = "algorithm=ECDSAP256SHA256", "ksk=yes", "zsk=yes", "created=-1d", "publish=-1d", "ready=-1d", "active=-1d"
        run("keymgr", "-c", self.folder / "knot.conf", "example.", "import-pem", self.room / "key.pem", *attributes)

    def command(self):
        return ["knotd", "-c", self.folder / "knot.conf"]


class PowerDns(Peer):
    """By live signing over the backend bind. It keeps signatures, and by itself whole answers for 20 seconds."""

    NAME, PACKAGE, HOW, PORT = "PowerDNS", "pdns-server", ", live signing", 5403
    MORE = ""

    def prepare(self):
        self.write("named.conf", f'zone "example" {{ type master; file "{self.room}/zone"; }};\n')
        self.write(
            "pdns.conf",
            f"""
launch=bind
bind-config={self.folder}/named.conf
bind-dnssec-db={self.folder}/dnssec.sqlite3
local-address=127.0.0.1
local-port={self.PORT}
socket-dir={self.folder}
receiver-threads={self.threads}
distributor-threads=1
reuseport=yes
security-poll-suffix=
daemon=no
guardian=no
disable-syslog=yes
loglevel=3
{self.MORE}""",
        )
        pdnsutil = "pdnsutil", f"--config-dir={self.folder}"
        run(*pdnsutil, "create-bind-db", self.folder / "dnssec.sqlite3")
        run(*pdnsutil, "import-zone-key-pem", "example", self.room / "key.pem", "13", "ksk")
        if self.chain == "nsec3":
            run(*pdnsutil, "set-nsec3", "example", "1 0 0 -")

    def command(self):
        return ["pdns_server", f"--config-dir={self.folder}"]


class PowerDnsWithoutPackets(PowerDns):
    """The same without whole answers that are kept."""

    HOW, PORT = ", live signing, no packet cache", 5404
    MORE = "cache-ttl=0\n"


class Nsd(Peer):
    """Of a zone that ldns-signzone signed beforehand."""

    NAME, PACKAGE, HOW, PORT = "NSD", "nsd", ", signed beforehand", 5405

    def prepare(self):
        text = run("openssl", "pkey", "-in", self.room / "key.pem", "-noout", "-text")
        secret, public = (
            bytes.fromhex(re.sub(r"[:\s]", "", re.search(rf"{word}:\n((?:\s+[0-9a-f:]+\n)+)", text)[1])) for word in ("priv", "pub")
        )
        secret, public = secret[-32:].rjust(32, b"\0"), public[-64:]
        words = base64.b64encode(secret).decode(), base64.b64encode(public).decode()
        self.write("key.private", f"Private-key-format: v1.2\nAlgorithm: 13 (ECDSAP256SHA256)\nPrivateKey: {words[0]}\n")
        self.write("key.key", f"example. 3600 IN DNSKEY 257 3 13 {words[1]}\n")
        zone = (self.room / "zone").read_text()
        self.write("zone", zone)
        # Without an option for it the salt is empty.
        hashed = ["-n", "-t", "0"] if self.chain == "nsec3" else []
        run("ldns-signzone", *hashed, "-o", "example.", "-f", self.folder / "signed", self.folder / "zone", self.folder / "key")
        self.write(
            "nsd.conf",
            f"""
server:
    server-count: {self.threads}
    ip-address: 127.0.0.1@{self.PORT}
    username: ""
    chroot: ""
    zonesdir: "{self.folder}"
    database: ""
    pidfile: ""
    xfrdfile: "{self.folder}/xfrd.state"
    xfrdir: "{self.folder}"
    zonelistfile: "{self.folder}/zone.list"
    rrl-ratelimit: 0
    reuseport: yes
remote-control:
    control-enable: no
zone:
    name: example.
    zonefile: "{self.folder}/signed"
""",
        )

    def command(self):
        return ["nsd", "-d", "-c", self.folder / "nsd.conf"]
