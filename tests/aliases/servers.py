"""named of BIND, NSD and knotd of Knot on loopback, each with all zones as they were signed."""

import contextlib
import secrets
import socket
import struct
import subprocess
import sys
import time

from processes import HOST, NSD, end, free_port, version
from wire import SOA, Message, query, text

AXFR = 252


class Server:
    """A server that has zones, each an apex and a file: on a free port of loopback, or where it is told."""

    def __init__(self, folder, zones, host=HOST, port=None):
        self.folder, self.zones, self.host, self.port = folder, zones, host, port or free_port()
        folder.mkdir()
        (folder / "configuration").write_text(self.configuration())
        how = {"stdin": subprocess.DEVNULL, "stdout": (folder / "log").open("wb"), "stderr": subprocess.STDOUT}
        self.process = subprocess.Popen(self.COMMAND, cwd=folder, **how)

    def configuration(self):
        zones = "".join(self.ZONE.format(name=text(apex) or ".", file=file) for apex, file in self.zones)
        return self.CONFIGURATION.format(folder=self.folder, host=self.host, port=self.port, zones=zones)

    def wait(self):
        for apex, _file in self.zones:
            for _ in range(100):
                try:
                    if self.ask(apex, 6)[3] & 15 == 0:
                        break
                except OSError:
                    pass
                time.sleep(0.1)
            else:
                raise TimeoutError(f"{self.NAME} has no zone {apex}: see {self.folder}/log")

    def messages(self, qname, rtype):
        """The answers to a question, by TCP, so that none is cut off; their number is set to zero."""
        sent = query(secrets.randbelow(1 << 16), qname, rtype)
        with socket.create_connection((self.host, self.port), timeout=5) as it, it.makefile("rb") as stream:
            it.sendall(struct.pack(">H", len(sent)) + sent)
            while True:
                length = int.from_bytes(stream.read(2), "big")
                octets = stream.read(length)
                if not length or len(octets) < length:
                    raise ConnectionError("no answer")
                yield b"\0\0" + octets[2:]

    def ask(self, qname, rtype):
        """The answer to a question."""
        return next(self.messages(qname, rtype))

    def transfer(self, apex):
        """All records of a zone (RFC 5936)."""
        records = []
        for octets in self.messages(apex, AXFR):
            records += Message.read(octets).sections[0]
            if len(records) > 1 and records[-1].rtype == SOA:
                return records[:-1]
        raise ConnectionError("no zone")

    def end(self):
        end(self.process)

    def version(self):
        return f"{self.NAME} {version(self.COMMAND[0], self.VERSION)}"


class Named(Server):
    NAME, COMMAND, VERSION = "named", ["named", "-g", "-c", "configuration"], "-v"
    ZONE = 'zone {name} {{ type primary; file "{file}"; }};\n'
    CONFIGURATION = """
options {{
    directory "{folder}";
    listen-on port {port} {{ {host}; }};
    listen-on-v6 {{ none; }};
    pid-file none;
    session-keyfile none;
    recursion no;
    dnssec-validation no;
    check-names primary ignore;
    rrset-order {{ order none; }};
}};
controls {{ }};
{zones}"""


class Nsd(Server):
    NAME, COMMAND, VERSION = "NSD", ["nsd", "-d", "-c", "configuration"], "-v"
    ZONE = 'zone:\n    name: {name}\n    zonefile: "{file}"\n'
    CONFIGURATION = NSD


class Knot(Server):
    NAME, COMMAND, VERSION = "Knot", ["knotd", "-c", "configuration"], "--version"
    ZONE = '  - domain: {name}\n    file: "{file}"\n'
    CONFIGURATION = """
server:
    rundir: {folder}
    listen: {host}@{port}
log:
  - target: stderr
    any: info
database:
    storage: {folder}
template:
  - id: default
    storage: {folder}
    zonefile-sync: -1
    journal-content: none
zone:
{zones}"""


SERVERS = (Named, Nsd, Knot)


@contextlib.contextmanager
def running(made):
    """Servers, made one by one: they have their zones, and run while this lasts."""
    servers = []
    try:
        servers += made
        for it in servers:
            it.wait()
        yield servers
    finally:
        for it in servers:
            it.end()


def serve(made, are_told=slice(None)):
    """Has servers run until the input ends, and prints the versions of some once they have their zones."""
    with running(made) as servers:
        print(", ".join(sorted({it.version() for it in servers[are_told]})), flush=True)
        sys.stdin.read()
