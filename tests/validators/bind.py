"""The same zones signed by dnssec-signzone of BIND and served by named, so that the same questions can be asked of both."""

import contextlib
import socket
import subprocess
import threading
import time

import wire
from authority import Missing, packed
from cases import Zoned
from keys import ds_of
from processes import end, run
from wire import A, AAAA, DNSKEY, DS, NS, SOA
from zones import LONG, octets

ADDRESS = "127.0.0.1", 5300
ALGORITHMS = {13: ["-a", "ECDSAP256SHA256"], 8: ["-a", "RSASHA256", "-b", "2048"]}


def line(owner, rtype, ttl, data):
    """A record in a master file, as RFC 3597 writes data."""
    return f"{wire.text(owner)} {ttl} IN TYPE{rtype} \\# {len(data)} {data.hex()}"


def likely(zone, questions):
    """What is asked on the way: names and those above them, delegations, the names right below the apex, servers."""
    ends = [(zone.end(name), rtype) for name, rtype in questions]
    asked = sorted({name[at:] for name, _rtype in [*questions, *ends] for at in range(len(name)) if octets(name) < LONG})
    found = dict.fromkeys((name, rtype) for name in asked for rtype in (A, NS))
    found.update(dict.fromkeys((name, DS) for name in asked if len(name) == 1 or name in zone.cuts))
    found.update(dict.fromkeys(((("ns",), A), (("ns",), AAAA), ((), A), ((), NS), ((), SOA))))
    found.update(dict.fromkeys(it for it in ends if octets(it[0]) < LONG))
    return list(found)


class BindCase(Zoned):
    """A zone signed by dnssec-signzone. What named answers of it is handed on."""

    def __init__(self, zone, apex, below_key, folder):
        super().__init__(zone, apex, below_key, zone.questions)
        self.folder, self.answers, self.lock = folder, {}, threading.Lock()
        self.name = wire.text(apex)
        self.file = f"{self.name}signed"

    def sign(self):
        shape = self.zone.shape
        for _ in range(shape.width):
            run(self.folder, "dnssec-keygen", *ALGORITHMS[shape.algorithm], "-f", "KSK", self.name)
            run(self.folder, "dnssec-keygen", *ALGORITHMS[shape.algorithm], self.name)
        keys = [it.read_text() for it in sorted(self.folder.glob(f"K{self.name}*.key"))]
        records = [line(owner, rtype, self.zone.ttl, data) for owner, rtype, data in self.zone.records(self.apex)]
        (self.folder / self.name).write_text("\n".join([*records, *keys]))
        chain = []
        if shape.chain != "nsec":
            chain = ["-3", shape.salt, "-H", str(shape.iterations), *["-A"] * shape.opts_out]
        times = ["-s", "now-3600", "-e", "now+1209600"]
        run(self.folder, "dnssec-signzone", "-P", *chain, *times, "-o", self.name, "-f", self.file, self.name)

    def configuration(self):
        return f'zone "{self.name}" {{ type primary; file "{self.file}"; check-integrity no; check-names ignore; }};\n'

    def ds(self):
        message = ask(self.apex, DNSKEY)
        points = [it.data for it in message.sections[0] if it.rtype == DNSKEY and it.data[1] & 1]
        return sorted(ds_of(self.apex, data) for data in points)

    def all_questions(self):
        """The questions, and those on the way to them."""
        questions = dict.fromkeys([*self.questions, *likely(self.zone, self.questions)])
        return [(self.zone.owner(name, self.apex), rtype) for name, rtype in questions]

    def find(self):
        for question in self.all_questions():
            self.find_one(*question)

    def find_one(self, name, rtype):
        message = ask(name, rtype)
        sections = [*message.sections[:2], []]
        flags = message.flags & ~wire.RD
        self.answers[name, rtype] = packed(message._replace(flags=flags, sections=sections), self.addresses)
        return self.answers[name, rtype]

    def answer(self, name, rtype):
        if (name, rtype) not in self.answers:
            raise Missing(lambda: self.find_one(name, rtype))
        return self.answers[name, rtype]


def ask(name, rtype, address=ADDRESS):
    """What a server answers, over TCP; what named does, if no other is named."""
    octets = query(name, rtype)
    with socket.create_connection(address, timeout=20) as it:
        it.sendall(len(octets).to_bytes(2, "big") + octets)
        with it.makefile("rb") as answer:
            return wire.read(answer.read(int.from_bytes(answer.read(2), "big")))


def query(name, rtype):
    number = 1
    head = number.to_bytes(2, "big") + bytes([0, 0, 0, 1, 0, 0, 0, 0, 0, 1])
    return head + name + rtype.to_bytes(2, "big") + b"\0\1" + b"\0\0\x29\xff\xff\0\0\x80\0\0\0"


class Named:
    """named, which serves zones that are signed."""

    def __init__(self, folder, cases):
        self.folder, self.cases, self.process = folder, cases, None

    def start(self):
        zones = "".join(it.configuration() for it in self.cases)
        options = f"""
options {{
    directory "{self.folder}";
    listen-on port {ADDRESS[1]} {{ {ADDRESS[0]}; }};
    listen-on-v6 {{ none; }};
    pid-file none;
    session-keyfile none;
    recursion no;
    dnssec-validation no;
    minimal-responses yes;
    rrset-order {{ order none; }};
}};
controls {{ }};
{zones}"""
        (self.folder / "named.conf").write_text(options)
        with open(self.folder / "log", "wb") as log:
            how = {"stdin": subprocess.DEVNULL, "stdout": log, "stderr": log}
            self.process = subprocess.Popen(["named", "-g", "-n", "1", "-c", self.folder / "named.conf"], **how)
        self.wait()

    def wait(self):
        for _ in range(200):
            try:
                if all(ask(it.apex, DNSKEY).sections[0] for it in self.cases):
                    return
            except OSError:
                pass
            time.sleep(0.2)
        raise TimeoutError(f"named does not answer: see {self.folder}/log")

    def end(self):
        if self.process:
            end(self.process)


@contextlib.contextmanager
def served(folder, cases):
    """Has zones signed, and served while this lasts."""
    for case in cases:
        case.sign()
    named = Named(folder, cases)
    try:
        named.start()
        for case in cases:
            case.find()
        yield
    finally:
        named.end()
