"""Name servers on loopback alone, each in a folder of its own: two that sign zones and roll their keys, and one that copies."""

import base64
import concurrent.futures
import contextlib
import pathlib
import secrets
import subprocess
import sys
import time
import typing

sys.path.append(str(pathlib.Path(__file__).resolve().parents[1] / "aliases"))

from messages import ask, data_of
from processes import HOST, NSD, end, free_port, run, version
from signers import knot_policy
from zone import TTL, file_of

# How long it may take until all servers have what one of them has, in seconds.
PROPAGATION = 5
ALGORITHMS = {13: "ecdsap256sha256", 15: "ed25519"}


class Policy(typing.NamedTuple):
    """How a zone is signed: its chain (nsec, nsec3 or optout), the algorithm of its keys, and whether one key signs all."""

    chain: str
    algorithm: int = 13
    is_single: bool = False

    @property
    def name(self):
        return f"{self.chain}-{self.algorithm}-{'csk' if self.is_single else 'ksk'}"


class Server:
    """A server and its zones, each of which has an `apex` and a `policy`."""

    def __init__(self, folder):
        self.folder = folder / self.NAME
        self.port, self.control = free_port(), free_port()
        self.address = (HOST, self.port)
        self.zones, self.process = [], None
        # Commands are run one by one beside the looks, which they would hold up.
        self.commands, self.pool = [], concurrent.futures.ThreadPoolExecutor(1)

    def later(self, command, *words):
        """Has a command of the server's run as soon as those before it are over."""
        self.commands.append(self.pool.submit(command, *words))

    def start(self):
        self.folder.mkdir()
        for zone in self.zones:
            (self.folder / f"{zone.apex}.zone").write_text(file_of(zone.apex))
        self.configure()
        with open(self.folder / "log", "wb") as log:
            how = {"stdin": subprocess.DEVNULL, "stdout": log, "stderr": log}
            self.process = subprocess.Popen(self.COMMAND, cwd=self.folder, **how)

    def configure(self):
        (self.folder / self.FILE).write_text(self.configuration())

    def policies(self):
        named = {zone.policy.name: zone.policy for zone in self.zones}
        return "".join(self.policy(it) for it in named.values())

    def wait(self):
        """Waits until all zones are there, and signed."""
        for zone in self.zones:
            for _ in range(100):
                try:
                    if data_of(ask(self.address, zone.apex, "DNSKEY"), "DNSKEY"):
                        break
                except TimeoutError:
                    pass
                time.sleep(0.2)
            else:
                raise TimeoutError(f"{self.NAME} has no keys of {zone.apex}: see {self.folder}/log")

    def call(self, *words):
        """Runs a command of the server's."""
        run(self.folder, *words, timeout=30)

    def version(self):
        return f"{self.NAME} {version(self.COMMAND[0], self.VERSION)}"

    def end(self):
        concurrent.futures.wait(self.commands)
        if self.process:
            end(self.process)

    def check(self):
        """Raises what the first command that failed has raised."""
        for command in self.commands:
            command.result()


class Bind(Server):
    """named of BIND. It waits by itself until no cache has the old DS set."""

    NAME = "BIND"
    FILE = "named.conf"
    COMMAND = ["named", "-g", "-c", "named.conf"]
    VERSION = "-v"
    ds_wait = 0

    def __init__(self, folder, copy):
        super().__init__(folder)
        self.copy = copy
        self.secret = base64.b64encode(secrets.token_bytes(32)).decode()

    def configuration(self):
        key = f'key rndc {{ algorithm hmac-sha256; secret "{self.secret}"; }};\n'
        (self.folder / "rndc.key").write_text(key)
        zones = "".join(
            f'zone {it.apex} {{ type primary; file "{it.apex}.zone"; inline-signing yes; dnssec-policy {it.policy.name}; }};\n'
            for it in self.zones
        )
        return f"""
options {{
    directory "{self.folder}";
    listen-on port {self.port} {{ {HOST}; }};
    listen-on-v6 {{ none; }};
    pid-file none;
    session-keyfile none;
    recursion no;
    dnssec-validation no;
    allow-transfer {{ {HOST}; }};
    notify explicit;
    notify-delay 0;
    also-notify {{ {HOST} port {self.copy.port}; }};
    max-udp-size 4096;
    rrset-order {{ order none; }};
}};
controls {{ inet {HOST} port {self.control} allow {{ {HOST}; }} keys {{ rndc; }}; }};
{key}{self.policies()}{zones}"""

    @staticmethod
    def policy(policy):
        hashed = f"nsec3param iterations 0 optout {'yes' if policy.chain == 'optout' else 'no'} salt-length 0;"
        keys = " ".join(
            f"{key} lifetime unlimited algorithm {ALGORITHMS[policy.algorithm]};"
            for key in (["csk"] if policy.is_single else ["ksk", "zsk"])
        )
        return f"""dnssec-policy {policy.name} {{
    keys {{ {keys} }};
    dnskey-ttl {TTL};
    max-zone-ttl {TTL};
    parent-ds-ttl {TTL};
    publish-safety 1;
    retire-safety 1;
    zone-propagation-delay {PROPAGATION};
    parent-propagation-delay 1;
    signatures-validity PT10M;
    signatures-validity-dnskey PT10M;
    signatures-refresh PT8M40S;
    signatures-jitter PT30S;
    {"" if policy.chain == "nsec" else hashed}
}};
"""

    def rndc(self, *words):
        self.call("rndc", "-s", HOST, "-p", str(self.control), "-k", "rndc.key", *words)

    def roll(self, zone, _kind, tag):
        """Begins a roll of a key."""
        self.rndc("dnssec", "-rollover", "-key", str(tag), zone.apex)

    def reconfigure(self):
        """Takes over the policies that the zones have by now."""
        self.configure()
        self.rndc("reconfig")

    def tell(self, zone, appeared, left):
        """Tells of which keys the parent has DS records by now, and of which no more."""
        for told, tags in (("published", appeared), ("withdrawn", left)):
            for tag in tags:
                self.rndc("dnssec", "-checkds", "-key", str(tag), told, zone.apex)


class Knot(Server):
    """knotd of Knot. It is told of a new DS set once no cache has the old one."""

    NAME = "Knot"
    FILE = "knot.conf"
    COMMAND = ["knotd", "-c", "knot.conf"]
    VERSION = "--version"
    ds_wait = TTL + 1

    def __init__(self, folder, copy):
        super().__init__(folder)
        self.copy = copy

    def configuration(self):
        zones = "".join(f"  - domain: {it.apex}\n    dnssec-policy: {it.policy.name}\n" for it in self.zones)
        return f"""
server:
    rundir: {self.folder}
    listen: {HOST}@{self.port}
    udp-max-payload: 4096
log:
  - target: stderr
    any: info
database:
    storage: {self.folder}
remote:
  - id: copy
    address: {HOST}@{self.copy.port}
acl:
  - id: copy
    address: {HOST}
    action: transfer
submission:
  - id: parent
policy:
{self.policies()}
template:
  - id: default
    storage: {self.folder}
    file: "%s.zone"
    zonefile-sync: -1
    zonefile-load: difference-no-serial
    journal-content: all
    dnssec-signing: on
    notify: copy
    acl: copy
zone:
{zones}"""

    @staticmethod
    def policy(policy):
        more = {"propagation_delay": PROPAGATION, "rrsig_lifetime": "10m", "rrsig_refresh": 520, "rrsig_pre_refresh": 10}
        more |= {"single_type_signing": "on" if policy.is_single else "off", "ksk_submission": "parent"}
        return knot_policy(policy.name, policy.chain, ALGORITHMS[policy.algorithm], TTL, **more)

    def knotc(self, *words):
        self.call("knotc", "-c", "knot.conf", *words)

    def roll(self, zone, kind, _tag):
        self.knotc("zone-key-rollover", zone.apex, kind)

    def reconfigure(self):
        self.configure()
        self.knotc("reload")

    def tell(self, zone, _appeared, _left):
        self.knotc("zone-ksk-submitted", zone.apex)


class Nsd(Server):
    """NSD, which has copies of the zones of servers, its primaries."""

    NAME = "NSD"
    FILE = "nsd.conf"
    COMMAND = ["nsd", "-d", "-c", "nsd.conf"]
    VERSION = "-v"

    def __init__(self, folder):
        super().__init__(folder)
        self.primaries = []

    def start(self):
        self.zones = [zone for it in self.primaries for zone in it.zones]
        super().start()

    def configuration(self):
        zones = "".join(
            f"""
zone:
    name: {zone.apex}
    request-xfr: AXFR {HOST}@{it.port} NOKEY
    allow-notify: {HOST} NOKEY
"""
            for it in self.primaries
            for zone in it.zones
        )
        wide = "server:\n    ipv4-edns-size: 4096\n"
        return NSD.format(host=HOST, port=self.port, folder=self.folder, zones=wide + zones)


@contextlib.contextmanager
def running(servers):
    """Has servers run, with all their zones signed, while this lasts."""
    try:
        for it in servers:
            it.start()
        for it in servers:
            it.wait()
        yield
    finally:
        for it in servers:
            it.end()
