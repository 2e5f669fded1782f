"""Resolvers as programs: what starts each on an address of its own, and a client that asks it. The root's key is its only trust anchor.

A run derives its own resolvers from these: `more` has the settings that it adds.
"""

from __future__ import annotations

import asyncio
import dataclasses
import os
import pathlib
import re
import secrets
import struct
import subprocess
import time
from collections.abc import Sequence

from maker.wire import SOA

AD, TC = 0x0020, 0x0200


@dataclasses.dataclass(frozen=True)
class Root:
    """Where a resolver begins: the root's server and that one's address, the root's key, and the data of its DS record."""

    server: str
    address: str
    algorithm: int
    public: str
    ds: bytes


def query(number: int, name: bytes, rtype: int) -> bytes:
    """A question with EDNS, DO and AD (RFC 3225; RFC 6840, 5.7)."""
    header = struct.pack(">6H", number, 0x0120, 1, 0, 0, 1)
    return header + name + struct.pack(">HH", rtype, 1) + b"\0" + struct.pack(">HHIH", 41, 4096, 0x8000, 0)


async def by_stream(address: tuple[str, int], octets: bytes) -> bytes:
    """What is answered to octets over TCP."""
    reader, writer = await asyncio.open_connection(*address)
    try:
        writer.write(len(octets).to_bytes(2, "big") + octets)
        return await reader.readexactly(int.from_bytes(await reader.readexactly(2), "big"))
    finally:
        writer.close()


class Client(asyncio.DatagramProtocol):
    """Asks a resolver; over TCP what it cuts off. How long it waits, how often it asks by UDP, and how long it rests behind each
    connection that brings nothing, the last one too, are of its class."""

    patience, times = 25.0, 1
    rests: Sequence[float] = (0,)

    def __init__(self, address: tuple[str, int]) -> None:
        self.address = address
        self.waiting: dict[int, asyncio.Future[bytes]] = {}

    async def open(self) -> None:
        loop = asyncio.get_running_loop()
        self.transport, _ = await loop.create_datagram_endpoint(lambda: self, remote_addr=self.address)

    def datagram_received(self, data: bytes, _peer: object) -> None:
        waiting = self.waiting.pop(int.from_bytes(data[:2], "big"), None)
        if waiting and not waiting.done():
            waiting.set_result(data)

    def error_received(self, _error: object) -> None:
        pass

    async def ask(self, name: bytes, rtype: int) -> bytes | None:
        """The octets of the answer; none, where none came."""
        for _ in range(self.times):
            answer = await self.by_datagram(name, rtype, self.patience)
            if answer and int.from_bytes(answer[2:4], "big") & TC:
                return await self.by_streams(name, rtype)
            if answer:
                return answer
        return None

    async def by_datagram(self, name: bytes, rtype: int, patience: float) -> bytes | None:
        number = next(it for it in iter(lambda: secrets.randbelow(1 << 16), None) if it not in self.waiting)
        self.waiting[number] = asyncio.get_running_loop().create_future()
        self.transport.sendto(query(number, name, rtype))
        try:
            return await asyncio.wait_for(self.waiting[number], patience)
        except asyncio.TimeoutError:
            self.waiting.pop(number, None)
            return None

    async def by_streams(self, name: bytes, rtype: int) -> bytes | None:
        """Over TCP, again where a connection is closed, since resolvers take few at a time."""
        for rest in self.rests:
            try:
                return await asyncio.wait_for(by_stream(self.address, query(1, name, rtype)), self.patience)
            except (OSError, asyncio.IncompleteReadError, asyncio.TimeoutError):
                await asyncio.sleep(rest)
        return None


def end(process: subprocess.Popen[bytes]) -> None:
    """Ends a process, by force where it takes its time."""
    process.terminate()
    try:
        process.wait(timeout=20)
    except subprocess.TimeoutExpired:
        process.kill()
        process.wait()


class Validator:
    """A program that validates: in a folder, by an address of its own, below a root."""

    NAME = PACKAGE = ""

    def __init__(self, folder: pathlib.Path, address: str, root: Root) -> None:
        self.folder, self.address, self.root = folder, address, root

    def write(self, name: str, text: str) -> pathlib.Path:
        (self.folder / name).write_text(text)
        return self.folder / name

    def hints(self) -> str:
        return f". 3600 IN NS {self.root.server}\n{self.root.server} 3600 IN A {self.root.address}\n"

    def anchor(self) -> str:
        return f". 3600 IN DNSKEY 257 3 {self.root.algorithm} {self.root.public}\n"

    @classmethod
    def version(cls) -> str:
        ran = subprocess.run(["dpkg-query", "-W", "-f", "${Version}", cls.PACKAGE], capture_output=True, text=True, check=True)
        return f"{cls.NAME} {re.sub('^[0-9]+:', '', ran.stdout)}"


class Resolver(Validator):
    """A resolver: a process, which writes to `log` in its folder."""

    FILE = ""
    client_of: type[Client] = Client
    # What a shell does first in the namespace, where a program wants more than addresses of its loopback device.
    links = ""
    # Settings that a run adds.
    more: Sequence[str] = ()

    def __init__(self, folder: pathlib.Path, address: str, root: Root) -> None:
        super().__init__(folder, address, root)
        self.process: subprocess.Popen[bytes] | None = None

    def command(self) -> list[str]:
        raise NotImplementedError

    def configuration(self) -> str:
        raise NotImplementedError

    def added(self, before: str = "", behind: str = "") -> str:
        return "".join(f"{before}{it}{behind}\n" for it in self.more)

    def environment(self) -> dict[str, str]:
        """What is set in the environment beside what is there."""
        return {}

    async def start(self) -> None:
        self.write("hints", self.hints())
        self.write("anchor", self.anchor())
        self.write(self.FILE, self.configuration())
        env = {**os.environ, **self.environment()}
        with open(self.folder / "log", "wb") as log:
            self.process = subprocess.Popen(self.command(), cwd=self.folder, env=env, stdin=subprocess.DEVNULL, stdout=log, stderr=log)
        self.client = self.client_of((self.address, 53))
        await self.client.open()

    async def is_up(self, seconds: float = 200) -> None:
        """Waits until it answers."""
        until = time.monotonic() + seconds
        while time.monotonic() < until:
            answer = await self.client.by_datagram(b"\0", SOA, 1)
            if answer and answer[3] & 15 == 0:
                return
            await asyncio.sleep(0.2)
        raise TimeoutError(f"{self.NAME} doesn't answer: see {self.folder}/log")

    def end(self) -> None:
        if self.process:
            end(self.process)


class Unbound(Resolver):
    NAME, FILE, PACKAGE = "unbound", "unbound.conf", "unbound"

    def command(self) -> list[str]:
        return ["unbound", "-d", "-c", self.FILE]

    def configuration(self) -> str:
        return f"""
server:
    interface: {self.address}
    outgoing-interface: {self.address}
    access-control: 0.0.0.0/0 allow
    directory: "{self.folder}"
    chroot: ""
    username: ""
    pidfile: ""
    use-syslog: no
    do-daemonize: no
    do-ip6: no
    root-hints: "{self.folder}/hints"
    trust-anchor-file: "{self.folder}/anchor"
    module-config: "validator iterator"
    val-log-level: 2
    val-bogus-ttl: 1
    infra-cache-max-rtt: 1000
{self.added("    ")}remote-control:
    control-enable: no
"""


class Named(Resolver):
    NAME, FILE, PACKAGE = "named", "named.conf", "bind9"

    def command(self) -> list[str]:
        return ["named", "-g", "-n", "1", "-c", self.FILE]

    def configuration(self) -> str:
        return f"""
options {{
    directory "{self.folder}";
    listen-on port 53 {{ {self.address}; }};
    listen-on-v6 {{ none; }};
    query-source address {self.address};
    pid-file none;
    session-keyfile none;
    recursion yes;
    allow-query {{ any; }};
    dnssec-validation yes;
    empty-zones-enable no;
    recursive-clients 10000;
{self.added("    ", ";")}}};
controls {{ }};
trust-anchors {{ . static-key 257 3 {self.root.algorithm} "{self.root.public}"; }};
zone "." {{ type hint; file "{self.folder}/hints"; }};
"""


class KnotResolver(Resolver):
    NAME, FILE, PACKAGE = "Knot Resolver", "kresd.conf", "knot-resolver"
    # In megabytes: it takes room on the disk for all of its cache.
    cache = 100

    def command(self) -> list[str]:
        return ["kresd", "-n", "-q", "-c", self.FILE, str(self.folder)]

    def configuration(self) -> str:
        return f"""
net.listen('{self.address}', 53, {{ kind = 'dns' }})
net.ipv6 = false
net.outgoing_v4('{self.address}')
modules.unload('ta_update')
modules.unload('ta_signal_query')
modules.unload('priming')
modules.unload('detect_time_skew')
modules.unload('detect_time_jump')
trust_anchors.add_file('{self.folder}/anchor', true)
modules = {{ 'hints > iterate' }}
hints.root({{ ['{self.root.server}'] = {{ '{self.root.address}' }} }})
cache.open({self.cache} * MB, 'lmdb://{self.folder}/cache')
cache.min_ttl(0)
{self.added()}"""


class PowerDns(Resolver):
    NAME, FILE, PACKAGE = "PowerDNS Recursor", "recursor.conf", "pdns-recursor"

    def command(self) -> list[str]:
        return ["pdns_recursor", f"--config-dir={self.folder}"]

    def configuration(self) -> str:
        tag, algorithm, kind = struct.unpack(">HBB", self.root.ds[:4])
        self.write("anchor.lua", f'clearTA(".")\naddTA(".", "{tag} {algorithm} {kind} {self.root.ds[4:].hex()}")\n')
        return f"""
local-address={self.address}
local-port=53
query-local-address={self.address}
allow-from=0.0.0.0/0
config-dir={self.folder}
socket-dir={self.folder}
hint-file={self.folder}/hints
lua-config-file={self.folder}/anchor.lua
dont-query=
dnssec=validate
daemon=no
disable-syslog=yes
threads=1
minimum-ttl-override=0
max-cache-bogus-ttl=1
packetcache-servfail-ttl=1
security-poll-suffix=
{self.added()}"""


class Forwarder(Resolver):
    """A program that validates, and asks a resolver for the answers: `upstream` is that one's address."""

    upstream = ""


class Dnsmasq(Forwarder):
    NAME, FILE, PACKAGE = "dnsmasq", "dnsmasq.conf", "dnsmasq-base"

    def command(self) -> list[str]:
        return ["dnsmasq", "--keep-in-foreground", "--log-facility=-", f"--conf-file={self.folder}/{self.FILE}"]

    def configuration(self) -> str:
        tag, algorithm, kind = struct.unpack(">HBB", self.root.ds[:4])
        return f"""
listen-address={self.address}
bind-interfaces
user=
pid-file=
no-resolv
no-hosts
server={self.upstream}
dnssec
trust-anchor=.,{tag},{algorithm},{kind},{self.root.ds[4:].hex()}
{self.added()}"""


class Resolved(Forwarder):
    """systemd-resolved, without systemd: its files are put over those of the system in a mount namespace of its own. With CORPUS_RESOLVED
    in the environment, it is taken from that folder, into which its packages were unpacked (`dpkg -x`): to install it would change
    /etc/resolv.conf."""

    NAME, FILE, PACKAGE = "systemd-resolved", "resolved.conf", "systemd-resolved"
    # The program wants this user, and a device that is none of loopback.
    USER = "systemd-resolve"
    links = "ip link add r0 type veth peer name r1; ip link set r0 up; ip link set r1 up; ip address add 198.51.100.99/32 dev r0; "

    def command(self) -> list[str]:
        room, here = self.room(), self.folder
        (here / "anchors").mkdir(exist_ok=True)
        tag, algorithm, kind = struct.unpack(">HBB", self.root.ds[:4])
        self.write("anchors/root.positive", f". IN DS {tag} {algorithm} {kind} {self.root.ds[4:].hex()}\n")
        # One such file takes the place of the list that the program has by itself, with test. in it.
        self.write("anchors/none.negative", "nothing.invalid\n")
        self.write("passwd", pathlib.Path("/etc/passwd").read_text() + f"{self.USER}:x:990:990::/:/usr/sbin/nologin\n")
        self.write("group", pathlib.Path("/etc/group").read_text() + f"{self.USER}:x:990:\n")
        script = f"""
mount -t tmpfs none /run
mkdir -p /run/systemd /run/resolved
mount --bind {here} /run/resolved
mount -t tmpfs none /etc/systemd
cp /run/resolved/{self.FILE} /etc/systemd/resolved.conf
mkdir -p /run/dnssec-trust-anchors.d
cp /run/resolved/anchors/* /run/dnssec-trust-anchors.d/
mount --bind /run/resolved/passwd /etc/passwd
mount --bind /run/resolved/group /etc/group
exec {room}/lib/systemd/systemd-resolved
"""
        return ["unshare", "--mount", "sh", "-ec", script]

    @staticmethod
    def room() -> str:
        return os.environ.get("CORPUS_RESOLVED", "").rstrip("/")

    def environment(self) -> dict[str, str]:
        return super().environment() | self.libraries() | {"SYSTEMD_LOG_LEVEL": "info"}

    @classmethod
    def libraries(cls) -> dict[str, str]:
        return {"LD_LIBRARY_PATH": f"{cls.room()}/usr/lib/x86_64-linux-gnu/systemd"} if cls.room() else {}

    @classmethod
    def version(cls) -> str:
        if not cls.room():
            return super().version()
        words, env = [f"{cls.room()}/usr/bin/resolvectl", "--version"], {**os.environ, **cls.libraries()}
        ran = subprocess.run(words, capture_output=True, text=True, check=True, env=env)
        return f"{cls.NAME} {ran.stdout.split('(')[1].split(')')[0]}"

    def configuration(self) -> str:
        return f"""
[Resolve]
DNS={self.upstream}
FallbackDNS=
Domains=~.
DNSSEC=yes
DNSStubListener=no
DNSStubListenerExtra={self.address}
LLMNR=no
MulticastDNS=no
ReadEtcHosts=no
{self.added()}"""


class Forward(Resolver):
    """This repository's forwarder, which asks the zones' own servers: the program that ZERMUITA names, or the one that is built."""

    NAME, FILE = "zermuita forward", "forward.toml"
    # Whether denials of other questions answer is the matter of some cases alone.
    denials = 0

    @classmethod
    def program(cls) -> str:
        top = pathlib.Path(__file__).resolve().parents[2]
        built = [top / f"rust/target/{it}/zermuita" for it in ("release", "debug")]
        found = os.environ.get("ZERMUITA") or next((str(it) for it in built if it.exists()), "")
        if not found:
            raise SystemExit("no forwarder: cargo build -p zermuita-programs in rust, or its path in ZERMUITA")
        return found

    def command(self) -> list[str]:
        return [self.program(), "forward", "run", "--config", self.FILE]

    def configuration(self) -> str:
        tag, algorithm, kind = struct.unpack(">HBB", self.root.ds[:4])
        self.write("root.ds", f". IN DS {tag} {algorithm} {kind} {self.root.ds[4:].hex()}\n")
        return f"""
listen = ["{self.address}:53"]
root-hints = "{self.folder}/hints"
trust-anchor = "{self.folder}/root.ds"
{self.added()}
[cache]
failure-ttl = 0
denials = {self.denials}
"""

    @classmethod
    def version(cls) -> str:
        ran = subprocess.run([cls.program(), "--version"], capture_output=True, text=True, check=True)
        return f"{cls.NAME} {ran.stdout.split()[-1]}"
