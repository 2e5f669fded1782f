"""The four resolvers of tests/validators, each with dnstap switched on as docs/use/SHADOW.md prints it, and a shadow."""

import asyncio
import json
import os
import pathlib
import re
import signal
import subprocess
import sys
import time

sys.path[:0] = [str(pathlib.Path(__file__).resolve().parents[1] / it) for it in ("validators", "rust")]

import programs
import validators
from runners.programs import end
from validators import Client

DISTRIBUTOR = "198.51.100.30"


class RootKey:
    """The root's key, of the file that dnssec-keygen made, and its DS record."""

    def __init__(self, folder, anchor):
        line = next(it.read_text() for it in folder.glob("K*.key") if " 257 3 " in it.read_text()).splitlines()[-1]
        self.algorithm, self.base64 = re.search(r"DNSKEY 257 3 (\d+) (.*)$", line).groups()
        self.base64 = self.base64.replace(" ", "")
        tag, algorithm, kind, digest = re.search(r"DS (\d+) (\d+) (\d+) (\S+)", anchor.read_text()).groups()
        self.data = int(tag).to_bytes(2, "big") + bytes([int(algorithm), int(kind)]) + bytes.fromhex(digest)

    def ds(self, _owner):
        return self.data


def configured(folder, anchor, settings):
    """The file of a configuration: settings by their names, with a point behind that of their table."""
    plain = {"trust-anchors": str(anchor), **settings}
    file = folder / "shadow.toml"
    file.write_text("".join(f"{name} = {json.dumps(value)}\n" for name, value in plain.items()))
    return file


class Shadow:
    """`zermuita shadow`, on a socket in a folder, and what it logs."""

    def __init__(self, program, folder, anchor, settings=None, environment=None):
        self.socket, self.log = folder / "dnstap.sock", folder / "shadow.log"
        own = {"socket": str(self.socket), "socket-mode": "0666", "disagreements.file": str(self.log)}
        words = [*program, "shadow", "run", "--config", configured(folder, anchor, own | (settings or {}))]
        with open(folder / "shadow.stderr", "wb") as errors:
            how = {"stdin": subprocess.DEVNULL, "stderr": errors, "env": programs.with_library(**(environment or {}))}
            self.process = subprocess.Popen(list(map(str, words)), **how)
        for _ in range(100):
            if self.socket.exists():
                return
            time.sleep(0.1)
        self.kill()
        raise TimeoutError(f"no shadow: see {folder}/shadow.stderr")

    def lines(self):
        return [json.loads(line) for line in self.log.read_text().splitlines(keepends=True) if line.endswith("\n")]

    def counts(self):
        """What it counts by now."""
        before = len(self.lines())
        self.process.send_signal(signal.SIGUSR1)
        for _ in range(600):
            found = [it["counts"] for it in self.lines()[before:] if "counts" in it]
            if found:
                return found[-1]
            time.sleep(0.1)
        raise TimeoutError("no counts")

    async def settled(self, answers):
        """Waits until so many answers were seen, none waits for messages, and none for an explanation."""
        for _ in range(240):
            counts = self.counts()
            seen = counts["answers to clients"] + counts["answers to own questions"]
            told = counts["explained"] + counts["not explained"] if "explained" in counts else counts["disagree"]
            if not counts["waiting"] and seen >= answers + counts["asked"] and told >= counts["disagree"]:
                break
            await asyncio.sleep(0.5)

    def kill(self):
        """Ends it by force, if it still runs."""
        self.process.kill()
        self.process.wait()

    def end(self):
        """Its lines of disagreements, and its counts."""
        self.process.terminate()
        if self.process.wait(timeout=120):
            raise RuntimeError(f"the shadow's status is {self.process.returncode}")
        lines = self.lines()
        return [it for it in lines if "case" in it], lines[-1]["counts"]


def changed(text, line, other):
    """A configuration with another line in the place of one."""
    if line not in text:
        raise ValueError(f"no line to change: {line}")
    return text.replace(line, other, 1)


class Logging:
    """What a test may switch off: dnstap, and validation."""

    is_logging = is_validating = True
    asks_at = ""

    def configuration(self):
        text = super().configuration() + self.NAMES
        text = text if self.is_validating else changed(text, *self.VALIDATION)
        return self.logging(text) if self.is_logging else text

    def processes(self):
        return [self.process]


class Unbound(Logging, validators.Unbound):
    NAMES = 'server:\n    ede: yes\n    local-zone: "test." nodefault\n'
    VALIDATION = 'module-config: "validator iterator"', 'module-config: "iterator"'

    def logging(self, text):
        return text + f"""
dnstap:
    dnstap-enable: yes
    dnstap-socket-path: "{self.folder}/dnstap.sock"
    dnstap-log-resolver-response-messages: yes
    dnstap-log-client-response-messages: yes
"""


class Named(Logging, validators.Named):
    NAMES = ""
    VALIDATION = "dnssec-validation yes;", "dnssec-validation no;"

    def logging(self, text):
        return changed(text, "options {", f"""options {{
    dnstap {{ resolver response; client response; }};
    dnstap-output unix "{self.folder}/dnstap.sock";""")


class Knot(Logging, validators.Knot):
    """It logs nothing of its servers: what the shadow needs beside its answers to clients it is asked for."""

    NAMES = "modules = { 'policy' }\npolicy.special_names = { count = 0 }\n"

    @property
    def VALIDATION(self):
        return f"trust_anchors.add_file('{self.folder}/anchor', true)", "trust_anchors.remove('.')"

    @property
    def asks_at(self):
        return f"{self.address}:53"

    def logging(self, text):
        return text + f"""
modules = {{ dnstap = {{ socket_path = '{self.folder}/dnstap.sock', client = {{ log_responses = true }} }} }}
"""


class PowerDns(Logging, validators.PowerDns):
    """It logs nothing of its clients: dnsdist in front of it does."""

    NAMES = ""
    VALIDATION = "dnssec=validate", "dnssec=process-no-validate"
    asks_at = f"{DISTRIBUTOR}:53"
    distributor = None

    def logging(self, text):
        anchor = (self.folder / "anchor.lua").read_text()
        self.write("anchor.lua", anchor + f"""
dnstapFrameStreamServer({{"{self.folder}/dnstap.sock"}}, {{logQueries=false, logResponses=true}})
""")
        self.write("dnsdist.conf", f"""
setLocal("{DISTRIBUTOR}:53")
setACL("0.0.0.0/0")
newServer({{address="{self.address}:53", source="{DISTRIBUTOR}", checkInterval=1, checkName="."}})
log = newFrameStreamUnixLogger("{self.folder}/dnstap.sock")
addResponseAction(AllRule(), DnstapLogResponseAction("dnsdist", log))
""")
        return text

    async def start(self):
        await super().start()
        if not self.is_logging:
            return
        with open(self.folder / "dnsdist.log", "wb") as log:
            words = ["dnsdist", "--supervised", "--disable-syslog", "-C", self.folder / "dnsdist.conf"]
            self.distributor = subprocess.Popen(words, cwd=self.folder, stdin=subprocess.DEVNULL, stdout=log, stderr=log)
        await self.is_up()
        self.client = Client((DISTRIBUTOR, 53))
        await self.client.open()

    def processes(self):
        return [self.process, *([self.distributor] if self.distributor else [])]

    def end(self):
        if self.distributor:
            end(self.distributor)
        super().end()


ALL = {"unbound": Unbound, "named": Named, "knot": Knot, "powerdns": PowerDns}


async def unanswered(resolver, questions):
    """Starts a resolver and asks it all questions: how many had no answer."""
    await resolver.start()
    await resolver.is_up()
    gate = asyncio.Semaphore(20)

    async def ask(question):
        async with gate:
            return await resolver.client.ask(*question)

    return sum(it is None for it in await asyncio.gather(*map(ask, questions)))


async def asked(kind, folder, address, key, questions, program, anchor, settings=None, is_validating=True, environment=None):
    """A shadow and a resolver in a folder: what the shadow wrote once the questions were asked, and how many had no answer.
    A resolver that doesn't validate asks for no keys, so that the shadow does."""
    folder.mkdir(parents=True)
    resolver = kind(folder, address, key)
    resolver.is_validating = is_validating
    asks = resolver.asks_at or ("" if is_validating else f"{address}:53")
    shadow = Shadow(program, resolver.folder, anchor, (settings or {}) | ({"ask": asks} if asks else {}), environment)
    try:
        missing = await unanswered(resolver, questions)
        await shadow.settled(len(questions) - missing)
        resolver.end()
        disagreements, counts = shadow.end()
    finally:
        resolver.end()
        shadow.kill()
    return disagreements, counts, missing, resolver.version()
