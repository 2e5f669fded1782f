"""The six validators: four resolvers, each a process on an address of its own, and two programs that are run for a question."""

import asyncio
import ipaddress
import pathlib
import re
import shutil
import struct
import typing

import wire
from authority import FORWARD, ROOT, dotted
from runners import programs

# In seconds, when a program is ended.
ENDLESS = 60
ALIASES = wire.CNAME, wire.DNAME


class Heard(typing.NamedTuple):
    """What a validator says: a word for the RCODE, or bogus; whether it has a proof; the data of the records asked for, and the
    records of aliases before them, unless it does not tell them."""

    status: str
    is_secure: bool
    data: tuple | None
    links: tuple | None = ()


def heard(octets, rtype):
    message = wire.read(octets)
    status = {0: "NOERROR", 2: "bogus", 3: "NXDOMAIN", 6: "YXDOMAIN"}.get(message.rcode, f"RCODE {message.rcode}")
    answer = [it._replace(owner=it.owner.lower(), data=wire.canonical_data(it.rtype, it.data)) for it in message.sections[0]]
    data = sorted(it.data for it in answer if it.rtype == rtype)
    links = {(it.owner, it.rtype, it.data) for it in answer if it.rtype in ALIASES and it.rtype != rtype}
    return Heard(status, bool(message.flags & wire.AD), tuple(data), tuple(sorted(links)))


class Client(programs.Client):
    patience, times = 20, 2
    rests = 0.5, 1, 2


class Validator(programs.Validator):
    """A validator: `width` questions are open at a time, where it refuses answers `wide`. It is told of the root's key by its
    DNSKEY data."""

    width = wide = 30

    def __init__(self, folder, address, root_key):
        folder = pathlib.Path(folder) / self.NAME.replace(" ", "-")
        folder.mkdir()
        root = programs.Root("a.root.", dotted(ROOT), root_key.algorithm, root_key.base64, root_key.ds(b"\0"))
        super().__init__(folder, address, root)

    @staticmethod
    def in_place_of(question, _zone):
        """What it is asked in the place of a question about a zone; none, where that is nothing."""
        return question

    @staticmethod
    def links(links):
        """The records of aliases as it shows them."""
        return links


class Resolver(Validator, programs.Resolver):
    client_of = Client

    async def ask(self, name, rtype):
        answer = await self.client.ask(name, rtype)
        return heard(answer, rtype) if answer else Heard("no answer", False, ())


class Unbound(Resolver, programs.Unbound):
    more = [
        'logfile: ""', "num-queries-per-thread: 2048", "outgoing-range: 4096", "msg-cache-size: 100m", "rrset-cache-size: 200m",
        "key-cache-size: 20m",
    ]


class Named(Resolver, programs.Named):
    pass


class Knot(Resolver, programs.KnotResolver):
    cache = 500

    def end(self):
        super().end()
        shutil.rmtree(self.folder / "cache", ignore_errors=True)


class PowerDns(Resolver, programs.PowerDns):
    NAME = "PowerDNS"
    more = ["max-rrsigs-per-record=20", "max-signature-validations-per-query=1000"]


class Program(Validator):
    """A program that is run for each question; it asks the server that answers for all zones. delv waits for seconds where it
    refuses an answer."""

    width, wide = 4, 32

    async def ask(self, name, rtype):
        return self.said(await self.output(self.words(wire.text(name), wire.NAMES[rtype])), rtype)

    async def output(self, words):
        how = {"stdin": asyncio.subprocess.DEVNULL, "stdout": asyncio.subprocess.PIPE, "stderr": asyncio.subprocess.STDOUT}
        process = await asyncio.create_subprocess_exec(*words, cwd=self.folder, **how)
        try:
            output, _none = await asyncio.wait_for(process.communicate(), ENDLESS)
        except asyncio.TimeoutError:
            process.kill()
            await process.wait()
            return ""
        return output.decode(errors="replace")

    async def start(self):
        pass

    async def is_up(self):
        pass

    def end(self):
        pass


class Delv(Program):
    """It does not end where a name that a DNAME makes is too long, and is not asked for such names."""

    NAME, PACKAGE = "delv", "bind9-dnsutils"

    async def start(self):
        self.write("anchor", f'trust-anchors {{ . static-key 257 3 {self.root.algorithm} "{self.root.public}"; }};\n')

    def words(self, name, rtype):
        how = [f"@{dotted(FORWARD)}", "-b", self.address, "-a", "anchor", "+root=.", "+unknownformat"]
        return ["delv", *how, "-q", name, "-t", rtype]

    @staticmethod
    def in_place_of(question, zone):
        return None if zone.says(*question).status == "YXDOMAIN" else question

    @staticmethod
    def links(links):
        """It shows a DNAME at the name that it leads elsewhere, and not the CNAME that is made from it."""
        made = {(links[at + 1][0], it[2]): it for at, it in enumerate(links) if it[1] == wire.DNAME}
        names = {owner for owner, _lead in made}
        shown = ((owner, rtype, lead) for owner, rtype, lead in links if rtype == wire.CNAME and owner not in names)
        return *shown, *((owner, wire.DNAME, lead) for owner, lead in made)

    def said(self, output, rtype):
        records = [*unknown_data(output)]
        data = tuple(sorted(data for _owner, of, data in records if of == rtype))
        links = tuple(sorted(it for it in records if it[1] in ALIASES and it[1] != rtype))
        is_secure = "fully validated" in output and "unsigned answer" not in output
        if "resolution failed" in output and "ncache" not in output:
            return Heard("bogus", False, data, links)
        status = "NXDOMAIN" if "ncache nxdomain" in output else "NOERROR"
        return Heard(status, is_secure, data, links)


def unknown_data(output):
    """Owner, type and data of the records of a text, as RFC 3597 writes data."""
    for line in output.splitlines():
        found = re.match(r"^(\S+)\s+\d+\s+(?:IN|CLASS1)\s+(\S+)\s+\\# \d+ ([0-9A-Fa-f ]+)$", line)
        if found:
            rtype = wire.NUMBERS.get(found[2]) or int(found[2].removeprefix("TYPE"))
            yield wire.wire(found[1].lower()), rtype, wire.canonical_data(rtype, bytes.fromhex(found[3]))


class Drill(Program):
    """It goes from the root down, and stops where a wildcard answers for a name above the one that is asked for; there, and for DS,
    which it would ask of the zone below, it is run so that it goes from signatures up, and prints no data. What it prints does
    not tell NXDOMAIN from NODATA: both are `denied`. It follows no aliases, and is asked for these by their own type, from signatures
    up for a CNAME, since a wildcard's answers for names above."""

    NAME, PACKAGE = "drill", "ldnsutils"
    UPWARD = wire.DS, wire.CNAME

    async def start(self):
        self.write("anchor", self.anchor())
        self.write("hints", self.hints())

    @staticmethod
    def in_place_of(question, zone):
        link = zone.link(*question)
        return link.links[0][:2] if link else question

    async def ask(self, name, rtype):
        """It gives up where a server is late, so that it is asked anew where it has no proof."""
        for _ in range(3):
            heard = await self.asked(name, rtype)
            if heard.status != "bogus":
                break
        return heard

    async def asked(self, name, rtype):
        asked = wire.text(name), wire.NAMES[rtype]
        down = ["drill", "-t", "-TD", "-k", "anchor", "-r", "hints", *asked]
        output = "" if rtype in self.UPWARD else await self.output(down)
        if rtype in self.UPWARD or self.stops_above(output, *asked):
            return self.chased(await self.output(["drill", "-t", "-S", "-k", "anchor", f"@{dotted(FORWARD)}", *asked]))
        return self.said(output, rtype)

    @staticmethod
    def stops_above(output, name, rtype):
        lines = re.findall(r"^\[[TUS]\] Existence denied: (\S+) (\S+)$", output, re.MULTILINE)
        marks = re.findall(r"^\[(.)\]", output, re.MULTILINE)
        is_denied = bool(re.search(r"^\[[TUS]\] Existence denied.*\n(?:;;.*\n)*\Z", output, re.MULTILINE))
        return is_denied and "B" not in marks and lines[-1] != (name, rtype)

    @staticmethod
    def chased(output):
        """What was heard from the chase of signatures."""
        if "Chase successful" not in output:
            return Heard("bogus", False, ())
        is_denied = "Existence" in output
        return Heard("denied" if is_denied else "NOERROR", True, () if is_denied else None)

    def said(self, output, rtype):
        lines = re.findall(r"^\[([TUBS])\] (.*)$", output, re.MULTILINE)
        if not lines or any(mark == "B" for mark, _line in lines):
            return Heard("bogus", False, ())
        if lines[-1][1].startswith("No data found"):
            # The mark of this line is that of no record: the one before it tells whether that has a proof.
            lines.pop()
        mark, last = lines[-1]
        if last.startswith("Existence denied"):
            return Heard("denied", mark == "T", ())
        data = tuple(sorted(drill_data(output[output.rindex("\n[") :], rtype)))
        return Heard("NOERROR", mark == "T", data) if data else Heard("bogus", False, ())


def drill_data(text, rtype):
    """The data of the records of a type in a text."""
    for line in text.splitlines():
        found = re.match(r"^(?:\[[TU]\] )?\S+\s+\d+\s+IN\s+(\S+)\s+(.*?)\s*$", line)
        if found and wire.NUMBERS.get(found[1]) == rtype:
            yield data_of_text(rtype, found[2].split())


def data_of_text(rtype, words):
    """Data of a few types, of the words of a master file."""
    match rtype:
        case wire.A | wire.AAAA:
            return ipaddress.ip_address(words[0]).packed
        case wire.NS | wire.CNAME | wire.DNAME:
            return wire.wire(words[0])
        case wire.MX:
            return int(words[0]).to_bytes(2, "big") + wire.wire(words[1])
        case wire.TXT:
            texts = [it.strip('"').encode() for it in words]
            return b"".join(bytes([len(it)]) + it for it in texts)
        case wire.DS:
            tag, algorithm, kind = map(int, words[:3])
            return struct.pack(">HBB", tag, algorithm, kind) + bytes.fromhex("".join(words[3:]))
        case wire.SOA:
            numbers = b"".join(int(it).to_bytes(4, "big") for it in words[2:])
            return wire.wire(words[0]) + wire.wire(words[1]) + numbers
    raise ValueError(f"data of type {rtype}")


ALL = [Unbound, Named, Knot, PowerDns, Delv, Drill]
