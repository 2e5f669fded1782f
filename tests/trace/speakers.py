"""Those who say what a tree of zones says of a question: unbound and Knot Resolver, which walk down by themselves; delv, which asks a
named that walks and does not validate; and the trace, which walks down and asks the servers of the zones."""
import asyncio
import json
import pathlib
import re
import subprocess
import typing

import dns.asyncquery
import dns.edns
import dns.flags
import dns.message
import dns.name
import dns.rcode
import dns.rdata
import dns.rdataclass
import dns.rdatatype
import namespace
import resolvers
import validators

# Response codes of answers that say something of a name (RFC 1035, 4.1.1; RFC 6672, 2.2).
TELLING = {dns.rcode.NOERROR, dns.rcode.NXDOMAIN, dns.rcode.YXDOMAIN}
# Extended errors (RFC 8914, 4) that say that an answer is bogus.
BOGUS = {5, 6, 7, 8, 9, 10, 11, 12}
IN = dns.rdataclass.IN
PATIENCE = 20
TOP = pathlib.Path(__file__).resolve().parents[2]


class Said(typing.NamedTuple):
    """What is said, in the words of the tree, and more words for it; of what is secure the names that aliases lead through and data,
    in hexadecimal digits."""

    says: str
    more: str = ""
    through: tuple = ()
    data: tuple = ()


def text_of(name):
    """A name as the tree's questions have it."""
    return name.to_text(omit_final_dot=True).lower() if name != dns.name.root else "."


def hex_of(rdata):
    """Data in canonical form."""
    return rdata.to_digestable(dns.name.root).hex()


def led(qname, rtype, rrsets):
    """The names that aliases lead through, and the data of the last one."""
    through, at = [], dns.name.from_text(qname)
    aliases = {it.name: it[0].target for it in rrsets if it.rdtype == dns.rdatatype.CNAME}
    while rtype != dns.rdatatype.CNAME and at in aliases and len(through) <= len(aliases):
        at = aliases[at]
        through.append(text_of(at))
    data = sorted(hex_of(it) for rrset in rrsets for it in rrset if (rrset.name, rrset.rdtype) == (at, rtype))
    return tuple(through), tuple(data)


def heard(message, question):
    """What a resolver's answer says."""
    errors = [it for it in message.options if isinstance(it, dns.edns.EDEOption)]
    told = " ".join([dns.rcode.to_text(message.rcode()), *(f"EDE {int(it.code)} {it.text or ''}".strip() for it in errors)])
    if message.rcode() == dns.rcode.SERVFAIL:
        return Said("bogus" if BOGUS & {int(it.code) for it in errors} else "SERVFAIL", told)
    if message.rcode() not in TELLING:
        return Said(dns.rcode.to_text(message.rcode()), told)
    if not message.flags & dns.flags.AD:
        return Said("insecure", told)
    through, data = led(question["name"], dns.rdatatype.from_text(question["type"]), message.answer)
    word = dns.rcode.to_text(message.rcode())
    word = ("records" if data else "NODATA") if word == "NOERROR" else word
    return Said(f"secure {word}", told, through, data)


class Resolver:
    """A resolver that is asked over UDP, with DO and AD."""

    def __init__(self, kind, folder, key):
        self.address = namespace.VALIDATORS[kind]
        self.resolver = resolvers.ALL[kind](folder, self.address, key)
        self.resolver.is_logging = False

    async def start(self):
        await self.resolver.start()
        await self.resolver.is_up()

    async def ask(self, question):
        """What it says. A failure of which it does not tell that it is for DNSSEC is one where it answers with CD."""
        message = await self.answer(question, dns.flags.RD | dns.flags.AD)
        said = heard(message, question)
        if said.says == "SERVFAIL":
            unchecked = await self.answer(question, dns.flags.RD | dns.flags.CD)
            if unchecked.rcode() != dns.rcode.SERVFAIL:
                said = Said("bogus", f"{said.more}, and with CD {dns.rcode.to_text(unchecked.rcode())}")
        return said, message.to_text()

    async def answer(self, question, flags):
        asked = dns.message.make_query(question["name"], question["type"], want_dnssec=True, payload=1232)
        asked.flags = dns.flags.Flag(flags)
        message, _by_tcp = await dns.asyncquery.udp_with_fallback(asked, self.address, timeout=PATIENCE)
        return message

    def version(self):
        return self.resolver.version()

    def end(self):
        self.resolver.end()


class Delv:
    """delv, and a named that walks down without validating, which it asks."""

    def __init__(self, folder, key):
        self.named = resolvers.ALL["named"](folder, namespace.VALIDATORS["named"], key)
        self.named.is_logging = self.named.is_validating = False
        self.delv = validators.Delv(folder, namespace.VALIDATORS["named"], key)

    async def start(self):
        await self.named.start()
        await self.named.is_up()
        await self.delv.start()

    async def ask(self, question):
        how = [f"@{self.delv.address}", "-a", "anchor", "+root=.", "+unknownformat"]
        words = ["timeout", str(PATIENCE), "delv", *how, "-q", question["name"], "-t", question["type"]]
        output = await self.delv.output(words)
        return delved(output, question) if output else Said("no answer", f"none in {PATIENCE} seconds"), output

    def version(self):
        return self.delv.version()

    def end(self):
        self.named.end()


# A line of delv's about records, or about what is missing, which is a comment: owner, type and data.
DELV_LINE = re.compile(r"^(?:; )?(\S+)\s+\d+\s+(?:IN|CLASS1)\s+(\S+)\s+(.*)$")


def delved(output, question):
    """What delv prints: records as RFC 3597 writes them, behind a line that tells whether they are validated. Each owner is one that
    an alias leads to, but for the first."""
    failed = re.search(r"resolution failed: (.*)", output)
    reason = failed[1] if failed else ""
    if reason and not reason.startswith("ncache"):
        return Said("SERVFAIL" if reason == "failure" else "bogus", reason)
    if "unsigned" in output or "fully validated" not in output:
        return Said("insecure", reason)
    lines = [it.groups() for it in map(DELV_LINE.match, output.splitlines()) if it]
    owners = list(dict.fromkeys(text_of(dns.name.from_text(owner)) for owner, *_ in lines))
    rtype = dns.rdatatype.from_text(question["type"])
    texts = [text for _owner, of, text in lines if of == f"TYPE{int(rtype)}"]
    data = tuple(sorted(hex_of(dns.rdata.from_text(IN, rtype, it)) for it in texts))
    word = "NXDOMAIN" if "nxdomain" in reason else "records" if data else "NODATA"
    return Said(f"secure {word}", reason, tuple(owners[1:]), data)


# The words of the trace's replies.
WORDS = {"RECORDS": "records", "WILDCARD": "records", "NODATA": "NODATA", "WILDCARD_NODATA": "NODATA", "NXDOMAIN": "NXDOMAIN",
         "DNAME": "YXDOMAIN"}

# To these a resolver answers SERVFAIL, without any fault of signatures.
AS_SERVFAIL = ("TOO_MANY_CUTS", "TOO_MANY_ALIASES", "TOO_MANY_MESSAGES")


class Trace:
    """`zermuita trace`, which is told the root's server, and finds those of other zones by the messages of the way."""

    def __init__(self, command, room):
        self.command, self.folder = command, room / "ways"
        servers = json.loads((room / "tree/servers").read_text())
        self.words = ["--anchor", room / "tree/anchor", "--server", f".={servers['.']}"]

    async def start(self):
        self.folder.mkdir(parents=True, exist_ok=True)

    async def ask(self, question):
        saved = self.folder / f"{question['number']}"
        words = [*self.command, question["name"], question["type"], *self.words, "--json", "--quiet", "--save", saved]
        how = {"stdin": asyncio.subprocess.DEVNULL, "stdout": asyncio.subprocess.PIPE, "stderr": asyncio.subprocess.STDOUT}
        process = await asyncio.create_subprocess_exec(*map(str, words), **how)
        output = (await process.communicate())[0].decode(errors="replace")
        return traced(output, question), output

    def version(self):
        return "zermuita " + subprocess.run([TOP / "tools/version"], capture_output=True, text=True).stdout.strip()

    def end(self):
        pass


def traced(output, question):
    """What the trace prints as JSON."""
    try:
        said = json.loads(output)
    except ValueError:
        return Said("no answer", output.strip())
    reply = said["reply"].split(":")[0].removeprefix("ZERMUITA_")
    if said["said"] != "secure":
        says = "SERVFAIL" if reply in AS_SERVFAIL else reply
        return Said(says if said["said"] == "not shown" else said["said"], reply)
    through = tuple(it.removesuffix(".").lower() for it in said["aliases"])
    rtype = dns.rdatatype.from_text(question["type"])
    data = sorted(hex_of(dns.rdata.from_text(IN, rtype, it)) for it in said.get("records", []))
    return Said(f"secure {WORDS[reply]}", reply, through, tuple(data))
