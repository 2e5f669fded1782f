"""Resolvers: each is started in a network namespace and asked each case's question. What it says is seen from its answer: SERVFAIL is
bogus, with the bit AD it is secure, else insecure.

A resolver believes it is the moment of the cases: a clock is put in front of the C library's, which goes very slowly.
"""

from __future__ import annotations

import asyncio
import base64
import functools
import os
import pathlib
import struct
import subprocess
import time
from collections.abc import Iterator

import reference

from . import programs
from .outcome import BOGUS, INSECURE, SECURE, Case, Said
from .programs import AD
from .server import RECURSIVE, ROOT, ROOT_KEY, VALIDATOR, Serving

CLOCK = pathlib.Path(__file__).resolve().parent / "clock.c"
# In seconds, how long a resolver may take before it answers at all.
BEGINNING = 30
WIDTH, SLOWNESS = 12, 1000
# What is said of a name that a DNAME record makes too long, with that record (RFC 6672, 2.2).
YXDOMAIN = 6


def clock(moment: int, form: str) -> str:
    return time.strftime(form, time.gmtime(moment))


@functools.cache
def clock_library(folder: pathlib.Path) -> pathlib.Path:
    """The clock that is put in front, built once."""
    library = folder / "clock.so"
    subprocess.run(["cc", "-O2", "-shared", "-fPIC", "-o", library, CLOCK], check=True)
    return library


def said(answer: bytes | None) -> Said:
    """What a resolver's answer says."""
    if answer is None:
        return Said("no answer")
    flags, _questions, answers = struct.unpack(">3H", answer[2:8])
    rcode, why = flags & 15, extended_error(answer)
    if rcode not in (0, 3, YXDOMAIN):
        return Said(BOGUS if rcode == 2 else f"RCODE {rcode}", "", why)
    which = ("alias-nxdomain" if answers else "nxdomain") if rcode == 3 else "records" if answers else "denied" if has_nxname(answer) else "none"
    return Said(SECURE if flags & AD else INSECURE, which, why)


def has_nxname(answer: bytes) -> bool:
    """Whether the record of the name, which is passed on, says that there is no such name: a client that sets DO and not CO sees it by
    that alone (RFC 9824, 5)."""
    try:
        message = reference.read(answer)
        return any(reference.NXNAME in types for it in message.records for types in types_at(message.name, it))
    except (reference.Unreadable, IndexError, struct.error):
        return False


def types_at(name: reference.Name, record: reference.Record) -> Iterator[set[int]]:
    """The types in an NSEC or NSEC3 record of a name."""
    data = record.data
    if record.rtype == reference.NSEC and record.owner == name:
        yield reference.types_of(data[reference.name_at(data, 0)[1] :])
    if record.rtype == reference.NSEC3:
        salt_end = 5 + data[4]
        digest = reference.Parameters(int.from_bytes(data[2:4], "big"), data[5:salt_end]).hash(name)
        if reference.unhex32(record.owner[-1]) == digest:
            yield reference.types_of(data[salt_end + 1 + data[salt_end] :])


def extended_error(answer: bytes) -> str:
    """The extended errors of an answer (RFC 8914): numbers and texts. They stand in its last record."""
    at = answer.rfind(b"\0\0\x29")
    if at < 0:
        return ""
    length = int.from_bytes(answer[at + 9 : at + 11], "big")
    options, found = answer[at + 11 : at + 11 + length], []
    while len(options) >= 4:
        code, size = struct.unpack(">HH", options[:4])
        if code == 15:
            number = int.from_bytes(options[4:6], "big")
            found.append(f"{number} {options[6 : 4 + size].decode(errors='replace')}".strip())
        options = options[4 + size :]
    return "; ".join(found)


class Resolver(programs.Resolver):
    """A resolver that believes it is the moment of the cases."""

    def __init__(self, folder: pathlib.Path, moment: int) -> None:
        public = base64.b64encode(ROOT_KEY.pair.public).decode()
        super().__init__(folder, VALIDATOR, programs.Root("server.root.", ROOT, ROOT_KEY.algorithm, public, ROOT_KEY.ds(())))
        self.moment = moment

    def environment(self) -> dict[str, str]:
        clock = {"LD_PRELOAD": str(clock_library(self.folder.parent)), "CORPUS_MOMENT": str(self.moment), "CORPUS_SLOWNESS": str(SLOWNESS)}
        return super().environment() | clock


class Unbound(Resolver, programs.Unbound):
    more = [
        'local-zone: "test." nodefault', "qname-minimisation: no", "aggressive-nsec: no", "ede: yes", "trust-anchor-signaling: no",
        "root-key-sentinel: no",
    ]


class Named(Resolver, programs.Named):
    more = ["qname-minimization off", "synth-from-dnssec no", "servfail-ttl 0"]


class KnotResolver(Resolver, programs.KnotResolver):
    more = [
        "option('NO_MINIMIZE', true)", "option('NO_0X20', true)", "modules = { 'policy' }", "policy.special_names = { count = 0 }",
    ]


class PowerDns(Resolver, programs.PowerDns):
    more = [
        "qname-minimization=no", "aggressive-nsec-cache-size=0", "extended-resolution-errors=yes", "signature-inception-skew=0",
        "root-nx-trust=no",
    ]


class Forward(Resolver, programs.Forward):
    # Nearly all cases have this limit.
    more = ["nsec3-iterations = 50"]


class CachingForward(Forward):
    denials = 1000


class CachingUnbound(Unbound):
    more = ['local-zone: "test." nodefault', "ede: yes", "trust-anchor-signaling: no", "root-key-sentinel: no"]


class CachingNamed(Named):
    more = ()


class CachingKnotResolver(KnotResolver):
    more = ["option('NO_0X20', true)", "modules = { 'policy' }", "policy.special_names = { count = 0 }"]


class CachingPowerDns(PowerDns):
    more = ["extended-resolution-errors=yes", "signature-inception-skew=0", "root-nx-trust=no"]


class Dnsmasq(Resolver, programs.Dnsmasq):
    upstream = RECURSIVE


class Resolved(Resolver, programs.Resolved):
    upstream = RECURSIVE


RESOLVERS: dict[str, type[Resolver]] = {
    "unbound": Unbound, "bind": Named, "knot-resolver": KnotResolver, "powerdns": PowerDns, "dnsmasq": Dnsmasq, "systemd-resolved": Resolved,
    "forward": Forward,
}
# For cases that ask other questions first: query minimisation and the use of NSEC from the cache are as Debian has them.
CACHING: dict[type[Resolver], type[Resolver]] = {
    Unbound: CachingUnbound, Named: CachingNamed, KnotResolver: CachingKnotResolver, PowerDns: CachingPowerDns, Forward: CachingForward,
}


def left_out(kind: type[Resolver], cases: list[Case]) -> dict[str, Said]:
    """Cases that a validator is not asked: a forwarder hears no referrals, which resolvers follow."""
    if not issubclass(kind, programs.Forwarder):
        return {}
    return {it["id"]: Said("not asked", "", "a referral") for it in cases if is_referral(bytes.fromhex(it["answer"]))}


def is_referral(answer: bytes) -> bool:
    return not answer[2] & 4 and answer[6:8] == b"\0\0"


def rounds(cases: list[Case]) -> list[tuple[int, list[Case]]]:
    """Cases that one start serves: of one moment, with other questions asked first or none of them, and of a zone only those with the
    same keys and other questions."""
    found: list[tuple[int, dict[str, tuple[str, set[str]]], list[Case]]] = []
    for case in cases:
        keys, asked = case["dnskey"] + "".join(case["ds"]), case["question"]["text"].lower()
        for moment, zones, of in found:
            known = zones.get(case["apex"], (keys, set()))
            is_alike = moment == case["moment"] and ("before" in case) == ("before" in of[0])
            if is_alike and known[0] == keys and asked not in known[1]:
                zones.setdefault(case["apex"], known)[1].add(asked)
                of.append(case)
                break
        else:
            found.append((case["moment"], {case["apex"]: (keys, {asked})}, [case]))
    return [(moment, of) for moment, _zones, of in found]


def apart(cases: list[Case]) -> list[list[Case]]:
    """Cases in rows in which each zone is there once: what an answer tells of a zone's servers has no part in another."""
    rows: list[dict[str, Case]] = []
    for case in cases:
        row = next((it for it in rows if case["apex"] not in it), None)
        if row is None:
            rows.append(row := {})
        row[case["apex"]] = case
    return [[*it.values()] for it in rows]


async def ask_all(
    kind: type[Resolver], folder: pathlib.Path, moment: int, served: list[Case], cases: list[Case], width: int
) -> dict[str, Said]:
    """One start of the resolver: it is asked some of the cases that are served."""
    kind = CACHING.get(kind, kind) if "before" in served[0] else kind
    folder.mkdir()
    os.chmod(folder, 0o777)
    told: dict[str, Said] = {}
    async with Serving(served, moment):
        resolver = kind(folder, moment)
        try:
            await resolver.start()
            await resolver.is_up(BEGINNING)
        except TimeoutError as error:
            resolver.end()
            return {it["id"]: Said("no answer", "", str(error).split(":")[0]) for it in cases}
        try:
            gate = asyncio.Semaphore(width)

            async def ask(case: Case) -> None:
                async with gate:
                    for before in case.get("before", []):
                        await resolver.client.ask(bytes.fromhex(before["name"]), before["type"])
                    question = case["question"]
                    told[case["id"]] = said(await resolver.client.ask(bytes.fromhex(question["name"]), question["type"]))

            await asyncio.gather(*map(ask, cases))
        finally:
            resolver.end()
    return told
