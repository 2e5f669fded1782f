"""What a test of a case needs: the messages of its servers, below the runners' root, and what the validator is asked and has to say."""

from __future__ import annotations

import base64
import dataclasses
import struct
from collections.abc import Iterator
from typing import Any

import dns.exception
import dns.flags
import dns.message
import dns.rcode
from maker import wire
from maker.wire import A, DNSKEY, DS, NS, SOA, Name
from runners.server import ROOT_KEY, Root, read_name, with_glue

Case = dict[str, Any]


@dataclasses.dataclass(frozen=True)
class Message:
    """A server's answer to a question; a referral answers for all names below its own, too."""

    name: Name
    rtype: int
    octets: bytes
    is_referral: bool = False

    @property
    def text(self) -> dns.message.Message:
        """The message as dnspython has it, with owners as they are spelled."""
        try:
            return dns.message.from_wire(self.octets, one_rr_per_rrset=True)
        except (dns.exception.DNSException, ValueError, struct.error) as error:
            raise SystemExit(f"the message has no form as text: {type(error).__name__}") from error


@dataclasses.dataclass(frozen=True)
class Scene:
    """A case beside the addresses of the root's server and the zone's."""

    case: Case
    root_address: str
    zone_address: str

    @property
    def apex(self) -> Name:
        return name_of(self.case["apex"])

    @property
    def question(self) -> Message:
        question = self.case["question"]
        return Message(name_of(question["name"]), question["type"], with_glue(bytes.fromhex(self.case["answer"])))

    @property
    def before(self) -> list[Message]:
        return [*map(told, self.case.get("before", []))]

    def of_root(self) -> list[Message]:
        root = Root([self.case], self.case["moment"], self.root_address, self.zone_address)
        found = [Message((), rtype, root.answer((), rtype)) for rtype in (NS, DNSKEY, SOA)]
        found.append(Message(self.apex, DS, root.answer(self.apex, DS)))
        above = [it for it in wire.parents(self.apex) if it and it != self.apex]
        servers = [wire.name_of(it) for it in ("root", "server.root", "cases.root")]
        found += [Message(it, rtype, root.answer(it, rtype)) for it in [*above, *servers] for rtype in (NS, A, DS, wire.AAAA)]
        # It answers for longer names, too, so that no pointer may lead into its question.
        return [*found, Message(self.apex, A, root.made_answer(self.apex, A, False), True)]

    def of_zone(self) -> list[Message]:
        keys = Message(self.apex, DNSKEY, with_glue(bytes.fromhex(self.case["dnskey"])))
        return [keys, self.question, *self.before, *map(told, self.case.get("more", []))]

    @property
    def anchor_ds(self) -> str:
        """The root's DS record, as master files have it."""
        tag, algorithm, kind = struct.unpack(">HBB", ROOT_KEY.ds(())[:4])
        return f"{tag} {algorithm} {kind} {ROOT_KEY.ds(())[4:].hex()}"

    @property
    def anchor_key(self) -> tuple[int, str]:
        """The algorithm of the root's key, and the key."""
        return ROOT_KEY.algorithm, base64.b64encode(ROOT_KEY.pair.public).decode()

    @property
    def is_bogus(self) -> bool:
        return self.case["expected"]["result"] == "bogus"

    @property
    def is_secure(self) -> bool:
        return self.case["expected"]["result"] == "secure"

    @property
    def rcode(self) -> str:
        return "SERVFAIL" if self.is_bogus else dns.rcode.to_text(self.question.text.rcode())


def name_of(octets: str) -> Name:
    return read_name(bytes.fromhex(octets), 0)[0]


def told(it: dict[str, Any]) -> Message:
    return Message(name_of(it["name"]), it["type"], with_glue(bytes.fromhex(it["message"])))


def head(case: Case, comment: str) -> Iterator[str]:
    """What a file says of itself."""
    allowed = " or ".join(" ".join(it.values()) for it in [case["expected"], *case.get("also", [])])
    yield f"{comment} {case['id']}: {case['tries']}"
    yield f"{comment} Expected: {allowed} ({case['rfc']}). Written by corpus/export."
