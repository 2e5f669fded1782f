"""What validators get wrong, whoever publishes, shown of BIND's own answers in zones of a few names.

- An answer made of a referral's NSEC record. named makes other answers of this record before it has validated it, and so
  without AD (`synth-from-dnssec`). BIND's referrals have one where there is no DS, the publisher's always.
- A loop at the address of a zone's server: named has the NS set, but not this address, and would have to ask the server for it
  (`loop detected` in its log).
- A denial below a DNAME: PowerDNS makes NXDOMAIN of cached NSEC3 records (RFC 8198), although the one that matches the name above
  says that a DNAME leads elsewhere (RFC 6672, 5.3.4.1).
- No room: PowerDNS refuses YXDOMAIN, which says that a DNAME makes a name that is too long.
"""

import asyncio
import time

import bind
import wire
from authority import BELOW
from phases import Phase, agrees
from validators import Named, PowerDns
from wire import A, DNAME, SOA, TXT
from zones import DISTANT, Shape, Zone

REFERRAL = "an answer made of a referral's NSEC record"
LOOP = "a loop at the address of a zone's server"
DENIED = "a denial below a DNAME, made of cached NSEC3 records"
NO_ROOM = "a name below a DNAME that is too long"
# In seconds: how late the server below the delegation is, and when each question is asked. The first finds empty caches. The
# answer for `e` is made of the referral to `d`, while the server below `d` is waited for.
LATE = 0.6
TTL = 5
ASKS = [(0, ("ns",), A), (1, (), SOA), (1.2, (), TXT), (3, ("host", "d"), A), (3.3, ("e",), A)]
# All but the last one and the name that is too long find each NSEC3 record of the zone.
OWNERS = [(), ("ns",), ("below",), ("d",), ("e",), ("f",), ("b", "e")]
REDIRECTED = [(0, ("x" * 55, "y" * 55, "f"), A), *((1, it, TXT) for it in OWNERS), (2, ("b", "d"), A)]


class Few(Zone):
    """A delegation without DS, and an empty non-terminal, over which the delegation's NSEC record passes."""

    def add_hosts(self):
        self.add(("b", "e"), A, lambda _apex: bytes([192, 0, 2, 1]))

    def add_wildcards(self):
        pass

    def add_cuts(self):
        self.cut(("d",), False)

    def add_aliases(self):
        pass

    def draw_alias_questions(self):
        return []


class Redirected(Few):
    """A DNAME that leads to a name with records, and one that leads to a long one."""

    def add_cuts(self):
        self.alias(("e",), DNAME, ("d",))
        self.alias(DISTANT, DNAME, ("f",))


async def shown(world, folder):
    """What named and PowerDNS say of BIND's answers, of each question in turn."""
    folder.mkdir()
    few = Few(Shape("few names"), world.seed, TTL)
    redirected = Redirected(Shape("few names, nsec3", "nsec3"), world.seed, TTL)
    return [*await said(world, folder / "named", few, Named, ASKS), *await said(world, folder / "pdns", redirected, PowerDns, REDIRECTED)]


async def said(world, folder, zone, kind, asks):
    """What a validator says of BIND's answers about a zone."""
    folder.mkdir()
    case = bind.BindCase(zone, wire.wire("few-names.parent"), world.below, folder)
    with bind.served(folder, [case]):
        phase = Phase(folder / "asked", world.keys, [case], [kind], TTL)
        phase.tree.late[BELOW] = LATE
        async with phase:
            begin = time.time()
            return marked(phase, await asyncio.gather(*(ask(phase, case, begin, *it) for it in asks)))


async def ask(phase, case, begin, moment, name, rtype):
    await asyncio.sleep(max(0.0, begin + moment - time.time()))
    return await phase.tell(phase.validators[0], case, (name, rtype))


def passes_over(zone, name):
    """The owner of the NSEC record that matches or covers a name."""

    def place(it):
        return wire.canonical_order(zone.owner(it, b"\0"))

    owners = {owner for owner, _rtype in zone.sets if zone.cut_above(owner) in (None, owner)}
    return max((it for it in owners if place(it) <= place(name)), key=place)


def marked(phase, told):
    """With the limit that each difference of named and PowerDNS comes from, if it is one of these."""
    logs = [(it.folder / "log").read_text(errors="replace") for it in phase.validators if isinstance(it, Named)]
    return [it if it.agrees else it._replace(limit=limit_of(it, logs)) for it in told]


def limit_of(told, logs):
    """The limit that a difference comes from, by the log of named; or none."""
    if told.validator == Named.NAME:
        return limit_of_named(told, logs[0])
    if told.validator == PowerDns.NAME and denies_redirected(told):
        return DENIED
    if told.validator == PowerDns.NAME and told.says.status == "YXDOMAIN" and told.heard.status == "bogus":
        return NO_ROOM
    return ""


def denies_redirected(told):
    """Whether a name below a DNAME is denied, with a proof or without one, in a zone with NSEC3."""
    redirects = [it for it in told.says.links if it[1] == DNAME]
    of_chain = told.case.zone.shape.chain != "nsec"
    return bool(redirects) and of_chain and told.heard.status == "NXDOMAIN" and not {it[1] for it in told.heard.links} >= {DNAME}


def limit_of_named(told, log):
    """The limit of named that a difference comes from, by its log; or none."""
    (name, rtype), zone = told.question, told.case.zone
    asked = f"'{wire.text(zone.owner(name, told.case.apex)).rstrip('.')}/{wire.NAMES[rtype]}'"
    if f"loop detected resolving {asked}" in log:
        return LOOP
    with_proof = told.heard._replace(is_secure=True)
    lacks_proof_alone = told.says.is_secure and agrees(None, told.says, with_proof, told.case.apex)
    names = [name, *(lead for _owner, _rtype, lead in told.says.links)]
    if lacks_proof_alone and zone.shape.chain == "nsec" and any(passes_over(zone, it) in zone.cuts for it in names):
        return REFERRAL
    return ""
