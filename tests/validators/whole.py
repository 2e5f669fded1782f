"""Zones put together from answers, as other programs verify them."""

import itertools
import multiprocessing.pool
import subprocess

import wire
from bench import STATES
from bind import ask, line
from keys import POINT
from served import dotted
from wire import A, CNAME, DNSKEY, DS, NSEC, NSEC3, NSEC3PARAM, RRSIG, SRV


def questions(zone):
    """For all that a zone has: its RRsets, its delegations, and by a type that no name has the records of the chain. An alias would
    answer for any type: its record of the chain denies the first name below it."""
    found = dict.fromkeys(owner_type for owner_type in zone.sets if zone.cut_above(owner_type[0]) is None)
    for cut in zone.cuts:
        found.update({(cut, DS): None, (cut, A): None})
    names = (it for it in sorted(zone.names) if zone.cut_above(it) is None)
    found.update(((("\0", *it) if (it, CNAME) in zone.sets else it, SRV), None) for it in names)
    return list(found)


def records(source, stage):
    """All records of the answers of a server at a stage. The NSEC3PARAM record tells dnssec-verify of a chain of hashes."""
    asked = [(source.zone.owner(name, source.apex), rtype) for name, rtype in questions(source.zone)]
    address = source.workshop.address()
    _ds, server = source.live({stage}, {stage: address})[stage]
    found = {}
    try:
        server.start()
        for question in ((source.apex, DNSKEY), (source.apex, NSEC3PARAM), *asked):
            for section in ask(*question, (dotted(address), 53)).sections:
                found.update(((it.owner.lower(), it.rtype, it.data), it) for it in section if it.rtype != wire.OPT)
    finally:
        server.remove()
    return [it._replace(owner=it.owner.lower()) for it in found.values()]


def is_combined(source, of_zone):
    """Whether each key that signs the zone signs keys, too: dnssec-verify is told that."""
    of_soa = (it.data for it in of_zone if it.rtype == RRSIG and it.data[:2] == wire.SOA.to_bytes(2, "big"))
    return all(source.ring.keys.by_tag()[int.from_bytes(it[16:18], "big")].flags == POINT for it in of_soa)


def said(words):
    ran = subprocess.run(words, stdin=subprocess.DEVNULL, capture_output=True, text=True, timeout=120)
    return "well" if ran.returncode == 0 else " ".join((ran.stdout + ran.stderr).split())[-300:]


def whole(source, stage):
    """All records of a zone at a stage, the SOA record first."""
    return sorted(records(source, stage), key=lambda it: it.rtype != wire.SOA)


def broken(of_zone):
    """A zone without a record of its chain."""
    gone = next(it for it in reversed(of_zone) if it.rtype in (NSEC, NSEC3))
    signed = gone.rtype.to_bytes(2, "big")
    is_signature = {it for it in of_zone if it.owner == gone.owner and it.rtype == RRSIG and it.data[:2] == signed}
    return [it for it in of_zone if it != gone and it not in is_signature]


def verify(world, folder):
    """Each program, a zone at a stage, whether it is broken, and what the program says: of each zone what each change of each roll
    leaves, and as a control, once of each roll, the zone without a record of its chain."""
    folder.mkdir()
    pairs = itertools.product(world.pairs(), STATES)
    staged = [(world.source(*pair, f"whole{stage}"), stage, folder) for pair, stage in pairs]
    with multiprocessing.pool.ThreadPool(4) as pool:
        for told in pool.imap(lambda it: verified_at(*it), staged):
            yield from told


def verified_at(source, stage, folder):
    """What the programs say of a zone at a stage."""
    of_zone, apex = whole(source, stage), wire.text(source.apex)
    dnssec_verify = ["dnssec-verify", "-q", *["-z"] * is_combined(source, of_zone), "-o", apex]
    told = [*verified(dnssec_verify, folder / apex, of_zone, False)]
    if stage == STATES[0]:
        told += verified(dnssec_verify, folder / f"{apex}broken", broken(of_zone), True)
    return told


def verified(dnssec_verify, file, of_zone, is_broken):
    file.write_text("\n".join([*(line(it.owner, it.rtype, it.ttl, it.data) for it in of_zone), ""]))
    for words in (dnssec_verify, ["ldns-verify-zone"]):
        yield words[0], file.name, is_broken, said([*words, file])
