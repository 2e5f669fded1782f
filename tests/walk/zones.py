"""A tree of zones, and how each is signed."""

import typing

from processes import run
from wire import name

MOMENT = 1800000000
# The last second in which signatures hold that are in time, and TTLs: of denials the SOA record's minimum (RFC 9077), and of DS sets.
UNTIL, DENIAL_TTL, DS_TTL = 2082758400, 300, 440
# In time, and out of time, at that moment.
DATES = ("20260101000000", "20360101000000")
PAST = ("20250101000000", "20250201000000")
LONG = ".".join(letter * 61 for letter in "abcd")
HEAD = "@ 900 SOA ns.test. host.test. 1 3600 600 86400 300\n@ 900 NS ns.test.\n"
# The records of each zone, but for those of its delegations.
ZONES = {
    ".": HEAD,
    "test": HEAD + "www 410 A 192.0.2.1\n*.wild 420 TXT star\nmail.deep 430 MX 10 www\nalias 411 CNAME www\nout 412 CNAME WWW.Signed\n"
    f"*.leads 413 CNAME www\ngone 414 CNAME none\nround 415 CNAME round.signed\nmoved 416 DNAME signed\nfar 417 DNAME {LONG}.\n"
    "in 418 CNAME www.plain\nover 419 CNAME www.safe.opt.\nns 400 A 127.0.0.1\n",
    "opt": HEAD + "www 440 A 192.0.2.20\n*.wild 441 TXT star\nalias 442 CNAME www.safe\n*.leads 443 CNAME www\n",
    "signed.test": HEAD + "www 450 A 192.0.2.2\nround 451 CNAME round.test.\n",
    "one.test": HEAD + "www 452 A 192.0.2.12\n",
    "safe.opt": HEAD + "www 460 A 192.0.2.3\n",
    "open.opt": HEAD + "www 461 A 192.0.2.13\n",
    "plain.test": HEAD + "www 470 A 192.0.2.4\n",
    "old.test": HEAD + "www 480 A 192.0.2.5\n",
    "late.test": HEAD + "www 490 A 192.0.2.6\n",
    "lost.test": HEAD + "www 500 A 192.0.2.7\n",
    "both.test": HEAD + "www.sub 510 A 192.0.2.8\n",
    "bare.test": HEAD + "www 520 A 192.0.2.9\n",
    "low.down.test": HEAD + "www 530 A 192.0.2.10\n",
}
UNSIGNED = ("plain.test", "bare.test", "open.opt")
# Which server has which zones. Some have a zone and one below it, and answer from the latter at once.
SERVED = (
    ("named", (".",)),
    ("named", ("test", "both.test", "bare.test")),
    ("named", ("late.test", "old.test")),
    ("Knot", ("opt",)),
    ("Knot", ("low.down.test", "one.test")),
    ("NSD", ("signed.test", "plain.test", "lost.test", "safe.opt", "open.opt")),
)


def above(qname):
    """The zones at or above a name, the root first."""
    labels = name(qname)
    return sorted((it for it in ZONES if labels[len(labels) - len(name(it)) :] == name(it)), key=lambda it: len(name(it)))


def ttls_at(apex, qname, rtype):
    """The TTLs of a zone's records that answer a question: those of the type, of a CNAME or of a DNAME above; of a wildcard's also that
    of the denial beside it; of a delegation's DS set its own."""
    if rtype == 43 and qname in cuts_of(apex):
        return [DS_TTL]
    lines = [line.split() for line in ZONES[apex].splitlines()]
    kinds = {1: "A", 2: "NS", 5: "CNAME", 6: "SOA", 15: "MX", 16: "TXT"}
    labels, origin = name(qname), name(apex)
    owners = [(labels, {kinds.get(rtype), "CNAME"}), ((b"*", *labels[1:]), {kinds.get(rtype), "CNAME"})]
    owners += [(labels[at:], {"DNAME"}) for at in range(1, len(labels) - len(origin) + 1)]
    for number, (owner, words) in enumerate(owners):
        found = [int(ttl) for at, ttl, word, *_data in lines if owner_of(at, origin) == tuple(owner) and word in words]
        if found:
            return [*found, DENIAL_TTL] if number == 1 else found
    raise ValueError(f"{qname} {rtype}")


def owner_of(text, origin):
    """The labels of an owner as it stands in a zone."""
    return tuple(origin) if text == "@" else (*(it.encode() for it in text.split(".")), *origin)


def cuts_of(apex):
    """The zones that a zone delegates."""
    return [it for it in ZONES if it not in (".", apex) and above(it)[-2] == apex]


class How(typing.NamedTuple):
    """How a zone is signed: with keys of which algorithm, by which chain, with one key for all, and when its signatures hold."""

    algorithm: str = "ECDSAP256SHA256"
    chain: tuple = ()
    is_single: bool = False
    dates: tuple = DATES


HASHED = ("-3", "-", "-H", "0")
HOW = {
    "opt": How(chain=(*HASHED, "-A")),
    "safe.opt": How(chain=HASHED),
    "one.test": How(is_single=True),
    "old.test": How(algorithm="RSASHA1"),
    "late.test": How(dates=PAST),
}


def sign(at, dotted, how):
    """Signs the zone in a folder's file `unsigned` into `signed`, and gives its DS record."""
    size = ["-b", "2048"] if how.algorithm.startswith("RSA") else []
    made = "dnssec-keygen", "-q", "-a", how.algorithm, *size, "-P", "none", "-A", "none"
    kinds = [["-f", "KSK"]] if how.is_single else [["-f", "KSK"], []]
    keys = [run(at, *made, *flags, dotted).strip() for flags in kinds]
    records = "".join((at / f"{it}.key").read_text() for it in keys)
    (at / "keyed").write_text((at / "unsigned").read_text() + records)
    ways = "-P", "-O", "full", "-s", how.dates[0], "-e", how.dates[1], *how.chain, *(["-z"] if how.is_single else [])
    run(at, "dnssec-signzone", *ways, "-o", dotted, "-f", "signed", "keyed", *keys)
    return run(at, "dnssec-dsfromkey", "-2", "-T", "440", f"{keys[0]}.key")


def made(folder, apex, ds):
    """Writes a zone with its delegations, signs it, and gives its file and its own DS records."""
    at = folder / (apex.strip(".") or "root")
    at.mkdir()
    dotted = apex.rstrip(".") + "."
    cuts = "".join(f"{it}. 440 NS ns.test.\n{ds[it]}" for it in cuts_of(apex))
    (at / "unsigned").write_text(f"$ORIGIN {dotted}\n{ZONES[apex]}{cuts}")
    if apex in UNSIGNED:
        return at / "unsigned", ""
    own = sign(at, dotted, HOW.get(apex, How()))
    return at / ("unsigned" if apex == "lost.test" else "signed"), own


def signed(folder):
    """The files of all zones, those furthest down signed first."""
    files, ds = {}, {}
    for apex in sorted(ZONES, key=lambda it: -len(name(it))):
        files[apex], ds[apex] = made(folder, apex, ds)
    return files
