"""Signs a zone by dnssec-signzone of BIND, ldns-signzone and kzonesign of Knot, each with two keys of ECDSA P-256, for signatures
that hold from 2026 to 2036."""

import base64
import pathlib
import re

from processes import run, version

BEGIN, END = 1767225600, 2082758400  # 2026-01-01 and 2036-01-01
DATES = ("20260101000000", "20360101000000")


def keys(folder, apex):
    """Makes two keys, and gives the names of their files."""
    made = "dnssec-keygen", "-q", "-a", "ECDSAP256SHA256", "-P", "none", "-A", "none"
    return [run(folder, *made, *flags, apex).strip() for flags in (["-f", "KSK"], [])]


def by_bind(zone, folder):
    hashed = {"nsec": [], "nsec3": ["-3", "-", "-H", "0"], "optout": ["-3", "-", "-H", "0", "-A"]}
    text = zone.file() + "".join((folder / f"{it}.key").read_text() for it in keys(folder, zone.apex_text))
    (folder / "unsigned").write_text(text)
    dates = "-s", DATES[0], "-e", DATES[1]
    run(folder, "dnssec-signzone", *dates, *hashed[zone.chain], "-o", zone.apex_text, "-f", "signed", "unsigned")


def by_ldns(zone, folder):
    hashed = {"nsec": [], "nsec3": ["-n", "-t", "0"], "optout": ["-n", "-t", "0", "-p"]}
    made = keys(folder, zone.apex_text)
    (folder / "unsigned").write_text(zone.file())
    dates = "-i", DATES[0], "-e", DATES[1]
    run(folder, "ldns-signzone", *dates, *hashed[zone.chain], "-o", zone.apex_text, "-f", "signed", "unsigned", *made)


def knot_policy(name, chain, algorithm, ttl, **more):
    """A policy of Knot, by which no key is rolled by itself."""
    hashed, opt_out = (("off", "on")[it] for it in (chain != "nsec", chain == "optout"))
    lines = "".join(f"    {option.replace('_', '-')}: {value}\n" for option, value in more.items())
    return f"""  - id: {name}
    algorithm: {algorithm}
    nsec3: {hashed}
    nsec3-opt-out: {opt_out}
    nsec3-iterations: 0
    nsec3-salt-length: 0
    ksk-lifetime: 0
    zsk-lifetime: 0
    dnskey-ttl: {ttl}
    zone-max-ttl: {ttl}
{lines}"""


def by_knot(zone, folder):
    apex = zone.apex_text
    more = {"rrsig_lifetime": END - BEGIN, "cds_cdnskey_publish": "none"}
    (folder / f"{apex}.zone").write_text(zone.file())
    (folder / "knot.conf").write_text(f"""
server:
    rundir: {folder}
database:
    storage: {folder}
policy:
{knot_policy("made", zone.chain, "ecdsap256sha256", 3600, **more)}template:
  - id: default
    storage: {folder}
    file: "%s.zone"
zone:
  - domain: {apex}
    dnssec-signing: on
    dnssec-policy: made
""")
    (folder / "out").mkdir()
    run(folder, "kzonesign", "-c", "knot.conf", "-o", folder / "out", "-t", BEGIN, apex)
    next((folder / "out").iterdir()).rename(folder / "signed")


SIGNERS = {"bind": by_bind, "ldns": by_ldns, "knot": by_knot}


def versions():
    said = {"BIND": ["dnssec-signzone", "-V"], "ldns": ["ldns-signzone", "-v"], "Knot": ["kzonesign", "-V"]}
    for name, words in said.items():
        yield f"{name} {version(*words)}"


def sign(zone, folder):
    """Signs a zone in a folder of its own: the signed zone's file."""
    folder.mkdir()
    SIGNERS[zone.signer](zone, folder)
    return folder / "signed"


def private_keys(folder):
    """The private numbers of keys of algorithm 13 that stand in files of a folder, by their tags."""
    for path in pathlib.Path(folder).glob("K*.private"):
        found = re.search(r"^PrivateKey: (.*)$", path.read_text(), re.MULTILINE)
        yield int(path.stem.rsplit("+", 1)[1]), int.from_bytes(base64.b64decode(found[1]), "big")
