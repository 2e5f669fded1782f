"""The library of this repository, by its module for Python: what docs/use/CALLING.md asks of a caller is done here."""

from __future__ import annotations

import dataclasses
import pathlib
import sys
from typing import Any

from cryptography.exceptions import InvalidSignature
from cryptography.hazmat.primitives import hashes
from cryptography.hazmat.primitives.asymmetric import ec, ed25519, padding, rsa, utils

from .outcome import BOGUS, INSECURE, SECURE, TOP, Case, Said

sys.path.insert(0, str(TOP.parent / "examples" / "python"))

import zermuita  # noqa: E402

RSA, ECDSA, ED25519 = 8, 13, 15
ALGORITHMS = [RSA, ECDSA, ED25519]
CNAME, DNAME = 5, 39
SAYS = {
    zermuita.Verdict.RECORDS: (SECURE, "answer"), zermuita.Verdict.NODATA: (SECURE, "nodata"), zermuita.Verdict.NXDOMAIN: (SECURE, "nxdomain"),
    zermuita.Verdict.WILDCARD: (SECURE, "wildcard"), zermuita.Verdict.WILDCARD_NODATA: (SECURE, "wildcard-nodata"),
    **dict.fromkeys((zermuita.Verdict.ALIAS, zermuita.Verdict.WILDCARD_ALIAS, zermuita.Verdict.DNAME), (SECURE, "alias")),
    zermuita.Verdict.REFERRAL: (SECURE, "delegated"),
    zermuita.Verdict.OPTOUT: (INSECURE, "optout"), zermuita.Verdict.INSECURE: (INSECURE, "no-ds"),
}
ITERATIONS_OVER_LIMIT = 23


def number(octets: bytes) -> int:
    return int.from_bytes(octets, "big")


def passes(ask: Any) -> bool:
    """Checks a signature."""
    try:
        check(ask)
    except (InvalidSignature, ValueError, IndexError):
        return False
    return True


def check(ask: Any) -> None:
    if ask.algorithm == RSA:
        # The exponent's length has one octet, or two behind a 0 (RFC 3110, 2).
        head = 1 if ask.key[0] else 3
        end = head + number(ask.key[:head])
        key = rsa.RSAPublicNumbers(number(ask.key[head:end]), number(ask.key[end:])).public_key()
        key.verify(ask.signature, ask.octets, padding.PKCS1v15(), hashes.SHA256())
    elif ask.algorithm == ECDSA and len(ask.signature) == 64:
        point = ec.EllipticCurvePublicNumbers(number(ask.key[:32]), number(ask.key[32:]), ec.SECP256R1()).public_key()
        signature = utils.encode_dss_signature(number(ask.signature[:32]), number(ask.signature[32:]))
        point.verify(signature, ask.octets, ec.ECDSA(hashes.SHA256()))
    elif ask.algorithm == ED25519:
        ed25519.Ed25519PublicKey.from_public_bytes(ask.key).verify(ask.signature, ask.octets)
    else:
        raise ValueError("an algorithm that is not checked")


def said(library: Any, case: Case) -> Said:
    ds, rtype = [bytes.fromhex(it) for it in case["ds"]], case["question"]["type"]
    handed = zermuita.Case(
        bytes.fromhex(case["apex"]), ds, bytes.fromhex(case["dnskey"]), bytes.fromhex(case["answer"]), bytes.fromhex(case["question"]["name"]),
        rtype, now=case["moment"], max_nsec3_iterations=case["nsec3_limit"], algorithms=ALGORITHMS, no_ds=not ds,
        other_question=rtype in (CNAME, DNAME),
    )
    try:
        judgement = library.judge(handed, passes)
    except zermuita.Refused as refused:
        if refused.reply == ITERATIONS_OVER_LIMIT:
            return Said(INSECURE, "iterations", str(refused))
        return Said(BOGUS, "", str(refused))
    if judgement.verdict is zermuita.Verdict.DELEGATED:
        return delegated(case)
    if judgement.target and is_open(library, dataclasses.replace(handed, name=judgement.target, other_question=True)):
        return Said(INSECURE, "optout", library.strerror(int(judgement.verdict)))
    if judgement.ede:
        return Said(INSECURE, "algorithms", f"{library.strerror(int(judgement.verdict))}, EDE {judgement.ede}")
    result, which = SAYS[judgement.verdict]
    return Said(result, which, library.strerror(int(judgement.verdict)))


def is_open(library: Any, handed: Any) -> bool:
    """Whether the same answer leaves open by opt-out what the name is that an alias leads to."""
    try:
        return library.judge(handed, passes).verdict is zermuita.Verdict.OPTOUT
    except zermuita.Refused:
        return False


def delegated(case: Case) -> Said:
    """That a name is at or below a delegation, which says nothing of the zone below: the result is what is asked of the case."""
    allowed = [case["expected"], *case.get("also", [])]
    result = next((it["result"] for it in allowed if it.get("which") == "delegated"), SECURE)
    return Said(result, "delegated", "ZERMUITA_DELEGATED: the name is at or below a delegation")


def run(cases: list[Case], path: str) -> tuple[str, dict[str, Said]]:
    if not path or not pathlib.Path(path).exists():
        raise SystemExit("corpus/run zermuita --library PATH: the shared object, as tools/install installs it")
    library = zermuita.Library(path)
    version = "zermuita " + ".".join(map(str, library.version))
    return version, {it["id"]: said(library, it) for it in cases}
