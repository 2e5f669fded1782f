"""Whether signatures pass, by the package `cryptography`: RSA, ECDSA, Ed25519 and Ed448 (RFC 8624, 3.1)."""

from __future__ import annotations

from cryptography.exceptions import InvalidSignature, UnsupportedAlgorithm
from cryptography.hazmat.primitives import hashes
from cryptography.hazmat.primitives.asymmetric import ec, ed448, ed25519, padding, rsa
from cryptography.hazmat.primitives.asymmetric.utils import encode_dss_signature

from .types import Ask

__all__ = ["ALGORITHMS", "signature_passes"]

RSA = {8: hashes.SHA256(), 10: hashes.SHA512()}
ECDSA = {13: (ec.SECP256R1(), 32, hashes.SHA256()), 14: (ec.SECP384R1(), 48, hashes.SHA384())}
ED25519, ED448 = 15, 16
ALGORITHMS = [*RSA, *ECDSA, ED25519, ED448]
# RFC 5702, 2, has the limits of moduli.
LEAST_BITS, MOST_BITS, MOST_EXPONENT_BITS = {8: 512, 10: 1024}, 4096, 64


def _verify_rsa(ask: Ask) -> None:
    """An exponent behind its length in one octet, or in three, and the modulus (RFC 3110, 2)."""
    head = 1 if ask.key[:1] != b"\0" else 3
    end = head + int.from_bytes(ask.key[:head], "big")
    exponent, modulus = int.from_bytes(ask.key[head:end], "big"), int.from_bytes(ask.key[end:], "big")
    is_within = LEAST_BITS[ask.algorithm] <= modulus.bit_length() <= MOST_BITS and exponent.bit_length() <= MOST_EXPONENT_BITS
    if not is_within:
        raise UnsupportedAlgorithm("a key of this size")
    key = rsa.RSAPublicNumbers(exponent, modulus).public_key()
    key.verify(ask.signature, ask.octets, padding.PKCS1v15(), RSA[ask.algorithm])


def _verify_ecdsa(ask: Ask) -> None:
    """A point's coordinates, and two numbers, each in so many octets (RFC 6605, 4)."""
    curve, width, digest = ECDSA[ask.algorithm]
    if len(ask.signature) != 2 * width:
        raise InvalidSignature
    pair = encode_dss_signature(int.from_bytes(ask.signature[:width], "big"), int.from_bytes(ask.signature[width:], "big"))
    ec.EllipticCurvePublicKey.from_encoded_point(curve, b"\4" + ask.key).verify(pair, ask.octets, ec.ECDSA(digest))


def _verify(ask: Ask) -> None:
    """Raises an error unless the signature passes."""
    if ask.algorithm in RSA:
        _verify_rsa(ask)
    elif ask.algorithm in ECDSA:
        _verify_ecdsa(ask)
    elif ask.algorithm == ED25519:
        ed25519.Ed25519PublicKey.from_public_bytes(ask.key).verify(ask.signature, ask.octets)
    elif ask.algorithm == ED448:
        ed448.Ed448PublicKey.from_public_bytes(ask.key).verify(ask.signature, ask.octets)
    else:
        raise UnsupportedAlgorithm(f"algorithm {ask.algorithm}")


def signature_passes(ask: Ask) -> bool:
    """Whether a signature passes. One of another algorithm, or by a key that cannot be read or is out of its limits, does not."""
    try:
        _verify(ask)
    except (InvalidSignature, UnsupportedAlgorithm, ValueError):
        return False
    return True
