"""Keys of seeds, and what they sign: RSA with SHA-256 (8), ECDSA P-256 with SHA-256 (13), Ed25519 (15).

Nothing is drawn when a signature is made: ECDSA's numbers are those of RFC 6979. So the corpus comes out the same each time.
"""

from __future__ import annotations

import functools
import hashlib
import hmac
import math
import random
import struct

from cryptography.hazmat.primitives import hashes, serialization
from cryptography.hazmat.primitives.asymmetric import ec, ed25519, padding, rsa

from . import wire

RSA, ECDSA, ED25519 = 8, 13, 15
ZONE, POINT, REVOKE = 256, 257, 128
ORDER = 0xFFFFFFFF00000000FFFFFFFFFFFFFFFFBCE6FAADA7179E84F3B9CAC2FC632551
SMALL = [n for n in range(3, 2000, 2) if all(n % d for d in range(3, math.isqrt(n) + 1, 2))]


def octets_of(seed: str) -> bytes:
    return hashlib.sha512(seed.encode()).digest()


def number(octets: bytes) -> int:
    return int.from_bytes(octets, "big")


class Ecdsa:
    def __init__(self, seed: str) -> None:
        self.secret = number(octets_of(seed)) % (ORDER - 1) + 1
        point = self.point(self.secret)
        self.public = point.x.to_bytes(32, "big") + point.y.to_bytes(32, "big")

    @staticmethod
    def point(factor: int) -> ec.EllipticCurvePublicNumbers:
        return ec.derive_private_key(factor, ec.SECP256R1()).public_key().public_numbers()

    def nonce(self, digest: bytes) -> int:
        """RFC 6979, 3.2, for a hash as long as the order."""
        seed = self.secret.to_bytes(32, "big") + (number(digest) % ORDER).to_bytes(32, "big")
        key, value = bytes(32), b"\1" * 32
        for octet in (b"\0", b"\1"):
            key = hmac.digest(key, value + octet + seed, "sha256")
            value = hmac.digest(key, value, "sha256")
        while True:
            value = hmac.digest(key, value, "sha256")
            if 0 < number(value) < ORDER:
                return number(value)
            key = hmac.digest(key, value + b"\0", "sha256")
            value = hmac.digest(key, value, "sha256")

    def sign(self, octets: bytes) -> bytes:
        digest = hashlib.sha256(octets).digest()
        nonce = self.nonce(digest)
        r = self.point(nonce).x % ORDER
        s = pow(nonce, -1, ORDER) * (number(digest) + r * self.secret) % ORDER
        return r.to_bytes(32, "big") + s.to_bytes(32, "big")


class Rsa:
    """2,048 bits, with the exponent 65,537."""

    def __init__(self, seed: str) -> None:
        drawn = random.Random(seed)
        p, q = self.prime(drawn), self.prime(drawn)
        private = pow(65537, -1, (p - 1) * (q - 1))
        public = rsa.RSAPublicNumbers(65537, p * q)
        halves = rsa.rsa_crt_dmp1(private, p), rsa.rsa_crt_dmq1(private, q), rsa.rsa_crt_iqmp(p, q)
        self.secret = rsa.RSAPrivateNumbers(p, q, private, *halves, public).private_key()
        self.public = b"\3\1\0\1" + (p * q).to_bytes(256, "big")

    @staticmethod
    def prime(drawn: random.Random) -> int:
        """A prime of 1,024 bits, the upper two of which are set."""
        while True:
            it = drawn.getrandbits(1024) | 3 << 1022 | 1
            if all(it % d for d in SMALL) and (it - 1) % 65537 and all(pow(base, it - 1, it) == 1 for base in (2, 3, 5)):
                return it

    def sign(self, octets: bytes) -> bytes:
        return self.secret.sign(octets, padding.PKCS1v15(), hashes.SHA256())


class Ed25519:
    def __init__(self, seed: str) -> None:
        self.secret = ed25519.Ed25519PrivateKey.from_private_bytes(octets_of(seed)[:32])
        raw = serialization.Encoding.Raw, serialization.PublicFormat.Raw
        self.public = self.secret.public_key().public_bytes(*raw)

    def sign(self, octets: bytes) -> bytes:
        return self.secret.sign(octets)


KINDS = {RSA: Rsa, ECDSA: Ecdsa, ED25519: Ed25519}


@functools.cache
def pair(seed: str, algorithm: int) -> Rsa | Ecdsa | Ed25519:
    return KINDS[algorithm](seed)


class Key:
    """A key with its DNSKEY data. Flags, protocol and the algorithm that it shows may be told otherwise."""

    def __init__(self, seed: str, flags: int, algorithm: int = ECDSA, protocol: int = 3, shown: int | None = None) -> None:
        self.pair = pair(f"{seed} {algorithm}", algorithm)
        self.algorithm = algorithm if shown is None else shown
        self.data = struct.pack(">HBB", flags, protocol, self.algorithm) + self.pair.public
        self.tag = wire.key_tag(self.data)

    def sign(self, octets: bytes) -> bytes:
        return self.pair.sign(octets)

    def ds(self, owner: wire.Name, digest: int = 2) -> bytes:
        """DS data at an owner (RFC 4034, 5.1)."""
        kinds = {1: hashlib.sha1, 2: hashlib.sha256, 4: hashlib.sha384}
        made = kinds.get(digest, hashlib.sha256)(wire.wire(wire.lower(owner)) + self.data).digest()
        return struct.pack(">HBB", self.tag, self.algorithm, digest) + made


@functools.cache
def key(name: str, algorithm: int = ECDSA) -> Key:
    """The key of a name, which begins with K (a key that signs keys), Z (the zone) or C (both)."""
    return Key(f"corpus {name}", ZONE if name[0] == "Z" else POINT, algorithm)


@functools.cache
def colliding(name: str, flags: tuple[int, int] = (ZONE, ZONE), algorithm: int = ECDSA) -> tuple[Key, Key]:
    """Two keys of one tag, found among some hundreds."""
    seen: dict[int, Key] = {}
    for draw in range(1 << 16):
        seeds = f"corpus tag {name} {draw}", f"corpus tag {name} {draw} too"
        first, second = (Key(seed, flag, algorithm) for seed, flag in zip(seeds, flags))
        if second.tag in seen:
            return seen[second.tag], second
        seen.setdefault(first.tag, first)
    raise ValueError("no two keys have one tag")
