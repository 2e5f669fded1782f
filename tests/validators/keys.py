"""Keys of a seed, ECDSA P-256 with SHA-256 (13) and RSA with SHA-256 (8), and what they sign."""

import base64
import hashlib
import struct

from cryptography.hazmat.primitives import hashes, serialization
from cryptography.hazmat.primitives.asymmetric import ec, utils

import wire
from maker.keys import ECDSA, ORDER, POINT, RSA, ZONE, Rsa, octets_of  # noqa: F401


class Ecdsa:
    """A key that OpenSSL can be given: that of the corpus signs by itself."""

    def __init__(self, seed):
        self.secret = ec.derive_private_key(int.from_bytes(octets_of(seed), "big") % (ORDER - 1) + 1, ec.SECP256R1())
        public = self.secret.public_key().public_numbers()
        self.public = public.x.to_bytes(32, "big") + public.y.to_bytes(32, "big")

    def sign(self, octets):
        r, s = utils.decode_dss_signature(self.secret.sign(octets, ec.ECDSA(hashes.SHA256())))
        return r.to_bytes(32, "big") + s.to_bytes(32, "big")


def ds_of(owner, data):
    """The DS data of DNSKEY data at an owner (RFC 4034, 5.1), with a digest of SHA-256."""
    digest = hashlib.sha256(owner.lower() + data).digest()
    return struct.pack(">HBB", wire.key_tag(data), data[3], 2) + digest


KINDS = {RSA: Rsa, ECDSA: Ecdsa}


class Key:
    """A key, with its DNSKEY data."""

    def __init__(self, seed, flags, algorithm):
        self.flags, self.algorithm = flags, algorithm
        self.pair = KINDS[algorithm](seed)
        self.data = struct.pack(">HBB", flags, 3, algorithm) + self.pair.public
        self.tag = wire.key_tag(self.data)
        self.sign = self.pair.sign

    @property
    def base64(self):
        return base64.b64encode(self.pair.public).decode()

    @property
    def pem(self):
        form = serialization.PrivateFormat.PKCS8
        return self.pair.secret.private_bytes(serialization.Encoding.PEM, form, serialization.NoEncryption())

    def ds(self, owner):
        return ds_of(owner, self.data)

    def rrsig(self, owner, rtype, ttl, records, signer, times):
        """The data of a signature of an RRset by this key."""
        count = len([it for it in wire.labels(owner) if it != b"*"])
        fields = struct.pack(">HBBIIIH", rtype, self.algorithm, count, ttl, times[1], times[0], self.tag) + signer
        return fields + self.sign(wire.signed_octets(fields, owner, rtype, records))


class Keys:
    """The keys of a zone by their names. Each has a tag of its own."""

    def __init__(self, seed):
        self.seed, self.by_name = seed, {}

    def add(self, name, flags, algorithm):
        for draw in range(100):
            key = Key(f"{self.seed} {name} {draw}", flags, algorithm)
            if key.tag not in self.by_tag():
                self.by_name[name] = key
                return key
        raise ValueError("no key of another tag")

    def by_tag(self):
        return {it.tag: it for it in self.by_name.values()}
