"""Whether the module's own check passes signatures, and fails altered ones: those of tests/lines/servers, and
some that are made here, of other algorithms or with a longer head of the key. Prints how many there are of each algorithm."""

from __future__ import annotations

import collections
import pathlib
import sys
from collections.abc import Iterator

TOP = pathlib.Path(__file__).resolve().parents[2]
sys.path[:0] = [str(TOP / "tests/clib"), str(TOP / "examples/python")]
import answers  # noqa: E402
import lasting  # noqa: E402
from cryptography.hazmat.primitives import hashes, serialization  # noqa: E402
from cryptography.hazmat.primitives.asymmetric import ed448, padding, rsa  # noqa: E402
from zermuita import Ask  # noqa: E402
from zermuita.signatures import signature_passes  # noqa: E402

# The algorithms of those of servers.
OF_SERVERS = {8, 13, 14, 15}


def of_servers() -> Iterator[Ask]:
    return (Ask(*lasting.parts_of(it)) for it in answers.entries())


def made_here() -> Iterator[Ask]:
    """RSA with SHA-512, its exponent behind a length in one octet and in three, and Ed448."""
    octets = bytes(range(256))
    signer = rsa.generate_private_key(65537, 2048)
    modulus = signer.public_key().public_numbers().n.to_bytes(256, "big")
    for length in (b"\3", b"\0\0\3"):
        yield Ask(b"\1\1\3\12" + length + b"\1\0\1" + modulus, octets, signer.sign(octets, padding.PKCS1v15(), hashes.SHA512()))
    edwards = ed448.Ed448PrivateKey.generate()
    key = edwards.public_key().public_bytes(serialization.Encoding.Raw, serialization.PublicFormat.Raw)
    yield Ask(b"\1\1\3\20" + key, octets, edwards.sign(octets))


def altered(ask: Ask) -> Iterator[Ask]:
    """Other octets, another signature, a shorter one; a shorter key, none; an algorithm that is not known."""
    yield Ask(ask.dnskey, ask.octets + b"x", ask.signature)
    yield Ask(ask.dnskey, ask.octets, ask.signature[:-1] + bytes([ask.signature[-1] ^ 1]))
    yield Ask(ask.dnskey, ask.octets, ask.signature[:-1])
    yield Ask(ask.dnskey[:-1], ask.octets, ask.signature)
    yield Ask(ask.dnskey[:4], ask.octets, ask.signature)
    yield Ask(ask.dnskey[:3] + b"\xfd" + ask.dnskey[4:], ask.octets, ask.signature)


def main() -> None:
    counts: collections.Counter[int] = collections.Counter()
    for ask in [*of_servers(), *made_here()]:
        if not signature_passes(ask):
            sys.exit(f"not so: the signature of {ask.entry(True).hex()} passes")
        if any(map(signature_passes, altered(ask))):
            sys.exit(f"not so: {ask.entry(True).hex()} alone passes, and nothing that is altered")
        counts[ask.algorithm] += 1
    if not OF_SERVERS <= counts.keys():
        sys.exit(f"not so: signatures of servers are of the algorithms {sorted(OF_SERVERS)}: {dict(counts)}")
    print(dict(sorted(counts.items())))


if __name__ == "__main__":
    main()
