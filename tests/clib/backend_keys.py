"""Signatures at the limits of keys, made here: RSA by arithmetic, curves by the package `cryptography`; and what this says of each."""

from __future__ import annotations

import dataclasses
import hashlib
from collections.abc import Iterator

from backend_rows import BAD_KEY, BAD_KEY_SIZE, BAD_SIGNATURE, FAILS, PASSES, STANDARDS, UNSUPPORTED, Signed, dnskey
from cryptography.exceptions import InvalidSignature, UnsupportedAlgorithm
from cryptography.hazmat.primitives import hashes
from cryptography.hazmat.primitives.asymmetric import ec, ed448, ed25519, padding, rsa, utils

OCTETS = b"signed octets, as long as they need to be"
# What is in front of a digest in a signature of RSA (RFC 8017, 9.2).
PREFIX = {8: bytes.fromhex("3031300d060960864801650304020105000420"), 10: bytes.fromhex("3051300d060960864801650304020305000440")}
DIGEST = {8: hashlib.sha256, 10: hashlib.sha512}
CURVES = {13: (ec.SECP256R1(), hashes.SHA256(), 32), 14: (ec.SECP384R1(), hashes.SHA384(), 48)}
# The orders of P-256 and P-384 (SEC 2, 2.4 and 2.5) and of Ed25519's and Ed448's groups (RFC 8032, 5.1 and 5.2).
ORDERS = {
    13: 0xFFFFFFFF00000000FFFFFFFFFFFFFFFFBCE6FAADA7179E84F3B9CAC2FC632551,
    14: 0xFFFFFFFFFFFFFFFFFFFFFFFFFFFFFFFFFFFFFFFFFFFFFFFFC7634D81F4372DDF581A0DB248B0A77AECEC196ACCC52973,
    15: 2**252 + 27742317777372353535851937790883648493,
    16: 2**446 - 13818066809895115352007386748515426880336692474882178609894547503885,
}
# Two primes for a modulus of so many bits, drawn once by OpenSSL.
PRIMES = {
    511: (
        "cae8eeba133b39c73a108e1060ae4efb833cc928997c7bcb58fadf007dbac545",
        "7e358fb7c407094f8c147a640f2eee264b034c16db1a85b94f4b5fbacfb55ad7",
    ),
    512: (
        "d3f54535760597668306faa30c1aa02a0653ca236280454176300eef1f2d728f",
        "e01dba35944d0cdac744fdb19af3c85fd6495859620ac3ea8fe16587a657ab7f",
    ),
    1023: (
        (
            "fdf265be001e1f3263a08a2c352f6c00e373a6a63bd8222cf6e714cdfa23d0187d25597945b942d488512bbf0c71e13356bb1756d3ae7434e67c0521"
            "9ab97df9"
        ),
        (
            "648c935ff14145ece2461bd73f0eef6d43bddba4547df74e3590b3ebef7ad827a18b1085ac872e8704d30a705ec9711184ea7dfec4a0815250e8c7ce"
            "3c72152f"
        ),
    ),
    1024: (
        (
            "e39f076710c8954bd53cb226ed02b529f50da7bf8ebce05166f29f2a3f14ebd5b26128acc358e9f0c0f2c940cb5b4f2cf5de95b37352f93884616650"
            "c2fdb9f9"
        ),
        (
            "cfef73007c8f32ded5aa06f3d6350a4d7f92eea110adc27f11a068e8f49c60c0908fa9729af9c2579913ee2c8c146a976924320b933d774213721017"
            "6dcd0853"
        ),
    ),
    2048: (
        (
            "c3436e03063d969e2c0894c1b34e9659d9d3a1753dbe954dc3dbf41720b52130794e9b22ff630833e107b3740db2d55a3803f5004dc45ec46a89068b"
            "fc092c30ebf98c041e3b5115d333ba5c9487a8fd42361da9a44a379fcac794eeaa8e79f30aa3bd378a9add38053e1652d0e22b34f05685cb3f75ab5f"
            "5ac605515044720d"
        ),
        (
            "ed2bca6479c412c824930ff25d82937f0f294fa14c12956f020b3fe7d0193cdf7bee1f43911755928c6fa72c6aa1f1a2ab65fe2e78b3d1666db7f25d"
            "185fa26fca97765a02601ba855eb7fb7b5b47baff1620c38bc14d4e4f1f38a1c222aab5ef589425c83929f2302261cf3997702c6632b0a95a9b3d007"
            "bc65a2f3533d18d9"
        ),
    ),
    4096: (
        (
            "c8d71a990a2fc5cc9f9c021b4203f2299f66e1ae649bd83b34dc4a1eb590e41a88fcacc3ddbc18cd220ac0333a9671db86c8e9fb4639e020d40f8f81"
            "e378883209e0253ff228a6036b5ddfa31876f83018fa89aedf06cc2088850585a23fa8b4a4961d7cc94aba508a3a05fb1418aa7bf5816410c731724a"
            "eb1f2d324f93c03e8df75ae8775961d4102f651bd852d46ddb60e7cbdac7b2f3e49b4ea1ae8e43305283ffcddc34e4770ef9079dc4e54cd6ba3dab89"
            "e1b0dbd19ee6897aa1803645a2584950ec006f87b02fcd5705cfae313f60fcc189867230dd3fae9da057ec7f530c05991a3a457a0d2d3c0634d49ef6"
            "78774bf9410e16f87351af65eb212d79"
        ),
        (
            "db64e4b887da9e3927413ff9452d5ddba6767a96e2cca49bb038dcc510943a5e706401ed04b74dd3908b40e1eb6ee36664b464d3b491b4a46c37790b"
            "e72a922fc37334674e54dd6295cd4a492adfb373e3a42f4c36eab8a871502a6b62f700f7edf8b86aef15b933df4454fb11abecadbfd76b9867718292"
            "41806279e44c83f47fe50bad8265f8181cea5afcd2809497cd0b068c692a801a94a21e75c243034bd718e3186c3ef399d41f3b84748eff271d261d61"
            "571a246f61e372ef36147b1cce55bbeafdf57cc41398244e71050423db56a06c2499cbc882203277a3cf23c11718ade3ffabff4f6954d91cc0cd364d"
            "83ccee460776251dfe248a6d105d3f69"
        ),
    ),
    4104: (
        (
            "e4b16896fec836d6f4b4df402903dc3bbc26a36ebec7f5440a6ebe47f72acff6ae129a9838617578e467a8bc668466d2ce6add54b02de2e337a431d9"
            "807767f70780f8f82197fcd24dd2185c4d57f74ff787cae5054d4d6bbbbc97f5daa56b2a595a82caf2d6c6f29edbca57937a746259c36722fbe27ff8"
            "448d7b2c0389d5859263bad75bc3e94f3608545a7c1742cda488bc170f75deb7c657744d0d334d3756024b0cfe290c45c922fb8aacc11e6b71e3f701"
            "f4a0dd749c06cf5dc87fadd472bb668f0d551be6975afd026990fea3122a229f113565bf990e78cba3d92ef655a89be333a81b3db1525db26f51b647"
            "a8d7014092ca24fbce7dd574b1aba509f"
        ),
        (
            "f003f9edf388cd0a2bb56e547619dc246633d59d31a0b13c6fee6c53c0ec196131c0a9cfb959254045690605768f963975dc1d7d148ae17e8ff919b6"
            "2912ca22568efdef4ca1a6490ba8f18173b879186cea9fd9e12f5057af5e3712d490b20788146f4472facf09059ad84659cebaa6f467d4796beae1b4"
            "344668069801e859b07d2951551a03d49dfecd2166e3ab336558a16235d44a88d74d50ca47ce82d697c585ec48a4c2867d73a3c59761c3008c8b8024"
            "a130c59409c5c09fbbb890c90f804a39776dfbe5422764746109d6156d7521b64b0380fad44289183731929ab27a5a84c79d7890a6d2d8f39fc113b6"
            "0c87c719fe4351291aad8c36cd15dd205"
        ),
    ),
}


def octets_of(number: int, width: int = 0) -> bytes:
    return number.to_bytes(width or (number.bit_length() + 7) // 8, "big")


def numbers(bits: int, exponent: int) -> tuple[int, int]:
    """A modulus of so many bits, and the private exponent."""
    first, second = (int(it, 16) for it in PRIMES[bits])
    return first * second, pow(exponent, -1, (first - 1) * (second - 1))


def rsa_key(exponent: bytes, modulus: bytes) -> bytes:
    """RFC 3110, 2."""
    head = bytes([len(exponent)]) if 0 < len(exponent) < 256 else b"\0" + len(exponent).to_bytes(2, "big")
    return head + exponent + modulus


def rsa_signature(algorithm: int, modulus: int, private: int) -> bytes:
    """RFC 8017, 8.2."""
    width = (modulus.bit_length() + 7) // 8
    digest = PREFIX[algorithm] + DIGEST[algorithm](OCTETS).digest()
    padded = b"\0\1" + b"\xff" * (width - 3 - len(digest)) + b"\0" + digest
    return octets_of(pow(int.from_bytes(padded, "big"), private, modulus), width)


def rsa_rows() -> Iterator[Signed]:
    """Moduli and exponents at their limits: all signatures are right by arithmetic."""
    sizes = [(8, 511), (8, 512), (8, 1023), (8, 2048), (8, 4096), (8, 4104), (10, 1023), (10, 1024), (10, 4096), (10, 4104)]
    for algorithm, bits in sizes:
        modulus, private = numbers(bits, 65537)
        is_within = (512 if algorithm == 8 else 1024) <= bits <= 4096
        key, signature = rsa_key(octets_of(65537), octets_of(modulus)), rsa_signature(algorithm, modulus, private)
        yield Signed(f"{bits} bits", dnskey(algorithm, key), OCTETS, signature, PASSES if is_within else BAD_KEY_SIZE)
    for exponent in (3, 2**32 + 1, 2**64 - 59, 2**64 + 13, 2**520 + 7):
        modulus, private = numbers(1024, exponent)
        key, signature = rsa_key(octets_of(exponent), octets_of(modulus)), rsa_signature(8, modulus, private)
        says = PASSES if exponent < 2**64 else BAD_KEY_SIZE
        yield Signed(f"exponent {exponent:#x}", dnskey(8, key), OCTETS, signature, says)


def rsa_forms() -> Iterator[Signed]:
    """Keys written otherwise, and keys that are none."""
    modulus, private = numbers(1024, 65537)
    signature, whole, e = rsa_signature(8, modulus, private), octets_of(modulus), octets_of(65537)
    padded = b"\0\1" + b"\xff" * (128 - 3 - 51) + b"\0" + PREFIX[8] + DIGEST[8](OCTETS).digest()
    rows = [
        ("a long head", b"\0\0\3" + e + whole, signature, PASSES),
        ("zeros in front of the exponent", rsa_key(b"\0\0" + e, whole), signature, PASSES),
        ("zeros in front of the modulus", rsa_key(e, b"\0" + whole), signature, PASSES),
        ("more octets than any key has", rsa_key(e, bytes(512 - 127) + whole), signature, BAD_KEY_SIZE),
        ("an exponent of more", rsa_key(bytes(511) + e, whole), signature, BAD_KEY_SIZE),
        ("an even exponent", rsa_key(octets_of(65536), whole), signature, BAD_KEY),
        ("exponent 1, under which the padded digest is its own signature", rsa_key(b"\1", whole), padded, BAD_KEY),
        ("exponent 0", rsa_key(b"\0", whole), padded, BAD_KEY),
        ("an even modulus", rsa_key(e, octets_of(modulus - 1)), signature, BAD_KEY),
        ("no exponent", b"\0\0\0" + whole, signature, BAD_KEY),
        ("no modulus", b"\3" + e, signature, BAD_KEY),
        ("less than its head says", b"\xff" + e, signature, BAD_KEY),
        ("half a head", b"\0\0", signature, BAD_KEY),
        ("an octet", b"\3", signature, BAD_KEY),
        ("nothing", b"", signature, BAD_KEY),
        ("a short signature", rsa_key(e, whole), signature[1:], BAD_SIGNATURE),
        ("a long signature", rsa_key(e, whole), b"\0" + signature, BAD_SIGNATURE),
        ("no signature", rsa_key(e, whole), b"", BAD_SIGNATURE),
        ("a signature over the modulus", rsa_key(e, whole), octets_of(int.from_bytes(signature, "big") + modulus, 129)[-128:], FAILS),
        ("the modulus as signature", rsa_key(e, whole), whole, FAILS),
        ("zero as signature", rsa_key(e, whole), bytes(128), FAILS),
    ]
    for what, key, made, says in rows:
        yield Signed(f"RSA: {what}", dnskey(8, key), OCTETS, made, says)
    yield Signed("RSA: the other digest", dnskey(10, rsa_key(e, whole)), OCTETS, signature, FAILS)


def curve_rows() -> Iterator[Signed]:
    """Points that are none, and numbers out of their range (FIPS 186-5, 6.4.2)."""
    for algorithm, (curve, digest, width) in CURVES.items():
        private = ec.generate_private_key(curve)
        at = private.public_key().public_numbers()
        point = octets_of(at.x, width) + octets_of(at.y, width)
        r, s = utils.decode_dss_signature(private.sign(OCTETS, ec.ECDSA(digest)))
        order = ORDERS[algorithm]

        def row(what: str, says: int, r: int = r, s: int = s, point: bytes = point, algorithm: int = algorithm, width: int = width) -> Signed:
            return Signed(f"{algorithm}: {what}", dnskey(algorithm, point), OCTETS, octets_of(r, width) + octets_of(s, width), says)

        yield row("as it was made", PASSES)
        yield row("the other s, which passes too", PASSES, s=order - s)
        yield row("r is 0", FAILS, r=0)
        yield row("s is 0", FAILS, s=0)
        yield row("r is the order", FAILS, r=order)
        yield row("s is the order", FAILS, s=order)
        yield row("s over the order", FAILS, s=s + order if s + order < 256**width else order + 1)
        yield row("both are their most", FAILS, r=256**width - 1, s=256**width - 1)
        yield row("a point that is not on the curve", BAD_KEY, point=point[:-1] + bytes([point[-1] ^ 1]))
        yield row("a point of zeros", BAD_KEY, point=bytes(2 * width))
        yield row("a coordinate over the field", BAD_KEY, point=b"\xff" * 2 * width)
        yield row("a point in its compressed form", BAD_KEY, point=bytes([2 + at.y % 2]) + point[:width])
        yield row("a point behind its form", BAD_KEY, point=b"\4" + point)
        yield row("half a point", BAD_KEY, point=point[:width])
        whole = row("", PASSES).signature
        for what, made in (("short", whole[1:]), ("long", whole + b"\0"), ("in DER", utils.encode_dss_signature(r, s)), ("missing", b"")):
            yield Signed(f"{algorithm}: a signature that is {what}", dnskey(algorithm, point), OCTETS, made, BAD_SIGNATURE)


def edwards_rows() -> Iterator[Signed]:
    """Signatures whose second number is not the least, which RFC 8032, 5.1.7 and 5.2.7, refuses; keys of other lengths."""
    for algorithm, kind in ((15, ed25519.Ed25519PrivateKey), (16, ed448.Ed448PrivateKey)):
        private = kind.generate()
        key, signature = private.public_key().public_bytes_raw(), private.sign(OCTETS)
        half = len(signature) // 2
        s = int.from_bytes(signature[half:], "little")
        more = (s + ORDERS[algorithm]).to_bytes(half, "little")
        rows = [
            ("as it was made", key, signature, PASSES),
            ("s and the order", key, signature[:half] + more, FAILS),
            ("another first half", key, bytes(half) + signature[half:], FAILS),
            ("zeros", key, bytes(2 * half), FAILS),
            ("a short key", key[1:], signature, BAD_KEY),
            ("a long key", key + b"\0", signature, BAD_KEY),
            ("no key", b"", signature, BAD_KEY),
            ("a short signature", key, signature[1:], BAD_SIGNATURE),
            ("a long signature", key, signature + b"\0", BAD_SIGNATURE),
        ]
        for what, its_key, made, says in rows:
            yield Signed(f"{algorithm}: {what}", dnskey(algorithm, its_key), OCTETS, made, says)


def altered(row: Signed) -> Iterator[Signed]:
    """A bit of the octets and of each end of the signature altered; algorithms that are not checked."""
    flipped = bytes([row.octets[0] ^ 1]) + row.octets[1:]
    yield dataclasses.replace(row, what=f"{row.what}, other octets", octets=flipped, says=FAILS)
    yield dataclasses.replace(row, what=f"{row.what}, octets behind", octets=row.octets + b"\0", says=FAILS)
    for at in (0, len(row.signature) // 2, len(row.signature) - 1):
        made = row.signature[:at] + bytes([row.signature[at] ^ 1]) + row.signature[at + 1 :]
        yield dataclasses.replace(row, what=f"{row.what}, signature altered at {at}", signature=made, says=FAILS)
    for algorithm in (0, 1, 3, 5, 6, 7, 12, 17, 23, 253, 255):
        other = row.dnskey[:3] + bytes([algorithm]) + row.dnskey[4:]
        yield dataclasses.replace(row, what=f"{row.what}, algorithm {algorithm}", dnskey=other, says=UNSUPPORTED)


def rows() -> list[Signed]:
    made = [*STANDARDS, *rsa_rows(), *rsa_forms(), *curve_rows(), *edwards_rows()]
    return [*made, *(it for row in STANDARDS for it in altered(row))]


def verify(row: Signed) -> None:
    """Raises an error unless a signature passes, by `cryptography`."""
    algorithm, key = row.dnskey[3], row.dnskey[4:]
    if algorithm in PREFIX:
        head = 1 if key[:1] != b"\0" else 3
        end = head + int.from_bytes(key[:head], "big")
        public = rsa.RSAPublicNumbers(int.from_bytes(key[head:end], "big"), int.from_bytes(key[end:], "big")).public_key()
        public.verify(row.signature, row.octets, padding.PKCS1v15(), hashes.SHA256() if algorithm == 8 else hashes.SHA512())
    elif algorithm in CURVES:
        curve, digest, width = CURVES[algorithm]
        if len(row.signature) != 2 * width:
            raise InvalidSignature
        pair = utils.encode_dss_signature(*(int.from_bytes(it, "big") for it in (row.signature[:width], row.signature[width:])))
        ec.EllipticCurvePublicKey.from_encoded_point(curve, b"\4" + key).verify(pair, row.octets, ec.ECDSA(digest))
    elif algorithm in (15, 16):
        kind = ed25519.Ed25519PublicKey if algorithm == 15 else ed448.Ed448PublicKey
        kind.from_public_bytes(key).verify(row.signature, row.octets)
    else:
        raise UnsupportedAlgorithm("")


def passes_elsewhere(row: Signed) -> bool:
    try:
        verify(row)
    except (InvalidSignature, UnsupportedAlgorithm, ValueError, IndexError):
        return False
    return True
