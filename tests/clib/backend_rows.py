"""What the backend is to say of signatures, names, DS records and trust anchors: rows of standards and of other programs."""

from __future__ import annotations

import base64
import dataclasses
import struct

from answers import part, wire

ZONE_KEY, PROTOCOL, IN = 256, 3, 1
FAILS, PASSES, BAD_KEY, BAD_KEY_SIZE, BAD_SIGNATURE, UNSUPPORTED = range(6)
A, MX = 1, 15


@dataclasses.dataclass(frozen=True)
class Signed:
    """A signature, and what is to be said of it."""

    what: str
    dnskey: bytes
    octets: bytes
    signature: bytes
    says: int = PASSES

    def line(self) -> str:
        return " ".join(["signature", *(it.hex() or "-" for it in (self.dnskey, self.octets, self.signature))])


def dnskey(algorithm: int, key: bytes, flags: int = ZONE_KEY) -> bytes:
    return struct.pack(">HBB", flags, PROTOCOL, algorithm) + key


def signed_octets(owner: bytes, rtype: int, data: bytes, ttl: int, head: bytes) -> bytes:
    """What a signature over one record is made over (RFC 4034, 3.1.8.1)."""
    return head + owner + struct.pack(">HHI", rtype, IN, ttl) + part(data)


def of_standard(what: str, algorithm: int, flags: int, key: str, owner: str, rtype: int, data: bytes, times: tuple[int, int], tag: int,
                signer: str, signature: str) -> Signed:
    """A row of a standard's appendix, its TTL being 3600."""
    labels = len([it for it in owner.split(".") if it])
    head = struct.pack(">HBBIIIH", rtype, algorithm, labels, 3600, *times, tag) + wire(signer)
    octets = signed_octets(wire(owner), rtype, data, 3600, head)
    return Signed(what, dnskey(algorithm, base64.b64decode(key), flags), octets, base64.b64decode(signature))


# Dates of RFC 5702, 6: 2000-01-01 and 2030-01-01; of RFC 6605, 6: 2010-08-12 and 2010-09-09; of RFC 8080, 6, in seconds.
TIMES = {8: (1893456000, 946684800), 13: (1284026679, 1281607479), 14: (1284027625, 1281608425), 15: (1440021600, 1438207200)}
MAIL = b"\0\x0a" + wire("mail.example.com")
STANDARDS = [
    of_standard(
        "RFC 5702, 6.1", 8, 256, "AwEAAcFcGsaxxdgiuuGmCkVImy4h99CqT7jwY3pexPGcnUFtR2Fh36BponcwtkZ4cAgtvd4Qs8PkxUdp6p/DlUmObdk=", "www.example.net",
        A, bytes([192, 0, 2, 91]), TIMES[8], 9033, "example.net",
        "kRCOH6u7l0QGy9qpC9l1sLncJcOKFLJ7GhiUOibu4teYp5VE9RncriShZNz85mwlMgNEacFYK/lPtPiVYP4bwg==",
    ),
    of_standard(
        "RFC 5702, 6.2", 10, 256,
        "AwEAAdHoNTOW+et86KuJOWRDp1pndvwb6Y83nSVXXyLA3DLroROUkN6X0O6pnWnjJQujX/AyhqFDxj13tOnD9u/1kTg7cV6rklMrZDtJCQ5PCl/D7QNPsgVsMu1J2Q8gpMpz"
        "tNFLpPBz1bWXjDtaR7ZQBlZ3PFY12ZTSncorffcGmhOL",
        "www.example.net", A, bytes([192, 0, 2, 91]), TIMES[8], 3740, "example.net",
        "tsb4wnjRUDnB1BUi+t6TMTXThjVnG+eCkWqjvvjhzQL1d0YRoOe0CbxrVDYd0xDtsuJRaeUw1ep94PzEWzr0iGYgZBWm/zpq+9fOuagYJRfDqfReKBzMweOLDiNa8iP5g9vM"
        "hpuv6OPlvpXwm9Sa9ZXIbNl1MBGk0fthPgxdDLw=",
    ),
    of_standard(
        "RFC 6605, 6.1", 13, 257, "GojIhhXUN/u4v54ZQqGSnyhWJwaubCvTmeexv7bR6edbkrSqQpF64cYbcB7wNcP+e+MAnLr+Wi9xMWyQLc8NAA==", "www.example.net", A,
        bytes([192, 0, 2, 1]), TIMES[13], 55648, "example.net",
        "qx6wLYqmh+l9oCKTN6qIc+bw6ya+KJ8oMz0YP107epXAyGmt+3SNruPFKG7tZoLBLlUzGGus7ZwmwWep666VCw==",
    ),
    of_standard(
        "RFC 6605, 6.2", 14, 257,
        "xKYaNhWdGOfJ+nPrL8/arkwf2EY3MDJ+SErKivBVSum1w/egsXvSADtNJhyem5RCOpgQ6K8X1DRSEkrbYQ+OB+v8/uX45NBwY8rp65F6Glur8I/mlVNgF6W/qTI37m40",
        "www.example.net", A, bytes([192, 0, 2, 1]), TIMES[14], 10771, "example.net",
        "/L5hDKIvGDyI1fcARX3z65qrmPsVz73QD1Mr5CEqOiLP95hxQouuroGCeZOvzFaxsT8Glr74hbavRKayJNuydCuzWTSSPdz7wnqXL5bdcJzusdnI0RSMROxxwGipWcJm",
    ),
    of_standard(
        "RFC 8080, 6.1, first", 15, 257, "l02Woi0iS8Aa25FQkUd9RMzZHJpBoRQwAQEX1SxZJA4=", "example.com", MX, MAIL, TIMES[15], 3613, "example.com",
        "oL9krJun7xfBOIWcGHi7mag5/hdZrKWw15jPGrHpjQeRAvTdszaPD+QLs3fx8A4M3e23mRZ9VrbpMngwcrqNAg==",
    ),
    of_standard(
        "RFC 8080, 6.1, second", 15, 257, "zPnZ/QwEe7S8C5SPz2OfS5RR40ATk2/rYnE9xHIEijs=", "example.com", MX, MAIL, TIMES[15], 35217, "example.com",
        "zXQ0bkYgQTEFyfLyi9QoiY6D8ZdYo4wyUhVioYZXFdT410QPRITQSqJSnzQoSm5poJ7gD7AQR0O7KuI5k2pcBg==",
    ),
    of_standard(
        "RFC 8080, 6.2, first", 16, 257, "3kgROaDjrh0H2iuixWBrc8g2EpBBLCdGzHmn+G2MpTPhpj/OiBVHHSfPodx1FYYUcJKm1MDpJtIA", "example.com", MX, MAIL,
        TIMES[15], 9713, "example.com",
        "3cPAHkmlnxcDHMyg7vFC34l0blBhuG1qpwLmjInI8w1CMB29FkEAIJUA0amxWndkmnBZ6SKiwZSAxGILn/NBtOXft0+Gj7FSvOKxE/07+4RQvE581N3Aj/JtIyaiYVdnYtyM"
        "WbSNyGEY2213WKsJlwEA",
    ),
    # A record that ldns signed, as unbound's own tests have it.
    of_standard(
        "ldns, Ed448", 16, 256, "zqUQUbOlkWR1cEGLAr/50aOgpFIwyT3juetr4fT9TRIOdEaXK3Pzv6AvA4iNViZ6RAMD2xctd1EA", "mail.example.com", A,
        bytes([1, 2, 3, 5]), (1525358190, 1522938990), 39998, "example.com",
        "5T6sjxQ2sB9Crcx8hNKDCteUVc0vNpz8slOa58acb4yLP7dBysp/6dVZwl9/gUN+CWUl6QpkcEMAFx2AcgjPhncYzRpeKCNuJBgBBQrb4Fz2Kvqf7r7H4Day6JrWQDvWcMXf"
        "8U9r0Eq06hoJ48M52CkA",
    ),
]
