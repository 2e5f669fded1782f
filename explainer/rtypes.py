"""Numbers of types and classes, and their names."""

from __future__ import annotations

from collections.abc import Iterable

A, NS, CNAME, SOA, PTR, MX, TXT, AAAA, SRV, DNAME, OPT = 1, 2, 5, 6, 12, 15, 16, 28, 33, 39, 41
DS, RRSIG, NSEC, DNSKEY, NSEC3, NSEC3PARAM, CDS, CDNSKEY, CAA = 43, 46, 47, 48, 50, 51, 59, 60, 257
NXNAME = 128
IN = 1

NAMES = {
    A: "A",
    NS: "NS",
    CNAME: "CNAME",
    SOA: "SOA",
    PTR: "PTR",
    MX: "MX",
    TXT: "TXT",
    AAAA: "AAAA",
    SRV: "SRV",
    DNAME: "DNAME",
    OPT: "OPT",
    DS: "DS",
    RRSIG: "RRSIG",
    NSEC: "NSEC",
    DNSKEY: "DNSKEY",
    NSEC3: "NSEC3",
    NSEC3PARAM: "NSEC3PARAM",
    NXNAME: "NXNAME",
    CAA: "CAA",
}

# The records of chains, and all types that signing adds (RFC 4034; RFC 5155).
CHAIN = (NSEC, NSEC3)
ADDED_BY_SIGNING = (RRSIG, NSEC, DNSKEY, NSEC3, NSEC3PARAM)
ALIASES = (CNAME, DNAME)


def is_meta(rtype: int) -> bool:
    """Whether a type is one that no zone holds (RFC 6895, 3.1)."""
    return rtype in (0, OPT) or 128 <= rtype <= 255


def type_text(rtype: int) -> str:
    """A type by its name, or as TYPE and its number (RFC 3597, 5)."""
    return NAMES.get(rtype, f"TYPE{rtype}")


def types_text(types: Iterable[int]) -> str:
    """Types with commas between."""
    return ", ".join(map(type_text, types)) or "none"


def class_text(rclass: int) -> str:
    return "IN" if rclass == IN else f"CLASS{rclass}"
