"""Whether data are in canonical form, in which every signer signs them (RFC 4034, 6.2; RFC 6840, 5.1)."""

from __future__ import annotations

from typing import Tuple, Union

from . import rtypes
from .names import CutOff, Malformed, name_of_wire

# The parts of data: so many octets, a string behind its length, a name that is signed in lower case or as it is spelled, the rest.
Form = Tuple[Union[int, str], ...]
TEXT, LOWERED, KEPT, REST = "text", "lowered", "kept", "rest"
FORMS: dict[int, Form] = {
    **dict.fromkeys((rtypes.NS, 3, 4, rtypes.CNAME, 7, 8, 9, rtypes.PTR, rtypes.DNAME), (LOWERED,)),
    rtypes.SOA: (LOWERED, LOWERED, 20),
    **dict.fromkeys((14, 17), (LOWERED, LOWERED)),
    **dict.fromkeys((rtypes.MX, 18, 21, 36), (2, LOWERED)),
    24: (18, LOWERED, REST),
    26: (2, LOWERED, LOWERED),
    30: (LOWERED, REST),
    rtypes.SRV: (6, LOWERED),
    35: (4, TEXT, TEXT, TEXT, LOWERED),
    rtypes.RRSIG: (18, KEPT, REST),
    rtypes.NSEC: (KEPT, REST),
}
A6 = 38
# No data are so long.
NO_FORM: Form = (1 << 16,)
UNLIKE = (
    "its data are not in canonical form (RFC 4034, 6.2), and are signed as they stand: other validators refuse the signatures"
)


def is_canonical(rtype: int, data: bytes) -> bool:
    """Whether data have the form of their type, with names in full and in the case in which they are signed. Those of NS and SOA
    records are brought into it."""
    if rtype in (rtypes.NS, rtypes.SOA):
        return True
    form = _a6(data) if rtype == A6 else FORMS.get(rtype, (REST,))
    at = 0
    try:
        for part in form:
            at = _behind(part, data, at)
    except (CutOff, Malformed, IndexError):
        return False
    return at == len(data)


def _a6(data: bytes) -> Form:
    """The form of A6 data (RFC 2874, 3.1): no name behind a whole address."""
    if not data or data[0] > 128:
        return NO_FORM
    suffix: Form = (1 + (128 - data[0] + 7) // 8,)
    return (*suffix, LOWERED) if data[0] else suffix


def _behind(part: int | str, data: bytes, at: int) -> int:
    """The place behind a part."""
    if part in (LOWERED, KEPT):
        name, behind = name_of_wire(data, at)
        if part == LOWERED and data[at:behind] != name.canonical():
            raise Malformed
        return behind
    width = len(data) - at if part == REST else 1 + data[at] if part == TEXT else int(part)
    if at + width > len(data):
        raise CutOff
    return at + width
