"""What is judged: the messages of a zone beside its DS set, for a question (docs/use/CALLING.md)."""

from __future__ import annotations

import dataclasses
from collections.abc import Callable

from . import rtypes
from .messages import Message, MessageFault, Record, read_message
from .names import Name


@dataclasses.dataclass(frozen=True)
class Case:
    """The question is of class IN. With `other_question` the answer may be one to another."""

    apex: Name
    ds: tuple[bytes, ...]
    dnskey: bytes
    answer: bytes
    name: Name
    rtype: int
    moment: int
    limit: int
    other_question: bool = False

    @property
    def is_allowed(self) -> bool:
        """Whether the question is judged: not outside the zone, nor for types that signing adds, aliases or no types of records."""
        is_alias = self.rtype in rtypes.ALIASES
        is_other = rtypes.is_meta(self.rtype) or self.rtype in rtypes.ADDED_BY_SIGNING
        return self.apex.is_at_or_above(self.name) and not is_other and (not is_alias or self.other_question)

    def asking(self, name: Name, rtype: int) -> Case:
        """The same messages for another question."""
        return dataclasses.replace(self, name=name, rtype=rtype, other_question=True)

    def suggested(self) -> Case | None:
        """The question that the answer suggests besides: for the DNAME record above the name, for its CNAME record, or for DS at the
        delegation of its NS records."""
        try:
            message = read_message(self.answer)
        except MessageFault:
            return None
        above = _owner(message, rtypes.DNAME, lambda owner: self.apex.is_at_or_above(owner) and owner.is_above(self.name))
        if above is not None:
            return self.asking(above, rtypes.DNAME)
        has_cname = _owner(message, rtypes.CNAME, lambda owner: owner == self.name) is not None
        if has_cname and self.apex.is_at_or_above(self.name) and self.rtype != rtypes.CNAME:
            return self.asking(self.name, rtypes.CNAME)
        cut = _owner(message, rtypes.NS, lambda owner: self.apex.is_above(owner) and owner.is_at_or_above(self.name))
        return None if cut is None else self.asking(cut, rtypes.DS)


def _owner(message: Message, rtype: int, fits: Callable[[Name], bool]) -> Name | None:
    """The owner of the first record of a type that fits."""

    def is_one(record: Record) -> bool:
        return record.rclass == rtypes.IN and record.rtype == rtype and fits(record.owner)

    return next((record.owner for record in message.records if is_one(record)), None)
