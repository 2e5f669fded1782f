"""What verified NSEC records tell of a question, and why (RFC 4035, 5.4; RFC 4470, 3; RFC 4592; RFC 6840, 4.1 and 4.3;
RFC 9824, 3)."""

from __future__ import annotations

import dataclasses

from . import rtypes
from .cases import Case
from .data import Nsec
from .names import Name
from .rtypes import type_text, types_text


@dataclasses.dataclass(frozen=True)
class Link:
    """A verified NSEC record."""

    owner: Name
    data: Nsec

    def covers(self, apex: Name, name: Name) -> bool:
        """Whether a name lies strictly between owner and next name; the apex as next name ends the order. What is below a DNAME
        record is redirected."""
        is_redirected = self.owner.is_above(name) and rtypes.DNAME in self.data.types
        return self.owner < name and (self.data.next == apex or name < self.data.next) and not is_redirected

    @property
    def is_denial(self) -> bool:
        """Whether it says that its owner does not exist."""
        return rtypes.NXNAME in self.data.types

    @property
    def is_bare(self) -> bool:
        """Whether it has no types but RRSIG and NSEC: its owner may be made up (RFC 4470, 3)."""
        return {*self.data.types} <= {rtypes.RRSIG, rtypes.NSEC}

    @property
    def has_more(self) -> bool:
        """Whether its types are those of a name that exists."""
        return not self.is_bare and not self.is_denial

    @property
    def tells(self) -> bool:
        """Whether it says which types its owner has: an empty non-terminal's own record has the first name below it as its next
        name (RFC 9824, 3.2)."""
        return self.has_more or self.data.next == Name((b"\0", *self.owner.labels))

    def encloser(self, name: Name) -> Name | None:
        """The closest encloser of a name that is covered: the nearest ancestor of the name that owner or next name shows to exist.
        An owner that may be made up shows what is above it."""
        shown = self.owner if self.has_more else self.owner.suffix(max(self.owner.depth - 1, 0))
        return next((it for it in name.ancestors() if it.is_at_or_above(shown) or it.is_at_or_above(self.data.next)), None)


def is_cut(types: tuple[int, ...], apex: Name, owner: Name) -> bool:
    """Whether types are those of a delegation: NS below the apex (RFC 6840, 4.1)."""
    return rtypes.NS in types and owner != apex


def lacks(types: tuple[int, ...], rtype: int) -> bool:
    """Whether types have neither one nor CNAME (RFC 6840, 4.3)."""
    return rtype not in types and rtypes.CNAME not in types


def tell_types(because: list[str], case: Case, kind: str, name: Name, types: tuple[int, ...]) -> bool:
    """Says what the record of a name says of the type; whether it lacks that."""
    if lacks(types, case.rtype):
        because.append(f"{name} exists and has no {type_text(case.rtype)}: the types of its {kind} record are {types_text(types)}")
        return True
    because.append(f"the {kind} record of {name} has the types {types_text(types)}: their RRset would have to be here, signed")
    return False


def tell_types_of_wildcard(because: list[str], case: Case, kind: str, name: Name, types: tuple[int, ...]) -> bool:
    """The same of a wildcard; a delegation's record says of DS alone that it is missing (RFC 6840, 4.1)."""
    if rtypes.NS not in types or case.rtype == rtypes.DS:
        return tell_types(because, case, kind, name, types)
    has = f"the {kind} record of {name} has the types {types_text(types)}"
    because.append(f"{has}: a delegation's says of DS alone that it is missing")
    return False


class NsecDenial:
    """What records tell of a name, sentence by sentence."""

    def __init__(self, case: Case, links: list[Link], because: list[str]) -> None:
        self.case, self.links, self.because = case, links, because

    def denied(self) -> str | None:
        """The verdict on a name whose RRset is not verified: each rule is tried on the records in turn, before the next one is."""
        before = len(self.because)
        for rule in (self._denied_by_owner, self._at_owner, self._below_cut, self._covered):
            for link in self.links:
                verdict = rule(link)
                if verdict:
                    return verdict
        if len(self.because) == before:
            name = self.case.name
            self.because.append(f"wanting: a verified NSEC or NSEC3 record that matches or covers {name}, or its RRset, verified")
        return None

    def expanded(self, labels: int) -> str | None:
        """The verdict on a name for which a wildcard's RRset stands, by the labels that its signature counts (RFC 4035, 5.3.4)."""
        name = self.case.name
        for link in self.links:
            is_covered = link.covers(self.case.apex, name) and not name.is_above(link.data.next)
            encloser = link.encloser(name) if is_covered else None
            if encloser is not None and encloser.depth == labels:
                self._tell_covered(link, name)
                self.because.append(f"its closest encloser is {encloser}")
                return "StarRecords"
        wanted = f"an NSEC record that covers {name} and shows that its closest encloser has {labels} labels"
        self.because.append(f"wanting: {wanted}")
        return None

    def _denied_by_owner(self, link: Link) -> str | None:
        name = self.case.name
        if link.owner != name or not link.is_denial:
            return None
        self.because.append(f"{name} does not exist: the NSEC record of the name lists NXNAME")
        return "NoName"

    def _at_owner(self, link: Link) -> str | None:
        case = self.case
        if link.owner != case.name:
            return None
        if not link.tells:
            self._tell_made_up(link)
            return None
        types = link.data.types
        if is_cut(types, case.apex, case.name) and case.rtype != rtypes.DS:
            self.because.append(f"{case.name} is a delegation: the types of its NSEC record are {types_text(types)}")
            return "Delegated"
        return "NoType" if tell_types(self.because, case, "NSEC", case.name, types) else None

    def _below_cut(self, link: Link) -> str | None:
        case, types = self.case, link.data.types
        if not is_cut(types, case.apex, link.owner) or not link.owner.is_above(case.name) or rtypes.DNAME in types:
            return None
        has = f"the types of its NSEC record are {types_text(types)}"
        self.because.append(f"{case.name} is below the delegation {link.owner}: {has}")
        return "Delegated"

    def _covered(self, link: Link) -> str | None:
        """What a record that covers the name says of it, with the others."""
        case = self.case
        if not link.covers(case.apex, case.name):
            return None
        if case.name.is_above(link.data.next):
            self._tell_led_below(link, case.name)
            return "NoType"
        self._tell_covered(link, case.name)
        encloser = link.encloser(case.name)
        if encloser is None:
            return None
        self.because.append(f"its closest encloser is {encloser}")
        star = encloser.wildcard()
        return None if star is None else self._at_wildcard(star)

    def _at_wildcard(self, star: Name) -> str | None:
        for link in self.links:
            if link.owner == star and link.is_bare:
                self._tell_made_up(link)
            elif link.owner == star and link.has_more:
                if tell_types_of_wildcard(self.because, self.case, "NSEC", star, link.data.types):
                    return "StarNoType"
            elif link.covers(self.case.apex, star):
                if star.is_above(link.data.next):
                    self._tell_led_below(link, star)
                    return "StarNoType"
                self._tell_covered(link, star)
                return "NoName"
        self.because.append(f"wanting: an NSEC record that covers {star}, or that of {star} without the type")
        return None

    def _tell_made_up(self, link: Link) -> None:
        self.because.append(f"the NSEC record of {link.owner} has no types but RRSIG and NSEC: the name may be made up")

    def _tell_covered(self, link: Link, name: Name) -> None:
        self.because.append(f"{name} does not exist: the NSEC record of {link.owner} to {link.data.next} covers it")

    def _tell_led_below(self, link: Link, name: Name) -> None:
        leads = f"the NSEC record of {link.owner} leads to {link.data.next}, below it"
        self.because.append(f"{name} exists without records: {leads}")
