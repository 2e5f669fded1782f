"""Zones that are drawn from seeds, the questions that each is asked, and what it says of them (RFC 1034, 4.3.2; RFC 4592;
RFC 5155, 9.2; RFC 6672, 3.2).

Names are tuples of labels below the apex, the lowest first: `()` is the apex.
"""

import copy
import itertools
import random
import typing

from wire import A, AAAA, CNAME, DNAME, DS, MX, NAMES, NS, SOA, TXT, text, wire

# Questions about a zone as if it had no aliases, and about its aliases.
QUESTIONS, ALIASED = 49, 21
TYPES = [A, TXT, MX, AAAA]
WORDS = "ant bee cat dog elk fox gnu hen ibis jay kid lark mole newt owl pig quail ram seal toad urial vole wasp yak zebu".split()
# Where the servers of a zone are reached, if it has no place of its own, and where those of the zones below it.
SERVER, BELOW = bytes([198, 51, 100, 3]), bytes([198, 51, 100, 4])
# The addresses of the servers of zones, by apex.
PLACES = {}
# In octets below the apex: names that are shorter than the first have room at each apex, those that are longer than the second have
# it at none (RFC 1035, 3.1). A name that leaves room for little above and below it.
SHORT, LONG = 180, 240
DISTANT = ("l" * 50, "o" * 50, "n" * 50)


class Shape(typing.NamedTuple):
    """What is drawn: a chain (nsec, nsec3 or nsec3optout, with iterations and a salt), how many of each thing, and the keys."""

    name: str
    chain: str = "nsec"
    iterations: int = 0
    salt: str = "-"
    hosts: int = 9
    wildcards: int = 2
    depth: int = 2
    signed: int = 1
    unsigned: int = 2
    hidden: int = 0
    width: int = 1
    algorithm: int = 13
    is_served_above: bool = False

    @property
    def opts_out(self):
        return self.chain == "nsec3optout"


SHAPES = [
    Shape("nsec"),
    Shape("nsec, deep wildcards", wildcards=4, depth=4, is_served_above=True),
    Shape("nsec, delegations", signed=3, unsigned=6, hidden=2),
    Shape("nsec3", "nsec3"),
    Shape("nsec3, deep wildcards", "nsec3", wildcards=4, depth=4),
    Shape("nsec3, salted, RSA", "nsec3", iterations=7, salt="a1b2c3", algorithm=8),
    Shape("nsec3, many keys", "nsec3", width=3),
    Shape("opt-out, wildcards", "nsec3optout", wildcards=4),
    Shape("opt-out, hidden names", "nsec3optout", hidden=4, unsigned=4, is_served_above=True),
    Shape("opt-out, deep", "nsec3optout", wildcards=3, depth=4, signed=3, unsigned=5, hidden=2),
]


class Says(typing.NamedTuple):
    """What a zone says: the kind of answer, a word for the RCODE, the data below the apex, whether it has a proof, and before all that
    the records of aliases that lead to it: owners, types, and where each leads."""

    kind: str
    status: str
    data: tuple
    is_secure: bool | None
    links: tuple = ()


class Target(typing.NamedTuple):
    """The data of an alias: a name below the apex."""

    name: tuple

    def __call__(self, apex):
        return Zone.owner(self.name, apex)


class Link(typing.NamedTuple):
    """An alias that a question meets: its kind, the records that show it, where it leads, and whether that has a proof."""

    kind: str
    links: tuple
    target: tuple
    is_secure: bool | None

    def before(self, says):
        """What is said of the name that the alias leads to, with the alias before it. All has a proof where each part has (RFC 6672,
        5.3.3)."""
        parts = self.is_secure, says.is_secure
        is_secure = False if False in parts else None if None in parts else True
        kind = f"{self.kind}{',' if says.links else ' to'} {says.kind}"
        return says._replace(kind=kind, is_secure=is_secure, links=(*self.links, *says.links))


class Zone:
    """A zone: from owner and type to data, each of which is a function of the apex."""

    def __init__(self, shape, seed, ttl=3600, servers=1):
        self.shape, self.ttl, self.servers = shape, ttl, servers
        self.drawn = random.Random(f"{seed} {shape.name}")
        self.sets = {}
        self.cuts = {}
        self.add_apex()
        self.add_hosts()
        self.add_wildcards()
        self.add_cuts()
        self.survey()
        self.questions = self.draw_questions()
        self.add_aliases()
        self.survey()
        self.questions += self.draw_alias_questions()

    # What the zone has.

    def survey(self):
        """Finds the names that exist, and those that the chain has."""
        self.names = {name[at:] for name, _rtype in self.sets for at in range(len(name) + 1)}
        self.shown = {name[at:] for name in self.chained() for at in range(len(name) + 1)}

    def add(self, name, rtype, *data):
        self.sets.setdefault((name, rtype), []).extend(data)

    def add_apex(self):
        self.add_soa(1)
        if self.shape.is_served_above:
            self.add((), NS, lambda _apex: wire("ns.parent"))
        else:
            self.add((), NS, lambda apex: b"\2ns" + apex)
            for at in range(self.servers):
                self.add(("ns",), A, lambda apex, at=at: PLACES.get(apex, [SERVER])[at])
        self.add(("below",), A, lambda _apex: BELOW)
        self.add((), MX, lambda apex: b"\0\12\4mail" + apex)

    def add_soa(self, serial):
        numbers = b"".join(it.to_bytes(4, "big") for it in (serial, 3600, 900, 86400, self.ttl))
        self.add((), SOA, lambda _apex: wire("ns.parent") + wire("admin.parent") + numbers)

    def label(self):
        word = self.drawn.choice(WORDS)
        return word + str(self.drawn.randrange(1000)) if self.drawn.random() < 0.5 else word

    def fresh(self, deepest):
        """A name that is not there, nor below a cut or a redirection, with one label to some."""
        while True:
            name = tuple(self.label() for _ in range(self.drawn.randint(1, deepest)))
            used = {owner[at:] for owner, _rtype in self.sets for at in range(len(owner) + 1)}
            below = (name[at:] in self.cuts or (name[at:], DNAME) in self.sets for at in range(len(name)))
            if name not in used and not any(below):
                return name

    def content(self, rtype):
        number = self.drawn.randrange(1, 250)
        if rtype == A:
            return lambda _apex: bytes([192, 0, 2, number])
        if rtype == AAAA:
            return lambda _apex: bytes.fromhex("20010db8") + bytes([number] * 12)
        if rtype == MX:
            return lambda apex: bytes([0, number]) + b"\4mail" + apex
        return lambda _apex: bytes([number]) + b"t" * number

    def add_contents(self, name):
        for rtype in self.drawn.sample(TYPES, self.drawn.randint(1, 2)):
            self.add(name, rtype, *(self.content(rtype) for _ in range(self.drawn.choice((1, 1, 2)))))
            # No two records are alike.
            self.sets[name, rtype] = list({it(b"\0"): it for it in self.sets[name, rtype]}.values())

    def add_hosts(self):
        for _ in range(self.shape.hosts):
            self.add_contents(self.fresh(3))
        self.add_contents(tuple(self.label() for _ in range(4)))

    def add_wildcards(self):
        for at in range(self.shape.wildcards):
            above = self.fresh(self.shape.depth)
            self.add_contents(("*", *above))
            if at % 2:
                self.add_contents((self.label(), *above))
            if at % 3 == 2:
                # A wildcard without records of its own: records stand below it.
                self.add_contents((self.label(), "*", self.label(), *above))

    def add_cuts(self):
        for _ in range(self.shape.signed):
            self.cut(self.fresh(1), True)
        for _ in range(self.shape.unsigned):
            self.cut(self.fresh(1), False)
        for _ in range(self.shape.hidden):
            # The names above these exist for the sake of a delegation without DS alone.
            self.cut((self.label(), *self.fresh(2)), False)

    def cut(self, name, is_signed):
        prefix = b"".join(bytes([len(label)]) + label.encode() for label in name)
        self.cuts[name] = is_signed
        # The server is named in this zone, since the referral has no addresses.
        self.add(name, NS, lambda apex: b"\5below" + apex)
        if is_signed:
            self.add(name, DS, lambda apex: self.child_ds(prefix + apex))

    child_ds = None

    # Its aliases.

    def alias(self, target, rtype=CNAME, owner=None):
        """Adds an alias, with nothing beside it, and below a DNAME nothing either (RFC 1034, 3.6.2; RFC 6672, 2.3 and 2.4)."""
        owner = owner or self.fresh(2)
        self.add(owner, rtype, Target(target))
        return owner

    def add_aliases(self):
        """An alias to a name of each kind, two that follow one another, one at a wildcard, and redirections to a subtree, to a
        delegation, and to where names have no room; those to names that are not there last, so that nothing comes there."""
        hosts = self.hosts()
        deep = self.drawn.choice([it for it in hosts if len(it) > 2])
        star = self.drawn.choice(sorted(name for name, _rtype in self.sets if name[:1] == ("*",)))
        cuts = [next(it for it, is_signed in self.cuts.items() if is_signed is wanted) for wanted in (True, False)]
        targets = [self.drawn.choice(hosts), (self.label(), *star[1:]), *(("host", *cut) for cut in cuts)]
        self.aliases = [self.alias(it) for it in targets]
        self.aliases.append(self.alias(self.alias(self.drawn.choice(hosts))))
        self.aliases += [self.alias(it) for it in sorted(self.names - self.shown - self.cuts.keys())[:1]]
        self.starred = self.alias(self.drawn.choice(hosts), CNAME, ("*", *self.fresh(2)))
        self.redirects = [self.alias(it, DNAME) for it in (deep[1:], cuts[0], DISTANT)]
        self.aliases.append(self.alias((deep[0], *self.redirects[0])))
        self.aliases.append(self.alias(self.missing()))
        self.redirects.append(self.alias(self.missing(), DNAME))

    def hosts(self):
        """Names with records of their own."""
        names = dict.fromkeys(name for name, rtype in self.sets if self.is_host(name) and rtype not in (CNAME, DNAME))
        return [it for it in names if "*" not in it]

    def missing(self):
        """A name that is not there, and that no wildcard stands for."""
        self.survey()
        return next(it for it in iter(lambda: self.fresh(2), None) if self.says(it, A).kind == "NXDOMAIN")

    # Replacements.

    def changed(self, serial, drawn, gone=None):
        """The zone of a serial number, in which a name has come back, or is gone, or has other data, or an alias leads elsewhere. Gives
        it with the name, and the RRsets that are gone."""
        after = copy.copy(self)
        after.sets = {at: of for at, of in self.sets.items() if at != ((), SOA)}
        after.add_soa(serial)
        after.sets = {at: after.sets[at] for at in (((), SOA), *after.sets)}
        if gone:
            after.sets.update(gone)
            name, gone = next(iter(gone))[0], None
        else:
            change = drawn.choice([after.renew, after.lead_elsewhere, after.remove_name, after.remove_redirection])
            name, gone = change(drawn)
        after.survey()
        return after, name, gone

    def renew(self, drawn):
        """Gives other data to an RRset."""
        name, rtype = drawn.choice([at for at in self.sets if self.is_host(at[0]) and at[1] not in (CNAME, DNAME)])
        self.sets[name, rtype] = [self.content(rtype)]
        return name, None

    def lead_elsewhere(self, drawn):
        """Has an alias lead to another name, which may be none that is there."""
        name, _rtype = drawn.choice([at for at in self.sets if at[1] == CNAME])
        targets = [*self.hosts(), *(self.missing() for _ in range(4))]
        self.sets[name, CNAME] = [Target(drawn.choice(targets))]
        return name, None

    def remove_name(self, drawn):
        return self.remove(drawn.choice([it for it, _rtype in self.sets if self.is_host(it) and self.is_leaf(it)]))

    def remove_redirection(self, drawn):
        return self.remove(drawn.choice([it for it, rtype in self.sets if rtype == DNAME]))

    def remove(self, name):
        gone = {at: of for at, of in self.sets.items() if at[0] == name}
        self.sets = {at: of for at, of in self.sets.items() if at[0] != name}
        return name, gone

    def is_host(self, name):
        return name not in ((), ("ns",), ("below",)) and self.cut_above(name) is None

    def is_leaf(self, name):
        return not any(len(it) > len(name) and it[-len(name) :] == name for it in self.names)

    def chained(self):
        """The owners that the chain has: under opt-out not those of delegations without DS."""
        for name, _rtype in self.sets:
            if not (self.shape.opts_out and self.cuts.get(name) is False):
                yield name

    # What it says.

    def cut_above(self, name):
        return next((name[at:] for at in range(len(name), -1, -1) if name[at:] in self.cuts), None)

    def says(self, name, rtype):
        return next(said_of([self], name, rtype))

    def link(self, name, rtype):
        """The alias that a question meets, or none: a DNAME above the name, a CNAME of the name, or of the wildcard that stands for
        it (RFC 6672, 3.2)."""
        if self.cut_above(name) is not None:
            return None
        above = next((name[at:] for at in range(1, len(name)) if (name[at:], DNAME) in self.sets), None)
        if above is not None:
            return self.redirected(name, above)
        if rtype == CNAME:
            return None
        if name in self.names:
            return self.led("alias", name, name, True)
        return self.led("alias by wildcard", name, ("*", *self.encloser(name)), not self.shape.opts_out or None)

    def led(self, kind, name, owner, is_secure):
        """The alias that a name has from an owner."""
        for target in self.sets.get((owner, CNAME), ()):
            return Link(kind, ((name, CNAME, target.name),), target.name, is_secure)
        return None

    def redirected(self, name, above):
        """The alias that a name has from a DNAME above it: the CNAME is made from that, if there is room for the name."""
        [target] = self.sets[above, DNAME]
        lead = name[: len(name) - len(above)] + target.name
        made = () if octets(lead) > LONG else ((name, CNAME, lead),)
        return Link("DNAME", ((above, DNAME, target.name), *made), lead, True)

    def encloser(self, name):
        return next(name[at:] for at in range(1, len(name) + 1) if name[at:] in self.names)

    def says_of_end(self, name, rtype):
        """What it says of a question that meets no alias."""
        if octets(name) > LONG:
            return Says("a name too long", "YXDOMAIN", (), True)
        cut = self.cut_above(name)
        if cut is not None and (name != cut or rtype != DS):
            signed = "signed" if self.cuts[cut] else "unsigned"
            is_host = name == ("host", *cut)
            status = "NOERROR" if is_host or name == cut else "NXDOMAIN"
            return Says(f"below a delegation, {signed}", status, (BELOW,) if is_host and rtype == A else (), self.cuts[cut])
        has_proof = name in self.shown or not self.shape.opts_out
        if name in self.names:
            data = tuple(self.sets.get((name, rtype), ()))
            if data:
                return Says(self.kind_of_records(name, rtype), "NOERROR", data, True)
            return Says(self.no_data(name), "NOERROR", (), has_proof)
        return self.says_of_none(name, rtype)

    @staticmethod
    def kind_of_records(name, rtype):
        if rtype in (CNAME, DNAME):
            return "alias by its type" if rtype == CNAME else "DNAME by its type"
        return "wildcard by its name" if name[:1] == ("*",) else "records"

    def no_data(self, name):
        if name in self.cuts:
            return "no DS at a delegation"
        has_records = any(owner == name for owner, _rtype in self.sets)
        if not has_records and name not in self.shown:
            return "NODATA, hidden name"
        return "NODATA" if has_records else "NODATA, empty non-terminal"

    def says_of_none(self, name, rtype):
        star, has_proof = ("*", *self.encloser(name)), not self.shape.opts_out
        if star not in self.names:
            return Says("NXDOMAIN", "NXDOMAIN", (), has_proof)
        data = tuple(self.sets.get((star, rtype), ()))
        if data:
            kind = "alias by wildcard, by its type" if rtype == CNAME else "wildcard"
            return Says(kind, "NOERROR", data, has_proof or None)
        has_records = any(owner == star for owner, _rtype in self.sets)
        return Says("wildcard NODATA" if has_records else "NODATA, empty wildcard", "NOERROR", (), has_proof)

    # What it is asked.

    def wanted_names(self):
        """Names of all kinds, endlessly."""
        there = sorted(self.names)
        stars = [name for name in there if name[:1] == ("*",)]
        while True:
            yield self.drawn.choice(there)
            yield (self.label(), *self.drawn.choice(there))
            yield self.fresh(2)
            hidden = sorted(self.names - self.shown)
            if hidden:
                name = self.drawn.choice(hidden)
                yield name
                yield (self.label(), *name)
            if stars:
                star = self.drawn.choice(stars)
                yield (self.label(), *star[1:])
                yield (self.label(), self.label(), *star[1:])
                yield star
            if self.cuts:
                yield self.drawn.choice(sorted(self.cuts))
                yield ("host", *self.drawn.choice(sorted(self.cuts)))

    def rtype_for(self, name):
        if name in self.cuts:
            return DS
        if self.cut_above(name) is not None:
            return A
        star = next((("*", *name[at:]) for at in range(len(name) + 1) if name[at:] in self.names), ())
        there = [rtype for owner, rtype in self.sets if owner == name] or [rtype for owner, rtype in self.sets if owner == star]
        return self.drawn.choice(there) if there and self.drawn.random() < 0.6 else self.drawn.choice(TYPES)

    def draw_questions(self):
        found = dict.fromkeys([((), SOA), ((), NS)])
        for name in itertools.islice(self.wanted_names(), 2000):
            if self.is_served(name):
                found[name, self.rtype_for(name)] = None
            if len(found) == QUESTIONS:
                break
        return list(found)

    def is_served(self, name):
        """Whether a name is short enough, and not one of those below a delegation that are not served: only one is."""
        below = self.cut_above(name) not in (None, name) and name[0] not in ("host", "ns")
        return not below and octets(name) < SHORT

    def aliased_names(self):
        """Names that meet aliases, each kind first, then endlessly."""
        tree, to_cut, distant, to_none = self.redirects
        leaves = sorted({name[0] for name in self.names if name[1:] == self.sets[tree, DNAME][0].name})
        yield from self.aliases
        yield from ((it, *tree) for it in leaves[:2])
        yield from ((self.label(), *tree), ("host", *to_cut), (self.label(), *to_none))
        yield from (("x" * 55, "y" * 55, *distant), (self.label(), *self.starred[1:]), (self.label(), self.label(), *self.starred[1:]))
        while True:
            yield (self.label(), *self.starred[1:])
            yield (self.drawn.choice(leaves), *tree)
            yield self.drawn.choice(self.aliases)
            yield (self.label(), *self.drawn.choice((tree, distant, to_none)))
            yield (self.label(), *self.drawn.choice(self.aliases))

    def draw_alias_questions(self):
        """Questions that meet aliases, and about aliases by their own type."""
        found = [(self.aliases[0], CNAME), (self.aliases[0], DS), (self.redirects[0], DNAME), (self.redirects[1], TXT)]
        found = dict.fromkeys([*found, (self.starred, A), ((self.label(), *self.starred[1:]), CNAME)])
        for name in self.aliased_names():
            end = self.end(name)
            there = [rtype for owner, rtype in self.sets if owner == end and owner not in self.cuts]
            question = name, self.drawn.choice(there) if there else self.rtype_for(end)
            if question not in self.questions and (octets(end) > LONG or self.is_served(end)):
                found[question] = None
            if len(found) == ALIASED:
                return list(found)

    def end(self, name):
        """Where aliases lead a name."""
        while link := self.link(name, A):
            name = link.target
        return name

    # As text.

    def records(self, apex):
        """The records of the zone at an apex: owner, type, data."""
        for (name, rtype), of in self.sets.items():
            for data in of:
                yield self.owner(name, apex), rtype, data(apex)

    @staticmethod
    def owner(name, apex):
        return b"".join(bytes([len(label)]) + label.encode() for label in name) + apex


def octets(name):
    """The octets of a name below the apex."""
    return sum(map(len, name)) + len(name)


def said_of(zones, name, rtype):
    """What is said where a question, and each name that an alias leads to, may be answered by any of some zones."""
    for zone in zones:
        link = zone.link(name, rtype)
        if link is None:
            yield zone.says_of_end(name, rtype)
        else:
            yield from (link.before(it) for it in said_of(zones, link.target, rtype))


def title(question, apex):
    name, rtype = question
    return text(Zone.owner(name, apex)) + " " + NAMES[rtype]
