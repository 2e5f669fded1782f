"""A zone through a life of its keys, as the name server of examples/server publishes it: key calls are its commands."""

import typing

import wire
from keys import ECDSA, POINT, RSA, ZONE, Keys
from served import BEHIND

KINDS = {"K": ("ksk", POINT), "Z": ("zsk", ZONE), "C": ("csk", POINT)}
STEPS = ["start", "report1", "wait1", "report2", "wait2", "done"]
# What is shown at each stage: before the roll, and behind each step, the changes that have been made.
SHOWN = [0, 1, 1, 2, 2, 3, 3]
STAGES = len(SHOWN)
# A stage for each state of what is shown.
STATES = [SHOWN.index(it) for it in range(4)]
# Before these stages a wait has to be over.
WAITS = [3, 5]
LIFE = 14 * 86400


class Roll(typing.NamedTuple):
    kind: str
    old: str
    new: str


class Life(typing.NamedTuple):
    """The first keys of a zone, and rolls that begin at one time. A key's name is K (KSK), Z (ZSK) or C (CSK) and a number, and
    for a key of the other algorithm a stroke."""

    name: str
    first: str
    rolls: list

    def names(self):
        return " ".join([self.first, *(roll.new for roll in self.rolls)])


LIVES = [
    Life("ksk-roll", "K1 Z1", [Roll("ksk-roll", "K1", "K2")]),
    Life("ksk-double-ds-roll", "K1 Z1", [Roll("ksk-double-ds-roll", "K1", "K2")]),
    Life("zsk-roll", "K1 Z1", [Roll("zsk-roll", "Z1", "Z2")]),
    Life("zsk-double-signature-roll", "K1 Z1", [Roll("zsk-double-signature-roll", "Z1", "Z2")]),
    Life("csk-roll", "K1 Z1", [Roll("csk-roll", "K1 Z1", "C1")]),
    Life("algorithm-roll", "K1 Z1", [Roll("algorithm-roll", "K1 Z1", "K2' Z2'")]),
    Life("csk-roll, CSK to CSK", "C1", [Roll("csk-roll", "C1", "C2")]),
    Life("csk-roll, CSK to KSK and ZSK", "C1", [Roll("csk-roll", "C1", "K1 Z1")]),
    Life("algorithm-roll of a CSK", "C1", [Roll("algorithm-roll", "C1", "C2'")]),
    Life("ksk-roll beside zsk-roll", "K1 Z1", [Roll("ksk-roll", "K1", "K2"), Roll("zsk-roll", "Z1", "Z2")]),
]


class Plan(typing.NamedTuple):
    """Seconds from the first call of a roll to each: how long it takes until all servers have a change, and the TTL. A wait is tried
    from a second before it is over on, so that it is made as soon as it is accepted."""

    propagation: int
    ttl: int

    def moments(self):
        moment, moments = 0, []
        for step in STEPS:
            moments.append(moment - 1 if step.startswith("wait") else moment)
            moment += self.ttl if step.startswith("report") else self.propagation
        return moments


class KeyRing:
    """The keys of a zone, whatever its apex. There are `width` keys for each name of a life."""

    def __init__(self, seed, algorithm, width, folder):
        self.keys, self.algorithm, self.width, self.folder = Keys(seed), algorithm, width, folder
        folder.mkdir()

    def references(self, names):
        for name in names.split():
            for at in range(self.width):
                yield name if at == 0 else f"{name}{'abc'[at]}"

    def of(self, reference):
        if reference not in self.keys.by_name:
            other = RSA if self.algorithm == ECDSA else ECDSA
            self.keys.add(reference, KINDS[reference[0]][1], other if "'" in reference else self.algorithm)
        return self.keys.by_name[reference]

    def folder_of(self, life):
        """A folder with the keys of a life, as a server reads them."""
        folder = self.folder / str(LIVES.index(life))
        if not folder.exists():
            folder.mkdir()
            for it in self.references(life.names()):
                (folder / f"{it}.pem").write_bytes(self.of(it).pem)
        return folder


class Source:
    """A zone at an apex through a life of its keys."""

    def __init__(self, workshop, zone, apex, ring, life):
        self.workshop, self.zone, self.apex, self.ring, self.life = workshop, zone, apex, ring, life
        self.keys = ring.folder_of(life)

    def server(self, address, name=""):
        return self.workshop.server(address, self.keys, name)

    def chain(self):
        shape = self.zone.shape
        chain = shape.chain if shape.chain == "nsec" else f"{shape.chain} {shape.iterations} {shape.salt}"
        return f"{chain} {shape.iterations} {LIFE}"

    def records(self, zone=None):
        """The records of the zone, or of a later version."""
        zone = zone or self.zone
        records = zone.records(self.apex)
        return [(wire.text(owner), rtype, zone.ttl, data) for owner, rtype, data in records]

    def begin(self, server, backdate=BEHIND):
        """Starts a server with the zone and its first keys, for which nothing has to be waited."""
        server.start(backdate, self.chain(), self.records())
        for it in self.ring.references(self.life.names()):
            server.do(f"key {KINDS[it[0]][0]} {it}")
        for step in STEPS:
            server.do(self.command(step, Roll("algorithm-roll", "", self.life.first), 0))

    def command(self, step, roll, ttl):
        words = [step, roll.kind]
        if step == "start":
            words += [",".join(self.ring.references(names)) or "-" for names in (roll.old, roll.new)]
        if step.startswith("report"):
            words.append(str(ttl))
        return " ".join(words)

    def commands(self, step, ttl):
        """Those of a step of all rolls, with the TTL that is reported."""
        return [self.command(step, roll, ttl) for roll in self.life.rolls]

    def live(self, stages, at):
        """What a server comes to at these stages: the DS set, and a server with the same journal, at an address. The clock is set back
        by so much that each wait is over when it is to be."""
        ttl, found = self.zone.ttl, {}
        server = self.server(self.workshop.address())
        try:
            self.begin(server, BEHIND + 2 * ttl + 60)
            for stage in range(max(stages) + 1):
                if stage in WAITS:
                    server.stop()
                    server.start(BEHIND + (ttl + 30 if stage == WAITS[0] else 0))
                for command in self.commands(STEPS[stage - 1], ttl) if stage else ():
                    server.do(command)
                if stage in stages:
                    copy = self.server(at[stage], f"-{stage}") if stage in at else None
                    if copy:
                        server.give_to(copy)
                    found[stage] = server.ds(), copy
        finally:
            server.remove()
        return found
