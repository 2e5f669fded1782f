"""Zones under test: at one stage of a roll, of mixed stages, or against the clock."""

import asyncio
import contextlib
import itertools
import multiprocessing.pool
import random
import time

import wire
from authority import Relay
from bench import SHOWN, STAGES, STEPS
from static import Static
from wire import A, DNSKEY, NS
from zones import BELOW, PLACES, SERVER, said_of

# How long before the report the last server has a change, in seconds: answers may be under way.
MARGIN = 0.5
# In seconds, how long a keeper tries a step that is refused, since a wait is over at a whole second, and how often.
TRIES, PAUSE = 4, 0.1
# In seconds, how long before a report that comes late both servers have the change.
CHANGE = 0.2
# In seconds, how long a resolver may take beyond a TTL.
SLACK = 1.5


def remove_all(servers):
    """Removes servers: each of them, even where one before it ended otherwise than it should."""
    with contextlib.ExitStack() as stack:
        for it in servers:
            stack.callback(it.remove)


class Zoned:
    """A zone under test at an apex, and what it is asked."""

    def __init__(self, zone, apex, below_key, questions):
        self.zone, self.apex, self.below_key, self.questions = zone, apex, below_key, questions

    def servers(self):
        return [it(self.apex) for it in self.zone.sets[(), NS]]

    def addresses(self, target):
        """Those of a server that the zone itself names (glue)."""
        return PLACES.get(self.apex, [SERVER]) if target == b"\2ns" + self.apex else []

    def below(self):
        """The zones below delegations."""
        return {self.zone.owner(cut, self.apex): self.child(cut, signed) for cut, signed in self.zone.cuts.items()}

    def child(self, cut, is_signed):
        apex = self.zone.owner(cut, self.apex)
        records = [(apex, NS, b"\5below" + self.apex), (b"\4host" + apex, A, BELOW)]
        return Static(apex, self.below_key if is_signed else None, records)

    def says(self, question, _asked):
        """What the zone may say of a question from a moment on."""
        return [self.zone.says(*question)]

    def drawn_questions(self, drawn, count):
        return drawn.sample(self.questions, count)


class Case(Zoned):
    """DS set, DNSKEY answer and answers of three stages, all of one stage as a rule. A server answers for each stage; validators ask
    it by themselves where it is one."""

    def __init__(self, source, below_key, stages, questions):
        super().__init__(source.zone, source.apex, below_key, questions)
        self.source, self.stages = source, stages
        self.at = {it: source.workshop.address() for it in dict.fromkeys(stages[1:])}
        if len(self.at) == 1:
            PLACES[self.apex] = [*self.at.values()]

    def prepare(self):
        """Has servers come to the stages. They do not run yet."""
        found = self.source.live(set(self.stages), self.at)
        self.of_parent = found[self.stages[0]][0]
        self.running = [found[it][1] for it in self.at]

    def start(self):
        for it in self.running:
            it.start()

    def stop(self):
        remove_all(self.running)

    def ds(self):
        return self.of_parent

    def answer(self, _name, rtype):
        return Relay(self.at[self.stages[1 if rtype == DNSKEY else 2]])


class Version:
    """A zone as it is from a moment of the clock on, until another one is."""

    def __init__(self, zone, begin):
        self.zone, self.begin, self.end = zone, begin, float("inf")


class Clocked(Zoned):
    """A zone on two servers, whose keys roll against the clock. Of each change the second server hears later, a while before it is
    reported that all servers have it; so does the parent as often as not."""

    def __init__(self, source, below_key, questions, steps, reported):
        """Steps come so many seconds behind the beginning; `reported` is the TTL that the keeper reports."""
        super().__init__(source.zone, source.apex, below_key, questions)
        self.source, self.steps, self.reported = source, steps, reported
        self.drawn = random.Random(source.apex)
        PLACES[self.apex] = [source.workshop.address() for _ in range(2)]
        self.versions, self.touched, self.gone = [Version(self.zone, 0)], [], None
        # In seconds, the longest until both servers had a version.
        self.slowest = 0.0

    def start(self):
        self.running = [self.source.server(it) for it in PLACES[self.apex]]
        for it in self.running:
            self.source.begin(it)

    def stop(self):
        remove_all(self.running)

    def ds(self):
        return random.choice(self.running).ds()

    def answer(self, _name, _rtype):
        return Relay(random.choice(PLACES[self.apex]))

    # What its keeper does.

    async def keep(self, begin):
        """Goes through the steps of the rolls."""
        for at, step in enumerate(STEPS):
            await until(begin + self.steps[at])
            late = self.steps[at + 1] - self.steps[at] - MARGIN if SHOWN[at + 1] != SHOWN[at] else 0
            await asyncio.gather(self.step(self.running[0], step), self.step(self.running[1], step, late))

    async def step(self, server, step, late=0):
        await asyncio.sleep(late)
        for command in self.source.commands(step, self.reported):
            await self.done(server, command)

    @staticmethod
    async def done(server, command):
        """Gives a command, until it is done: a wait may not be over for parts of a second."""
        end = time.time() + TRIES
        while True:
            is_done, said = await asyncio.to_thread(server.tell, command)
            if is_done:
                return
            if time.time() > end:
                raise RuntimeError(f"{server.folder}: {command}: {said}")
            await asyncio.sleep(PAUSE)

    async def replace(self, begin, moments, late):
        """Replaces the zone at moments behind the beginning; at the second server later."""
        for moment in moments:
            await until(begin + moment)
            serial = len(self.versions) + 1
            after, name, self.gone = self.versions[-1].zone.changed(serial, self.drawn, self.gone)
            self.touch(after, name)
            version = Version(after, time.time())
            before = self.versions[-1]
            self.versions.append(version)
            await self.replaced(self.running[0], after)
            await asyncio.sleep(max(0.0, version.begin + late - time.time()))
            await self.replaced(self.running[1], after)
            # A cache may have had the version before until now.
            before.end = time.time() + self.zone.ttl + SLACK
            self.slowest = max(self.slowest, time.time() - version.begin)

    async def replaced(self, server, zone):
        await asyncio.to_thread(server.replace, self.source.records(zone))

    def touch(self, after, name):
        """Notes questions about a name that was changed, or that it stands for."""
        zones = (self.versions[-1].zone, after)
        rtypes = {rtype for zone in zones for owner, rtype in zone.sets if owner == name} | {A}
        below = name[1:] if name[:1] == ("*",) else name
        self.touched = [*((name, it) for it in sorted(rtypes)), (("under", *below), A), ((), wire.SOA)]

    def says(self, question, asked):
        """What a cache may hold from a moment on: of each name that an alias leads to, that of each version that was there then, the
        last one first."""
        now = time.time()
        versions = [it.zone for it in reversed(self.versions) if it.begin <= now and it.end >= asked]
        return [*said_of(versions, *question)]

    def drawn_questions(self, drawn, count):
        """Half the questions are about what was replaced last."""
        touched = [it for it in self.touched if drawn.random() < 0.5][: count // 2]
        return [*touched, *drawn.sample(self.questions, count - len(touched))]


class Late(Clocked):
    """A zone whose roll comes late in a second: right before a report both servers have the change, and right before that resolvers
    ask for the first time. The wait is made as soon as it is accepted, and what resolvers hold then meets what they ask for anew."""

    def __init__(self, source, below_key, questions, wait, reported):
        """`wait` is the step that is made as soon as it is accepted."""
        super().__init__(source, below_key, questions, [], reported)
        self.at = STEPS.index(wait)

    def start(self):
        super().start()
        # Up to the change nobody has asked, so a TTL of nothing is true.
        for step in STEPS[: self.at - 2]:
            for server, command in itertools.product(self.running, self.source.commands(step, 0)):
                server.do(command)

    async def keep(self, begin):
        """Makes the change, the report, which is of this moment, and the wait."""
        for step, moment in zip(STEPS[self.at - 2 :], (begin - CHANGE, begin, begin + self.reported - 1)):
            await until(moment)
            await asyncio.gather(*(self.step(it, step) for it in self.running))

    def drawn_questions(self, drawn, count):
        return drawn.sample(self.questions, count)


async def until(moment):
    await asyncio.sleep(max(0.0, moment - time.time()))


def prepare(cases):
    """Has the servers of all cases come to their stages, side by side."""
    with multiprocessing.pool.ThreadPool(4) as pool:
        for _ in pool.imap_unordered(lambda it: it.prepare(), cases):
            pass


@contextlib.contextmanager
def serving(cases):
    """Has the servers of cases run while this lasts."""
    with contextlib.ExitStack() as stack:
        for it in cases:
            stack.callback(it.stop)
            it.start()
        yield


STAGED = [(it,) * 3 for it in range(STAGES)]
