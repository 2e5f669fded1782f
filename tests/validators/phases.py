"""Runs of the validators over a tree of zones: name servers as processes, validators, questions, what was heard."""

import asyncio
import itertools
import multiprocessing
import time
import typing

import authority
from validators import Drill, Heard, Program
from zones import Zone

FORKED = multiprocessing.get_context("fork")
SERVERS = 3
# Seconds before a roll, before what differs is asked anew, and before a report that comes late, when resolvers ask for the first time.
LEAD, PAUSE, FIRST = 8, 5, 0.6


class Told(typing.NamedTuple):
    """What a validator said of a question, beside what the zone says; of a difference the validator's limit that it comes
    from, if that is known."""

    case: object
    question: tuple
    validator: str
    says: object
    heard: Heard
    agrees: bool
    limit: str = ""


def asked(told):
    return told.case.apex, told.question, told.validator


def data_of(says, apex):
    data = (it if isinstance(it, bytes) else it(apex) for it in says.data)
    return tuple(sorted(data))


def links_of(validator, says, apex):
    """The records of the aliases that lead to an answer, as a validator shows them."""
    links = [(Zone.owner(owner, apex), rtype, Zone.owner(lead, apex)) for owner, rtype, lead in says.links]
    return tuple(sorted(validator.links(links) if validator else links))


def agrees(validator, says, heard, apex):
    """Whether a validator says what the zone says. Of a denial that opts out the two programs do not tell whether it is a proof."""
    is_program = isinstance(validator, Program)
    wanted = says.status
    if isinstance(validator, Drill) and not says.data:
        wanted = "denied"
    is_open = says.is_secure is None or (is_program and not says.is_secure and not says.data)
    is_sure = is_open or heard.is_secure == says.is_secure
    has_data = heard.data == data_of(says, apex) or (heard.data is None and says.data)
    has_links = heard.links in (None, links_of(validator, says, apex))
    return heard.status == wanted and bool(has_data) and has_links and is_sure


def address_of(at):
    """The address of a validator by its number."""
    return f"198.51.100.{21 + at}"


async def serve_for_ever(tree):
    await authority.serve(tree, True)
    await asyncio.Event().wait()


class Phase:
    """Name servers and validators for the time of a run."""

    def __init__(self, folder, keys, cases, kinds, ttl=3600):
        folder.mkdir()
        self.tree = authority.Tree(keys, ttl)
        for case in cases:
            self.tree.add(case)
        self.cases = cases
        # What was said first where it agreed when it was asked for anew.
        self.late = []
        self.tree.close()
        root = keys.by_name["root"]
        self.validators = [kind(folder, address_of(at), root) for at, kind in enumerate(kinds)]
        self.servers = []

    async def __aenter__(self):
        for _ in range(SERVERS):
            self.servers.append(FORKED.Process(target=lambda: asyncio.run(serve_for_ever(self.tree)), daemon=True))
            self.servers[-1].start()
        await asyncio.sleep(1)
        try:
            for it in self.validators:
                await it.start()
                await it.is_up()
        except BaseException:
            await self.__aexit__()
            raise
        return self

    async def __aexit__(self, *_error):
        for it in self.validators:
            it.end()
        for it in self.servers:
            it.terminate()
            it.join()

    async def tell(self, validator, case, question):
        """Asks a validator. Where the zone is replaced, it may say what a version said that a cache may hold."""
        (name, rtype), asked = question, time.time()
        heard = await validator.ask(case.zone.owner(name, case.apex), rtype)
        may_say = case.says(question, asked)
        agreeing = [it for it in may_say if agrees(validator, it, heard, case.apex)]
        return Told(case, question, validator.NAME, (agreeing or may_say)[0], heard, bool(agreeing))

    async def tell_all(self, cases, questions, is_control=False):
        """Asks each validator about zones; `questions` gives those for a validator and a zone. What differs is asked anew,
        twice: an answer may have come late."""

        def asks(validator):
            return ((case, question) for case in cases for question in questions(validator, case))

        told = await self.told_of({it.NAME: asks(it) for it in self.validators}, is_control)
        for _ in range(2):
            await asyncio.sleep(PAUSE)
            told = await self.told_anew(told, is_control)
        return told

    async def told_anew(self, told, is_control):
        """The same, once what differs was asked anew."""
        asks = {it.NAME: [] for it in self.validators}
        for it in told:
            if not it.agrees:
                asks[it.validator].append((it.case, it.question))
        anew = await self.told_of({name: iter(of) for name, of in asks.items()}, is_control)
        agreeing = {asked(it) for it in anew if it.agrees}
        self.late += (it for it in told if not it.agrees and asked(it) in agreeing)
        return [*(it for it in told if it.agrees), *anew]

    async def tell_apart(self, pause):
        """Asks each validator about all zones, one question of a zone at a time, with a pause in which caches forget."""
        told = []
        for asks in itertools.zip_longest(*([(case, it) for it in case.questions] for case in self.cases)):
            told += await asyncio.gather(*(self.tell(it, *ask) for it in self.validators for ask in asks if ask))
            await asyncio.sleep(pause)
        return told

    async def told_of(self, asks, is_control):
        """What validators say, of zones and questions by the name of the validator."""
        told = []

        async def work(validator):
            for case, question in asks[validator.NAME]:
                told.append(await self.tell(validator, case, question))

        widths = ((it, it.wide if is_control else it.width) for it in self.validators)
        await asyncio.gather(*(work(it) for it, width in widths for _ in range(width)))
        return told


async def late_in_a_second(phase, ttl, drawn):
    """Asks each resolver about each zone right before a roll whose report comes late in a second, and while the wait behind it is
    accepted: many times, since what was asked for then is held for parts of a second alone."""
    begin = int(time.time()) + LEAD + 0.9
    keepers = [asyncio.create_task(case.keep(begin)) for case in phase.cases]
    tasks = []

    def ask(count):
        for case, validator in itertools.product(phase.cases, phase.validators):
            for question in case.drawn_questions(drawn, count):
                tasks.append(asyncio.create_task(phase.tell(validator, case, question)))

    await asyncio.sleep(begin - FIRST - time.time())
    ask(2)
    await asyncio.sleep(begin + ttl - 1 - time.time())
    while time.time() < begin + ttl + 2:
        ask(1)
        await asyncio.sleep(0.1)
    await asyncio.gather(*keepers)
    return await asyncio.gather(*tasks)


async def by_the_clock(phase, replacements, late, per_second, drawn):
    """Asks each resolver some questions about each zone, each second, while keys roll, zones are replaced at these moments, and for a
    while behind."""
    # Steps come late in a second, since moments are whole ones: a report that is rounded down would end its wait early.
    begin = int(time.time()) + LEAD + 0.9
    end = begin + max(it.steps[-1] for it in phase.cases) + LEAD
    keepers = [asyncio.create_task(it) for case in phase.cases for it in (case.keep(begin), case.replace(begin, replacements, late))]
    tasks = []
    while time.time() < end:
        began = time.time()
        for case in phase.cases:
            for validator in phase.validators:
                for question in case.drawn_questions(drawn, per_second):
                    tasks.append(asyncio.create_task(phase.tell(validator, case, question)))
            await asyncio.sleep(0)
        await asyncio.sleep(max(0.0, began + 1 - time.time()))
    await asyncio.gather(*keepers)
    return await asyncio.gather(*tasks)
