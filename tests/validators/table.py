"""Tables of what the validators said."""

import collections

import wire
import zones

CHAINS = {"nsec": "NSEC", "nsec3": "NSEC3", "nsec3optout": "opt-out"}


def of_lines(head, rows):
    lines = [head, ["---"] * len(head), *rows]
    return "\n".join("| " + " | ".join(map(str, cells)) + " |" for cells in lines)


def lines(all_told):
    """A line for each question: whether what was heard agrees, of whom, question, kind of answer, what was heard."""
    for it in all_told:
        asked = zones.title(it.question, it.case.apex)
        heard = outcome(it.heard) + "".join(f" {data.hex()}" for data in it.heard.data or ())
        heard += "".join(f", {wire.text(owner)} {wire.NAMES[rtype]} {wire.text(lead)}" for owner, rtype, lead in it.heard.links or ())
        yield f"{'agrees' if it.agrees else 'differs'}: {it.validator}: {asked}: {it.says.kind}: {heard}"


def chain(told):
    return CHAINS[told.case.zone.shape.chain]


def agreements(all_told, names):
    """A row for each chain and kind of answer, a column for each validator: how many answers it takes as the zone says."""
    counts = collections.defaultdict(collections.Counter)
    for it in all_told:
        counts[chain(it), it.says.kind][it.validator, it.agrees] += 1
    rows = []
    for (of, kind), found in sorted(counts.items(), key=lambda it: (list(CHAINS.values()).index(it[0][0]), it[0][1])):
        rows.append([of, kind, *(cell(found[name, True], found[name, False]) for name in names)])
    total = collections.Counter((it.validator, it.agrees) for it in all_told)
    rows.append(["all", "", *(cell(total[name, True], total[name, False]) for name in names)])
    return of_lines(["chain", "answer", *names], rows)


def cell(good, bad):
    return "" if not good + bad else f"{good:,}" if not bad else f"{good:,} of {good + bad:,}"


def outcome(heard):
    """What was heard, without its data; what a bogus answer has is not asked for."""
    if heard.status == "bogus":
        return heard.status
    aliases = f", {len(heard.links)} of aliases" if heard.links else ""
    return f"{heard.status}{', secure' if heard.is_secure else ''}{aliases}{', with data' if heard.data else ''}"


def by_question(of_bind):
    """What each validator said of BIND's answer to each question, perhaps more than once."""
    found = collections.defaultdict(list)
    for it in of_bind:
        found[it.case.zone.shape.name, it.question, it.validator].append(it)
    return lambda told: found[told.case.zone.shape.name, told.question, told.validator]


def differences(all_told, of_bind):
    """A row for each validator, chain, kind of answer and outcome that is not the zone's: how many, and what the validator
    says of BIND's answer to the same question, or the limit that they come from."""
    beside = by_question(of_bind)
    found = collections.defaultdict(collections.Counter)
    for it in all_told:
        if not it.agrees:
            said = dict.fromkeys("as the zone" if of.agrees else outcome(of.heard) for of in beside(it))
            found[it.validator, chain(it), it.says.kind, outcome(it.heard)][it.limit or " or ".join(said) or "not asked"] += 1
    rows = []
    for (validator, of, kind, heard), counts in sorted(found.items()):
        texts = ", ".join(f"{said} ({count:,})" for said, count in sorted(counts.items()))
        rows.append([validator, of, kind, heard, f"{sum(counts.values()):,}", texts])
    head = ["validator", "chain", "answer", "it says", "answers", "of BIND's answer it says"]
    return of_lines(head, rows) if rows else "none"


def publishers(all_told, of_bind, limits):
    """Differences that are the publisher's: the validator never says the same of BIND's answer to the same question, and they
    do not come from a limit that was shown."""
    beside = by_question(of_bind)
    for it in all_told:
        is_limit = it.limit in limits or any(outcome(it.heard) == outcome(of.heard) for of in beside(it))
        if not it.agrees and not is_limit:
            yield it


def by_life(all_told, names, life_of):
    """A row for each roll: what agrees of what was asked."""
    counts = collections.defaultdict(collections.Counter)
    for it in all_told:
        counts[life_of(it.case)][it.validator, it.agrees] += 1
    rows = [[life, *(cell(found[name, True], found[name, False]) for name in names)] for life, found in counts.items()]
    return of_lines(["roll", *names], rows)


def wholes(told):
    """How many whole zones each program takes, and how many of those that are broken, and each zone of which a program says the
    wrong thing."""
    counts = collections.Counter((program, is_broken, said == "well") for program, _zone, is_broken, said in told)
    for program in dict.fromkeys(it[0] for it in told):
        whole, broken = ((counts[program, of, True], sum(counts[program, of, it] for it in (True, False))) for of in (False, True))
        yield f"{program}: takes {whole[0]} of {whole[1]}, and {broken[0]} of {broken[1]} that are broken"
    for program, zone, is_broken, said in told:
        if is_broken == (said == "well"):
            yield f"{program}: {zone}: {said}"


def tells_apart(told):
    """Whether the programs take the whole zones, and refuse the broken ones."""
    return all(is_broken != (said == "well") for _program, _zone, is_broken, said in told)


def limits(told):
    """A row for each limit that was shown of BIND's answers."""
    rows = [[it.limit, zones.title(it.question, it.case.apex), it.says.kind, outcome(it.heard)] for it in told if it.limit]
    return of_lines(["limit", "question", "answer", "it says of BIND's answer"], rows) if rows else "none"
