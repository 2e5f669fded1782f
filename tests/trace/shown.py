"""What the trace shows of a way, beside the zones as they were signed: zones, keys, DS sets, signatures, reasons; as JSON and as text."""
import base64
import collections
import re

import fits
from questions import BAD, CLOSED, on_the_way
from wire import key_tag, name
from zones import UNSIGNED, above

# What becomes of signatures of zones in order: a key of the zone alone signs its keys beside the one that a DS record names; an RRset is
# not needed; a server answers from the zone below.
IN_ORDER = {"passed", "not-checked", "untrusted-key", "other-signer"}
# A line of standard error, for a question to a server.
ASKED = re.compile(r"(\S+): (\S+) (\S+) from (\S+), UDP( cut off, TCP)?(?:, (\d+) sent)?(?:, (\d+) timed out)?: (.*), (\d+\.\d{3}) ms")


def dotted(apex):
    return apex.rstrip(".") + "."


def keys_of(folder, apex):
    """The keys of a zone as its files have them: tag, flags and algorithm. One that lost its signatures lost its keys too."""
    if apex == "lost.test":
        return []
    texts = (it.read_text().split(" DNSKEY ")[1].split() for it in (folder / (apex.strip(".") or "root")).glob("K*.key"))
    keys = [(int(it[0]), int(it[2]), int(it[0]).to_bytes(2, "big") + bytes(map(int, it[1:3])) + base64.b64decode("".join(it[3:]))) for it in texts]
    return sorted((key_tag(data), flags, algorithm) for flags, algorithm, data in keys)


def zone_faults(folder, said, reached):
    """Zones of the way that are not as they were signed."""
    shown = {it["zone"]: it for it in said["zones"]}
    for apex in reached:
        it = shown.pop(dotted(apex), {"keys": [], "ds": [], "above": ""})
        keys = sorted((key["tag"], key["flags"], key["algorithm"]) for key in it["keys"])
        if keys != keys_of(folder, apex):
            yield f"{apex} has the keys {keys_of(folder, apex)}, not {keys}"
        if any(bool(key["named_by"]) != (key["flags"] == 257) for key in it["keys"]):
            yield f"{apex}: a key that signs keys is not named, or another is: {it['keys']}"
        states = [ds["state"] for ds in it["ds"]]
        if states != ["no-such-key" if apex == "lost.test" else "names"]:
            yield f"{apex}: states of DS records {states}"
        if it["above"] != (None if apex == "." else dotted(above(apex)[-2])):
            yield f"{apex} is below {it['above']}"
    for apex, it in shown.items():
        states = [ds["state"] for ds in it["ds"]]
        wanted = [] if apex[:-1] in UNSIGNED else ["unknown-algorithm"] if apex[:-1] in CLOSED else ["no-answer"]
        if it["keys"] or states != wanted:
            yield f"{apex} was not asked, and has {it['keys']} and {states}"


def signature_faults(said):
    """Signatures of which something else is said than became of them."""
    for it in said["asked"]:
        states = {signature["state"] for signature in it["signatures"]}
        zone, is_for_keys = it["zone"].rstrip("."), it["type"] == "DNSKEY"
        if not states <= ({"expired"} if zone == "late.test" else IN_ORDER):
            yield f"signatures of {it['name']} {it['type']} of {it['zone']} are {states}"
        if is_for_keys and zone not in BAD and "passed" not in states:
            yield f"no signature of the keys of {it['zone']} passed"


def faults(folder, said, qname, rtype, through):
    """What is shown otherwise than it is."""
    reached = {apex for at in (qname, *through) for apex, _name, _rtype in on_the_way(at, rtype)}
    yield from zone_faults(folder, said, sorted(reached, key=lambda it: len(name(it))))
    yield from signature_faults(said)
    yield from fits.faults(said)


def lines_of(said):
    """Lines of the text, but for those of DS records and messages, as the object has them."""
    for zone in said["zones"]:
        for key in zone["keys"]:
            names = ", ".join("DS " + " ".join(it.split()[:3]) for it in key["named_by"])
            told = f"named by {names}" if names else "no DS record names it"
            yield f"DNSKEY {key['tag']}: flags {key['flags']}, algorithm {key['algorithm']}, {told}"
    for message in said["asked"]:
        for it in message["signatures"]:
            yield f"RRSIG {it['owner']} {it['covered']}, tag {it['tag']}, {it['inception']} to {it['expiration']}"
        for it in message["judgements"]:
            yield from it["because"]
            yield from (f"hash of {hashed['name']}: {hashed['hash']}" for hashed in it["hashes"])


def text_faults(said, text):
    """Lines that the text lacks, each as often as the object has it, and what its last lines say otherwise."""
    lines = [line.strip() for line in text.splitlines()]
    begins = (re.match(r"(RRSIG [^:]*|hash of \S+: \w+)[:,] ", line) for line in lines)
    has = collections.Counter([*lines, *(it[1] for it in begins if it)])
    lacking = collections.Counter(lines_of(said)) - has
    if lacking:
        yield f"the text lacks {dict(lacking)}"
    *_rest, question, last = text.splitlines()
    if not last.startswith(said["said"]) or question.split(" -> ") != [f"{said['name']} {said['type']}", *said["aliases"]]:
        yield f"the text ends in {question} {last}"


def progress_faults(said, told):
    """Lines of standard error that are not those of the questions, in order."""
    lines = [ASKED.fullmatch(it) for it in told.splitlines()]
    if not all(lines) or [it.group(1, 2, 3, 4) for it in lines] != [(it["zone"], it["name"], it["type"], it["from"]) for it in said["asked"]]:
        yield f"while it asked it told {told}"


def without_course(said):
    """What is said but for how asking went, which is not saved, and for how often the library was called."""
    asked = [{of: it[of] for of in it if of not in ("from", "tcp", "sent", "timeouts", "milliseconds")} for it in said["asked"]]
    return said | {"asked": asked, "calls": 0}
