"""Whether what the trace shows of a way fits what it says."""

DENIALS = ("NODATA", "NXDOMAIN", "WILDCARD", "WILDCARD_NODATA", "WILDCARD_ALIAS", "DELEGATED", "OPTOUT")
# Of how many names it is shown at least that they do not exist, or may be unsigned delegations.
GAPS = {"NXDOMAIN": 2, "WILDCARD": 1, "WILDCARD_NODATA": 1, "WILDCARD_ALIAS": 1}


def word_of(reply):
    return reply.split(":")[0].removeprefix("ZERMUITA_")


def is_verdict(judgement):
    return not judgement["says"].startswith("proves nothing")


def reason_faults(judgement):
    """Verdicts without the records that they rest on."""
    word, because = word_of(judgement["reply"]), judgement["because"]
    gaps = sum(" does not exist" in line or "unsigned delegation may be" in line for line in because)
    if gaps < GAPS.get(word, 0) or word in DENIALS and not because:
        yield f"{judgement['name']} {judgement['type']} is {word} because {because}"


def message_faults(message):
    """Verdicts without a signature that passed, and reasons that lack."""
    question = f"{message['name']} {message['type']} of {message['zone']}"
    has_passed = any(it["state"] == "passed" for it in message["signatures"])
    if any(map(is_verdict, message["judgements"])) and not has_passed:
        yield f"no signature of {question} passed"
    for judgement in message["judgements"]:
        yield from reason_faults(judgement)


def end_faults(said):
    """What is secure, and no message of that zone says it."""
    if said["said"] != "secure" or word_of(said["reply"]) == "DNAME":
        return
    sought = (said["zone"].lower(), (said["aliases"] or [said["name"]])[-1].lower(), said["type"], said["reply"])
    told = {(message["zone"].lower(), it["name"].lower(), it["type"], it["reply"]) for message in said["asked"] for it in message["judgements"]}
    if sought not in told:
        yield f"no judgement says {sought}"


def faults(said):
    for message in said["asked"]:
        yield from message_faults(message)
    yield from end_faults(said)
