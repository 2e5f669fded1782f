"""Why the bench refuses a call, a question or a replacement, and what would be accepted: for each name that it prints."""

from __future__ import annotations

OUT_OF_MEMORY = "out of memory"
ZONES = {
    "WrongClass": "a record is not of class IN",
    "OutsideApex": "an owner is outside the apex",
    "SignedType": "a record is of a type that signing adds",
    "Alias": "an alias stands where none may",
    "MetaType": "a record is of a type that no zone holds",
    "StarNs": "a delegation stands at a wildcard name",
    "IterationsOverLimit": "iterations are over the limit",
    "NoSingleSoa": "no chain: not exactly one SOA record at the apex",
    "MultipleTtlValues": "no chain: records of one RRset have unequal TTLs",
    "HashTooLong": "no chain: a hash is too long",
    "HashFailed": "no chain: a name was not hashed",
    "HashCollision": "no chain: two names have one hash",
    "Memory": OUT_OF_MEMORY,
}
REPLACEMENTS = {"TooSoon": "an answer was given in this second, or in a later one", **ZONES}
QUESTIONS = {
    "QuestionNotAllowed": (
        "question is not allowed",
        "outside the zone, or a type that signing adds, an alias or no type of records: `ask a.example 15 3600`",
    ),
    "TooLong": ("message is too long", "a message has at most 65535 octets: fewer records of one owner and type"),
    "HashFailed": ("a name was not hashed", "the stand-ins for hashes and signatures failed"),
    "SignFailed": ("nothing was signed", "the stand-ins for hashes and signatures failed"),
    "Memory": (OUT_OF_MEMORY, OUT_OF_MEMORY),
}
CALLS = {
    "ReferenceBound": (
        "reference is bound to another key",
        "the reference was another key's, for good: add the key under a new one",
    ),
    "DigestFailed": ("key was not digested", "no DS record can be made of the key"),
    "KeyExists": ("key already exists", "the reference has a key: add it under another one"),
    "KeyNotFound": ("key not found", "no key has this reference: `key zsk second-zsk 13 em9uZQ== 0` adds one"),
    "KeyNotOld": (
        "key is still in use, not old",
        "a roll has to take the key out of use first: it is old where the last row of that roll is done",
    ),
    "DuplicateKeyTag": ("Key tag already present", "another key has its tag: add a key of other octets"),
    "WrongKeyType": (
        "key has the wrong type",
        "the roll does not touch such keys: a ksk-roll takes ksk keys, a zsk-roll zsk keys",
    ),
    "WrongKeyState": ("key is in the wrong state", "a new key must be unused and listed once: add one for the roll"),
    "NoSuitableKeyPresent": (
        "no suitable key present after key roll",
        "behind the roll no key would sign the keys, or none the zone: list a new one of each kind",
    ),
    "WrongStateForRollOperation": (
        "wrong roll state for operation",
        "the calls of a roll follow one another: start, report1, wait1, report2, wait2, done",
    ),
    "ConflictingRollInProgress": (
        "conflicting roll is in progress",
        "another roll runs: end it first; only a KSK roll may run beside a ZSK roll",
    ),
    "AlgorithmSetsMismatch": (
        "algorithm set mismatch for non-algorithm key roll",
        "old and new keys have unlike algorithms: only an algorithm-roll changes them",
    ),
    "Wait": ("wait for duration {0}.000000000s", "caches may still have what was before the report: wait so long"),
    "UnknownRollType": ("unable to parse string as roll type", "no such roll"),
    "MissingTimestamp": ("timestamp is missing", "a report of the roll is missing"),
    "Memory": (OUT_OF_MEMORY, OUT_OF_MEMORY),
}
PLACES = "places of a DS set, a DNSKEY answer and an answer, or of a DS set, are wanting: `judge 0 1 2 8000`"


def why_refused(table: dict[str, tuple[str, str]], printed: str) -> list[str]:
    """The sentences for what is printed: `refused` and a name, behind which stands how long to wait."""
    _refused, name, *rest = printed.split(" ")
    return [sentence.format(*rest) for sentence in table[name]]
