"""Questions to name servers, and what is needed of their answers (RFC 1035, 4; RFC 6891)."""

import secrets
import socket
import struct
import time

TYPES = {"A": 1, "NS": 2, "SOA": 6, "MX": 15, "TXT": 16, "AAAA": 28, "DS": 43, "RRSIG": 46, "NSEC": 47, "DNSKEY": 48}
TYPES |= {"NSEC3": 50, "CDS": 59}
OPT = 41
TRUNCATED = 0x0200


def wire(text):
    """The wire form of a name's text, which has no escapes."""
    labels = [label.encode() for label in text.rstrip(".").split(".") if label]
    return b"".join(bytes([len(label)]) + label for label in labels) + b"\0"


def query(number, name, rtype):
    """A question with EDNS and its bit DO (RFC 3225)."""
    header = struct.pack(">6H", number, 0, 1, 0, 0, 1)
    edns = b"\0" + struct.pack(">HHIH", OPT, 4096, 0x8000, 0)
    return header + wire(name) + struct.pack(">HH", TYPES[rtype], 1) + edns


def ask_all(server, questions):
    """When the answer of a server to each question came, and the answer with its number set to zero, so that like ones are alike."""
    first = secrets.randbelow(1 << 15)
    asked = {first + at: query(first + at, *question) for at, question in enumerate(questions)}
    answered = {}
    with socket.socket(socket.AF_INET, socket.SOCK_DGRAM) as it:
        it.connect(server)
        it.settimeout(2)
        for _ in range(3):
            try:
                for number in asked.keys() - answered.keys():
                    it.send(asked[number])
                while len(answered) < len(asked):
                    answer = it.recv(65535)
                    number = int.from_bytes(answer[:2], "big")
                    if number in asked and answer[12:].startswith(asked[number][12:-11]):
                        answered[number] = (time.time(), b"\0\0" + answer[2:])
            except OSError:
                continue
            break
        else:
            raise TimeoutError(f"{server} leaves {len(asked) - len(answered)} of {len(asked)} questions without an answer")
    if any(answer[2] & TRUNCATED >> 8 for _moment, answer in answered.values()):
        raise ValueError(f"{server} cuts off an answer")
    return [answered[number] for number in asked]


def ask(server, name, rtype):
    return ask_all(server, [(name, rtype)])[0][1]


def past_name(message, at):
    """The place behind a name."""
    while message[at] and message[at] < 0xC0:
        at += 1 + message[at]
    return at + (2 if message[at] else 1)


def records(message):
    """The section of each record of answer and authority (0 or 1), its type, its TTL and its data, as they stand."""
    counts = struct.unpack(">4H", message[4:12])
    at = 12
    for _ in range(counts[0]):
        at = past_name(message, at) + 4
    for section in (0, 1):
        for _ in range(counts[1 + section]):
            at = past_name(message, at)
            rtype, _class, ttl, length = struct.unpack(">HHIH", message[at : at + 10])
            yield section, rtype, ttl, message[at + 10 : at + 10 + length]
            at += 10 + length


def data_of(message, rtype):
    """The data of the records of a type in the answer section, in order."""
    return sorted(data for section, of, _ttl, data in records(message) if section == 0 and of == TYPES[rtype])


def ttl_of(message):
    """For how long a cache may hold the answer as a whole."""
    return min((ttl for _section, _rtype, ttl, _data in records(message)), default=0)


def key_tag(data):
    """The key tag of a DNSKEY record (RFC 4034, appendix B)."""
    total = sum(octet << 8 if at % 2 == 0 else octet for at, octet in enumerate(data))
    return total + (total >> 16) & 0xFFFF
