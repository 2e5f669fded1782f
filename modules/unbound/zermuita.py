"""Judges in unbound's own process what unbound validates, by its `python` module (python3-unbound).

In unbound.conf, with the module in front of the validator:

    server:
        module-config: "python validator iterator"
    python:
        python-script: "/usr/lib/zermuita/zermuita.py"

The file /etc/unbound/zermuita.conf, or the one that ZERMUITA_CONFIG in the environment names, has the settings:

    [zermuita]
    library = /usr/lib/zermuita/libzermuita_module.so
    anchors = /usr/share/dns/root.ds
    mode = enforce          # or log, or metrics
    log = /var/log/zermuita.log
    iterations = 150
    memory = 64

`metrics` counts what agrees, and writes the counts to unbound's log when it ends; `log` also appends a line of JSON for each
disagreement; `enforce` also answers SERVFAIL, with an extended error where `ede: yes`, if the judge proves an answer false, and
without AD if nothing proves it. An answer that unbound refuses stays refused. The messages are those that unbound has: the module
sees each answer for a client, and each DNSKEY answer that the validator requests. unbound takes DS sets from referrals, which it does
not show to modules; so the module trusts the keys by which unbound found the answer secure, and judges what they prove. It judges no
answer that unbound found insecure.

Python must find unboundmodule.py: on Debian, Environment=PYTHONPATH=/usr/lib/python3/dist-packages in the service's unit.
"""

import configparser
import ctypes
import os
import struct
import time

PASS, CLEAR_AD, REFUSE = 0, 1, 2
QR, RD, RA, AD, CD, DO, SERVFAIL = 0x8000, 0x0100, 0x0080, 0x0020, 0x0010, 0x8000, 2
# unbound's `enum sec_status`.
BOGUS, INSECURE, SECURE = 1, 3, 5


class Counts(ctypes.Structure):
    _fields_ = [(it, ctypes.c_uint64) for it in ("learned", "judged", "agreed", "cleared", "refused", "not_judged")]


class Judge:
    """The judge, with the settings of a file."""

    def __init__(self, path):
        read = configparser.ConfigParser(inline_comment_prefixes=("#",))
        read.read(path)
        settings = read["zermuita"]
        self.is_enforcing = settings.get("mode", "log") == "enforce"
        self.library = ctypes.CDLL(settings["library"])
        self.library.zermuita_module_open.restype = ctypes.c_void_p
        log = None if settings.get("mode") == "metrics" else settings.get("log")
        self.module = ctypes.c_void_p(
            self.library.zermuita_module_open(
                settings["anchors"].encode(), log.encode() if log else None, settings.getint("iterations", 150), settings.getint("memory", 64)
            )
        )
        if not self.module:
            raise OSError("zermuita: the anchors can't be read, the log can't be written, or memory ran out")

    def learn(self, octets):
        self.library.zermuita_module_learn(self.module, octets, ctypes.c_size_t(len(octets)), ctypes.c_uint64(int(time.time())), 1)

    def vouch(self, octets):
        self.library.zermuita_module_vouch(self.module, octets, ctypes.c_size_t(len(octets)))

    def action(self, octets):
        ede = ctypes.c_uint16()
        now = ctypes.c_uint64(int(time.time()))
        return self.library.zermuita_module_judge(self.module, octets, ctypes.c_size_t(len(octets)), now, ctypes.byref(ede))

    def counts(self):
        counts = Counts()
        self.library.zermuita_module_counts(self.module, ctypes.byref(counts))
        return {name: getattr(counts, name) for name, _kind in Counts._fields_}


judge = None
# The last DNSKEY answers of zones, by apex.
keys = {}
MOST_KEYS = 4096


def records_of(rrset):
    """The records of an RRset and their signatures, as a message has them."""
    key, data = rrset.rk, rrset.entry.data
    rtype = struct.unpack("=H", struct.pack("!H", key.type))[0]
    for at in range(data.count + data.rrsig_count):
        kind = rtype if at < data.count else RR_TYPE_RRSIG  # noqa: F821
        yield bytes(key.dname) + struct.pack("!HHI", kind, 1, max(0, data.rr_ttl[at])) + bytes(data.rr_data[at])


def signers_of(reply):
    """The zones that signed the records of a reply, in lower case."""
    found = set()
    for rrset in (reply.rrsets[at] for at in range(reply.an_numrrsets + reply.ns_numrrsets)):
        data = rrset.entry.data
        for at in range(data.count, data.count + data.rrsig_count):
            # Behind the length and 18 octets (RFC 4034, 3.1).
            name = bytes(data.rr_data[at])[20:]
            end = 0
            while name[end]:
                end += 1 + name[end]
            found.add(name[: end + 1].lower())
    return found


def message_of(qstate, flags):
    """What unbound has for a question, as a message with EDNS and DO."""
    question = qstate.qinfo
    head = bytes(question.qname) + struct.pack("!HH", question.qtype, question.qclass)
    counts, body = [0, 0, 0], b""
    reply = qstate.return_msg.rep
    ends = [reply.an_numrrsets, reply.an_numrrsets + reply.ns_numrrsets, reply.rrset_count]
    for at in range(reply.rrset_count):
        records = list(records_of(reply.rrsets[at]))
        counts[next(section for section, end in enumerate(ends) if at < end)] += len(records)
        body += b"".join(records)
    edns = b"\0" + struct.pack("!HHIH", 41, 4096, DO, 0)
    return struct.pack("!6H", 0, flags, 1, counts[0], counts[1], counts[2] + 1) + head + body + edns


def judge_answer(qstate):
    """Takes what unbound has, and what it says of that; an answer that is false is made bogus."""
    if qstate.qinfo.qclass != 1 or not qstate.return_msg or not qstate.return_msg.rep or qstate.return_rcode not in (0, 3):
        return
    reply = qstate.return_msg.rep
    rcode = reply.flags & 15
    message = message_of(qstate, QR | RA | rcode)
    judge.learn(message)
    if qstate.qinfo.qtype == RR_TYPE_DNSKEY:  # noqa: F821
        keys.pop(next(iter(keys)), None) if len(keys) > MOST_KEYS else None
        keys[bytes(qstate.qinfo.qname).lower()] = message
    if qstate.query_flags & CD or not qstate.mesh_info.reply_list or reply.security == BOGUS:
        return
    for signer in signers_of(reply) if reply.security >= SECURE else ():
        if signer in keys:
            judge.vouch(keys[signer])
    action = judge.action(message_of(qstate, QR | RD | RA | rcode | (AD if reply.security >= SECURE else 0)))
    if judge.is_enforcing and action != PASS:
        # What is kept would be handed out the next time, without a look of any module at it.
        invalidateQueryInCache(qstate, qstate.qinfo)  # noqa: F821
        reply.security = BOGUS if action == REFUSE else INSECURE


def init_standard(_id, _env):
    global judge
    judge = Judge(os.environ.get("ZERMUITA_CONFIG", "/etc/unbound/zermuita.conf"))
    return True


def deinit(_id):
    if judge:
        log_info("zermuita: " + " ".join(f"{name}={count}" for name, count in judge.counts().items()))  # noqa: F821
    return True


def inform_super(_id, _qstate, _superqstate, _qdata):
    return True


def operate(id, event, qstate, _qdata):
    if event in (MODULE_EVENT_NEW, MODULE_EVENT_PASS):  # noqa: F821
        qstate.ext_state[id] = MODULE_WAIT_MODULE  # noqa: F821
    elif event == MODULE_EVENT_MODDONE:  # noqa: F821
        judge_answer(qstate)
        qstate.ext_state[id] = MODULE_FINISHED  # noqa: F821
    else:
        qstate.ext_state[id] = MODULE_ERROR  # noqa: F821
    return True
