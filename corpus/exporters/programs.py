"""Tests that are programs: a folder of BIND's system tests, and a class of PowerDNS's regression-tests.recursor-dnssec. Both get a name
server of their own, of the standard library alone."""

from __future__ import annotations

import json
import textwrap
import time

from maker import wire

from .scene import Message, Scene, head

# A name server that has messages by question, and one that answers for all names below the zone that it refers to.
SERVER = '''
    def name_at(octets, at):
        """A question's name in wire form, in lower case, and where it ends."""
        end = at
        while octets[end]:
            end += 1 + octets[end]
        return octets[at : end + 1].lower(), end + 1


    class Server:
        """Hands out messages."""

        def __init__(self, messages, referral):
            self.messages = {(bytes.fromhex(name), rtype): bytes.fromhex(message) for name, rtype, message in messages}
            self.apex, self.referral = map(bytes.fromhex, referral) if referral else (None, None)

        def answer(self, query, limit=None):
            name, end = name_at(query, 12)
            rtype = int.from_bytes(query[end : end + 2], "big")
            message = self.messages.get((name, rtype))
            if message is None and self.apex and name.endswith(self.apex):
                message = self.referral
            question = query[12 : end + 4]
            if message is None:
                return query[:2] + b"\\x80\\x05\\0\\1" + bytes(6) + question
            _name, behind = name_at(message, 12)
            whole = query[:2] + message[2:12] + question + message[behind + 4 :]
            if limit and len(whole) > limit:
                return query[:2] + bytes([message[2] | 2, message[3]]) + b"\\0\\1" + bytes(6) + question
            return whole

        def serve(self, address, port):
            for run in (self.datagrams, self.streams):
                threading.Thread(target=run, args=(address, port), daemon=True).start()

        def datagrams(self, address, port):
            with socket.socket(socket.AF_INET, socket.SOCK_DGRAM) as server:
                server.bind((address, port))
                while True:
                    query, peer = server.recvfrom(65535)
                    server.sendto(self.answer(query, 1232), peer)

        def streams(self, address, port):
            with socket.create_server((address, port)) as server:
                while True:
                    connection, _peer = server.accept()
                    with connection, connection.makefile("rwb") as both:
                        while len(length := both.read(2)) == 2:
                            answer = self.answer(both.read(int.from_bytes(length, "big")))
                            both.write(len(answer).to_bytes(2, "big") + answer)
                            both.flush()
'''
BIND_CONFIGURATION = """\
options {{
    query-source address 10.53.0.3;
    port @PORT@;
    pid-file "named.pid";
    listen-on {{ 10.53.0.3; }};
    listen-on-v6 {{ none; }};
    recursion yes;
    dnssec-validation yes;
    {more}
}};
trust-anchors {{ . static-key 257 3 {algorithm} "{key}"; }};
zone "." {{ type hint; file "root.hint"; }};
"""
BIND_TEST = '''\
{head}
# The case is judged at {date} UTC: start named by a clock of that time (faketime) where signatures do not hold today.

import dns.flags
import dns.message
import dns.rcode

import isctest


def ask(name, rdtype):
    query = dns.message.make_query(name, rdtype, want_dnssec=True)
    return isctest.query.tcp(query, "10.53.0.3")


def test_{function}():
    for name, rdtype in {before}:
        ask(name, rdtype)
    answer = ask({name}, {rtype})
    assert dns.rcode.to_text(answer.rcode()) == "{rcode}"
    assert bool(answer.flags & dns.flags.AD) is {is_secure}
'''
POWERDNS_TEST = '''\
{head}
# The case is judged at {date} UTC: start the recursor by a clock of that time (faketime) where signatures do not hold today.

import os
import socket
import threading

import dns.flags
import dns.message
import dns.rcode
from recursortests import RecursorTest

{server}

ROOT = Server(*{root})
ZONE = Server(*{zone})


class {class_name}Test(RecursorTest):
    _confdir = "{class_name}"
    _auth_zones = {{}}
    _config_template = """dnssec=validate
    hint-file=configs/{class_name}/hints
    dont-query=
{more}"""
    _lua_config_file = """clearTA(".")
    addTA(".", "{anchor}")"""

    @classmethod
    def generateRecursorConfig(cls, confdir):
        with open(os.path.join(confdir, "hints"), "w") as hints:
            hints.write(". 3600 IN NS server.root.\\nserver.root. 3600 IN A {root_address}\\n")
        super().generateRecursorConfig(confdir)

    @classmethod
    def startResponders(cls):
        super().startResponders()
        ROOT.serve("{root_address}", 53)
        ZONE.serve("{zone_address}", 53)

    def ask(self, name, rdtype):
        return self.sendUDPQuery(dns.message.make_query(name, rdtype, want_dnssec=True))

    def test{class_name}(self):
        for name, rdtype in {before}:
            self.ask(name, rdtype)
        answer = self.ask({name}, {rtype})
        self.assertEqual(dns.rcode.to_text(answer.rcode()), "{rcode}")
        self.assertIs(bool(answer.flags & dns.flags.AD), {is_secure})
'''


def served(messages: list[Message]) -> tuple[list[tuple[str, int, str]], tuple[str, str] | None]:
    """Messages by question, as the server of a test takes them, and the referral."""
    plain = [(wire.wire(wire.lower(it.name)).hex(), it.rtype, it.octets.hex()) for it in messages if not it.is_referral]
    referral = next(((wire.wire(wire.lower(it.name)).hex(), it.octets.hex()) for it in messages if it.is_referral), None)
    return plain, referral


def server_code() -> str:
    return textwrap.dedent(SERVER).strip() + "\n"


def shared(scene: Scene) -> dict[str, object]:
    """What both kinds of test say of the case."""
    return {
        "head": "\n".join(head(scene.case, "#")), "date": time.strftime("%Y-%m-%d %H:%M:%S", time.gmtime(scene.case["moment"])),
        "before": [(wire.text_of(it.name), it.rtype) for it in scene.before], "name": repr(wire.text_of(scene.question.name)),
        "rtype": scene.question.rtype, "rcode": scene.rcode, "is_secure": scene.is_secure,
    }


def bind(scene: Scene) -> dict[str, str]:
    """A folder of bin/tests/system."""
    function = scene.case["id"].replace("-", "_")
    algorithm, key = scene.anchor_key
    more = "" if scene.before else "qname-minimization off;\n    synth-from-dnssec no;"
    files = {
        "ns3/named.conf.j2": BIND_CONFIGURATION.format(more=more, algorithm=algorithm, key=key),
        "ns3/root.hint": f". 3600 IN NS server.root.\nserver.root. 3600 IN A {scene.root_address}\n",
        f"tests_{function}.py": BIND_TEST.format(function=function, **shared(scene)),
    }
    for folder, address, messages in (("ans1", scene.root_address, scene.of_root()), ("ans2", scene.zone_address, scene.of_zone())):
        of = json.dumps(served(messages)).replace("null", "None")
        code = f'import os\nimport signal\nimport socket\nimport threading\n\n{server_code()}\n\nServer(*{of}).serve("{address}", int(os.environ["PORT"]))\n'
        files[f"{folder}/ans.py"] = code + 'with open("ans.pid", "w") as file:\n    print(os.getpid(), file=file)\nsignal.pause()\n'
    return {f"denial_{function}/{name}": text for name, text in files.items()}


def powerdns(scene: Scene) -> dict[str, str]:
    """A file of regression-tests.recursor-dnssec."""
    class_name = "".join(it.capitalize() for it in scene.case["id"].split("-"))
    more = "" if scene.before else "    qname-minimization=no\n    aggressive-nsec-cache-size=0\n"
    text = POWERDNS_TEST.format(
        class_name=class_name, server=server_code(), root=served(scene.of_root()), zone=served(scene.of_zone()), more=more,
        anchor=scene.anchor_ds, root_address=scene.root_address, zone_address=scene.zone_address, **shared(scene),
    )
    return {f"test_{class_name}.py": text}
