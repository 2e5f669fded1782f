"""Servers between the trace and a name server, which lose, cut off or refuse what it answers, and what the trace tells of them."""
import os
import pty
import re
import subprocess

from processes import HOST, free_port
from relay import Relay


def lost(answer, number):
    """Nothing to each first of two questions."""
    return answer if number % 2 else None


def cut_off(answer, _number):
    return answer[:2] + bytes([answer[2] | 2]) + answer[3:]


def failed(answer, _number):
    return answer[:3] + bytes([answer[3] & 0xF0 | 2]) + answer[4:]


class Between(Relay):
    """A server that sends, over UDP, what it makes of the answers of another, by their numbers."""

    def __init__(self, server, sent):
        super().__init__((server.host, server.port))
        self.sent, self.number = sent, 0

    def send(self, answer, asker):
        if sent := self.sent(answer, self.number):
            self.udp.sendto(sent, asker)
        self.number += 1


def told_on_terminal(words):
    """What is told on a terminal."""
    ours, its = pty.openpty()
    with subprocess.Popen(words, stdout=subprocess.DEVNULL, stderr=its) as process:
        os.close(its)
        told = b""
        try:
            while octets := os.read(ours, 4096):
                told += octets
        except OSError:  # all of the terminal is closed
            pass
        process.wait()
    os.close(ours)
    return told.decode()


def told(trace, words, root, servers):
    """Calls of which something else is told than became of the questions to the root's servers."""
    nobody = f"{HOST}:{free_port()}"
    right = f"{root.host}:{root.port}"
    cases = {
        "lost": ([Between(root, lost)], r", UDP, 2 sent, 1 timed out: NOERROR, \d+ octets, [23]\d{3}\.\d{3} ms"),
        "cut off": ([Between(root, cut_off)], r", UDP cut off, TCP: NOERROR, \d+ octets, \d+\.\d{3} ms"),
        "failed": ([Between(root, failed), right], rf", UDP: SERVFAIL, .*\n.* from {right}, UDP: NOERROR, .*"),
        "nobody": ([nobody, right], rf", UDP, 2 sent: no answer, Connection refused, .*\n.* from {right}, UDP: NOERROR, .*"),
    }
    for case, (roots, wanted) in cases.items():
        asked = [it if isinstance(it, str) else f"{HOST}:{it.port}" for it in roots]
        line = rf"\.: \S+ \S+ from {asked[0]}{wanted}"
        all_words = [*words, *(word for it in asked for word in ("--server", f".={it}")), *servers]
        ran = subprocess.run([*trace, *all_words], capture_output=True, text=True)
        if ran.returncode or len(re.findall(f"^{line}$", ran.stderr, re.M)) != 2:
            yield f"{case}: status {ran.returncode}, told {ran.stderr}"
        if case == "lost":
            yield from terminal_faults(told_on_terminal([*trace, *all_words]), line)
    quiet = subprocess.run([*trace, *all_words, "--quiet"], capture_output=True, text=True)
    if quiet.returncode or quiet.stderr:
        yield f"quiet: status {quiet.returncode}, told {quiet.stderr}"


def terminal_faults(text, line):
    """On a terminal a line is written over while it is waited, and then is the one that stands elsewhere."""
    shown = [it.split("\r\x1b[K") for it in text.replace("\r\n", "\n").split("\n")]
    waited = [it for it in shown if len(it) > 10 and all(re.fullmatch(r"\.: .*, UDP.*: \d+ ms", more) for more in it[1:-1])]
    if len(waited) != 2 or not all(re.fullmatch(line, it[-1]) for it in waited):
        yield f"on a terminal it told {text!r}"
