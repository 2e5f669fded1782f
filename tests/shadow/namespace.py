"""A network namespace with the addresses of the servers and resolvers, and the servers in it."""

import contextlib
import pathlib
import subprocess
import sys

import resolvers
from runners import network

HERE = pathlib.Path(__file__).resolve().parent
SERVERS = ["198.51.100.1", "198.51.100.2", "192.0.2.1"]
VALIDATORS = {name: f"198.51.100.{21 + at}" for at, name in enumerate(resolvers.ALL)}


def enter(program, words, servers=SERVERS):
    """Runs a program again, in a network namespace of its own, unless it is in one."""
    network.enter(program, words, [*servers, *VALIDATORS.values(), resolvers.DISTRIBUTOR])


@contextlib.contextmanager
def serving(tree, *server, program=HERE / "tree.py"):
    """While a server has the zones of a tree, its version; or while several servers that a program starts have them, theirs."""
    words = [sys.executable, program, "serve", tree, *server]
    process = subprocess.Popen(words, stdin=subprocess.PIPE, stdout=subprocess.PIPE, text=True)
    try:
        version = process.stdout.readline().strip()
        if not version:
            raise RuntimeError(f"{' '.join(server) or 'a server'} doesn't serve: see {tree}/{'-'.join(server) or 'servers'}-*")
        yield version
    finally:
        process.stdin.close()
        try:
            process.wait(timeout=300)
        except subprocess.TimeoutExpired:
            process.terminate()
            raise
