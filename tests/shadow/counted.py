"""Instructions that programs take, by valgrind's callgrind: the same whatever else the machine does."""

import re
import subprocess

import programs
from recorded import Capture, record
from resolvers import configured, unanswered

# LuaJIT, of which Knot Resolver is made, writes code as it runs.
VALGRIND = ["valgrind", "--tool=callgrind", "--callgrind-out-file=/dev/null", "--smc-check=all-non-file"]


def collected(text):
    return int(re.search(r"Collected : (\d+)", text)[1])


def counting(kind):
    """A resolver under callgrind, which takes its time to end."""

    class Counting(kind):
        def command(self):
            return [*VALGRIND, f"--log-file={self.folder}/callgrind", *super().command()]

        async def is_up(self, seconds=2000):
            await super().is_up(seconds)

        def end(self):
            try:
                if self.process and self.process.poll() is None:
                    self.process.terminate()
                    self.process.wait(timeout=300)
            finally:
                super().end()

        def instructions(self):
            return collected((self.folder / "callgrind").read_text())

    return Counting


async def of_resolver(kind, folder, address, key, questions, is_logging):
    """How many instructions a resolver takes from its start to its end."""
    folder.mkdir()
    resolver = counting(kind)(folder, address, key)
    resolver.is_logging = is_logging
    capture = Capture(resolver.folder) if is_logging else None
    try:
        missing = await unanswered(resolver, questions)
    finally:
        resolver.end()
        if capture:
            capture.end()
    return resolver.instructions(), missing


async def of_shadow(program, anchor, kind, folder, address, key, questions):
    """How many instructions the shadow takes for what a resolver logs."""
    file = await record(kind, folder, address, key, questions)
    words = [*VALGRIND, *program, "shadow", "run", "--config", configured(folder, anchor, {}), "--frames", file]
    how = {"stdin": subprocess.DEVNULL, "capture_output": True, "text": True, "check": True, "env": programs.with_library()}
    ran = subprocess.run(list(map(str, words)), **how)
    return collected(ran.stderr)
