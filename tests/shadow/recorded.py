"""A stream in a file: what a resolver said, kept by fstrm_capture; the same with octets changed; and how the shadow takes it."""

import asyncio
import collections
import json
import os
import pathlib
import random
import re
import signal
import subprocess
import time

import programs
from resolvers import Shadow, configured, unanswered
from runners.programs import end

CONTENT = "protobuf:dnstap.Dnstap"


class Capture:
    """fstrm_capture on a socket."""

    def __init__(self, folder, file="/dev/null"):
        words = ["fstrm_capture", "-t", CONTENT, "-u", folder / "dnstap.sock", "-w", file]
        self.process = subprocess.Popen(words, stdin=subprocess.DEVNULL, stderr=subprocess.DEVNULL)

    def end(self):
        end(self.process)


async def record(kind, folder, address, key, questions):
    """The file of what a resolver logs as it is asked."""
    folder.mkdir()
    resolver, file = kind(folder, address, key), folder / "frames"
    capture = Capture(resolver.folder, file)
    try:
        await unanswered(resolver, questions)
        await asyncio.sleep(2)
    finally:
        resolver.end()
        capture.end()
    return file


def frames_of(file):
    """The frames of a file, and the octets of control frames before and behind them."""
    octets, at, frames = file.read_bytes(), 0, []
    begin = 8 + int.from_bytes(octets[4:8], "big")
    at = begin
    while length := int.from_bytes(octets[at : at + 4], "big"):
        frames.append(octets[at + 4 : at + 4 + length])
        at += 4 + length
    return octets[:begin], frames, octets[at:]


def write(file, kind, frames, before, behind):
    made = pathlib.Path(f"{file}.{kind}")
    parts = (len(it).to_bytes(4, "big") + it for it in frames)
    made.write_bytes(b"".join([before, *parts, behind]))
    return made, len(frames)


def mutate(file, times, seed):
    """A file of all frames so many times, half of them with some octets changed."""
    drawn = random.Random(seed)
    before, frames, behind = frames_of(file)
    mutated = [bytearray(it) for _ in range(times) for it in frames]
    for frame in mutated:
        for _ in range(drawn.choice([0, 0, 0, 1, 2, 4])):
            frame[drawn.randrange(len(frame) // drawn.choice([1, 1, 2, 8]))] = drawn.randrange(256)
    return write(file, "mutated", mutated, before, behind)


def rename(file, times, seed):
    """A file of all frames so many times, each time with other names."""
    drawn = random.Random(seed)
    before, frames, behind = frames_of(file)
    names = [bytes(drawn.choices(b"abcdefghijklmnopqrstuvwxyz", k=6)) for _ in range(times)]
    top = re.compile(rb"\x04test|\x06hashed|\x06optout")
    renamed = [top.sub(lambda it: it[0][:1] + name[: it[0][0]], frame) for name in names for frame in frames]
    return write(file, "renamed", renamed, before, behind)


def read(program, anchor, file, room, settings=None, environment=None):
    """What the shadow says of a file: its disagreements, and its counts."""
    room.mkdir(exist_ok=True)
    words = [*program, "shadow", "run", "--config", configured(room, anchor, settings or {}), "--frames", file]
    how = {"stdin": subprocess.DEVNULL, "capture_output": True, "text": True, "env": programs.with_library(**(environment or {}))}
    ran = subprocess.run(list(map(str, words)), **how)
    if ran.returncode:
        raise RuntimeError(f"{file}: status {ran.returncode}: {ran.stderr[-3000:]}")
    lines = [json.loads(line) for line in ran.stdout.splitlines()]
    return lines[:-1], lines[-1]["counts"]


def replay(program, folder, anchor, file, slowness, liar):
    """What the shadow counts of a file that comes by its socket at full speed, while each judgement takes some milliseconds."""
    folder.mkdir()
    shadow = Shadow(program, folder, anchor, {"memory-mib": 8}, {**liar, "SLOW": str(slowness)})
    try:
        subprocess.run(["fstrm_replay", "-t", CONTENT, "-u", shadow.socket, "-r", file], check=True, env={**os.environ})
        return shadow.end()[1]
    finally:
        shadow.kill()


# Programs that explain nothing, each in its own way, and what the log then has.
SILENT = {
    "sleeps": ("exec sleep 300", "time"),
    "sleeps-below": ("sleep 300 & wait", "time"),
    "closes": ("exec >&-; sleep 300", "time"),
    "fails": ("cat; exit 1", "failed"),
    "writes-words": ("echo words", "no reasons"),
    "writes-objects": ("echo '{\"printed\":\"\",\"notes\":[],\"reasons\":null}'", "no reasons"),
    "writes-nothing": ("cat >/dev/null", "no reasons"),
    "writes-on": ("exec yes", "length"),
}


def unexplained(program, anchor, file, folder, environment):
    """Of each program that explains nothing, and of none: why it explained nothing, how often, and how long all took."""
    folder.mkdir()
    for name, (script, why) in {**SILENT, "is-not-there": (None, "failed")}.items():
        if script:
            (folder / name).write_text(f"#!/bin/sh\n{script}\n")
            (folder / name).chmod(0o755)
        begin = time.monotonic()
        settings = {"explain.program": str(folder / name), "explain.per-minute": 2}
        lines, counts = read(program, anchor, file, folder, settings, environment)
        told = collections.Counter(it["not explained"] for it in lines if it["explained"] is None)
        yield name, why, told, len(lines), counts, time.monotonic() - begin


# Settings that are wrong, and those that are right: the status with each.
SETTINGS = [
    *((1, {name: value}) for name, value in (
        ("socket-mode", "888"), ("socket-mode", "1777"), ("memory-mib", 7), ("memory-mib", -1), ("hold-seconds", 61),
        ("nsec3-iterations", 65536), ("explain.per-minute", 0), ("ask", "localhost"), ("trust-anchors", "none"), ("other", 1),
    )),
    (0, {"ask": "::1"}), (0, {"ask": "[::1]:53"}), (0, {"hold-seconds": 0, "memory-mib": 8}),
]


def calls(anchor, file, folder):
    """Calls that cannot be read, or whose files cannot, and the status of each."""
    a = configured(folder, anchor, {})
    run = ["shadow", "run", "--config"]
    yield from ((2, words) for words in (["shadow"], ["shadow", "walk"], [*run], [*run, a, "more"], [*run, a, "--other"]))
    yield from ((1, words) for words in ([*run, folder / "none"], [*run, a, "--frames", "none"], [*run, a, "--frames", anchor]))
    for at, (status, settings) in enumerate(SETTINGS):
        (folder / str(at)).mkdir()
        it = configured(folder / str(at), anchor, settings)
        yield status, [*run, it, "--frames", file]
        yield status, ["shadow", "check", "--config", it]
    for name, socket in (("far", f"{folder}/no/socket"), ("long", "x" * 200)):
        (folder / name).mkdir()
        yield 3, [*run, configured(folder / name, anchor, {"socket": socket})]
    (folder / "log").mkdir()
    yield 1, [*run, configured(folder / "log", anchor, {"disagreements.file": f"{folder}/no/log"}), "--frames", file]
    texts = {"empty": "", "words": "not a record\n", "odd": ". IN DS 1 13 2 ABC\n", "old": ". IN DS 1 5 1 ABCD\n", "tag": ". IN DS 70000 13 2 AB\n"}
    for name, text in texts.items():
        (folder / name).mkdir()
        (folder / name / "anchor").write_text(text)
        yield 1, [*run, configured(folder / name, folder / name / "anchor", {}), "--frames", file]


def refused(program, anchor, file, folder):
    """Calls that end otherwise than they should."""
    folder.mkdir()
    for status, words in calls(anchor, file, folder):
        how = {"stdin": subprocess.DEVNULL, "capture_output": True, "text": True, "timeout": 60, "env": programs.with_library()}
        ran = subprocess.run(list(map(str, [*program, *words])), cwd=folder, **how)
        if ran.returncode != status or (status != 0) != bool(ran.stderr):
            yield f"{words}: status {ran.returncode}: {ran.stderr[-500:]}"


def reopened(program, anchor, file, folder):
    """A file of disagreements that is moved away, and opened again by SIGHUP: lines of counts in both."""
    folder.mkdir()
    shadow = Shadow(program, folder, anchor)
    try:
        shadow.counts()
        shadow.log.rename(folder / "moved")
        shadow.process.send_signal(signal.SIGHUP)
        for _ in range(100):
            if shadow.log.exists():
                break
            time.sleep(0.1)
        subprocess.run(["fstrm_replay", "-t", CONTENT, "-u", shadow.socket, "-r", file], check=True, env={**os.environ})
        _, counts = shadow.end()
        return counts, (folder / "moved").read_text(), shadow.log.read_text()
    finally:
        shadow.kill()
