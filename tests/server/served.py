"""A name server over a folder, and what dig and delv say of it."""

import atexit
import json
import os
import pathlib
import re
import shlex
import socket
import subprocess
import sys
import time

TOP = pathlib.Path(__file__).resolve().parents[2]
sys.path.append(str(TOP / "tests/aliases"))
from processes import free_port  # noqa: E402

EXAMPLE = TOP / "examples" / "server"
# Free ports: of the servers of a folder, of a server that begins anew, of one that is watched, and of the parent's.
PORT, FIRST_PORT, WATCHED_PORT, PARENT_PORT = (free_port() for _ in range(4))
# What delv says.
SECURE, DENIED = "; fully validated", "; negative response, fully validated"


def run(*words, **how):
    return subprocess.run([str(it) for it in words], capture_output=True, text=True, timeout=300, **how)


def fail(*words):
    print("FAILED:", *words)
    sys.exit(1)


SANITIZERS = ("-fsanitize=address,undefined", "-fno-sanitize-recover=all")


def build(room, prefix, compiler, source, name, sanitizers=SANITIZERS):
    """A program in C."""
    libs = os.environ.get("ZERMUITA_LIBS")
    if libs is None:
        env = {**os.environ, "PKG_CONFIG_PATH": f"{prefix}/lib/pkgconfig"}
        libs = run("pkg-config", "--cflags", "--libs", "zermuita", env=env).stdout + f" -Wl,-rpath,{prefix}/lib"
    words = [compiler, "-std=gnu11", "-Wall", "-Wextra", "-Wconversion", "-Werror", "-g", "-O1"]
    made = run(*words, *sanitizers, "-o", room / name, source, *libs.split(), "-lcrypto")
    if made.returncode != 0:
        fail(made.stderr)
    return room / name


class Program:
    """A server's program: the words that run it, and a folder for its log."""

    def __init__(self, words, room):
        self.words, self.log, self.anchors = [str(it) for it in words], room / "log", room / "anchors"


def cargo(words, **how):
    """Runs Debian's cargo on the programs in Rust, optimised."""
    program = os.environ.get("CARGO", "/usr/bin/cargo")
    env = {"RUSTC": "/usr/bin/rustc"} | os.environ | how.pop("env", {})
    return subprocess.run([program, words[0], "--offline", "--release", "-p", "zermuita-programs", *words[1:]], cwd=TOP / "rust", env=env, **how)


def serve(room, prefix, words):
    """zermuita serve, over the library that was installed below a folder; or what other words run."""
    if prefix is not None:
        os.environ["PKG_CONFIG_PATH"] = f"{prefix}/lib/pkgconfig"
        os.environ["LD_LIBRARY_PATH"] = ":".join(filter(None, (f"{prefix}/lib", os.environ.get("LD_LIBRARY_PATH"))))
    if words == "serve":
        cargo(["build"], check=True)
        words = f"{TOP}/rust/target/release/zermuita serve run"
    return Program(shlex.split(words), room)


class Server:
    """A server over a folder."""

    def __init__(self, program, folder, *options):
        self.program, self.folder, self.options, self.process = program, folder, options, None
        self.port, self.zone = PORT, EXAMPLE / "example.zone"
        (folder / "keys").mkdir(parents=True, exist_ok=True)
        self.key("p256", "-algorithm", "EC", "-pkeyopt", "ec_paramgen_curve:P-256")
        self.key("ed25519", "-algorithm", "ED25519")
        self.key("rsa", "-algorithm", "RSA", "-pkeyopt", "rsa_keygen_bits:2048")

    def key(self, name, *words):
        made = run("openssl", "genpkey", *words, "-out", self.folder / "keys" / f"{name}.pem")
        if made.returncode != 0:
            fail(made.stderr)

    def log(self):
        return self.program.log

    def launch(self, *options):
        """A process that serves the folder."""
        words = [*self.program.words, f"--port={self.port}", *self.options, *options, self.folder, self.zone]
        with open(self.log(), "a") as log:
            how = {"stdin": subprocess.DEVNULL, "stdout": subprocess.DEVNULL, "stderr": log}
            process = subprocess.Popen([str(it) for it in words], **how)
        atexit.register(process.kill)
        return process

    def start(self, *options):
        (self.folder / "ctl").unlink(missing_ok=True)
        self.process = self.launch(*options)
        for _ in range(1200):
            if (self.folder / "ctl").exists() and self.tell("status", quiet=True) is not None:
                return
            if self.process.poll() is not None:
                break
            time.sleep(0.05)
        fail("the server does not start:", self.log().read_text()[-2000:])

    def tell(self, command, quiet=False):
        """What the server says to a command; nothing where it is gone."""
        try:
            with socket.socket(socket.AF_UNIX) as it:
                it.settimeout(60)
                it.connect(f"{self.folder}/ctl")
                it.sendall(command.encode() + b"\n")
                said = b""
                while octets := it.recv(65536):
                    said += octets
                if said[:1] not in (b"+", b"-"):
                    raise OSError
                return said[1:].decode()
        except OSError:
            if quiet:
                return None
            fail("no answer to", command, self.log().read_text()[-2000:])

    def done(self, command):
        said = self.tell(command)
        if not said.startswith("ok"):
            fail(command, "is answered", said)
        return said

    def is_up(self):
        return self.process.poll() is None

    def stop(self):
        self.tell("stop")
        if self.process.wait(60) != 0:
            fail("the server ends with", self.process.returncode, self.log().read_text()[-4000:])


def asked(name, rtype, *words):
    """What dig prints of a question: comments, the answer, and what else the words say."""
    how = ["+tries=2", "+time=10", "+noall", "+comments", "+answer", *words]
    return run("dig", "@127.0.0.1", "-p", PORT, *how, name, rtype).stdout


def dig(name, rtype, *words):
    """The same of a question with DO."""
    return asked(name, rtype, "+dnssec", *words)


def records_of(said):
    """The records that dig prints: owner, TTL, class, type and data of each."""
    return [re.split(r"\s+", it, maxsplit=4) for it in said.splitlines() if it and it[0] != ";"]


def delv(server, name, rtype):
    """What delv says, from the DS set that the server says."""
    anchors = server.program.anchors
    lines = [it.split() for it in server.tell("ds").splitlines()]
    anchors.write_text("trust-anchors {\n" + "".join(f'"example." static-ds {t} {a} {d} "{h}";\n' for _, t, a, d, h in lines) + "};\n")
    return run("delv", "@127.0.0.1", "-p", PORT, "-a", anchors, "+root=example.", name, rtype).stdout


def logged(server):
    """The objects of the log, which has nothing else."""
    return [json.loads(line) for line in server.log().read_text(encoding="ascii").split("\n")[:-1]]


def is_logged(by, begun, seconds=60, **members):
    """Whether the log has an event with these members behind as many lines as it had at first, or comes to have one."""
    end = time.monotonic() + seconds
    while time.monotonic() < end:
        if any(it.items() >= members.items() for it in logged(by)[begun:]):
            return True
        time.sleep(0.1)
    return False


def first_key(server, *keys):
    """The first keys of a zone, which no cache has: kind and name of each, or one combined key."""
    keys = keys or ("csk p256",)
    for it in keys:
        server.done(f"key {it}")
    names = ",".join(it.split()[1] for it in keys)
    for command in (f"start algorithm-roll - {names}", "report1 algorithm-roll 0", "wait1 algorithm-roll", "report2 algorithm-roll 0"):
        server.done(command)
    server.done("wait2 algorithm-roll")
    server.done("done algorithm-roll")


def zone_of(serial, count):
    """A zone with a serial, which each of its other records has, too."""
    head = f"$ORIGIN example.\n$TTL 5\n@ SOA ns hostmaster {serial} 3600 900 86400 300\n@ NS ns\nns A 127.0.0.1\n"
    return head + "".join(f"n{i} TXT {serial}\n" for i in range(count))


def serial_of(said):
    found = re.search(r"SOA\s+ns\.example\. hostmaster\.example\. (\d+)", said)
    return int(found[1]) if found else None


def text_of(said):
    found = re.search(r'TXT\s+"(\d+)"', said)
    return int(found[1]) if found else None
