"""A name server, that of examples/server or another, as a process in a folder of its own at an address of its own. Its commands bring key calls and
replacements."""

import os
import pathlib
import shlex
import shutil
import socket
import struct
import subprocess

# How far moments lie behind the clock, as the server has it by itself.
BEHIND = 3600
TOP = pathlib.Path(__file__).resolve().parents[2]


def dotted(address):
    return ".".join(map(str, address))


def libraries(room, prefix=None):
    """What links the library that was installed below a folder, or else is installed for this run."""
    libs = os.environ.get("ZERMUITA_LIBS")
    if libs is None:
        if prefix is None:
            prefix = room / "prefix"
            subprocess.run([TOP / "tools/install", prefix], check=True, stdout=subprocess.DEVNULL)
        env = {**os.environ, "PKG_CONFIG_PATH": f"{prefix}/lib/pkgconfig"}
        words = ["pkg-config", "--cflags", "--libs", "zermuita"]
        libs = subprocess.run(words, check=True, capture_output=True, text=True, env=env).stdout + f" -Wl,-rpath,{prefix}/lib"
    return libs.split()


def build(room, prefix=None):
    """The words that run the server: those of ZERMUITA_SERVER in the environment, or the program of examples/server."""
    if "ZERMUITA_SERVER" in os.environ:
        return shlex.split(os.environ["ZERMUITA_SERVER"])
    source, program = TOP / "examples/server/server.c", room / "server"
    libs = libraries(room, prefix)
    subprocess.run(["cc", "-std=gnu11", "-O2", "-o", program, source, *libs, "-lcrypto"], check=True)
    return [program]


class Workshop:
    """Makes servers of a program: each has a folder, and an address of 198.18.0.0/15 (RFC 2544)."""

    def __init__(self, program, folder):
        self.program, self.folder, self.count = program, folder, 0

    def address(self):
        self.count += 1
        return bytes([198, 18 + (self.count >> 16), self.count >> 8 & 255, self.count & 255])

    def server(self, address, keys, name):
        """A server whose keys are in a folder, with an empty one of its own."""
        folder = self.folder / f"{dotted(address)}{name}"
        folder.mkdir()
        (folder / "keys").symlink_to(keys)
        return Server(self.program, folder, address)


class Server:
    """A server, which may run."""

    def __init__(self, program, folder, address):
        self.program, self.folder, self.address, self.process = program, folder, address, None

    def start(self, backdate=BEHIND, chain="", records=None):
        """Starts it. A new one has a chain and records: owner, type, TTL and data."""
        words = [*self.program, f"--address={dotted(self.address)}", "--port=53", "--rate=0", f"--backdate={backdate}"]
        if records is not None:
            words.append(f"--chain={chain}")
        words.append(self.folder)
        if records is not None:
            words.append(self.write(records))
        with open(self.folder / "log", "ab") as log:
            how = {"stdin": subprocess.DEVNULL, "stdout": subprocess.PIPE, "stderr": log}
            self.process = subprocess.Popen(words, **how)
        if not self.process.stdout.readline():
            raise RuntimeError(f"{self.folder}: {(self.folder / 'log').read_text()}")

    def write(self, records):
        """A master file of records, the first of which is the apex's."""
        file = self.folder / "zone"
        lines = (f"{owner} {ttl} IN TYPE{rtype} \\# {len(data)} {data.hex()}" for owner, rtype, ttl, data in records)
        file.write_text("\n".join([f"$ORIGIN {records[0][0]}", *lines, ""]))
        return file

    def tell(self, command):
        """Whether a command was done, and what is said."""
        with socket.socket(socket.AF_UNIX) as it:
            it.settimeout(60)
            it.connect(f"{self.folder}/ctl")
            it.sendall(command.encode() + b"\n")
            said = b"".join(iter(lambda: it.recv(65536), b""))
        return said[:1] == b"+", said[1:].decode()

    def do(self, command):
        is_done, said = self.tell(command)
        if not is_done:
            raise RuntimeError(f"{self.folder}: {command}: {said}")

    def replace(self, records):
        self.do(f"reload {self.write(records)}")

    def ds(self):
        """The data of the DS set that its parent is to have."""
        words = [it.split() for it in self.tell("ds")[1].splitlines()]
        return sorted(struct.pack(">HBB", *map(int, of[1:4])) + bytes.fromhex(of[4]) for of in words)

    def stop(self):
        if self.process:
            self.process.terminate()
            if self.process.wait(timeout=60):
                raise RuntimeError(f"{self.folder}: it ended with {self.process.returncode}: {(self.folder / 'log').read_text()}")
            self.process.stdout.close()
            self.process = None

    def give_to(self, other):
        """Gives another server the journal."""
        shutil.copyfile(self.folder / "journal", other.folder / "journal")

    def remove(self):
        self.stop()
        shutil.rmtree(self.folder)
