"""The programs of rust/programs: how tests build and call them."""
import os
import pathlib
import subprocess

TOP = pathlib.Path(__file__).resolve().parents[2]


def with_library(**more):
    """The environment of a program that finds the shared object where pkg-config does."""
    libdir = subprocess.run(["pkg-config", "--variable=libdir", "zermuita"], stdout=subprocess.PIPE, text=True).stdout.strip()
    folders = ":".join(filter(None, (libdir, os.environ.get("LD_LIBRARY_PATH"))))
    return os.environ | {"LD_LIBRARY_PATH": folders} | more


def program(command=""):
    """The words that call `zermuita`: those of a command, whose program was built before; else it is built."""
    if command:
        first, *words = command.split()
        return [str(pathlib.Path(first).resolve()), *words]
    words = [os.environ.get("CARGO", "/usr/bin/cargo"), "build", "--offline", "--release", "-p", "zermuita-programs"]
    subprocess.run(words, cwd=TOP / "rust", check=True, env={"RUSTC": "/usr/bin/rustc"} | os.environ)
    folder = pathlib.Path(os.environ.get("CARGO_TARGET_DIR", TOP / "rust/target"))
    return [str(folder / "release/zermuita")]
