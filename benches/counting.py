"""Builds benches, and counts what they do, with callgrind and memcheck."""
import pathlib
import re
import string
import subprocess
import sys

# What counts all layers but the program itself; the signs of labels.
BENCH = "bench_counts"
PLAIN = string.ascii_lowercase + string.digits
TOP = pathlib.Path(__file__).resolve().parent.parent
FOUND = {"callgrind": r"Collected : (\d+)", "memcheck": r"total heap usage: ([\d,]+) allocs"}


def program(bench):
    return TOP / "crates" / bench / "out" / bench


def build(bench, lines=()):
    """Proves and builds a bench, and runs it once on lines that it takes."""
    folder = TOP / "crates" / bench
    subprocess.run(["rt", "run"], cwd=folder, input="\n".join([*lines, ""]), text=True, capture_output=True, check=True)


def counted(bench, lines, tool="callgrind"):
    """Instructions, or with memcheck blocks of memory, of a bench on lines of input; and what it prints."""
    words = ["valgrind", f"--tool={tool}", str(program(bench))]
    if tool == "callgrind":
        words.insert(2, "--callgrind-out-file=/dev/null")
    ran = subprocess.run(words, input="\n".join([*lines, ""]), capture_output=True, text=True)
    found = re.search(FOUND[tool], ran.stderr)
    if ran.returncode or not found:
        sys.exit(f"{' '.join(words)} ended with {ran.returncode}\n{ran.stdout}{ran.stderr}")
    return int(found[1].replace(",", "")), ran.stdout
