"""What `./explain` does with each of its words."""

from __future__ import annotations

import sys

from .dates import DateFault, converted
from .events import Unlike, explained
from .library import ZoneFault, master_lines
from .options import DATE, ZONE, OptionFault, Options, is_option
from .parts import Missing

# The chain of a zone that comes of a master file: of names, with signatures that hold a week.
CHAIN = "nsec 0 604800"


class FileFault(Exception):
    """A file cannot be read."""


def write(text: str) -> None:
    sys.stdout.buffer.write(text.encode())


def explain_session(octets: bytes, options: Options) -> None:
    for it in explained(octets, has_octets=options.has_octets):
        write(getattr(it, options.style)())


def print_zone(file: str, text: bytes, options: Options) -> bool:
    """Prints the lines of a session for a master file, or why it is refused; whether it is read."""
    try:
        write(master_lines(text, options.origin, CHAIN).decode())
    except ZoneFault as fault:
        sys.stdout.flush()
        print(f"{file}: {f'line {fault.line}: ' if fault.line else ''}{fault}", file=sys.stderr)
        return False
    return True


def serve(word: str, count: int, options: Options) -> bool:
    """Does what is asked with one word; whether it is accepted."""
    if options.task == DATE:
        try:
            write(f"{converted(word)}\n")
        except DateFault as fault:
            raise DateFault(f"{word}: {fault}") from None
        return True
    try:
        with open(word, "rb") as file:
            octets = file.read()
    except OSError as error:
        raise FileFault(f"reading {word}: {error.strerror}") from None
    if options.task == ZONE:
        write(f"==> {word}\n" if count > 1 else "")
        return print_zone(word, octets, options)
    write("" if options.style == "object" else f"==> {word}\n")
    explain_session(octets, options)
    return True


def run(words: list[str]) -> int:
    options, refused = Options(), 0
    count = sum(not is_option(word) for word in words)
    for word in words:
        if is_option(word):
            options = options.with_option(word)
        else:
            refused += not serve(word, count, options)
    if not count:
        explain_session(sys.stdin.buffer.read(), options)
    if refused:
        print(f"explain: {refused} of {count} master files are refused", file=sys.stderr)
    return 1 if refused else 0


def main(words: list[str]) -> int:
    try:
        return run(words)
    except (DateFault, FileFault, Missing, OptionFault, Unlike) as fault:
        sys.stdout.flush()
        print(f"explain: {fault}", file=sys.stderr)
        return 1
    except MemoryError:
        print("explain: out of memory", file=sys.stderr)
        return 1
    except BrokenPipeError:
        sys.stderr.close()
        return 1

