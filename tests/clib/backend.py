"""libzermuita-openssl as it is installed, and built with sanitizers over the same archive: what tests/clib/run tries of it."""

from __future__ import annotations

import collections
import dataclasses
import pathlib
import re
import subprocess
import sys

import answers
import backend_keys
import backend_text
import walks

HERE = pathlib.Path(__file__).resolve().parent
TOP = HERE.parents[1]
BACKEND = TOP / "backends/openssl"
HEADER = (BACKEND / "include/zermuita_openssl.h").read_text()
ALGORITHMS = bytes([8, 10, 13, 14, 15, 16])
WARNINGS = ["-Wall", "-Wextra", "-Wpedantic", "-Wconversion", "-Werror"]
CASES = ["backend.c", "cases.c", "judgement.c", "buffer.c", "text.c"]
WRAP = ["-Wl,--wrap=malloc,--wrap=realloc,--wrap=free"]
WANT, MESSAGE_TOO_LONG = 33, 28
# How many cases are left out behind each that is judged under valgrind, and with each request of memory refused.
STEP = 40


def run(*words, **more) -> str:
    ran = subprocess.run([str(it) for it in words], text=True, stdout=subprocess.PIPE, **more)
    if ran.returncode:
        sys.exit(f"{' '.join(map(str, words))}: status {ran.returncode}\n{ran.stdout}")
    return ran.stdout


def expect(holds: object, what: str) -> None:
    if not holds:
        sys.exit(f"not so: {what}")


def install(library) -> None:
    """Builds and installs it below the library's prefix."""
    words = ["make", "-C", BACKEND, f"PREFIX={library.prefix}", f"O={library.room}/openssl"]
    run(*words, "install", env=library.environment, stderr=subprocess.STDOUT)


def remove(library) -> None:
    """Takes away what was installed."""
    run("make", "-C", BACKEND, f"PREFIX={library.prefix}", "uninstall", env=library.environment)


def archive(library, compiler: str, flags: tuple[str, ...]) -> pathlib.Path:
    """The backend's archive, built with flags; only its own names are seen."""
    name = re.sub("[^a-z]+", "-", " ".join([compiler, *(it for it in flags if it.startswith("-fsanitize"))]))
    made = library.room / f"openssl-{name}/libzermuita-openssl.a"
    words = ["make", "-C", BACKEND, f"PREFIX={library.prefix}", f"O={made.parent}", f"CC={compiler}"]
    run(*words, f"CFLAGS={' '.join(['-O2', '-Wconversion', '-Werror', *flags])}", made, env=library.environment)
    return made


def build(library, name: str, sources: list[str], compiler: str = "cc", flags: tuple[str, ...] = ()) -> pathlib.Path:
    """A program over the backend's archive, built in the same way, and the library's."""
    program = library.room / name
    own = archive(library, compiler, tuple(it for it in flags if not it.startswith("-Wl,")))
    words = [compiler, "-std=gnu11", "-O2", *WARNINGS, *flags, "-I", library.prefix / "include"]
    run(*words, "-o", program, *(HERE / it for it in sources), own, library.prefix / "lib/libzermuita.a", "-lcrypto")
    return program


def with_algorithms(it):
    return dataclasses.replace(it, algorithms=it.algorithms or ALGORITHMS)


def judgements():
    """All answers, with places in turn. A message that is too long is judged as received, which the backend does by itself."""
    return [dataclasses.replace(with_algorithms(it), places=at % 2) for at, it in enumerate(answers.answers())]


def without_calls(line: str, is_walk: bool) -> tuple[str, ...]:
    words = line.split(" ")
    at = 4 if is_walk else 3
    return tuple(words[:at] + words[at + 1 :])


def are_alike(one: str, other: str, is_walk: bool) -> bool:
    """Whether lines say the same. With ZERMUITA_WANT a result has the first message alone."""
    first, second = without_calls(one, is_walk), without_calls(other, is_walk)
    if is_walk and first[1] == str(WANT):
        return first[:-1] == second[:-1] and first[-1].startswith(second[-1])
    return first == second


def compare(way: str, wanted: list[str], found: list[str], is_walk: bool) -> None:
    expect(len(wanted) == len(found), f"{way}: a line for each, not {len(found)} of {len(wanted)}")
    for one, other in zip(wanted, found):
        expect(are_alike(one, other, is_walk), f"{way}: {other}, and by hand {one}")


def text_of_judgements(cases) -> str:
    return "\n".join([*(it.line() for it in cases), ""])


def text_of_walks(walked) -> str:
    return "\n".join([*(it.line() for it in (*walks.lines()[0], *walked)), ""])


def test_judged(library, ways, wanted) -> None:
    """The same as the program says that calls the library itself: in all ways, judgements and walks."""
    all_cases, all_walks = judgements(), [*(of := walks.lines()[1]), *walks.below_root(of)]
    whole = wanted(text_of_judgements(all_cases)), wanted(text_of_walks(all_walks))
    installed = library.room / "backend-installed"
    flags = run("pkg-config", "--cflags", "--libs", "zermuita-openssl", env=library.environment).split()
    sources = [HERE / it for it in ("backend_answers.c", *CASES)]
    run("cc", "-std=gnu11", *WARNINGS, *sources, *flags, "-lcrypto", "-o", installed)
    programs = {"installed": ([], installed)}
    for way, (before, compiler, more) in ways.items():
        programs[way] = before, build(library, f"backend-{way.replace(' ', '-')}", ["backend_answers.c", *CASES], compiler, tuple(more))
    for way, (before, program) in programs.items():
        step = STEP if before else 1
        for is_walk, cases, text, all_said in ((False, all_cases, text_of_judgements, whole[0]), (True, all_walks, text_of_walks, whole[1])):
            said = run(*before, program, input=text(cases[::step]), env=library.environment).splitlines()
            compare(way, all_said[::step], said, is_walk)
        print(f"backend, {way}: {len(all_cases[::step])} judgements and {len(all_walks[::step])} walks as by hand", flush=True)


def test_again(library, ways) -> None:
    """A walk one of whose messages comes altered at first ends as one over right messages, and is refused if it never comes right."""
    walked = [it for it in walks.lines()[1] if not it.without][::3]
    program = build(library, "backend-again", ["backend_again.c", *CASES], "clang", tuple(ways["clang with sanitizers"][2]))
    right = [it.split(" ") for it in run(program, 0, 0, "cut", input=text_of_walks(walked)).splitlines()]
    counts: collections.Counter[str] = collections.Counter()
    for how in ("cut", "flip"):
        for number in range(4):
            for times in (1, 2, 3):
                said = [it.split(" ") for it in run(program, number, times, how, input=text_of_walks(walked)).splitlines()]
                for (reply, _, octets), (its, again, its_octets) in zip(right, said, strict=True):
                    is_right = (reply, octets) == (its, its_octets)
                    expect(is_right or times == 3 or int(again) >= 2, f"{how} {number}, {times} times: {its} {its_octets}, not {reply} {octets}")
                    counts["as right" if is_right else "refused"] += 1
    print(f"backend, messages that come altered and are fetched again: {dict(counts)}", flush=True)


def test_signatures(library, ways) -> None:
    """Signatures of standards, at the limits of keys, and altered: as the rows say, and where no limit is in the way as `cryptography`."""
    rows = backend_keys.rows()
    text = "".join(f"{it.line()}\n" for it in rows)
    for way in ("gcc", "clang with sanitizers", "valgrind"):
        before, compiler, more = ways[way]
        program = build(library, f"backend-words-{way.replace(' ', '-')}", ["backend_words.c", "buffer.c", "text.c"], compiler, tuple(more))
        said = [int(it) for it in run(*before, program, input=text).split()]
        for row, says in zip(rows, said, strict=True):
            expect(says == row.says, f"{way}: {row.what}: {says}, and not {row.says}")
            is_limited = says == backend_keys.BAD_KEY_SIZE
            expect(is_limited or (says == backend_keys.PASSES) == backend_keys.passes_elsewhere(row), f"{row.what}: cryptography says otherwise")
        expect(run(*before, program, input=backend_text.text(library.room)) == backend_text.printed(library.room), f"{way}: texts")
        print(f"backend, {way}: {len(rows)} signatures, {len(backend_text.rows(library.room))} texts as written", flush=True)
    print(f"backend: by result {dict(sorted(collections.Counter(it.says for it in rows).items()))}", flush=True)


def test_texts(program) -> None:
    """The sentences are the header's."""
    wanted = {kind: {} for kind in ("checked", "error")}
    for kind, found in wanted.items():
        body = re.search(rf"^enum zermuita_openssl_{kind} \{{$(.*?)^\}};$", HEADER, re.MULTILINE | re.DOTALL)[1]
        found.update({int(number): f"{name}: {text}" for name, number, text in re.findall(r"(ZERMUITA_\w+) = (\d+),? */\* (.*) \*/", body)})
    rows = [it.split("|") for it in run(program, input="texts\n").splitlines()]
    for at, (checked, error) in enumerate(rows):
        expect(checked == wanted["checked"].get(at, "not a result of a check"), f"text of {at}: {checked}")
        expect(error == wanted["error"].get(at, "not an error of this library"), f"text of {at}: {error}")


def test_calls(library, ways) -> None:
    for compiler, language, standard in (("gcc", "c", "c11"), ("clang", "c", "c11"), ("g++", "c++", "c++17"), ("clang++", "c++", "c++17")):
        program = library.room / f"backend-calls-{compiler}"
        flags = run("pkg-config", "--cflags", "--libs", "zermuita-openssl", env=library.environment).split()
        run(compiler, "-x", language, f"-std={standard}", *WARNINGS, HERE / "backend_calls.c", "-x", "none", *flags, "-o", program)
        expect(run(program, TOP / "examples/c/nsec.test", env=library.environment) == "", f"{program.name}: calls")
    sanitized = build(library, "backend-calls-sanitized", ["backend_calls.c"], "clang", tuple(ways["clang with sanitizers"][2]))
    expect(run(sanitized, TOP / "examples/c/nsec.test") == "", "calls, with sanitizers")
    words = build(library, "backend-words", ["backend_words.c", "buffer.c", "text.c"])
    test_texts(words)
    declared = set(re.findall(r"(?<!typedef )\b(zermuita_openssl_\w+)\(", re.sub(r"/\*.*?\*/|typedef [^;]*;", "", HEADER, flags=re.DOTALL)))
    for file, words in (("libzermuita-openssl.so", ["-D"]), ("libzermuita-openssl.a", ["-g"])):
        lines = run("nm", *words, "--defined-only", library.prefix / "lib" / file).splitlines()
        found = {it.split(" ")[2].split("@")[0] for it in lines if re.search(" [^Aa] ", it)}
        expect(found == declared, f"{file} has {sorted(found ^ declared)}")
    print(f"backend: calls as C11 and C++17, {len(declared)} symbols", flush=True)


def one_of_each(cases):
    """The first of each reply, and each of many besides."""
    first = {}
    for it in cases:
        first.setdefault(it.reply.number, it)
    return [*first.values(), *cases[:: len(cases) // 5]]


def test_hostile(library) -> None:
    refuse = build(library, "backend-refuse", ["backend_refuse.c", "heap.c", *CASES], flags=tuple(WRAP))
    chosen = one_of_each(judgements())
    print("backend, refused memory:", run(refuse, input=text_of_judgements(chosen)), end="", flush=True)
    walked = one_of_each(walks.lines()[1])
    print("backend, refused memory of walks:", run(refuse, 500, input=text_of_walks(walked)), end="", flush=True)
    threads = build(library, "backend-threads", ["backend_threads.c", *CASES], flags=("-pthread",))
    print("backend:", run(threads, input=text_of_judgements(judgements()[::5])), end="", flush=True)
    watched = build(library, "backend-threads-watched", ["backend_threads.c", *CASES], "clang", ("-g", "-pthread", "-fsanitize=thread"))
    print("backend, threads watched:", run(watched, input=text_of_judgements(judgements()[::STEP])), end="", flush=True)
