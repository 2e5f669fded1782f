"""The backend for OpenSSL, as it is installed, by ctypes: what it says must be what the library says through C."""

from __future__ import annotations

import ctypes
import pathlib
from typing import Any

from . import zermuita as by_library
from .outcome import Case, Said

zermuita = by_library.zermuita
ALGORITHMS = bytes(by_library.ALGORITHMS)


class Octets(ctypes.Structure):
    _fields_ = [("data", ctypes.c_void_p), ("len", ctypes.c_size_t)]

    def octets(self) -> bytes:
        return ctypes.string_at(self.data, self.len) if self.len else b""


class Backend:
    """Judges as `zermuita.Library` does, whose texts it has."""

    def __init__(self, path: pathlib.Path) -> None:
        library = path.parent / zermuita.SONAME
        ctypes.CDLL(str(library), mode=ctypes.RTLD_GLOBAL)
        self.texts, self.object = zermuita.Library(str(library)), ctypes.CDLL(str(path))
        for name, kind in (("new", ctypes.c_void_p), ("judge", ctypes.c_void_p), ("report", ctypes.POINTER(zermuita._c.Report)), ("target", Octets)):
            self.function(name).restype = kind
        self.checker = ctypes.c_void_p(self.function("new")())

    def function(self, name: str) -> Any:
        return getattr(self.object, f"zermuita_openssl_{name}")

    def strerror(self, reply: int) -> str:
        return self.texts.strerror(reply)

    def judge(self, case: Any, _passes: object) -> Any:
        room = zermuita.room_of_case(case, case.now, b"", ALGORITHMS)
        result = ctypes.c_void_p(self.function("judge")(self.checker, room))
        try:
            reply, report = self.function("reply")(result), self.function("report")(result).contents
            if not reply <= max(zermuita.Verdict):
                raise zermuita.Refused(reply, self.strerror(reply), report.ede, report.verifications, report.hashes)
            counts = report.verifications, report.hashes, report.ttl, report.until, report.ede
            return zermuita.Judgement(zermuita.Verdict(reply), [], *counts, b"", target=self.function("target")(result).octets() or None)
        finally:
            self.function("result_free")(result)


def run(cases: list[Case], path: str) -> tuple[str, dict[str, Said]]:
    if not path or not pathlib.Path(path).exists():
        raise SystemExit("corpus/run openssl --library PATH: libzermuita-openssl.so, as its Makefile installs it")
    backend = Backend(pathlib.Path(path).resolve())
    version = "backend of zermuita " + ".".join(map(str, backend.texts.version))
    return version, {it["id"]: by_library.said(backend, it) for it in cases}
