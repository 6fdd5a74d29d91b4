#!/usr/bin/env python3
"""leancop in a program in Python, by ctypes, over the static library as a shared object (docs/EMBEDDING.md):
    check.py LIBRARY PROBLEM DERIVATION [LOGIC [DOMAINS]]   judges, with the numbers of logic and domains of leancop.h
    check.py LIBRARY --formula PROBLEM [LOGIC [DOMAINS]]    prints line 3 of a derivation of the problem
    check.py LIBRARY --run WORD..                           runs the program over the files that are named by words"""
from __future__ import annotations

import ctypes
import os
import sys
from collections.abc import Callable
from ctypes import POINTER, byref, c_char_p, c_size_t, c_uint32, c_uint64
from typing import Any


class Judgement(ctypes.Structure):
    _fields_ = [("status", c_uint32), ("fault", c_uint32), ("line", c_uint64), ("offset", c_uint64), ("reserved", c_uint64 * 4)]


class Name(ctypes.Structure):
    _fields_ = [("text", ctypes.c_char * 32)]


class Bytes(ctypes.Structure):
    _fields_ = [("bytes", c_char_p), ("length", c_size_t)]


class File(ctypes.Structure):
    _fields_ = [("name", Bytes), ("bytes", Bytes)]


class Leancop:
    """What leancop.h declares. The texts are of type bytes, which ctypes hands on without a copy."""

    def __init__(self, path: str) -> None:
        library = ctypes.CDLL(os.path.abspath(path))
        self._check, self._formula, self._run = library.leancop_check, library.leancop_formula, library.leancop_run
        text: list[Any] = [c_char_p, c_size_t]
        room: list[Any] = [c_char_p, c_size_t, POINTER(c_uint64)]
        self._check.argtypes = [c_uint32, c_uint32] + text + text + [POINTER(Judgement)]
        self._formula.argtypes = [c_uint32, c_uint32] + text + room
        self._run.argtypes = [POINTER(Bytes), c_size_t, POINTER(File), c_size_t, *room]
        self._check.restype, self._formula.restype, self._run.restype = None, c_uint32, c_uint32
        self._fault_name, self._cause_name = library.leancop_fault_name, library.leancop_cause_name
        for call in self._fault_name, self._cause_name:
            call.argtypes, call.restype = [c_uint32], Name

    def check(self, problem: bytes, derivation: bytes, logic: int = 0, domains: int = 0) -> Judgement:
        told = Judgement()
        self._check(logic, domains, problem, len(problem), derivation, len(derivation), byref(told))
        return told

    def fault_name(self, fault: int) -> str:
        return self._fault_name(fault).text.decode()

    def cause_name(self, cause: int) -> str:
        return self._cause_name(cause).text.decode()

    def _with_room(self, call: Callable[..., int], size: int = 65536) -> tuple[int, bytes]:
        """The status and the output of a call, which is made again where it needs more room."""
        while True:
            room, length = ctypes.create_string_buffer(size), c_uint64()
            status = call(room, size, byref(length))
            if length.value <= size:
                return status, room.raw[:length.value]
            size = length.value

    def formula(self, problem: bytes, logic: int = 0, domains: int = 0) -> tuple[int, bytes]:
        return self._with_room(lambda *room: self._formula(logic, domains, problem, len(problem), *room))

    def run(self, words: list[bytes], files: dict[bytes, bytes]) -> tuple[int, bytes]:
        """`files` is a dictionary of bytes by name."""
        given = (Bytes * max(1, len(words)))(*[Bytes(w, len(w)) for w in words])
        held = (File * max(1, len(files)))(*[File(Bytes(n, len(n)), Bytes(b, len(b))) for n, b in files.items()])
        return self._with_room(lambda *room: self._run(given, len(words), held, len(files), *room))


def read(name: str | bytes) -> bytes:
    with open(name, "rb") as file:
        return file.read()


def main(library: str, *words: str) -> int:
    leancop = Leancop(library)
    if words[0] == "--run":
        given = [os.fsencode(w) for w in words[1:]]
        status, output = leancop.run(given, {w: read(w) for w in given if os.path.isfile(w)})
        sys.stdout.buffer.write(output)
        return status
    if words[0] == "--formula":
        status, text = leancop.formula(read(words[1]), *map(int, words[2:]))
        sys.stdout.buffer.write(b"formula " + text + b"\n" if status == 0 else b"")
        return status
    told = leancop.check(read(words[0]), read(words[1]), *map(int, words[2:]))
    place = "" if told.offset == 2**64 - 1 else f"{words[0]}:{told.offset}: "
    print({0: "accepted", 8: f"rejected at line {told.line}: {leancop.fault_name(told.fault)}",
           4: place + leancop.cause_name(told.fault)}.get(told.status, ""))
    return told.status


if __name__ == "__main__":
    if len(sys.argv) < 4:
        sys.exit(__doc__)
    sys.exit(main(*sys.argv[1:]))
