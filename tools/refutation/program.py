"""Other programs: leancop, which judges all that is printed, and what ends with this process."""
from __future__ import annotations

import contextlib
import os
import signal
import subprocess
import sys
from collections.abc import Iterator
from dataclasses import dataclass
from types import FrameType
from typing import NoReturn

TOOLS = os.path.dirname(os.path.dirname(os.path.realpath(__file__)))
MOST_STEPS = 1_099_511_627_776


class Answer(Exception):
    """The end of a run: the exit status, and what is said of it."""

    def __init__(self, status: int, said: str) -> None:
        super().__init__(said)
        self.status, self.said = status, said


@dataclass(frozen=True)
class Ended:
    status: int
    output: bytes

    @property
    def line(self) -> str:
        return self.output.split(b"\n", 1)[0].decode("latin-1").strip()


def run(words: list[str], given: bytes, seconds: float | None, silent: bool = False) -> Ended | None:
    """Runs a program to its end, or None where the time ends before it."""
    errors = subprocess.DEVNULL if silent else None
    try:
        told = subprocess.run(words, input=given, stdout=subprocess.PIPE, stderr=errors, timeout=seconds, check=False)
    except subprocess.TimeoutExpired:
        return None
    return Ended(told.returncode, told.stdout)


def stop(number: int, _: FrameType | None) -> NoReturn:
    sys.exit(128 + number)  # and what is run is killed on the way out


def end_with_children() -> None:
    """Where this process is asked to end, what it runs ends too."""
    for number in (signal.SIGHUP, signal.SIGINT, signal.SIGTERM):
        signal.signal(number, stop)


@contextlib.contextmanager
def within(seconds: float, answer: Answer) -> Iterator[None]:
    """Gives the answer where the time ends before what is done inside."""
    def end(_: int, __: FrameType | None) -> NoReturn:
        raise answer

    before = signal.signal(signal.SIGALRM, end)
    signal.setitimer(signal.ITIMER_REAL, seconds)
    try:
        yield
    finally:
        signal.setitimer(signal.ITIMER_REAL, 0)
        signal.signal(signal.SIGALRM, before)


def put(output: bytes) -> bool:
    """Writes all to standard output, and tells whether that went well."""
    try:
        sys.stdout.buffer.write(output)
        sys.stdout.flush()
    except OSError:
        os.dup2(os.open(os.devnull, os.O_WRONLY), sys.stdout.fileno())  # so that the end of the run says nothing more
        return False
    return True


def find_program() -> str:
    """The program that LEANCOP names, else the built one of this checkout, else that of PATH. Nothing is built by this."""
    named = os.environ.get("LEANCOP") or None
    checkout = os.path.exists(os.path.join(TOOLS, "../crates/leancop"))
    built = os.path.join(TOOLS, "../crates/leancop/out/leancop")
    found = named or (built if checkout else "leancop")
    if any(os.access(os.path.join(folder, found), os.X_OK) for folder in ([""] if "/" in found else os.get_exec_path())):
        return found
    if named is None and checkout:
        raise Answer(70, "the program is not built: run ./leancop once, or name it by LEANCOP")
    raise Answer(70, f"there is no program {found}; LEANCOP names it")


@dataclass(frozen=True)
class Question:
    """A problem's file and its setting, as the program takes them."""
    program: str
    file: str
    logic: str
    domains: str
    root: str | None

    @property
    def words(self) -> list[str]:
        domains = [] if self.logic in ("classical", "intuitionistic") else ["--domains=" + self.domains]
        return [self.file, "--logic=" + self.logic, *domains, *([] if self.root is None else ["--root=" + self.root])]

    def ask(self, command: str, *words: str, given: bytes = b"", seconds: float | None = None) -> Ended | None:
        try:
            return run([self.program, command, *self.words, *words], given, seconds)
        except OSError as fault:
            raise Answer(70, f"{self.program}: {fault.strerror}") from fault

    def must_be_read(self) -> None:
        """The program reads the problem, and finds the wrong line of an empty derivation alone."""
        told = self.ask("check", "/dev/stdin")
        if told is None or told.line != "rejected at line 1: version":
            raise Answer(told.status if told and told.status else 70, told.line if told and told.line else "no answer of the program")

    def judged(self, structure: str) -> str:
        """What the program says of a structure."""
        told = self.ask("model", "/dev/stdin", f"--steps={MOST_STEPS}", given=structure.encode("latin-1"))
        return told.line if told is not None and told.status in (0, 9, 10) else "no answer of the program"

    def accepts(self, derivation: bytes) -> bool:
        told = self.ask("check", "/dev/stdin", given=derivation)
        return told is not None and (told.status, told.line) == (0, "accepted")

    def derives(self, seconds: float) -> bool:
        told = self.ask("prove", seconds=seconds)
        return told is not None and told.status == 0 and self.accepts(told.output)


def tell(name: str, said: str) -> None:
    print(f"{name}: {said}", file=sys.stderr)
