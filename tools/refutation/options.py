"""The words of the commands that look for structures."""
from __future__ import annotations

import argparse
import contextlib
import os
import stat
import sys
import tempfile
from collections.abc import Iterator
from typing import NoReturn

from . import program
from .solver import SOLVERS

BAD_WORD = 5  # as of leancop


class Words(argparse.ArgumentParser):
    def __init__(self, prog: str, description: str | None, epilog: str) -> None:
        super().__init__(prog=prog, description=description, epilog=epilog, formatter_class=argparse.RawDescriptionHelpFormatter,
                         allow_abbrev=False, usage=f"{prog} FILE [--logic=L] [--domains=D] [--root=FOLDER] [options]")

    def error(self, message: str) -> NoReturn:
        program.tell(self.prog, message)
        sys.exit(BAD_WORD)

    def parsed(self, arguments: list[str], others: str | None = None) -> argparse.Namespace:
        """The words; what is unknown has a name of its own, or is an error."""
        given, unknown = self.parse_known_args(arguments)
        if others is not None and all(word.startswith("--") for word in unknown):
            setattr(given, others, unknown)
        elif unknown:
            self.error("unknown: " + " ".join(unknown))
        if given.domains and given.logic in ("classical", "intuitionistic"):
            self.error("--domains= needs a modal logic")
        return given


def count(text: str) -> int:
    if not 1 <= int(text) <= 64:
        raise ValueError
    return int(text)


def seconds(text: str) -> float:
    if not 0 < float(text) < 1e6:
        raise ValueError
    return float(text)


def add_setting(words: Words) -> None:
    words.add_argument("file", metavar="FILE", help="the problem")
    words.add_argument("--logic", metavar="L", default="classical", choices=["classical", "intuitionistic", "d", "t", "s4", "s5"],
                       help="the logic: classical (without the option), intuitionistic, d, t, s4 or s5")
    words.add_argument("--domains", metavar="D", choices=["constant", "cumulative", "varying"],
                       help="the domains, in d, t, s4 and s5: constant (without the option), cumulative or varying")
    words.add_argument("--root", metavar="FOLDER", help="where included files are looked for")


def add_bounds(words: Words) -> None:
    words.add_argument("--worlds-max", metavar="W", type=count, help="the greatest number of worlds (20; 40 in d and t without quantifiers)")
    words.add_argument("--elements-max", metavar="E", type=count, default=12, help="the greatest number of elements (12)")
    words.add_argument("--solver", metavar="NAME", help="the SAT solver: " + ", ".join(SOLVERS) + " (the first of them that is here)")


@contextlib.contextmanager
def file_of_problem(name: str) -> Iterator[str]:
    """The file, or a copy of what comes through a pipe: a problem is read by several processes."""
    is_shared = not name.startswith(("/dev/", "/proc/"))  # which are of one process
    if not os.path.exists(name) or os.path.isdir(name) or is_shared and stat.S_ISREG(os.stat(name).st_mode):
        yield name
        return
    with tempfile.TemporaryDirectory() as folder:
        copy = os.path.join(folder, "problem")
        with open(name, "rb") as pipe, open(copy, "wb") as kept:
            kept.write(pipe.read())
        try:
            yield copy
        except program.Answer as answer:
            raise program.Answer(answer.status, answer.said.replace(copy, name)) from answer
