"""A SAT solver of Debian as a process: cadical, minisat, picosat or cryptominisat."""
from __future__ import annotations

import os
import shutil
import tempfile
import time

from .program import Answer, Ended, run
from .structures import Structure, T, dimacs

SOLVERS = ("cadical", "minisat", "picosat", "cryptominisat5")
WORDS = {"cadical": ["-q", "--phase=0"], "picosat": ["-i", "0"], "cryptominisat5": ["--verb=0"]}
SATISFIABLE, UNSATISFIABLE = 10, 20
Truths = list[bool]  # by variable


def find_solver(named: str | None) -> str:
    """The solver of this name, or the first that is there."""
    if named == "cryptominisat":
        named = "cryptominisat5"
    for solver in SOLVERS if named is None else (named,):
        if solver in SOLVERS and shutil.which(solver):
            return solver
    if named is not None:
        raise Answer(70, f"the solver {named} is not here" if named in SOLVERS else f"the solver is one of {', '.join(SOLVERS)}")
    raise Answer(70, f"no SAT solver is here: install one of the Debian packages {', '.join(SOLVERS[:3])} or cryptominisat")


class Solver:
    """The clauses of a structure, to which others can be added for one call."""

    def __init__(self, name: str, structure: Structure) -> None:
        self.name, self.structure = name, structure
        self.lines = structure.lines()

    def solve(self, more: list[list[int]], seconds: float) -> Truths | bool | None:
        """The truth of each variable, False where there is no assignment, None where the time did not suffice."""
        if self.lines is None:
            return False
        count, clauses = self.lines
        head = f"p cnf {self.structure.last} {count + len(more)}\n"
        text = (head + clauses + "".join(dimacs(clause + [0]) for clause in more)).encode()
        until = time.monotonic() + seconds
        told, answer = self.ask(text, max(0.05, until - time.monotonic()))
        if told is None or told.status not in (SATISFIABLE, UNSATISFIABLE):
            return None
        if told.status == UNSATISFIABLE:
            return False
        true = [False] * (self.structure.last + 1)
        for literal in map(int, answer):
            true[abs(literal)] = literal > 0
        true[T] = True
        return true

    def ask(self, text: bytes, seconds: float) -> tuple[Ended | None, list[bytes]]:
        if self.name != "minisat":
            told = run([self.name, *WORDS[self.name]], text, seconds, silent=True)
            lines = told.output.split(b"\n") if told else []
            return told, [x for line in lines if line.startswith(b"v") for x in line.split()[1:]]
        with tempfile.TemporaryDirectory() as folder:
            out = os.path.join(folder, "out")
            told = run([self.name, "-verb=0", "/dev/stdin", out], text, seconds, silent=True)
            if told is None or told.status != SATISFIABLE:
                return told, []
            with open(out, "rb") as answer:
                return told, answer.read().split()[1:]


def made_small(solver: Solver, true: Truths, until: float) -> Truths:
    """An assignment of which no smaller one has fewer truths among atoms and pairs of worlds."""
    soft = solver.structure.soft()
    for _ in range(40):
        on = [x for x in soft if true[abs(x)] == (x > 0)]
        if not on or time.monotonic() > until:
            break
        off = [[-x] for x in soft if true[abs(x)] != (x > 0)]
        less = solver.solve([*off, [-x for x in on]], until - time.monotonic())
        if not isinstance(less, list):
            break
        true = less
    return true
