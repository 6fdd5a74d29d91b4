"""Why no finite structure refutes a formula: it is derived, or it is in intuitionistic logic from instances of the double negation shift."""
from __future__ import annotations

import os
import tempfile
from dataclasses import replace

import canonical_formula as canonical

from .formulas import Formula, Problem, parts_of
from .program import Question

SECONDS = 2.0  # for each proof
TRUE = canonical.text(canonical.TRUE, {})


def why_there_is_none(question: Question, problem: Problem) -> tuple[int, str]:
    """The exit status of a search without a structure, and what is said."""
    if question.derives(SECONDS):
        return 2, "there is none: `leancop prove` derives the formula"
    if question.logic == "intuitionistic" and follows_from_shift(question, problem):
        return 2, "it is true in every finite structure: `leancop prove` derives it from instances of the double negation shift, which are"
    return 1, ""


def follows_from_shift(question: Question, problem: Problem) -> bool:
    """Whether the program derives the formula from `![X]:~~A => ~~![X]:A` for its own universal parts. Above each world of a finite
    intuitionistic structure stands one that reaches no other, so these are true there."""
    shifts: dict[str, None] = {}
    seen: dict[int, Formula] = {}
    for _, formula in problem.items:
        collect_shifts(formula, shifts, seen)
    if not shifts:
        return False
    items = [f"fof(shift,axiom,{text})." for text in shifts]
    items += [f"fof(item,{role},{canonical.text(formula, {None: 0})})." for role, formula in problem.items]
    with tempfile.TemporaryDirectory() as folder:
        file = os.path.join(folder, "with_shift.p")
        with open(file, "w", encoding="latin-1") as written:
            written.write("\n".join(items).replace(TRUE, "$true") + "\n")
        return replace(question, file=file).derives(SECONDS)


def collect_shifts(f: Formula, shifts: dict[str, None], seen: dict[int, Formula]) -> None:
    if id(f) in seen or f[0] in ("atom", "equal"):
        return
    seen[id(f)] = f
    if f[0] == "all":
        premise: Formula = ("imp", ("all", ("not", ("not", f[1])), f[2]), ("not", ("not", f)))
        for name in reversed(free_names(f)):
            premise = ("all", premise, name)
        shifts[canonical.text(premise, {None: 0})] = None
    for part in parts_of(f):
        collect_shifts(part, shifts, seen)


def free_names(f: Formula, bound: tuple[str, ...] = ()) -> list[str]:
    if f[0] == "var":
        return [] if f[1] in bound else [f[1]]
    inner = bound + (f[2],) if f[0] in ("all", "ex") else bound
    return list(dict.fromkeys(name for part in parts_of(f) for name in free_names(part, inner)))
