#!/usr/bin/env python3
"""differential.py [--seed=N] [--time=SECONDS] [--keep=FOLDER] [--solver=NAME]

Random formulas in each logic and with each domain condition, given to `leancop prove` and to the search for a structure that refutes. It is
a fault where a formula has a derivation and a structure, where `leancop model` or the judge of tools/refutation/words.py does not find a
structure's formula false, where the derivation is not accepted, or where a structure was missed: a random one refutes what the search said
that none of this size does, or a greater size has none. Listed, and no fault: `no tableau` where no structure of up to four worlds and four
elements is there by the solver's word; such a problem is given fifteen times as long for that. --keep= gets the problems of both kinds.
Prints these, and a table by logic. Ends with 1 where there is a fault, and with 77 where no solver is here.

LEANCOP names the program; without it, it is that of this checkout."""
from __future__ import annotations

import collections
import itertools
import os
import random
import sys
import tempfile
import time

sys.dont_write_bytecode = True
sys.path.insert(0, os.path.join(os.path.dirname(os.path.realpath(__file__)), "../tools"))
from refutation import program, words  # noqa: E402
from refutation.formulas import EQUALITY, Problem, Symbol  # noqa: E402
from refutation.search import Bounds, Found, Search  # noqa: E402
from refutation.solver import find_solver  # noqa: E402

LOGICS = ["classical", "intuitionistic", "d", "t", "s4", "s5"]
DOMAINS = ["constant", "cumulative", "varying"]
GREATEST = 4  # worlds and elements
SECONDS = 4.0  # for a search for a structure
STEPS = "--steps=3000"
COLUMNS = ["formulas", "derived", "refuted", "no tableau and no structure", "out of time", "fault"]
RANDOM_STRUCTURES = 60


class Writer:
    """Random formulas of one kind."""

    def __init__(self, chance: random.Random, logic: str) -> None:
        self.chance = chance
        self.modal = logic not in ("classical", "intuitionistic")
        self.propositional = chance.random() < 0.3
        self.equality = not self.propositional and chance.random() < 0.3
        self.functions = chance.random() < 0.25
        self.wide = chance.random() < 0.1  # blocks of four quantifiers

    def problem(self) -> str:
        kind, depth = "qmf" if self.modal else "fof", self.chance.choice([3, 4] if self.wide else [3, 4, 5])
        items = [f"{kind}(a{i},axiom,{self.formula(depth - 1, [])})." for i in range(self.chance.choice([0, 0, 1, 2]))]
        if not items or self.chance.random() < 0.9:
            items.append(f"{kind}(c,conjecture,{self.formula(depth, [])}).")
        return "\n".join(items) + "\n"

    def formula(self, depth: int, names: list[str]) -> str:
        chance = self.chance
        if depth == 0 or chance.random() < 0.12:
            return self.atom(names)
        kind = chance.random()
        if kind < 0.15:
            return "~" + self.formula(depth - 1, names)
        if self.modal and kind < 0.42:
            return chance.choice(["#box:", "#dia:"]) + self.formula(depth - 1, names)
        if not self.propositional and kind < 0.65:
            bound = chance.sample("XYZUVW", 4 if self.wide and chance.random() < 0.5 else 1)
            inside = self.formula(depth - 1, names + [x for x in bound if x not in names])
            return f"({chance.choice('!?')}[{','.join(bound)}]:{inside})"
        sides = self.formula(depth - 1, names), self.formula(depth - 1, names)
        return f"({sides[0]} {chance.choice(['&', '|', '=>', '=>', '<=>'])} {sides[1]})"

    def atom(self, names: list[str]) -> str:
        if self.propositional:
            return self.chance.choice("pqr")
        kind, left, right = self.chance.random(), self.term(names), self.term(names)
        if self.equality and kind < 0.35:
            return f"({left} {self.chance.choice(['=', '!='])} {right})"
        return f"p({left})" if kind < 0.5 else f"s({left},{right})" if kind < 0.8 else "q"

    def term(self, names: list[str], inside: bool = False) -> str:
        if self.functions and not inside and self.chance.random() < 0.2:
            return f"f({self.term(names, True)})"
        return self.chance.choice(names) if names and self.chance.random() < 0.8 else self.chance.choice("ab")


def random_relation(chance: random.Random, logic: str, worlds: range) -> dict[int, list[int]]:
    density = 1.0 if logic == "s5" else chance.random()
    pairs = {(i, j) for i in worlds for j in worlds if chance.random() < density or i == j and logic != "d"}
    if logic == "d":
        pairs |= {(i, chance.choice(worlds)) for i in worlds if not any((i, j) in pairs for j in worlds)}
    if logic in ("s4", "intuitionistic"):
        for k, i, j in itertools.product(worlds, repeat=3):
            if (i, k) in pairs and (k, j) in pairs:
                pairs.add((i, j))
    return {i: [j for j in worlds if (i, j) in pairs] for i in worlds}


def random_structure(chance: random.Random, problem: Problem, most: int) -> words.Finite | None:
    """A structure of the problem's setting, or None where the domains have no values for a function."""
    worlds = range(1, 1 + (1 if problem.logic == "classical" else chance.randint(1, most)))
    elements = range(1, 1 + chance.randint(1, min(3, most)))
    reached = random_relation(chance, problem.logic, worlds)
    common = chance.choice(elements)
    domains = {w: {common} | {d for d in elements if chance.random() < 0.4} for w in worlds}
    if problem.domains == "constant":
        domains = {w: domains[1] for w in worlds}
    if problem.domains == "cumulative":
        for _, i in itertools.product(worlds, worlds):
            for j in reached[i]:
                domains[j] |= domains[i]
    found = words.Finite(problem.setting, reached, {w: sorted(d) for w, d in domains.items()}, {}, {})
    for name, arity in problem.functions:
        table = {}
        for arguments in itertools.product(elements, repeat=arity):
            values = set(elements)
            for domain in domains.values():
                if domain.issuperset(arguments):
                    values &= domain
            if not values:
                return None
            table[arguments] = chance.choice(sorted(values))
        found.functions[words.written(name), arity] = table
    for predicate in problem.predicates:
        found.predicates["=" if predicate == EQUALITY else words.written(predicate[0]), predicate[1]] = random_table(
            chance, problem, found, predicate, elements)
    return found


def random_table(chance: random.Random, problem: Problem, structure: words.Finite, predicate: Symbol,
                 elements: range) -> dict[int, set[tuple[int, ...]]]:
    worlds, density = list(structure.reached), chance.random()
    tuples = list(itertools.product(elements, repeat=predicate[1]))
    if predicate == EQUALITY and problem.equality:
        return {w: {t for t in tuples if t[0] == t[1]} for w in worlds}
    table = {w: {t for t in tuples if chance.random() < density} for w in worlds}
    if problem.logic == "intuitionistic":
        for _, i in itertools.product(worlds, worlds):
            for j in structure.reached[i]:
                table[j] |= table[i]
    return table


def is_false(problem: Problem, structure: words.Finite) -> bool:
    """Whether the formula is false at the root, by the judge in Python."""
    premises = [formula for role, formula in problem.items if role != "conjecture"]
    conjecture = next((formula for role, formula in problem.items if role == "conjecture"), None)
    return bool(words.why(structure, premises, conjecture, problem.logic, 0))


class Trial:
    """Faults and counts by logic."""

    def __init__(self, options: dict[str, str]) -> None:
        self.chance = random.Random(int(options.get("--seed", "1")))
        self.keep = options.get("--keep")
        self.solver = find_solver(options.get("--solver"))
        self.program = program.find_program()
        self.counts: dict[str, collections.Counter[str]] = {logic: collections.Counter() for logic in LOGICS}
        self.faults = 0

    def tell(self, logic: str, what: str, text: str, setting: str) -> None:
        """Prints a problem and what was found of it, and keeps it."""
        column = what if what in COLUMNS else "fault"
        self.counts[logic][column] += 1
        print(f"differential.py: {what}, {setting}:\n{text}", end="", flush=True)
        if self.keep:
            os.makedirs(self.keep, exist_ok=True)
            name = f"{column.replace(' ', '_')}_{setting.replace(' ', '_')}_{sum(c['formulas'] for c in self.counts.values())}.p"
            with open(os.path.join(self.keep, name), "w", encoding="latin-1") as file:
                file.write(f"% {setting}: {what}\n{text}")

    def fault(self, logic: str, what: str, text: str, setting: str) -> None:
        self.faults += 1
        self.tell(logic, what, text, setting)

    def one(self, file: str) -> None:
        logic = self.chance.choice(LOGICS)
        domains = self.chance.choice(DOMAINS)
        text = Writer(self.chance, logic).problem()
        with open(file, "w", encoding="latin-1") as written:
            written.write(text)
        question = program.Question(self.program, file, logic, domains, None)
        problem = Problem(file, None, logic, domains)
        self.counts[logic]["formulas"] += 1
        search = Search(problem, Bounds(GREATEST, GREATEST, SECONDS), self.solver)
        found = search.run()
        proved = question.ask("prove", "--limit=4", STEPS, seconds=2.0)
        derived = proved is not None and proved.status == 0
        if proved is not None and derived:
            self.counts[logic]["derived"] += 1
            if not question.accepts(proved.output):
                self.fault(logic, "a derivation is not accepted", text, problem.setting)
        has_no_tableau = proved is not None and proved.status == 2
        if found is None and has_no_tableau and not search.exhausted:
            search = Search(problem, Bounds(GREATEST, GREATEST, 15 * SECONDS), self.solver)
            found = search.run()
        if found is None:
            self.without(logic, search, text)
            if has_no_tableau and search.exhausted:
                self.tell(logic, "no tableau and no structure", text, problem.setting)
            return
        self.counts[logic]["refuted"] += 1
        if derived:
            self.fault(logic, "a derivation and a structure", text, problem.setting)
        structures = [found.text, search.smaller(found).text]
        size = self.chance.choice(search.sizes())
        other = search.attempt(size, SECONDS)
        if isinstance(other, Found):
            structures.append(other.text)
        elif other is False and search.covers(size, found.size):
            self.fault(logic, f"a structure was missed, {size}", text, problem.setting)
        for structure in dict.fromkeys(structures):
            if question.judged(structure) != "false at the root":
                self.fault(logic, "the program does not find it false", text, problem.setting)
            if not is_false(problem, words.Finite.read(structure)):
                self.fault(logic, "the judge in Python does not find it false", text, problem.setting)

    def without(self, logic: str, search: Search, text: str) -> None:
        """No structure is said to be there up to four worlds and elements."""
        if not search.exhausted:
            self.counts[logic]["out of time"] += 1
            return
        for _ in range(RANDOM_STRUCTURES):
            structure = random_structure(self.chance, search.problem, 3)
            if structure and is_false(search.problem, structure):
                self.fault(logic, "a structure was missed", text, search.problem.setting)
                return


def main(arguments: list[str]) -> int:
    options = dict((word + "=").split("=")[:2] for word in arguments)
    if set(options) - {"--seed", "--time", "--keep", "--solver"}:
        print(__doc__)
        return 0 if "--help" in options else 5
    sys.setrecursionlimit(100_000)
    program.end_with_children()
    try:
        trial = Trial(options)
    except program.Answer as answer:
        print(f"differential.py: {answer.said}")
        return 77
    end = time.monotonic() + float(options.get("--time", "60"))
    try:
        with tempfile.TemporaryDirectory() as folder:
            while time.monotonic() < end:
                trial.one(os.path.join(folder, "m.p"))
    finally:  # also where it is ended
        print("\t".join(["logic", *COLUMNS]))
        for logic, count in trial.counts.items():
            print("\t".join([logic, *(str(count[column]) for column in COLUMNS)]))
    return 1 if trial.faults else 0


if __name__ == "__main__":
    sys.exit(main(sys.argv[1:]))
