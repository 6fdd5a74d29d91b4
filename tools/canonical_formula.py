#!/usr/bin/env python3
"""canonical_formula.py PROBLEM [--logic=L] [--domains=D] [--root=FOLDER]

Prints the formula of a problem in its canonical text, as line 3 of a derivation has it: what another prover needs to write one, and
what a page needs to show a structure. It is worked out here, from a problem that the program reads, and printed only where the program
finds that it is the problem's own: a derivation of it without steps is rejected at its end, not at its formula.

LEANCOP names the program; without it, it is looked for beside this folder, then by PATH."""
from __future__ import annotations

import os
import re
import subprocess
import sys
from collections.abc import Iterable, Iterator
from typing import Any

Formula = tuple[Any, ...]  # ("and", f, g), ("all", f, variable), ("atom", name, terms) and so on
SKIPPED = re.compile(r"(?:[ \t\n\v\f\r]|%[^\n]*|/\*.*?\*/)*", re.S)
TOKEN = re.compile(r"""[$]{0,2}[a-z]\w*|\#[a-z]\w*|[A-Z]\w*|'(?:\\.|[^'\\])+'|"(?:\\.|[^"\\])*"
    |[+-]?[0-9]+(?:/[0-9]+|[.][0-9]+)?(?:[eE][+-]?[0-9]+)?|<=>|<~>|=>|<=|~\||~&|!=|[()\[\],.:~!?&|=]""", re.X | re.A)
TRUE = ("imp", ("atom", None, ()), ("atom", None, ()))  # None is the reserved atom


def name_of(token: str) -> str:
    return re.sub(r"\\(.)", r"\1", token[1:-1]) if token[0] == "'" else token


def balanced(kind: str, formulas: list[Formula]) -> Formula:
    if len(formulas) == 1:
        return formulas[0]
    half = (len(formulas) + 1) // 2
    return (kind, balanced(kind, formulas[:half]), balanced(kind, formulas[half:]))


def joined(op: str, a: Formula, b: Formula) -> Formula:
    both = ("and", ("imp", a, b), ("imp", b, a))
    return {"=>": ("imp", a, b), "<=": ("imp", b, a), "<=>": both, "<~>": ("not", both),
            "~|": ("not", ("or", a, b)), "~&": ("not", ("and", a, b))}[op]


def behind_space(text: str, at: int) -> int:
    found = SKIPPED.match(text, at)
    return found.end() if found else at


class Reader:
    """The items of a text, with what stands for something else written out."""

    def __init__(self, text: str) -> None:
        self.tokens: list[str] = []
        self.bound: list[str] = []
        self.free: list[str] = []
        self.at, at = 0, behind_space(text, 0)
        while at < len(text):
            found = TOKEN.match(text, at)
            if found is None:
                raise ValueError(f"no token at {at}")
            self.tokens.append(found[0])
            at = behind_space(text, found.end())

    def take(self, *tokens: str) -> str | None:
        if self.at < len(self.tokens) and self.tokens[self.at] in tokens:
            self.at += 1
            return self.tokens[self.at - 1]
        return None

    def next(self) -> str:
        self.at += 1
        return self.tokens[self.at - 1]

    def items(self) -> Iterator[tuple[Any, ...]]:
        """(kind, name, role, formula) for each formula, and ("include", file, names) for each include."""
        while self.at < len(self.tokens):
            kind, _, name = self.next(), self.next(), name_of(self.next())
            if kind == "include":
                names = None
                if self.take(","):
                    names, _ = [], self.next()
                    while not self.take("]"):
                        names.append(name_of(self.next()))
                        self.take(",")
                yield kind, name, names
            else:
                _, role, _ = self.next(), self.next(), self.next()
                self.bound, self.free = [], []
                formula = self.formula()  # a clause is a formula too
                for variable in reversed(self.free):
                    formula = ("all", formula, variable)
                yield kind, name, role, formula
            depth = 1
            while depth:  # the notes
                depth += {"(": 1, "[": 1, ")": -1, "]": -1}.get(self.next(), 0)
            self.next()

    def formula(self) -> Formula:
        a = self.unit()
        op = self.take("&", "|", "=>", "<=", "<=>", "<~>", "~|", "~&")
        if op is None:
            return a
        if op not in ("&", "|"):
            return joined(op, a, self.unit())
        units = [a, self.unit()]
        while self.take(op):
            units.append(self.unit())
        return balanced("and" if op == "&" else "or", units)

    def unit(self) -> Formula:
        if self.take("("):
            inside = self.formula()
            self.next()
            return inside
        if self.take("~"):
            return ("not", self.unit())
        operator = self.take("#box", "#dia")
        if operator:
            self.next()
            return (operator[1:], self.unit())
        quantifier = self.take("!", "?")
        if quantifier is None:
            return self.atom()
        names, _ = [], self.next()
        while not self.take("]"):
            names.append(self.next())
            self.take(",")
        self.next()
        self.bound += names
        formula = self.unit()
        del self.bound[len(self.bound) - len(names):]
        for name in reversed(names):
            formula = ("all" if quantifier == "!" else "ex", formula, name)
        return formula

    def atom(self) -> Formula:
        truth = self.take("$true", "$false")
        if truth:
            return TRUE if truth == "$true" else ("not", TRUE)
        left = self.term()
        equation = self.take("=", "!=")
        if equation:
            equal = ("equal", left, self.term())
            return equal if equation == "=" else ("not", equal)
        return ("atom",) + left[1:]

    def term(self) -> Formula:
        token = self.next()
        if token[0].isupper():
            if token not in self.bound and token not in self.free:
                self.free.append(token)
            return ("var", token)
        arguments = []
        if self.take("("):
            while not self.take(")"):
                arguments.append(self.term())
                self.take(",")
        return ("fun", name_of(token), tuple(arguments))


def passing(file: str, root: str | None, lists: list[list[str]]) -> Iterator[tuple[Any, ...]]:
    """The items of a file and of those that it includes, whose names stand in each list that encloses them."""
    with open(file, encoding="latin-1", newline="") as text:
        items = list(Reader(text.read()).items())
    for item in items:
        if item[0] == "include":
            inside = item[1] if root is None or item[1].startswith("/") else root + "/" + item[1]
            yield from passing(inside, root, lists + [item[2]] * (item[2] is not None))
        elif all(item[1] in names for names in lists):
            yield item


def symbols(f: Formula, functions: dict[tuple[str, int], None], predicates: dict[tuple[str, int], None]) -> bool:
    """Collects symbols in the order of their first places, and tells whether there is an equation."""
    if f[0] == "var":
        return False
    if f[0] in ("fun", "atom"):
        (functions if f[0] == "fun" else predicates).setdefault((f[1], len(f[2])))
    parts = f[2] if f[0] in ("fun", "atom") else [x for x in f[1:] if isinstance(x, tuple)]
    return any([f[0] == "equal"] + [symbols(x, functions, predicates) for x in parts])


def equality_axioms(functions: Iterable[tuple[str | None, int]], predicates: Iterable[tuple[str | None, int]]) -> Iterator[Formula]:
    x = [("var", "X%d" % i) for i in range(1, 1 + max([3] + [2 * n for _, n in [*functions, *predicates]]))]

    def closed(n: int, formula: Formula) -> Formula:
        for i in reversed(range(n)):
            formula = ("all", formula, x[i][1])
        return formula

    yield closed(1, ("equal", x[0], x[0]))
    yield closed(2, ("imp", ("equal", x[0], x[1]), ("equal", x[1], x[0])))
    yield closed(3, ("imp", ("and", ("equal", x[0], x[1]), ("equal", x[1], x[2])), ("equal", x[0], x[2])))
    for kind, (name, n) in [("fun", s) for s in functions if s[1]] + [("atom", s) for s in predicates if s[1]]:
        pairs = balanced("and", [("equal", x[i], x[n + i]) for i in range(n)])
        left, right = (kind, name, tuple(x[:n])), (kind, name, tuple(x[n:2 * n]))
        yield closed(2 * n, ("imp", pairs, ("equal", left, right)) if kind == "fun" else ("imp", ("and", pairs, left), right))


def text(f: Formula, env: dict[Any, Any]) -> str:
    kind = f[0]
    if kind == "var":
        return env[f[1]]
    if kind in ("fun", "atom"):
        name = "$$o" if f[1] is None else f[1]
        if f[1] is not None and not re.fullmatch(r"[a-z]\w*", name, re.A):
            name = "'" + re.sub(r"(['\\])", r"\\\1", name) + "'"
        return name + ("(" + ",".join(text(t, env) for t in f[2]) + ")" if f[2] else "")
    if kind in ("all", "ex"):
        variable = "X%d" % (env[None] + 1)
        return ("!" if kind == "all" else "?") + "[%s]:" % variable + text(f[1], {**env, f[2]: variable, None: env[None] + 1})
    if kind in ("not", "box", "dia"):
        return {"not": "~", "box": "#box:", "dia": "#dia:"}[kind] + text(f[1], env)
    return "(%s %s %s)" % (text(f[1], env), {"equal": "=", "and": "&", "or": "|", "imp": "=>"}[kind], text(f[2], env))


def parts_of(file: str, root: str | None, logic: str) -> tuple[list[tuple[str | None, Formula]], tuple[str, Formula] | None]:
    """The premises and the conjecture of a problem, each with its name; an axiom of equality has none, and there may be no conjecture."""
    premises: list[tuple[str | None, Formula]] = []
    conjecture: tuple[str, Formula] | None = None
    functions: dict[tuple[str, int], None] = {}
    predicates: dict[tuple[str, int], None] = {}
    equations = False
    for _, name, role, formula in passing(file, root, []):
        equations |= symbols(formula, functions, predicates)
        if role == "conjecture":
            conjecture = (name, formula)
        else:
            premises.append((name, formula))
    if equations and logic in ("classical", "intuitionistic"):
        premises = [*((None, axiom) for axiom in equality_axioms(functions, predicates)), *premises]
    return premises, conjecture


def joined_formula(premises: list[tuple[str | None, Formula]], conjecture: tuple[str, Formula] | None) -> Formula:
    given = balanced("and", [formula for _, formula in premises]) if premises else None
    if conjecture is None:
        return ("not", given)
    return ("imp", given, conjecture[1]) if given else conjecture[1]


def formula_of(file: str, root: str | None, logic: str) -> str:
    return text(joined_formula(*parts_of(file, root, logic)), {None: 0})


def check(words: list[str], derivation: bytes) -> tuple[str, int]:
    """What the program says of a derivation, and its exit status."""
    beside = os.path.join(os.path.dirname(os.path.realpath(__file__)), "../leancop")
    os.environ["LEANCOP_BUILD"] = "no"  # an unbuilt checkout says so, and does not begin an hour of proofs
    os.environ["LEANCOP"] = os.environ.get("LEANCOP") or (beside if os.path.isfile(beside) else "leancop")
    told = subprocess.run([os.environ["LEANCOP"], "check", *words, "/dev/stdin"], input=derivation, stdout=subprocess.PIPE)
    return told.stdout.decode("latin-1").strip(), told.returncode


def confirmed(file: str, options: list[str]) -> tuple[bytes | None, str, int]:
    """The formula, where the program finds it to be that of the problem, or nothing; what the program said, and its exit status."""
    given = dict(w.split("=", 1) for w in options if "=" in w)
    told, status = check([file, *options], b"")  # the files hold a problem where only the derivation is wrong
    if told == "rejected at line 1: version":
        sys.setrecursionlimit(100000)
        logic, domains = given.get("--logic", "classical"), given.get("--domains", "constant")
        formula = formula_of(file, given.get("--root"), logic).encode("latin-1")
        if logic not in ("classical", "intuitionistic"):
            logic += " constant" if (logic, domains) == ("s5", "cumulative") else " " + domains
        told, status = check([file, *options], b"leancop derivation 1\nlogic %s\nformula %s\nlimit 1\nend\n" % (logic.encode(), formula))
        if told == "rejected at line 5: still open":
            return formula, told, 0
    return None, told, status or 70


def main(words: list[str]) -> int:
    files, options = [w for w in words if not w.startswith("--")], [w for w in words if w.startswith("--")]
    if "--help" in options:
        print(__doc__)
        return 0
    if len(files) != 1:
        sys.exit(__doc__)
    formula, told, status = confirmed(files[0], options)
    if formula is None:
        print("canonical_formula.py: " + (told or "no answer"), file=sys.stderr)
    else:
        sys.stdout.buffer.write(formula + b"\n")
    return status


if __name__ == "__main__":
    sys.exit(main(sys.argv[1:]))
