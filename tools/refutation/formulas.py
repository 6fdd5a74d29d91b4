"""A problem's formulas as nodes of a graph in which equal parts are one."""
from __future__ import annotations

from collections.abc import Iterable
from typing import Any

import canonical_formula as canonical

Formula = tuple[Any, ...]  # as canonical_formula.py builds it
Symbol = tuple[str | None, int]  # a name and the number of arguments; None is the reserved atom
Part = tuple[int, tuple[int, ...]]  # a node, and for each of its slots the slot of the node above
EQUALITY: Symbol = ("", 2)  # a quoted name may be `=`, and none is empty


class Nodes:
    """Formulas and terms without names, each once. A node is (kind, ..); what it stands over is given by slots: the values of its free
    variables in the order of their first places."""

    def __init__(self) -> None:
        self.numbers: dict[Formula, int] = {}
        self.nodes: list[Formula] = []
        self.width: list[int] = []
        self.known: dict[int, tuple[int, tuple[str, ...]]] = {}
        self.kept: list[Formula] = []
        self.true, self.false = self.node(("true",), 0), self.node(("false",), 0)

    def node(self, node: Formula, width: int) -> int:
        if node not in self.numbers:
            self.numbers[node] = len(self.nodes)
            self.nodes.append(node)
            self.width.append(width)
        return self.numbers[node]

    def of(self, f: Formula) -> tuple[int, tuple[str, ...]]:
        """The node, and the names of its slots."""
        if id(f) not in self.known:
            self.kept.append(f)  # so that no other object gets its id
            self.known[id(f)] = self.make(f)
        return self.known[id(f)]

    def parts(self, formulas: Iterable[Formula]) -> tuple[tuple[Part, ...], tuple[str, ...]]:
        names: list[str] = []
        parts = []
        for number, own in [self.of(f) for f in formulas]:
            names += [v for v in own if v not in names]
            parts.append((number, tuple(names.index(v) for v in own)))
        return tuple(parts), tuple(names)

    def make(self, f: Formula) -> tuple[int, tuple[str, ...]]:
        kind = f[0]
        if kind == "var":
            return self.node(("var",), 1), (f[1],)
        if kind in ("fun", "atom", "equal"):
            parts, names = self.parts(f[1:] if kind == "equal" else f[2])
            node = ("atom", EQUALITY[0], parts) if kind == "equal" else (kind, f[1], parts)
            return self.node(node, len(names)), names
        if f == canonical.TRUE:
            return self.true, ()
        if kind in ("and", "or", "imp"):
            return self.connective(f)
        number, names = self.of(f[1])
        if kind in ("all", "ex"):
            if f[2] not in names:
                return number, names  # no domain is empty
            left = tuple(v for v in names if v != f[2])
            where = tuple(-1 if v == f[2] else left.index(v) for v in names)
            return self.node((kind, number, where), len(left)), left
        if number in (self.true, self.false):
            opposite = self.false if number == self.true else self.true
            return (opposite if kind == "not" else number), ()  # each world reaches one
        return self.node((kind, number), len(names)), names

    def connective(self, f: Formula) -> tuple[int, tuple[str, ...]]:
        kind, true, false = f[0], self.true, self.false
        (a, _), (b, _) = self.of(f[1]), self.of(f[2])
        if kind == "imp":
            if a == false or b == true:
                return true, ()
            if a == true:
                return self.of(f[2])
            if b == false:
                return self.node(("not", a), self.width[a]), self.of(f[1])[1]
        else:
            unit, zero = (true, false) if kind == "and" else (false, true)
            if zero in (a, b):
                return zero, ()
            if unit in (a, b):
                return self.of(f[2] if a == unit else f[1])
        (left, right), names = self.parts(f[1:])
        if left == right:
            return (true, ()) if kind == "imp" else self.of(f[1])
        return self.node((kind, left, right), len(names)), names


class Scopes:
    """Writes quantifiers over no more than they speak of, where truth at a world is classical and a block of them binds many variables:
    what is said of n elements by k variables is n to the power k clauses."""

    def __init__(self) -> None:
        self.free_names: dict[int, set[str]] = {}
        self.narrowed: dict[int, Formula] = {}
        self.kept: list[Formula] = []

    def free(self, f: Formula) -> set[str]:
        if id(f) not in self.free_names:
            self.kept.append(f)
            names = {f[1]} if f[0] == "var" else set().union(*map(self.free, parts_of(f)))
            self.free_names[id(f)] = names - {f[2]} if f[0] in ("all", "ex") else names
        return self.free_names[id(f)]

    def parts(self, f: Formula, kind: str, holds: bool) -> list[Formula]:
        """The formulas of which f is the disjunction, or for `ex` the conjunction; holds tells whether f or its negation is meant."""
        if f[0] == "not":
            return self.parts(f[1], kind, not holds)
        split = ("or", "imp") if holds == (kind == "all") else ("and",)
        if f[0] in split:
            return self.parts(f[1], kind, holds != (f[0] == "imp")) + self.parts(f[2], kind, holds)
        return [f if holds else ("not", f)]

    def narrow(self, f: Formula) -> Formula:
        if id(f) not in self.narrowed:
            self.kept.append(f)
            self.narrowed[id(f)] = self.narrow_anew(f)
        return self.narrowed[id(f)]

    def narrow_anew(self, f: Formula) -> Formula:
        kind = f[0]
        if kind in ("atom", "equal"):
            return f
        if kind not in ("all", "ex"):
            return (kind, *(self.narrow(part) for part in f[1:]))
        names: list[str] = []
        inside = f
        while inside[0] == kind:
            names = [x for x in names if x != inside[2]] + [inside[2]]
            inside = inside[1]
        if len(names) < 4:
            inside = self.narrow(inside)
            for name in reversed(names):
                inside = (kind, inside, name)
            return inside
        return self.block(kind, names, [self.narrow(part) for part in self.parts(inside, kind, True)])

    def block(self, kind: str, names: list[str], parts: list[Formula]) -> Formula:
        """A block of quantifiers over the disjunction (`all`) or the conjunction (`ex`) of the parts."""
        def together(name: str) -> set[str]:
            return set().union(*(self.free(part) for part in parts if name in self.free(part)))

        names = [x for x in names if any(x in self.free(part) for part in parts)]
        join = "or" if kind == "all" else "and"
        while len(names) > 3 and len(parts) > 1:
            name = min(names, key=lambda x: len(together(x)))
            if len(together(name)) >= len(set().union(*map(self.free, parts))):
                break
            inner = [part for part in parts if name in self.free(part)]
            parts = [part for part in parts if name not in self.free(part)] + [(kind, canonical.balanced(join, inner), name)]
            names.remove(name)
        whole = canonical.balanced(join, parts)
        for name in reversed(names):
            whole = (kind, whole, name)
        return whole


def parts_of(f: Formula) -> list[Formula]:
    return list(f[2]) if f[0] in ("fun", "atom") else [part for part in f[1:] if isinstance(part, tuple)]


def collect(f: Formula, functions: dict[Symbol, None], predicates: dict[Symbol, None], seen: dict[int, Formula]) -> None:
    """The symbols in the order of their first places; `=` is a predicate among others."""
    if id(f) in seen:
        return
    seen[id(f)] = f
    if f[0] in ("fun", "atom"):
        (functions if f[0] == "fun" else predicates).setdefault((f[1], len(f[2])))
    if f[0] == "equal":
        predicates.setdefault(EQUALITY)
    for part in parts_of(f):
        collect(part, functions, predicates, seen)


class Problem:
    """A problem in a setting: its symbols, and the nodes of its premises and its conjecture."""

    def __init__(self, file: str, root: str | None, logic: str, domains: str) -> None:
        self.logic = logic
        modal = logic not in ("classical", "intuitionistic")
        self.domains = domains if modal else "constant" if logic == "classical" else "cumulative"
        if (logic, domains) == ("s5", "cumulative"):
            self.domains = "constant"
        self.setting = logic + " " + self.domains if modal else logic
        self.items = [(role, formula) for _, _, role, formula in canonical.passing(file, root, [])]
        functions: dict[Symbol, None] = {}
        predicates: dict[Symbol, None] = {}
        seen: dict[int, Formula] = {}
        for _, formula in self.items:
            collect(formula, functions, predicates, seen)
        self.functions, self.predicates = list(functions), list(predicates)
        self.equality = EQUALITY in predicates and not modal
        self.nodes = Nodes()
        scopes = Scopes()
        self.premises: list[int] = []
        self.conjecture: int | None = None
        for role, formula in self.items:
            node = self.nodes.of(formula if logic == "intuitionistic" else scopes.narrow(formula))[0]
            if role == "conjecture":
                self.conjecture = node
            else:
                self.premises.append(node)
        self.equations: list[int] = []  # what `=` must obey where it is not identity
        if self.equality:
            others = [p for p in predicates if p != EQUALITY]
            self.equations = [self.nodes.of(f)[0] for f in canonical.equality_axioms(functions, others)]
        kinds = {node[0] for node in self.nodes.nodes}
        self.is_propositional = not kinds & {"all", "ex", "fun"}  # no element matters
        self.one_world = logic == "classical" or (modal and not kinds & {"box", "dia"})

    def greatest_arity(self) -> int:
        return max([arity for _, arity in self.functions + self.predicates], default=0)
