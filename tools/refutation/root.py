"""The clauses that say that a problem's formula is false at the root of a structure."""
from __future__ import annotations

import itertools
from collections.abc import Callable, Iterable, Iterator
from typing import NamedTuple

from .formulas import Problem
from .structures import NOTHING, Column, Elements, F, Kind, Size, T, chosen
from .truth import ROWS, Truth

Places = tuple[int, ...]  # of slots, among values
Guards = tuple[int, ...]  # literals that say that names have other elements than the values


class Signed(NamedTuple):
    """A node that is true (1) or false (-1) at a world, and which values are those of its slots."""
    sign: int
    number: int
    places: Places
    world: int


class Scheme(NamedTuple):
    """A clause for all elements: the literals that all have, the world of each element beyond the given ones, the formulas, and the last
    world that the clause speaks of."""
    fixed: tuple[int, ...]
    added: tuple[int, ...]
    formulas: tuple[Signed, ...]
    last: int


class Refutation(Truth):
    """Clauses for: at the root of a structure the problem's formula is false. Where clauses will do there are no literals for its parts."""

    def __init__(self, problem: Problem, kind: Kind, end: float) -> None:
        super().__init__(problem, kind, end)
        self.witnesses: dict[tuple[int, Places], tuple[int, list[int]]] = {}
        self.ready: dict[tuple[int, int, int], list[Scheme]] = {}
        self.stated: dict[tuple[int, int, int, Elements, Guards], Size] = {}  # at which size

    def grow_formulas(self) -> Iterator[None]:
        yield from super().grow_formulas()
        if self.old.worlds < self.size.worlds:
            self.ready = {}
        problem = self.problem
        for premise in problem.premises + ([] if self.identity else problem.equations):
            yield from self.given(premise, (), (), ())
        if problem.conjecture is not None:
            yield from self.denied(problem.conjecture, (), (), ())

    def given(self, number: int, values: Elements, names: Places, guards: Guards) -> Iterator[None]:
        """True at the root, where no guard holds."""
        node = self.nodes[number]
        kind = node[0]
        if kind == "and":
            for part, where in node[1:]:
                yield from self.given(part, chosen(where)(values), chosen(where)(names), guards)
        elif kind == "ex":
            yield from self.named_cases(self.given, number, values, names, guards)
        elif kind == "not" and not self.intuitionistic:
            yield from self.denied(node[1], values, names, guards)
        else:
            for w in self.worlds if self.intuitionistic else (0,):
                yield from self.state(1, number, w, values, guards)

    def denied(self, number: int, values: Elements, names: Places, guards: Guards, alone: bool = True) -> Iterator[None]:
        """False at the root. In intuitionistic logic what refutes an implication, a negation or a universal formula can be taken to be the
        root itself, as long as it is all that is to be false."""
        node = self.nodes[number]
        kind = node[0]
        if kind == "or" or kind == "imp" and alone:
            (a, to_a), (b, to_b) = node[1:]
            under_a = chosen(to_a)(values), chosen(to_a)(names), guards
            under_b = chosen(to_b)(values), chosen(to_b)(names), guards
            alone = alone and (kind == "imp" or not self.intuitionistic)
            yield from self.given(a, *under_a) if kind == "imp" else self.denied(a, *under_a, alone)
            yield from self.denied(b, *under_b, alone)
        elif kind == "not" and alone:
            yield from self.given(node[1], values, names, guards)
        elif kind == "all" and alone:
            yield from self.named_cases(self.denied, number, values, names, guards)
        else:
            yield from self.state(-1, number, 0, values, guards)

    def named_cases(self, go_on: Callable[[int, Elements, Places, Guards], Iterator[None]], number: int, values: Elements, names: Places,
                    guards: Guards) -> Iterator[None]:
        """A name, like a constant, for the element of the root's domain that a formula asks for; a case for each element that it may be."""
        key = number, names  # the names say which names the slots have
        if key not in self.witnesses:
            self.witnesses[key] = len(self.witnesses), self.name_at_root()
        name, found = self.witnesses[key]
        node = self.nodes[number]
        choose = chosen(node[2])
        for d, x in enumerate(found):
            if x != F:
                yield from go_on(node[1], choose(values + (d,)), choose(names + (name,)), guards + (-x,))

    def state(self, sign: int, number: int, w: int, values: Elements, guards: Guards) -> Iterator[None]:
        """Clauses that say that the node is true or false at the world, where no guard holds."""
        known = self.stated.get((sign, number, w, values, guards), NOTHING)
        if known == self.size:
            return
        self.stated[sign, number, w, values, guards] = self.size
        if (sign, number, w) not in self.ready:
            start = Signed(sign, number, tuple(range(self.problem.nodes.width[number])), w)
            self.ready[sign, number, w] = list(self.schemes(Scheme((), (), (), w), [start], len(start.places), False))
        for scheme in self.ready[sign, number, w]:
            more = self.rows(len(scheme.added), known.elements if scheme.last < known.worlds else 0)
            while rows := [values + row for row in itertools.islice(more, ROWS)]:
                self.state_rows(scheme, rows, len(values), guards)
                yield

    def rows(self, width: int, known: int) -> Iterable[Elements]:
        """All tuples of elements, save those of known elements alone."""
        if not known:
            return iter(itertools.product(self.elements, repeat=width))
        old, new = range(known), self.elements[known:]
        return itertools.chain.from_iterable(
            itertools.product(*[old] * place, new, *[self.elements] * (width - place - 1)) for place in range(width))

    def state_rows(self, scheme: Scheme, rows: list[Elements], given: int, guards: Guards) -> None:
        columns: list[Column | int] = [*guards, *scheme.fixed]
        for place, w in enumerate(scheme.added, given):
            exists = self.exists[w]
            if any(x != T for x in exists):
                columns.append([-exists[row[place]] for row in rows])
        for sign, number, places, w in scheme.formulas:
            columns.append(self.said(number, rows, places, w, sign))
        self.add_rows(columns)

    def schemes(self, so_far: Scheme, todo: list[Signed], width: int, many: bool) -> Iterator[Scheme]:
        """Takes a clause of formulas apart. In intuitionistic logic it is asked for at each world, and its literals are such that they stay
        false along the relation. As long as there is but one true formula, what it says of later worlds is said there; where there are
        many, or where one became a literal, what it says is said of this world."""
        formulas = so_far.formulas
        while todo:
            many = many or sum(formula.sign == 1 for formula in todo) > 1
            shapes = [self.shape(formula, many) for formula in todo]
            turn = next((k for k, shape in enumerate(shapes) if shape != "split"), len(todo) - 1)
            shape, formula = shapes[turn], todo[turn]
            todo = todo[:turn] + todo[turn + 1:]
            if shape == "literal" or shape == "split" and todo:
                many = many or formula.sign == 1
                formulas += (formula,)
            elif shape == "join":
                todo += self.under(formula)
            else:
                yield from self.split(so_far._replace(formulas=formulas), formula, width, many)
                return
        yield so_far._replace(formulas=formulas)

    def split(self, so_far: Scheme, formula: Signed, width: int, many: bool) -> Iterator[Scheme]:
        """A clause for each thing that the formula says."""
        (sign, _, places, w), node = formula, self.nodes[formula.number]
        kind = node[0]
        if kind in ("and", "or", "imp"):
            for part in self.under(formula):
                yield from self.schemes(so_far, [part], width, many)
        elif kind in ("all", "ex"):
            inside = Signed(sign, node[1], chosen(node[2])(places + (width,)), w)
            yield from self.schemes(so_far._replace(added=so_far.added + (w,)), [inside], width + 1, many)
        else:
            for v in self.worlds:
                if self.relation[w][v] != F:
                    reached = so_far._replace(fixed=so_far.fixed + (-self.relation[w][v],), last=max(so_far.last, v))
                    yield from self.schemes(reached, [Signed(sign, node[1], places, v)], width, many)

    def shape(self, formula: Signed, many: bool) -> str:
        sign, kind = formula.sign, self.nodes[formula.number][0]
        if self.intuitionistic and kind in ("imp", "not", "all") and (sign == -1 or many):
            return "literal"
        if kind == "not":
            return "join"
        if kind in ("and", "or", "imp"):
            return "join" if (kind == "and") == (sign == -1) else "split"
        if kind in ("all", "ex"):
            return "split" if (kind == "all") == (sign == 1) else "literal"
        if kind in ("box", "dia"):  # below another box a literal for each world is less than a clause for each way
            return "split" if (kind == "box") == (sign == 1) and (formula.world == 0 or self.logic == "s4") else "literal"
        return "literal"

    def under(self, formula: Signed) -> list[Signed]:
        sign, number, places, w = formula
        node = self.nodes[number]
        if node[0] == "not":
            return [Signed(-sign, node[1], places, w)]
        signs = (-sign, sign) if node[0] == "imp" else (sign, sign)
        return [Signed(s, part, chosen(where)(places), w) for s, (part, where) in zip(signs, node[1:])]
