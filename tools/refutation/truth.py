"""The clauses that say what it is for a part of a formula to be true or false at a world."""
from __future__ import annotations

import itertools
from collections.abc import Iterator
from dataclasses import dataclass, field

from .formulas import EQUALITY, Formula, Problem
from .structures import NOTHING, Column, Elements, F, Kind, Size, Structure, T, chosen

ROWS = 2000  # that are written at once


class Term:
    """A term with functions for values of its variables: the elements that it may have, each behind its literal."""

    def __init__(self, number: int, values: Elements) -> None:
        self.number, self.values = number, values
        self.literals: list[int] = []
        self.choices: list[tuple[int, int]] = []


@dataclass
class Meaning:
    """A node at a world: its literals, by the values of its slots, and for each sign those whose meaning is written, some with an open clause:
    what it takes to be true (sign 1) or false (-1)."""
    number: int
    world: int
    literals: dict[Elements, int] = field(default_factory=dict)
    written: dict[int, dict[Elements, list[int]]] = field(default_factory=lambda: {1: {}, -1: {}})


class Truth(Structure):
    """Literals stand for parts of formulas by definitions in the one direction that is needed (Tseitin; Plaisted and Greenbaum). Parts are
    defined for many values at once, and what was defined grows with the structure."""

    def __init__(self, problem: Problem, kind: Kind, end: float) -> None:
        super().__init__(problem, kind, end)
        self.nodes = problem.nodes.nodes
        self.meanings: dict[tuple[int, int], Meaning] = {}
        self.terms: dict[tuple[int, Elements], Term] = {}

    def grow_formulas(self) -> Iterator[None]:
        growing = [(meaning, sign, list(rows)) for meaning in self.meanings.values() for sign, rows in meaning.written.items()
                   if rows and self.grows(self.nodes[meaning.number][0])]
        for term in list(self.terms.values()):
            self.grow_term(term, self.old)
            yield
        for meaning, sign, rows in growing:
            for part in in_parts(rows):
                self.mean(meaning, sign, part, self.old)
                yield

    def grows(self, kind: str) -> bool:
        return kind not in ("and", "or") and (self.intuitionistic or kind not in ("imp", "not"))

    # ---- terms and atoms

    def term(self, number: int, values: Elements) -> list[tuple[int, int]]:
        if self.nodes[number][0] == "var":
            return [(T, values[0])]
        key = number, values
        if key not in self.terms:
            term = Term(number, values)
            self.grow_term(term, NOTHING)
            self.terms[key] = term
        return self.terms[key].choices

    def arguments(self, node: Formula, values: Elements) -> list[list[tuple[int, int]]]:
        return [self.term(number, tuple(values[i] for i in where)) for number, where in node[2]]

    def grow_term(self, term: Term, known: Size) -> None:
        node = self.nodes[term.number]
        function = node[1], len(node[2])
        parts = self.arguments(node, term.values)
        if all(len(part) == 1 for part in parts):
            term.literals = self.value(function, tuple(part[0][1] for part in parts))
        elif known.elements < self.size.elements:
            if not term.literals:
                self.open.append(term.literals)
            term.literals += self.several(self.size.elements - len(term.literals))
            self.at_most_one(term.literals, known.elements)
            for choice in itertools.product(*parts):
                there = [-x for x, _ in choice]
                is_known = all(d < known.elements for _, d in choice)
                found = self.value(function, tuple(d for _, d in choice))
                first = known.elements if is_known else 0
                self.add_rows([[-x for x in found[first:]], term.literals[first:], *there])
        term.choices[:] = [(x, d) for d, x in enumerate(term.literals) if x != F]

    def plain_atoms(self, node: Formula, rows: list[Elements], places: Elements, w: int) -> Column | None:
        """The literals of an atom whose terms are variables, or constants that can be one element alone."""
        fixed: Elements = ()
        arguments_at: list[int] = []
        for number, where in node[2]:
            if self.nodes[number][0] == "var":
                arguments_at.append(places[where[0]])
                continue
            choices = [] if where else self.term(number, ())
            if len(choices) != 1:
                return None
            arguments_at.append(len(rows[0]) + len(fixed))
            fixed += (choices[0][1],)
        arguments = map(chosen(tuple(arguments_at)), [row + fixed for row in rows] if fixed else rows)
        if node[1] == EQUALITY[0] and self.identity:
            return [T if left == right else F for left, right in arguments]
        table = self.table((node[1], len(node[2])))
        return [found[w] for found in map(table.__getitem__, arguments)]

    # ---- definitions

    def literals(self, number: int, rows: list[Elements], places: Elements, w: int, sign: int) -> Column:
        """For each row of elements a literal that implies truth for sign 1, and that truth implies for sign -1. The places are those in a
        row that the node's slots stand for."""
        node = self.nodes[number]
        kind = node[0]
        if kind in ("true", "false"):
            return [T if kind == "true" else F] * len(rows)
        if kind == "not" and not self.intuitionistic:
            return [-x for x in self.literals(node[1], rows, places, w, -sign)]
        plain = self.plain_atoms(node, rows, places, w) if kind == "atom" else None
        if plain is not None:
            return plain
        meaning = self.meanings.get((number, w))
        if meaning is None:
            meaning = self.meanings[number, w] = Meaning(number, w)
        own = list(map(chosen(places), rows))
        written = meaning.written[sign]
        if None in map(written.get, own):
            for part in in_parts([row for row in dict.fromkeys(own) if row not in written]):
                self.define(meaning, sign, part)
        return list(map(meaning.literals.__getitem__, own))

    def define(self, meaning: Meaning, sign: int, rows: list[Elements]) -> None:
        node, known, written = self.nodes[meaning.number], meaning.literals, meaning.written[sign]
        if node[0] == "atom":
            for row in rows:
                parts = self.arguments(node, row)
                if row not in known and all(len(part) == 1 for part in parts):
                    known[row] = self.atom(node[1], tuple(part[0][1] for part in parts), meaning.world)
        fresh = [row for row in rows if row not in known]
        known.update(zip(fresh, self.several(len(fresh))))
        written.update((row, []) for row in rows)
        self.mean(meaning, sign, rows, NOTHING)

    def atom(self, name: str, arguments: Elements, w: int) -> int:
        if name == EQUALITY[0] and self.identity:
            return T if arguments[0] == arguments[1] else F
        return self.table((name, len(arguments)))[arguments][w]

    def said(self, number: int, rows: list[Elements], places: Elements, w: int, sign: int) -> Column:
        """For each row a literal that says that a node is true (sign 1) or false (-1)."""
        found = self.literals(number, rows, places, w, sign)
        return found if sign == 1 else [-x for x in found]

    def mean(self, meaning: Meaning, sign: int, rows: list[Elements], known: Size) -> None:
        """Clauses that say of each row that its literal means truth or falsehood, as far as they were not written for the known size."""
        node, w = self.nodes[meaning.number], meaning.world
        kind, holds = node[0], sign == 1
        own = [-sign * meaning.literals[row] for row in rows]
        if kind == "atom":
            for x, row in zip(own, rows):
                self.mean_atom(x, node, row, w, sign, known)
        elif not self.grows(kind):
            columns = [self.said(number, rows, places, w, s) for number, places, s in parts_of(node, len(rows[0]), sign)]
            for clause in [columns] if holds == (kind != "and") else [[column] for column in columns]:
                self.add_rows([own, *clause])
        else:
            sought: list[Column] = []
            for guards, columns in self.instances(node, rows, w, sign, known):
                if holds == (kind in ("imp", "not", "all", "box")):
                    self.add_rows([own, *(-x for x in guards), *columns])
                else:
                    sought.append(self.all_of([*guards, *columns], len(rows)))
            if sought:
                self.seek(meaning.written[sign], rows, own, sought)

    def seek(self, written: dict[Elements, list[int]], rows: list[Elements], own: Column, sought: list[Column]) -> None:
        """Adds to the open clause of each row."""
        for row, x, more in zip(rows, own, zip(*sought)):
            clause = written[row]
            if not clause:
                clause.append(x)
                self.open.append(clause)
            clause += more

    def all_of(self, columns: list[Column | int], height: int) -> Column:
        """For each row a literal that implies those of all columns."""
        left = [column for column in columns if column != T]
        lists = [column for column in left if isinstance(column, list)]
        if F in left:
            return [F] * height
        if any(T in column or F in column for column in lists):
            return [self.both(*row) for row in zip(*(column if isinstance(column, list) else [column] * height for column in left))]
        if len(left) == 1 and lists:
            return lists[0]
        found = self.several(height)
        opposite = [-x for x in found]
        for column in left:
            self.add_rows([opposite, column])
        return found

    def both(self, *literals: int) -> int:
        """A literal that implies these."""
        left = [x for x in literals if x != T]
        if F in left:
            return F
        if len(left) < 2:
            return left[0] if left else T
        y = self.new()
        for x in left:
            self.add(-y, x)
        return y

    def instances(self, node: Formula, rows: list[Elements], w: int, sign: int,
                  known: Size) -> Iterator[tuple[list[int], list[Column]]]:
        """Of what a quantifier, a modal operator, or a step to later worlds speaks: the literals that say that it is there, and for each row
        those of the parts. Only what is new, where a size is known."""
        kind = node[0]
        if kind in ("box", "dia", "imp", "not"):
            parts = parts_of(node, len(rows[0]), sign)
            for v in self.worlds[known.worlds:]:
                if self.relation[w][v] != F:
                    yield [self.relation[w][v]], [self.said(number, rows, places, v, s) for number, places, s in parts]
            return
        later = self.worlds if self.intuitionistic and kind == "all" else (w,)
        last = len(rows[0])
        places = tuple(last if i < 0 else i for i in node[2])
        for v in later:
            reached = self.relation[w][v] if len(later) > 1 else T
            if reached == F:
                continue
            for d in self.elements[known.elements if v < known.worlds else 0:]:
                yield [reached, self.exists[v][d]], [self.said(node[1], [row + (d,) for row in rows], places, v, sign)]

    def mean_atom(self, own: int, node: Formula, row: Elements, w: int, sign: int, known: Size) -> None:
        """A clause for each choice of the arguments' elements."""
        parts = self.arguments(node, row)
        if all(len(part) == 1 for part in parts):
            return
        wide = [[-x for x, _ in part] for part in parts if len(part) > 1]
        clauses = [(*there, sign * self.atom(node[1], elements, w))
                   for there, elements in zip(itertools.product(*wide), itertools.product(*([d for _, d in part] for part in parts)))
                   if not known.elements or max(elements) >= known.elements]
        if clauses:
            self.add_rows([own, *[list(column) for column in zip(*clauses)]])


def parts_of(node: Formula, width: int, sign: int) -> list[tuple[int, Elements, int]]:
    """The parts of a node that is true (sign 1) or false (-1) with the places of their slots among those of the node, and their signs."""
    if node[0] in ("not", "box", "dia"):
        return [(node[1], tuple(range(width)), -sign if node[0] == "not" else sign)]
    signs = (-sign, sign) if node[0] == "imp" else (sign, sign)
    return [(number, where, s) for (number, where), s in zip(node[1:], signs)]


def in_parts(rows: list[Elements]) -> Iterator[list[Elements]]:
    return (rows[i:i + ROWS] for i in range(0, len(rows), ROWS))
