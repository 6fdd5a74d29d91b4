"""The clauses that say what a structure of a setting is: worlds, domains, functions and atoms."""
from __future__ import annotations

import itertools
import time
from collections.abc import Callable, Iterator, Sequence
from operator import itemgetter
from typing import NamedTuple

import canonical_formula as canonical

from .formulas import EQUALITY, Problem, Symbol

T, F = 1, -1  # the literals that are true and false
Elements = tuple[int, ...]  # numbered from 0
Column = list[int]  # literals, one for each row


class Late(Exception):
    """The time is over."""


class Size(NamedTuple):
    worlds: int
    elements: int

    def __str__(self) -> str:
        return f"{self.worlds}x{self.elements}"


NOTHING = Size(0, 0)


class Kind(NamedTuple):
    """What clauses of a size are like; those of a size extend those of a smaller one of the kind."""
    many_worlds: bool
    many_elements: bool
    trees: bool

    @classmethod
    def of(cls, logic: str, size: Size) -> Kind:
        return cls(size.worlds > 1, size.elements > 1, are_trees(logic, size.worlds))


class Table(dict[Elements, list[int]]):
    """The literals of a predicate, for each tuple of elements one at each world; made where they are first asked for."""

    def __init__(self, make: Callable[[], list[int]]) -> None:
        super().__init__()
        self.make = make

    def __missing__(self, arguments: Elements) -> list[int]:
        self[arguments] = found = self.make()
        return found


class Value:
    """What a function gives for arguments, or a name at the root stands for: for each element the literal that says that it is it. Constants
    and names have ranks, in their order."""

    def __init__(self, arguments: Elements, rank: int | None, is_name: bool) -> None:
        self.arguments, self.rank, self.is_name = arguments, rank, is_name
        self.literals: list[int] = []


class Structure:
    """Clauses for a structure with so many worlds and at most so many elements. World 0 is the root. A structure grows from size to size:
    what is said once of old worlds and elements stands, clauses that say that one of all elements or worlds is such are open, and get the
    new ones, and what only breaks symmetries along all elements is written for each size."""

    def __init__(self, problem: Problem, kind: Kind, end: float) -> None:
        self.problem, self.kind, self.end = problem, kind, end
        self.logic = problem.logic
        self.old, self.size = NOTHING, NOTHING  # before it grew, and after
        self.intuitionistic = self.logic == "intuitionistic" and kind.many_worlds
        # With one world there is no other truth than the classical one, and `=` may be taken as identity: of a finite structure that
        # refutes, the classes of `=` make one.
        self.identity = problem.equality and not kind.many_worlds
        self.constant = problem.domains == "constant" or not kind.many_worlds
        self.last = T  # the greatest variable
        self.clauses: list[int] = [T, 0]  # each ends with 0; of the growth under way
        self.chunks: list[str] = []  # the text of the clauses before
        self.count, self.known = 1, 0  # how many clauses, and how many before it grew
        self.open: list[list[int]] = []
        self.of_size: list[list[int]] = []
        self.contradiction = False  # an empty clause
        self.tables: dict[Symbol, Table] = {}
        self.values: dict[tuple[Symbol, Elements], Value] = {}
        self.named: list[Value] = []  # constants and names at the root, by rank
        self.relation: list[list[int]] = []  # for each pair of worlds the literal that says that the first reaches the second
        self.exists: list[list[int]] = []  # for each world and element the literal that says that it is there

    @property
    def worlds(self) -> range:
        return range(self.size.worlds)

    @property
    def elements(self) -> range:
        return range(self.size.elements)

    def grow(self, size: Size) -> Iterator[None]:
        """Writes what a greater size of the kind has more, and stops now and then."""
        self.old, self.size, self.known = self.size, size, self.count if self.size.worlds else 0
        self.grow_relation()
        self.grow_domains()
        for table in self.tables.values():
            for found in table.values():
                self.grow_atom(found)
        for value in [*self.values.values(), *(value for value in self.named if value.is_name)]:
            self.grow_value(value, self.old)
            yield
        for function, arguments in self.functions():
            self.value(function, arguments)
            yield
        yield from self.grow_formulas()
        self.finish()

    def grow_formulas(self) -> Iterator[None]:
        yield from ()

    def finish(self) -> None:
        self.keep_text()
        count = self.count
        self.least_numbers()
        self.count = count
        self.of_size = [list(clause) for ended, clause in itertools.groupby(self.clauses, key=lambda x: x == 0) if not ended]
        self.clauses = []

    def keep_text(self) -> None:
        self.chunks.append(dimacs(self.clauses))
        self.clauses = []

    def lines(self) -> tuple[int, str] | None:
        """The number of all clauses and their text; None where one is empty."""
        last: list[int] = []
        count = self.count
        for clause in itertools.chain(self.open, self.of_size):
            if T not in clause:
                literals = [x for x in clause if x != F]
                last += literals
                last.append(0)
                count += 1
                if not literals:
                    return None
        return None if self.contradiction else (count, "".join(self.chunks) + dimacs(last))

    # ---- clauses

    def new(self) -> int:
        self.last += 1
        return self.last

    def several(self, number: int) -> Column:
        """So many new variables."""
        self.last += number
        return list(range(self.last - number + 1, self.last + 1))

    def add(self, *literals: int) -> None:
        if T in literals:
            return
        if F in literals:
            literals = tuple(x for x in literals if x != F)
            if not literals:
                self.contradiction = True
                return
        self.clauses += literals
        self.clauses.append(0)
        self.count += 1

    def add_rows(self, columns: Sequence[Column | int]) -> None:
        """A clause for each row of the columns; a column that is the same in all rows may be one literal. One column at least is a list."""
        if time.monotonic() > self.end:
            raise Late
        lists = [column for column in columns if isinstance(column, list)]
        if T in columns or not lists[0]:
            return
        for column in lists:
            if T in column or F in column:
                always = [x for x in columns if isinstance(x, int)]
                for row in zip(*lists):
                    self.add(*always, *row)
                return
        given = [column if isinstance(column, list) else itertools.repeat(column) for column in columns if column != F]
        self.clauses += itertools.chain.from_iterable(zip(*given, itertools.repeat(0)))
        self.count += len(lists[0])

    def at_most_one(self, literals: Sequence[int], known: int = 0) -> None:
        """At most one of the literals; of those in front so many it is known."""
        for k in range(max(known, 1), len(literals)):
            for x in literals[:k]:
                if F not in (x, literals[k]):
                    self.add(-x, -literals[k])

    # ---- worlds

    def grow_relation(self) -> None:
        relation, worlds, known = self.relation, self.worlds, self.old.worlds
        relation += [[] for _ in worlds[known:]]
        for i, row in enumerate(relation):
            row += [self.pair(i, j) for j in worlds[len(row):]]
        if self.logic in ("classical", "s5") or not self.kind.many_worlds:
            return
        if self.logic == "d":
            self.open += relation[known:]
        if self.logic in ("d", "t"):
            self.number_by_breadth(known)
        else:
            self.order(known)

    def pair(self, i: int, j: int) -> int:
        if self.logic in ("classical", "s5") or not self.kind.many_worlds:
            return T
        ordered = self.logic in ("s4", "intuitionistic")
        if i == j and self.logic != "d" or i == 0 and ordered:
            return T  # what the root of an order does not reach does not matter
        if i > j and self.kind.trees:
            return F
        if i > j and self.logic == "intuitionistic":
            return F  # worlds that reach each other have the same truths and domains, so one will do
        return self.new()

    def order(self, known: int) -> None:
        relation = self.relation
        for i, j, k in itertools.permutations(self.worlds, 3):
            if max(i, j, k) >= known:
                self.add(-relation[i][j], -relation[j][k], relation[i][k])
        if self.logic == "s4":
            for i, j in itertools.combinations(self.worlds, 2):
                if j >= known:
                    self.add(-relation[j][i], relation[i][j])  # numbers rise along the relation

    def number_by_breadth(self, known: int) -> None:
        """Worlds are numbered as a search in breadth from the root meets them."""
        for j in self.worlds[max(known, 1):]:
            parents = [self.relation[i][j] for i in range(j)]
            self.add(*parents)
            if self.kind.trees:
                self.at_most_one(parents)
            for i in range(j - 1):
                self.add(-self.relation[i][j], *(self.relation[u][j - 1] for u in range(i + 1)))

    # ---- elements

    def grow_domains(self) -> None:
        exists, known = self.exists, self.old
        exists += [[] for _ in self.worlds[known.worlds:]]
        is_open = not self.constant and self.kind.many_elements
        for i, domain in enumerate(exists):
            domain += [self.new() if is_open and (i, d) != (0, 0) else T for d in self.elements[len(domain):]]
        if not is_open:
            return
        self.open += exists[known.worlds:]
        if self.problem.domains == "cumulative":
            for i, j in itertools.permutations(self.worlds, 2):
                for d in self.elements[known.elements if max(i, j) < known.worlds else 0:]:
                    self.add(-self.relation[i][j], -exists[i][d], exists[j][d])
        for d in self.elements[1:]:  # those of the root first, then in the order of the first worlds that have them
            if d >= known.elements:
                self.add(-exists[0][d], exists[0][d - 1])
            for i in self.worlds[1 if d >= known.elements else max(known.worlds, 1):]:
                self.add(exists[0][d - 1], -exists[i][d], *(exists[u][d - 1] for u in range(1, i + 1)))

    def value(self, function: Symbol, arguments: Elements) -> list[int]:
        """For each element the literal that says that it is the value."""
        key = function, arguments
        if key not in self.values:
            rank = None if arguments else len(self.named)
            value = self.values[key] = Value(arguments, rank, False)
            self.grow_value(value, NOTHING)
            if rank is not None:
                self.named.append(value)
        return self.values[key].literals

    def name_at_root(self) -> list[int]:
        """A name for an element of the root's domain."""
        value = Value((), len(self.named), True)
        self.grow_value(value, NOTHING)
        self.named.append(value)
        return value.literals

    def grow_value(self, value: Value, known: Size) -> None:
        found = value.literals
        if not self.kind.many_elements:
            found[:] = [T]
            return
        if not found:
            self.open.append(found)
        found += [self.literal_of_value(value.rank, d) for d in self.elements[len(found):]]
        self.at_most_one(found, known.elements)
        if value.rank:  # an element of the least number that it can have
            for d in self.elements[max(2, known.elements):value.rank + 1]:
                self.add(-found[d], *(other.literals[d - 1] for other in self.named[:value.rank]))
        if value.is_name:
            for d in self.elements[known.elements:]:
                self.add(-found[d], self.exists[0][d])
        elif not self.constant:
            for i in self.worlds:
                there = [-self.exists[i][a] for a in set(value.arguments)]
                for d in self.elements[known.elements if i < known.worlds else 0:]:
                    self.add(-found[d], self.exists[i][d], *there)

    def literal_of_value(self, rank: int | None, d: int) -> int:
        if rank == 0:
            return T if d == 0 else F
        return self.new() if rank is None or d <= rank else F

    def functions(self) -> Iterator[tuple[Symbol, Elements]]:
        """What must have a value: constants first, in their order."""
        for function in self.problem.functions:
            if function[1] == 0:
                yield function, ()
        if self.kind.many_elements and not self.constant:  # elsewhere values that nothing asks for do not matter
            for function in self.problem.functions:
                for arguments in itertools.product(self.elements, repeat=function[1]):
                    yield function, arguments

    def least_numbers(self) -> None:
        """The values of functions carry on where constants end: a value that nothing before had gets the least number that is left, as long
        as its arguments have numbers. These elements are all of the root's domain."""
        if len(self.elements) < 3 or not self.named:
            return
        used = [T if d == 0 else F for d in self.elements]
        for argument, found in itertools.islice(self.named_in_order(), 6 * len(self.elements)):
            if argument is not None:
                for d in self.elements[2:]:
                    self.add(-used[argument], -found[d], used[d - 1])
            used = [self.either(x, y) for x, y in zip(used, found)]

    def named_in_order(self) -> Iterator[tuple[int | None, list[int]]]:
        """Constants, and the values of functions, each with the greatest of its arguments."""
        yield from ((None, value.literals) for value in self.named[1:])
        for m in self.elements:
            for function in self.problem.functions:
                for arguments in itertools.product(range(m + 1), repeat=function[1]) if function[1] else ():
                    if max(arguments) == m and (function, arguments) in self.values:
                        yield m, self.values[function, arguments].literals

    def either(self, x: int, y: int) -> int:
        if T in (x, y):
            return T
        if F in (x, y):
            return y if x == F else x
        z = self.new()
        self.add(-x, z)
        self.add(-y, z)
        self.add(-z, x, y)
        return z

    # ---- atoms

    def table(self, predicate: Symbol) -> Table:
        if predicate not in self.tables:
            self.tables[predicate] = Table(self.atom_at_worlds)
        return self.tables[predicate]

    def atom_at_worlds(self) -> list[int]:
        found: list[int] = []
        self.grow_atom(found)
        return found

    def grow_atom(self, found: list[int]) -> None:
        known = len(found)
        found += self.several(len(self.worlds) - known)
        if self.intuitionistic:  # what is true stays true
            for i, j in itertools.combinations(self.worlds, 2):
                if j >= known:
                    self.add(-self.relation[i][j], -found[i], found[j])

    # ---- the text

    def text(self, true: list[bool]) -> str:
        """The text of the structure that an assignment states."""
        def holds(x: int) -> bool:
            return x == T or x != F and true[abs(x)] == (x > 0)

        problem = self.problem
        total = problem.domains == "varying" and any(arity > 1 for _, arity in problem.functions)  # arguments of two worlds have a value
        there = [d for d in self.elements if total or any(holds(self.exists[w][d]) for w in self.worlds)]
        names = {d: k + 1 for k, d in enumerate(there)}
        lines = ["leancop structure 1", "logic " + problem.setting, f"worlds {len(self.worlds)}", f"elements {len(there)}"]
        for i in self.worlds:
            lines.append(" ".join(["relation", str(i + 1)] + [str(j + 1) for j in self.worlds if holds(self.relation[i][j])]))
        for i in self.worlds:
            lines.append(" ".join(["domain", str(i + 1)] + [str(names[d]) for d in there if holds(self.exists[i][d])]))
        for name, arity in problem.functions:
            row = []
            for arguments in itertools.product(there, repeat=arity):
                value = self.values.get(((name, arity), arguments))
                row.append(str(names.get(next(d for d, x in enumerate(value.literals) if holds(x)), 1) if value else 1))
            lines.append(" ".join(["function", canonical_name(name), str(arity), *row]))
        for predicate in problem.predicates:
            known: dict[Elements, list[int]] = self.tables.get(predicate, {})
            for w in self.worlds:
                bits = ""
                for arguments in itertools.product(there, repeat=predicate[1]):
                    if predicate == EQUALITY and self.identity:
                        bits += "01"[arguments[0] == arguments[1]]
                    else:
                        bits += "01"[arguments in known and holds(known[arguments][w])]
                lines.append(f"predicate {canonical_name(predicate[0])} {predicate[1]} {w + 1} {bits}")
        return "\n".join(lines + ["end", ""])

    def soft(self) -> list[int]:
        """What had better be false."""
        pairs = [x for row in self.relation for x in row]
        atoms = [x for table in self.tables.values() for found in table.values() for x in found]
        return [x for x in pairs + atoms if x not in (T, F)]


def are_trees(logic: str, worlds: int) -> bool:
    """Many worlds of D and T stand in a tree, which will do, and leaves fewer choices."""
    return logic in ("d", "t") and worlds > 6


def canonical_name(name: str | None) -> str:
    return "=" if name == EQUALITY[0] else canonical.text(("atom", name, ()), {})


def dimacs(clauses: list[int]) -> str:
    return str(clauses)[1:-1].replace(",", "").replace(" 0 ", " 0\n") + "\n" if clauses else ""  # faster than a number at a time


def chosen(places: Elements) -> Callable[[Elements], Elements]:
    if len(places) > 1:
        return itemgetter(*places)
    if places:
        place = places[0]
        return lambda values: (values[place],)
    return lambda values: ()
