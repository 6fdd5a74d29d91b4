"""Goes through sizes of structures, from small to great."""
from __future__ import annotations

import heapq
import time
from collections.abc import Iterator
from dataclasses import dataclass, field
from typing import NamedTuple

from .formulas import Problem
from .root import Refutation
from .solver import Solver, Truths, made_small
from .structures import Kind, Late, Size, are_trees

FACTOR = 2.5  # from the cost of one turn's sizes to that of the next
TABLE_ENTRIES = 1_000_000  # that the text of a structure has at most
GREATEST = 64  # worlds or elements of a text
KEPT = 6  # structures of sizes that have none, which may grow
WORLDS, WORLDS_OF_TREES = 20, 40  # the most where nothing else is asked


@dataclass
class Bounds:
    worlds: int | None
    elements: int
    seconds: float


class Found(NamedTuple):
    refutation: Refutation
    solver: Solver
    true: Truths

    @property
    def size(self) -> Size:
        return self.refutation.size

    @property
    def text(self) -> str:
        return self.refutation.text(self.true)


@dataclass
class Attempt:
    """The clauses of a size, and what is still to be written."""
    refutation: Refutation
    writing: Iterator[None]
    is_written: bool = False


@dataclass
class Search:
    """A search for a structure. `refused` are the sizes that have none by the solver's word, `notes` what each attempt took."""
    problem: Problem
    bounds: Bounds
    solver: str
    refused: list[Size] = field(default_factory=list)
    notes: list[str] = field(default_factory=list)
    exhausted: bool = False
    waiting: dict[Size, Attempt] = field(default_factory=dict)  # for more time
    left: list[Refutation] = field(default_factory=list)  # of sizes without a structure, to grow

    def __post_init__(self) -> None:
        self.start = time.monotonic()
        self.end = self.start + self.bounds.seconds
        self.widths: dict[int, int] = {}  # how many parts speak of so many elements
        for node, width in zip(self.problem.nodes.nodes, self.problem.nodes.width):
            if node[0] != "var":
                bound = width + (node[0] in ("all", "ex"))
                self.widths[bound] = self.widths.get(bound, 0) + 1

    def cost(self, size: Size) -> float:
        work = sum(parts * size.elements ** width for width, parts in self.widths.items()) + 20
        # One world is classical, and what is asked in intuitionistic logic is mostly true there. With `=` it is much less work.
        least = 2 if self.problem.logic == "intuitionistic" and not self.problem.equality else 1
        return work * max(size.worlds, least) ** 1.6 * (1.3 ** (size.elements - 1)) ** (self.problem.equality + 1)

    def sizes(self) -> list[Size]:
        problem, bounds = self.problem, self.bounds
        most = WORLDS_OF_TREES if are_trees(problem.logic, GREATEST) and problem.is_propositional else WORLDS
        worlds = 1 if problem.one_world else min(bounds.worlds or most, GREATEST)
        elements = 1 if problem.is_propositional else min(bounds.elements, GREATEST)
        arity = problem.greatest_arity()
        return [Size(w, n) for w in range(1, worlds + 1) for n in range(1, elements + 1) if n ** arity <= TABLE_ENTRIES]

    def turns(self) -> Iterator[tuple[int, Size]]:
        """Each turn has the greatest sizes of a cost below a bound, which grows from turn to turn."""
        costs = [(self.cost(size), size) for size in self.sizes()]
        bound, top, turn = min(costs)[0], max(costs)[0], 0
        given: set[Size] = set()
        while bound < top * FACTOR:
            below = [size for cost, size in costs if cost <= bound]
            for size in below:
                if size not in given and not any(other != size and self.covers(other, size) for other in below):
                    given.add(size)
                    yield turn, size
            bound, turn = bound * FACTOR, turn + 1

    def covers(self, great: Size, small: Size) -> bool:
        """Whether a structure of the great size is there where one of the small size is."""
        if great == small:
            return True
        if self.problem.equality and great.worlds == 1:
            return False  # identity counts the elements
        if are_trees(self.problem.logic, great.worlds) != are_trees(self.problem.logic, small.worlds):
            return False
        return great.worlds >= small.worlds and great.elements >= small.elements

    def is_refused(self, size: Size) -> bool:
        return any(self.covers(other, size) for other in self.refused)

    def run(self) -> Found | None:
        share = max(0.3, self.bounds.seconds * 0.1)
        todo = [(turn, self.cost(size), size, share) for turn, size in self.turns()]
        heapq.heapify(todo)
        while todo and time.monotonic() < self.end:
            turn, cost, size, share = heapq.heappop(todo)
            if self.is_refused(size):
                self.waiting.pop(size, None)
                continue
            answer = self.attempt(size, min(share, self.end - time.monotonic()))
            if isinstance(answer, Found):
                return answer
            if answer is None:  # with more time: at once where not even the least size is written, else two turns later
                is_least = not self.refused and list(self.waiting) == [size] and not self.waiting[size].is_written
                heapq.heappush(todo, (turn if is_least else turn + 2, cost, size, share * 3))
        self.exhausted = not todo
        return None

    def attempt(self, size: Size, seconds: float) -> Found | bool | None:
        """A structure of the size, False where there is none, None where the time did not suffice."""
        began = time.monotonic()
        attempt = self.waiting.pop(size, None) or self.begin(size)
        refutation = attempt.refutation
        refutation.end = max(self.end, began + seconds)
        true: Truths | bool | None = None
        try:
            attempt.is_written = self.write(attempt.writing, began + seconds)
        except Late:
            return None
        ready = time.monotonic()
        solver = Solver(self.solver, refutation) if attempt.is_written else None
        if solver:
            true = solver.solve([], began + seconds - ready)
        told = "found" if isinstance(true, list) else "late" if true is None else "none"
        known = f", {refutation.known} of them before" if refutation.known else ""
        self.notes.append(f"{size}: {refutation.last} variables {refutation.count} clauses{known}, written in {ready - began:.3f} s, "
                          f"solved in {time.monotonic() - ready:.3f} s: {told}")
        if solver and isinstance(true, list):
            return Found(refutation, solver, true)
        if true is False:
            self.refused.append(size)
            self.left = [*self.left[1 - KEPT:], refutation]
            return False
        self.waiting[size] = attempt
        return None

    def begin(self, size: Size) -> Attempt:
        """The clauses of a smaller size of the same kind grow, where there are any."""
        kind = Kind.of(self.problem.logic, size)
        fitting = [r for r in self.left if r.kind == kind and r.size.worlds <= size.worlds and r.size.elements <= size.elements]
        if fitting:
            refutation = max(fitting, key=lambda r: self.cost(r.size))
            self.left.remove(refutation)
        else:
            refutation = Refutation(self.problem, kind, self.end)
        return Attempt(refutation, refutation.grow(size))

    def write(self, writing: Iterator[None], deadline: float) -> bool:
        """Whether all is written in this time; else it goes on another time."""
        for _ in writing:
            if time.monotonic() > deadline:
                return False
        return True

    def smaller(self, found: Found) -> Found:
        """Sizes below it that were not refused, as long as the time suffices that was spent so far, and then fewer truths."""
        until = min(self.end, time.monotonic() + max(0.5, time.monotonic() - self.start))
        less: Found | None = found
        while less is not None:
            found, less = less, None
            for size in (Size(found.size.worlds - 1, found.size.elements), Size(found.size.worlds, found.size.elements - 1)):
                if min(size) < 1 or self.is_refused(size) or time.monotonic() >= until:
                    continue
                answer = self.attempt(size, until - time.monotonic())
                if isinstance(answer, Found):
                    less = answer
                    break
        return found._replace(true=made_small(found.solver, found.true, until))

    def frontier(self) -> str:
        """The sizes that have no structure, by the solver's word, save those that others cover."""
        most = {size for size in self.refused if not any(other != size and self.covers(other, size) for other in self.refused)}
        return " ".join(map(str, sorted(most))) or "none"
