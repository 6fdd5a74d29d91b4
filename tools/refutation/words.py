"""Why a formula is false at the root of a structure, in words. The program's judgement comes first; this only says how it comes about."""
from __future__ import annotations

import itertools
from collections.abc import Iterator
from dataclasses import dataclass

import canonical_formula as canonical

from .formulas import Formula, collect, parts_of

LONGEST = 90  # characters of a formula that are shown
MOST_PARTS = 2_000  # of a formula that is written out
MOST_LOOKS = 2_000_000
MOST_ALIKE = 4  # reasons for one thing of which all are shown
Elements = tuple[int, ...]
Environment = dict[str, int]


class TooLarge(Exception):
    """More than can be looked at in seconds."""


@dataclass
class Finite:
    """A structure as its text states it, with worlds and elements from 1."""
    setting: str
    reached: dict[int, list[int]]
    domain: dict[int, list[int]]
    functions: dict[tuple[str, int], dict[Elements, int]]
    predicates: dict[tuple[str, int], dict[int, set[Elements]]]  # the tuples that are true at a world

    @staticmethod
    def read(text: str) -> Finite:
        lines = text.split("\n")
        found = Finite(lines[1].removeprefix("logic "), {}, {}, {}, {})
        elements = range(1, int(lines[3].split()[1]) + 1)
        for line in lines[4:]:
            kind, _, rest = line.partition(" ")
            if kind in ("relation", "domain"):
                world, *others = map(int, rest.split())
                (found.reached if kind == "relation" else found.domain)[world] = others
            elif kind == "function":
                name, numbers = named(rest)
                tuples = itertools.product(elements, repeat=numbers[0])
                found.functions[name, numbers[0]] = dict(zip(tuples, numbers[1:]))
            elif kind == "predicate":
                front, _, bits = rest.rpartition(" ")
                name, (arity, world) = named(front)
                tuples = itertools.product(elements, repeat=arity)
                found.predicates.setdefault((name, arity), {})[world] = {t for t, bit in zip(tuples, bits) if bit == "1"}
        return found


def named(words: str) -> tuple[str, list[int]]:
    """A canonical name, which may be quoted and have spaces, and the numbers behind it."""
    if words[0] != "'":
        name, *numbers = words.split(" ")
        return name, [int(x) for x in numbers]
    end = next(k for k in range(1, len(words)) if words[k] == "'" and (k - len(words[:k].rstrip("\\"))) % 2 == 0)
    return words[:end + 1], [int(x) for x in words[end + 1:].split()]


@dataclass(frozen=True)
class Seen:
    """That a formula holds or does not at a world, for elements."""
    formula: Formula
    environment: Environment
    world: int
    holds: bool


class Judge:
    """Truth at a world, by the definition, and what it rests on."""

    def __init__(self, structure: Finite) -> None:
        self.structure = structure
        self.intuitionistic = structure.setting == "intuitionistic"
        self.known: dict[tuple[int, int, Elements], bool] = {}
        self.free: dict[int, tuple[Formula, tuple[str, ...]]] = {}
        self.looks = 0

    def names(self, f: Formula) -> tuple[str, ...]:
        if id(f) not in self.free:
            names = {f[1]} if f[0] == "var" else {name for part in parts_of(f) for name in self.names(part)}
            self.free[id(f)] = f, tuple(sorted(names - {f[2]} if f[0] in ("all", "ex") else names))
        return self.free[id(f)][1]

    def value(self, term: Formula, environment: Environment) -> int:
        if term[0] == "var":
            return environment[term[1]]
        arguments = tuple(self.value(part, environment) for part in term[2])
        return self.structure.functions[written(term[1]), len(arguments)][arguments]

    def later(self, world: int) -> list[int]:
        return self.structure.reached[world] if self.intuitionistic else [world]

    def key(self, seen: Seen) -> tuple[int, int, Elements]:
        return id(seen.formula), seen.world, tuple([seen.environment[name] for name in self.names(seen.formula)])

    def holds(self, f: Formula, environment: Environment, world: int) -> bool:
        key = id(f), world, tuple([environment[name] for name in self.names(f)])
        if key not in self.known:
            self.looks += 1
            if self.looks > MOST_LOOKS:
                raise TooLarge
            self.known[key] = self.judge(f, environment, world)
        return self.known[key]

    def judge(self, f: Formula, environment: Environment, world: int) -> bool:
        kind = f[0]
        if kind in ("atom", "equal"):
            name, terms = (written(f[1]), f[2]) if kind == "atom" else ("=", f[1:])
            return tuple(self.value(t, environment) for t in terms) in self.structure.predicates[name, len(terms)][world]
        if kind in ("imp", "not"):
            return all(any(self.holds(side, environment, v) == helps for side, helps in sides(f)) for v in self.later(world))
        test = all if kind in ("and", "all", "box") else any
        return test(self.holds(*instance) for instance in self.instances(f, environment, world))

    def instances(self, f: Formula, environment: Environment, world: int) -> Iterator[tuple[Formula, Environment, int]]:
        """Of what a formula of any other kind speaks."""
        kind = f[0]
        if kind in ("and", "or"):
            yield from ((side, environment, world) for side in f[1:])
        elif kind in ("box", "dia"):
            yield from ((f[1], environment, v) for v in self.structure.reached[world])
        else:
            for v in self.later(world) if kind == "all" else [world]:
                yield from ((f[1], {**environment, f[2]: d}, v) for d in self.structure.domain[v])

    def seen(self, f: Formula, environment: Environment, world: int) -> Seen:
        return Seen(f, environment, world, self.holds(f, environment, world))

    def reasons(self, whole: Seen) -> list[Seen]:
        """What the truth or falsity rests on: one thing where one will do, else all."""
        f, kind = whole.formula, whole.formula[0]
        if kind in ("atom", "equal"):
            return []
        if kind in ("imp", "not"):
            steps = [[(self.seen(side, whole.environment, v), helps) for side, helps in sides(f)] for v in self.later(whole.world)]
            if whole.holds:
                return [next(seen for seen, helps in step if seen.holds == helps) for step in steps]
            return next([seen for seen, _ in step] for step in steps if all(seen.holds != helps for seen, helps in step))
        parts = [self.seen(*instance) for instance in self.instances(f, whole.environment, whole.world)]
        if whole.holds != (kind in ("and", "all", "box")):
            parts = [next(part for part in parts if part.holds == whole.holds)]
        if kind in ("all", "ex", "and", "or"):  # those of a block are told together
            return [reason for part in parts for reason in (self.reasons(part) if part.formula[0] == kind else [part])]
        return parts


def sides(f: Formula) -> list[tuple[Formula, bool]]:
    """The sides of an implication or a negation, each with the truth by which it makes it true."""
    return list(zip(f[1:], (False, True)))


def written(name: str | None) -> str:
    return canonical.text(("atom", name, ()), {})


def size(f: Formula, known: dict[int, int]) -> int:
    """How many parts a formula has; those that it has in several places count at each."""
    if id(f) not in known:
        known[id(f)] = 1 + sum(size(part, known) for part in parts_of(f))
    return known[id(f)]


def show(seen: Seen) -> str:
    """The formula with elements for its free variables."""
    parts = size(seen.formula, {})
    if parts > MOST_PARTS:
        return f"a formula of {parts:,} parts"
    text = canonical.text(seen.formula, {None: 0, **{name: str(d) for name, d in seen.environment.items()}})
    text = text.replace("($$o => $$o)", "$true")
    if len(text) > LONGEST:
        text = text[:LONGEST // 2] + " .. " + text[-LONGEST // 2:]
    return text[1:-1] if text[0] == "(" and text[-1] == ")" and balanced(text[1:-1]) else text


def balanced(text: str) -> bool:
    depth = 0
    for character in text:
        depth += {"(": 1, ")": -1}.get(character, 0)
        if depth < 0:
            return False
    return depth == 0


def is_atom(seen: Seen) -> bool:
    return seen.formula[0] in ("atom", "equal")


def atom(judge: Judge, seen: Seen) -> str:
    """An atom; where it has terms of functions, also with their values."""
    f = seen.formula
    terms = f[2] if f[0] == "atom" else f[1:]
    if all(term[0] == "var" for term in terms):
        return show(seen)
    values = [str(judge.value(term, seen.environment)) for term in terms]
    return f"{show(seen)}, which is {' = '.join(values) if f[0] == 'equal' else written(f[1]) + '(' + ','.join(values) + ')'},"


def facts(judge: Judge, group: list[Seen], more: int) -> str:
    """Atoms at one world, as one clause of a sentence; more of them are not shown."""
    told = [f"{atom(judge, seen)} {'holds' if seen.holds else 'does not'}" for seen in group]
    if told[0].endswith("does not"):
        told[0] += " hold"
    if more:
        told.append(f"{more} more alike")
    return ", ".join(told[:-1]) + (" and " if told[1:] else "") + told[-1]


def some(seen: list[Seen]) -> tuple[list[Seen], int]:
    """The first of many, and how many are left."""
    return (seen, 0) if len(seen) <= MOST_ALIKE else (seen[:2], len(seen) - 2)


def lines_of(judge: Judge, seen: Seen, depth: int) -> Iterator[str]:
    """A sentence, and those on which it rests below it."""
    reasons = list({judge.key(r): r for r in judge.reasons(seen)}.values())
    plain, rest = [r for r in reasons if is_atom(r)], [r for r in reasons if not is_atom(r)]
    shown = atom(judge, seen) if is_atom(seen) else show(seen)
    since = []
    for world, group in itertools.groupby(sorted(plain, key=lambda r: r.world), key=lambda r: r.world):
        since.append(("" if world == seen.world else f"at world {world} ") + facts(judge, *some(list(group))))
    if not reasons and not is_atom(seen):
        since = ["nothing is there of which it speaks"]
    yield "  " * depth + f"at world {seen.world} {shown} {'holds' if seen.holds else 'does not hold'}" + (
        ", since " + "; ".join(since) if since else "") + (", and:" if since and rest else ":" if rest else "")
    below, more = some(rest)
    for reason in below:
        yield from lines_of(judge, reason, depth + 1)
    if more:
        yield "  " * (depth + 1) + f"and {more} more alike"


def why(structure: Finite, premises: list[Formula], conjecture: Formula | None, logic: str, most: int) -> list[str]:
    """Why the problem's formula is false at the root, in at most so many lines; none where it is true by this."""
    judge = Judge(structure)
    false_at = (v for v in judge.later(1) if all(judge.holds(f, {}, v) for f in premises)
                and (conjecture is None or not judge.holds(conjecture, {}, v)))
    world = next(false_at, None)
    if world is None:
        return []
    where = "world 1, the root" if world == 1 else f"world {world}, which the root reaches"
    told = [f"at {where}, " + (
        "the conjecture does not hold" + (", and the premises do" if premises else "") if conjecture is not None else
        "all the formulas hold") + ":"]
    functions: dict[tuple[str | None, int], None] = {}
    predicates: dict[tuple[str | None, int], None] = {}
    for formula in [*premises, *([] if conjecture is None else [conjecture])]:
        collect(formula, functions, predicates, {})
    if logic in ("classical", "intuitionistic") and ("", 2) in predicates:
        others = [p for p in predicates if p != ("", 2)]
        if not all(judge.holds(f, {}, 1) for f in canonical.equality_axioms(functions, others)):
            return []  # the formula has them among its premises
    formulas = ([] if conjecture is None else [conjecture]) + premises
    lines = (line for f in formulas for line in lines_of(judge, judge.seen(f, {}, world), 1))
    told += itertools.islice(lines, most)
    if next(lines, None) is not None:
        told.append("  .. and so on: leancop-view shows the rest")
    return told
