"""The sequent rules of docs/FORMATS.md, to show what a derivation leaves open and to say what comes next. Nothing is judged here: the
program's `check` is asked about each line, and a derivation that is carried over to another place is judged as a whole.

Formulas are the trees of canonical_formula.py; terms may also be ("eigen", N) and ("spare", N). A label is a tuple of characters such as
"$$c1" and "$$d1"."""
from __future__ import annotations

import re
from dataclasses import dataclass, field
from typing import Iterator, NamedTuple

Tree = tuple
Label = tuple[str, ...]
NAME = r"(?:[a-z]\w*|'(?:[^'\\\n]|\\.)+')"
STEP = re.compile(r"use (\d+)(?: to (\[[^ ]*\])| new (\$\$c\d+))?(?: term ([^\n]+)| name \$\$e(\d+))?", re.A)
AXIOM = re.compile(r"axiom (\d+) (\d+)", re.A)
WORLDS_OF_INTUITIONISTIC = ("atom", "equal", "not", "imp", "all")


class Kind(NamedTuple):
    """A signed formula in the uniform notation: its shape, its modal part (nu, pi or none) and its components."""

    shape: str
    modal: str
    parts: list[tuple[str, Tree]]


def kind_of(logic: str, sign: str, f: Tree) -> Kind:
    true, other = sign == "T", "F" if sign == "T" else "T"
    if f[0] in ("and", "or"):
        kind = ("alpha" if (f[0] == "and") == true else "beta", [(sign, f[1]), (sign, f[2])])
    elif f[0] == "imp":
        kind = ("beta" if true else "alpha", [(other, f[1]), (sign, f[2])])
    elif f[0] == "not":
        kind = ("alpha", [(other, f[1])])
    elif f[0] in ("all", "ex"):
        kind = ("gamma" if (f[0] == "all") == true else "delta", [(sign, f[1])])
    elif f[0] in ("box", "dia"):
        return Kind("alpha", "nu" if (f[0] == "box") == true else "pi", [(sign, f[1])])
    else:
        kind = ("literal", [(sign, f)])
    modal = ("nu" if true else "pi") if logic == "intuitionistic" and f[0] in WORLDS_OF_INTUITIONISTIC else ""
    return Kind(kind[0], modal, kind[1])


def replaced(f: Tree, variable: str, term: Tree) -> Tree:
    """The formula with a term for a variable. The term has no variables, so none is caught."""
    if f[0] == "var":
        return term if f[1] == variable else f
    if f[0] in ("fun", "atom"):
        return (f[0], f[1], tuple(replaced(t, variable, term) for t in f[2])) if f[2] else f
    if f[0] in ("all", "ex"):
        return f if f[2] == variable else (f[0], replaced(f[1], variable, term), f[2])
    if f[0] in ("eigen", "spare"):
        return f
    return (f[0], *(replaced(part, variable, term) for part in f[1:]))


# ---- texts of the format


class Unreadable(Exception):
    """A word of a step that is in no form of the format."""


def read_label(text: str) -> Label:
    inside = text[1:-1]
    marks = inside.split(",") if inside else []
    if text[:1] != "[" or text[-1:] != "]" or not all(re.fullmatch(r"\$\$[cd][1-9]\d*", m, re.A) for m in marks):
        raise Unreadable(text)
    return tuple(marks)


def label_text(label: Label) -> str:
    return "[" + ",".join(label) + "]"


def read_term(text: str) -> Tree:
    term, rest = _term(text)
    if rest:
        raise Unreadable(rest)
    return term


def _term(text: str) -> tuple[Tree, str]:
    special = re.match(r"\$\$([es])([1-9]\d*)", text, re.A)
    if special:
        return ("eigen" if special[1] == "e" else "spare", int(special[2])), text[special.end():]
    name = re.match(NAME, text, re.A)
    if not name:
        raise Unreadable(text)
    word, text, terms = name[0], text[name.end():], []
    if text.startswith("("):
        sign = "("
        while sign != ")":
            if sign not in ("(", ","):
                raise Unreadable(text)
            term, text = _term(text[1:])
            terms.append(term)
            sign = text[:1]
        text = text[1:]
    return ("fun", re.sub(r"\\(.)", r"\1", word[1:-1]) if word[0] == "'" else word, tuple(terms)), text


def term_text(term: Tree) -> str:
    if term[0] in ("eigen", "spare"):
        return f"$${term[0][0]}{term[1]}"
    name = term[1] if re.fullmatch(r"[a-z]\w*", term[1], re.A) else "'" + re.sub(r"(['\\])", r"\\\1", term[1]) + "'"
    return name + ("(" + ",".join(map(term_text, term[2])) + ")" if term[2] else "")


def names_in(f: Tree) -> Iterator[Tree]:
    """The eigenvariables and spare constants of a formula or term, each as often as it stands there."""
    if f[0] in ("eigen", "spare"):
        yield f
    for part in f[2] if f[0] in ("fun", "atom") else f[1:]:
        if isinstance(part, tuple):
            yield from names_in(part)


@dataclass(frozen=True)
class Step:
    """A line of a derivation: the entry that is used with its arguments, or the two of an axiom."""

    entry: int
    other: int | None = None
    to: Label | None = None
    new: str | None = None
    term: Tree | None = None
    name: int | None = None

    def text(self) -> str:
        if self.other is not None:
            return f"axiom {self.entry} {self.other}"
        words = f"use {self.entry}"
        words += f" to {label_text(self.to)}" if self.to is not None else f" new {self.new}" if self.new else ""
        return words + (f" term {term_text(self.term)}" if self.term else f" name $$e{self.name}" if self.name else "")


def read_step(text: str) -> Step:
    axiom = AXIOM.fullmatch(text)
    if axiom:
        return Step(int(axiom[1]), int(axiom[2]))
    use = STEP.fullmatch(text)
    if not use:
        raise Unreadable(text)
    return Step(int(use[1]), None, read_label(use[2]) if use[2] else None, use[3], read_term(use[4]) if use[4] else None,
                int(use[5]) if use[5] else None)


# ---- derivations


@dataclass
class Entry:
    number: int
    sign: str
    formula: Tree
    label: Label
    step: int  # the number of the step that made it, 0 for the first entry
    source: int  # the entry that this step used


@dataclass
class Branch:
    """Entries from one fork to the next, and how it goes on: closed by an axiom, forked, or open."""

    above: Branch | None = None
    entries: list[Entry] = field(default_factory=list)
    fork: list[Branch] = field(default_factory=list)
    closed: Step | None = None
    at: int = 0  # the number of the step that closed or forked it

    def all(self) -> list[Entry]:
        """The entries of the whole branch, from the first one on."""
        return [*(self.above.all() if self.above else []), *self.entries]


class Wrong(Exception):
    """A step does not apply. That is for the program to say; here it ends what is shown."""


class Derivation:
    """A derivation that is being made: its steps are applied one by one to the first open branch."""

    def __init__(self, logic: str, formula: Tree) -> None:
        self.logic = logic
        self.root = Branch(entries=[Entry(1, "F", formula, (), 0, 0)])
        self.open = [self.root]  # the last one comes next
        self.steps: list[Step] = []
        self.homes: dict[tuple[str, int], Label | None] = {}

    def label_of(self, entry: Entry, step: Step) -> Label:
        kind = kind_of(self.logic, entry.sign, entry.formula)
        if kind.modal == "nu" and step.to is not None:
            return step.to
        if kind.modal == "pi" and step.new:
            return (step.new,) if self.logic == "s5" else (*entry.label, step.new)
        return entry.label

    def components(self, entry: Entry, step: Step) -> list[tuple[str, Tree, Label]]:
        kind = kind_of(self.logic, entry.sign, entry.formula)
        value: Tree | None = None
        if kind.shape == "gamma":
            value = step.term
        if kind.shape == "delta" and step.name:
            value = ("eigen", step.name)
        if (kind.shape in ("gamma", "delta")) != (value is not None) or (kind.modal == "nu") != (step.to is not None) \
                or (kind.modal == "pi") != (step.new is not None) or (kind.shape == "literal" and not kind.modal):
            raise Wrong("wrong arguments")
        label = self.label_of(entry, step)
        return [(sign, replaced(f, entry.formula[2], value) if value else f, label) for sign, f in kind.parts]

    def apply(self, step: Step) -> None:
        if not self.open:
            raise Wrong("all closed")
        branch, number = self.open[-1], len(self.steps) + 1
        entries = branch.all()
        if not all(0 < n <= len(entries) for n in (step.entry, step.other or step.entry)):
            raise Wrong("no entry")
        entry = entries[step.entry - 1]
        if step.other is not None:
            branch.closed = step
            self.open.pop()
        else:
            made = [Entry(len(entries) + 1 + i, *part, number, step.entry) for i, part in enumerate(self.components(entry, step))]
            if kind_of(self.logic, entry.sign, entry.formula).shape == "beta":
                branch.fork = [Branch(branch, [e]) for e in made]
                for e in made:
                    e.number = len(entries) + 1
                self.open[-1:] = reversed(branch.fork)
            else:
                branch.entries += made
        if step.other is not None or branch.fork:
            branch.at = number
        self.steps.append(step)
        if step.name:
            self.homes.setdefault(("e", step.name), self.label_of(entry, step))

    def name_lines(self) -> list[str]:
        return [f"name $${letter}{number} " + ("any" if home is None else label_text(home))
                for (letter, number), home in sorted(self.homes.items())]


def head_of(text: str) -> tuple[dict[tuple[str, int], Label | None], list[Step]]:
    """The names and the steps of a derivation's text of version 1 that the program printed."""
    homes: dict[tuple[str, int], Label | None] = {}
    steps = []
    for line in text.split("\n")[4:]:
        if line.startswith("name "):
            _, name, home = line.split(" ")
            homes[name[2], int(name[3:])] = None if home == "any" else read_label(home)
        elif line.startswith(("use ", "axiom ")):
            steps.append(read_step(line))
    return homes, steps


# ---- what is left of a derivation where something was done already


@dataclass
class Node:
    """A step with what follows it on each branch, and the numbers of the entries that it makes there."""

    step: Step
    made: list[int]
    below: list[Node]


def tree_of(logic: str, formula: Tree, steps: list[Step]) -> Node:
    """The steps as a tree, without those that no axiom needs."""
    made = Derivation(logic, formula)
    branches = []
    for step in steps:
        branches.append(made.open[-1])
        made.apply(step)

    def node(at: int, count: int) -> tuple[Node, set[int], int]:
        """The pruned tree of the steps from `at` on, the entries that it needs, and where the next branch begins."""
        step, before = steps[at], count
        if step.other is not None:
            return Node(step, [], []), {step.entry, step.other}, at + 1
        if branches[at].fork and branches[at].at == at + 1:
            left, need_left, at = node(at + 1, count + 1)
            right, need_right, at = node(at, count + 1)
            for tree, need in ((left, need_left), (right, need_right)):
                if count + 1 not in need:
                    return tree, need, at
            return Node(step, [count + 1], [left, right]), (need_left | need_right) - {count + 1} | {step.entry}, at
        count += sum(e.step == at + 1 for e in branches[at].entries)
        below, need, at = node(at + 1, count)
        new = set(range(before + 1, count + 1))
        if not new & need:
            return below, need, at
        return Node(step, sorted(new), [below]), need - new | {step.entry}, at

    return node(0, 1)[0]


class Rest:
    """The steps that close what a derivation leaves open, by another one of the same formula, carried over: it starts from entry 1, which
    stands on each branch. What stands on a branch already is taken and not made again; names that are made get new numbers."""

    def __init__(self, made: Derivation, homes: dict[tuple[str, int], Label | None]) -> None:
        self.made, self.homes = made, homes
        self.out: list[Step] = []
        labels = [e.label for b in branches_of(made.root) for e in b.entries] + [home for home in made.homes.values() if home]
        self.character = max([int(m[3:]) for label in labels for m in label if m[2] == "c"], default=0)
        self.names = {letter: max([n for (k, n) in made.homes if k == letter], default=0) for letter in "es"}
        self.new_homes: dict[tuple[str, int], Label | None] = dict(made.homes)

    def steps(self, tree: Node) -> list[Step]:
        for branch in reversed(self.made.open):
            self.carry(tree, branch.all(), {1: 1}, {})
        return self.out

    def mark(self, mark: str, names: dict) -> str:
        if mark[2] == "d":
            return mark
        if mark not in names:
            self.character += 1
            names[mark] = f"$$c{self.character}"
        return names[mark]

    def label(self, label: Label, names: dict) -> Label:
        return tuple(self.mark(m, names) for m in label)

    def name(self, letter: str, number: int, names: dict) -> int:
        """The number here of a name of the derivation that is carried over."""
        if (letter, number) not in names:
            home = self.homes.get((letter, number))
            here = None if home is None else self.label(home, names)
            same = [n for (k, n), at in self.new_homes.items() if k == letter == "s" and at == here]
            if not same:
                self.names[letter] += 1
                self.new_homes[letter, self.names[letter]] = here
            names[letter, number] = same[0] if same else self.names[letter]
        return names[letter, number]

    def term(self, term: Tree, names: dict) -> Tree:
        if term[0] in ("eigen", "spare"):
            return (term[0], self.name(term[0][0], term[1], names))
        return ("fun", term[1], tuple(self.term(t, names) for t in term[2]))

    def adapted(self, step: Step, used: int, entries: list[Entry], names: dict) -> Step:
        """The step on an entry here. Where it makes a name, the one is taken that was made of this entry already."""
        if step.new or step.name:
            before = next((self.step_of(e.step) for e in entries if e.source == used and e.step), None)
            if before:
                if step.new:
                    names[step.new] = before.new
                if step.name:
                    names["e", step.name] = before.name
        return Step(used, None, None if step.to is None else self.label(step.to, names), self.mark(step.new, names) if step.new else None,
                    self.term(step.term, names) if step.term else None, self.name("e", step.name, names) if step.name else None)

    def step_of(self, number: int) -> Step:
        return self.made.steps[number - 1] if number <= len(self.made.steps) else self.out[number - len(self.made.steps) - 1]

    def carry(self, node: Node, entries: list[Entry], numbers: dict[int, int], names: dict) -> None:
        step = node.step
        closing = contradiction(entries)
        if closing:  # by what stands there already, it may be sooner
            self.out.append(closing)
            return None
        used = entries[numbers[step.entry] - 1]
        here = self.adapted(step, used.number, entries, names)
        parts = self.made.components(used, here)
        there = [next((e.number for e in entries if (e.sign, e.formula, e.label) == part), None) for part in parts]
        if len(node.below) == 2:
            for below, number in zip(node.below, there):
                if number is not None:
                    return self.carry(below, entries, {**numbers, node.made[0]: number}, dict(names))
            self.out.append(here)
            number = len(self.made.steps) + len(self.out)
            for part, below in zip(parts, node.below):
                entry = Entry(len(entries) + 1, *part, number, used.number)
                self.carry(below, [*entries, entry], {**numbers, node.made[0]: entry.number}, dict(names))
            return None
        present = [number for number in there if number is not None]
        if len(present) < len(parts):
            self.out.append(here)
            number = len(self.made.steps) + len(self.out)
            made = [Entry(len(entries) + 1 + i, *part, number, used.number) for i, part in enumerate(parts)]
            entries, present = [*entries, *made], [e.number for e in made]
        self.carry(node.below[0], entries, {**numbers, **dict(zip(node.made, present))}, names)
        return None


def contradiction(entries: list[Entry]) -> Step | None:
    """The axiom step of the first atom that is said to be true and false at one label."""
    first: dict[tuple[str, Tree, Label], int] = {}
    for e in entries:
        if e.formula[0] in ("atom", "equal"):
            first.setdefault((e.sign, e.formula, e.label), e.number)
            other = first.get(("F" if e.sign == "T" else "T", e.formula, e.label))
            if other:
                return Step(e.number, other) if e.sign == "T" else Step(other, e.number)
    return None


def branches_of(branch: Branch) -> Iterator[Branch]:
    yield branch
    for below in branch.fork:
        yield from branches_of(below)
