"""From a derivation of classical or intuitionistic logic to a file of Coq over the theory of tools/coq: the problem's premises as
hypotheses one by one, Coq's own equality, and for proof the derivation as data, which the theory's checker judges by computation."""
import os
import re
import sys
from collections.abc import Iterable, Iterator
from dataclasses import dataclass, field, replace

HERE = os.path.dirname(os.path.realpath(__file__))
sys.path[:0] = [HERE, os.path.join(HERE, "../share/leancop")]
import canonical_formula  # noqa: E402
from derivation_text import STEP, Formula, Reader, Term  # noqa: E402

TRUTH = ("imp", ("atom", "$$o", ()), ("atom", "$$o", ()))
# What a premise is not called: words of Coq, and what the file speaks of.
TAKEN = """as at cofix else end exists exists2 fix for forall fun if in let match mod return then where with by using Prop Set Type SProp
    U anything the_problem the_formula conj eq_refl classic classical intuitionistic accepts table sorts steps""".split()
CHUNK = 40  # steps of a definition: Coq reads a text of many small terms faster than one deep one


class NotTheFormula(Exception):
    """The premises do not make the formula that the program accepted."""


@dataclass(frozen=True)
class Entry:
    sign: bool
    formula: Formula
    label: tuple
    level: int


@dataclass(frozen=True)
class Node:
    trues: int = 0
    falses: int = 0
    kids: int = 0
    names: tuple = ()


@dataclass
class Branch:
    """What is known on a branch: its entries, the nodes of the tree by their paths, the paths of labels, the numbers of names."""
    entries: list[Entry] = field(default_factory=list)
    nodes: dict[tuple, Node] = field(default_factory=lambda: {(): Node()})
    paths: dict[tuple, tuple] = field(default_factory=lambda: {(): ()})
    made: dict[int, int] = field(default_factory=dict)

    def copy(self) -> "Branch":
        return Branch(list(self.entries), dict(self.nodes), dict(self.paths), dict(self.made))

    def path(self, label: tuple) -> tuple:
        """A label that no step made is the node of its longest made prefix."""
        while label not in self.paths:
            label = label[:-1]
        return self.paths[label]

    def add(self, path: tuple, label: tuple, parts: Iterable[tuple[bool, Formula]]) -> None:
        for sign, formula in parts:
            node = self.nodes[path]
            self.entries.append(Entry(sign, formula, label, node.trues if sign else node.falses))
            self.nodes[path] = replace(node, trues=node.trues + sign, falses=node.falses + (not sign))

    def place(self, path: tuple, e: Entry) -> int:
        node = self.nodes[path]
        return (node.trues if e.sign else node.falses) - 1 - e.level

    def in_scope(self, path: tuple, name: int) -> bool:
        return any(name in self.nodes[path[:i]].names for i in range(len(path) + 1))


def branches(sign: bool, f: Formula) -> list[list[tuple[bool, Formula]]]:
    """What a step adds to each branch."""
    if f[0] == "atom":
        return [[(sign, f)]]
    if f[0] in ("not", "all", "ex"):
        return [[(sign != (f[0] == "not"), f[1])]]
    left, right = (sign != (f[0] == "imp"), f[1]), (sign, f[2])
    return [[left, right]] if sign == (f[0] == "and") else [[left], [right]]


def path_text(path: tuple) -> str:
    return "[%s]" % "; ".join(map(str, path))


class Replay:
    """Steps of a derivation as steps of the theory's checker, in the same order: (text, how many branches it leaves)."""

    def __init__(self, formula: Formula, lines: list[str], is_classical: bool, symbols: dict[tuple, int]) -> None:
        self.is_classical, self.symbols, self.names = is_classical, symbols, 0
        first = Branch()
        first.add((), (), [(False, formula)])
        self.open, self.steps = [first], []
        for line in lines:
            self.steps.append(self.step(line, self.open.pop()))

    def step(self, line: str, branch: Branch) -> tuple[str, int]:
        words = line.split(" ")
        if words[0] == "axiom":
            e, other = branch.entries[int(words[1]) - 1], branch.entries[int(words[2]) - 1]
            path, to = branch.path(e.label), branch.path(other.label)
            return "AX %s %d %s %d" % (path_text(path), branch.place(path, e), path_text(to[len(path):]), branch.place(to, other)), 0
        found = STEP.fullmatch(line)
        if found is None:
            sys.exit("leancop-coq: not understood: " + line)
        e = branch.entries[int(found[1]) - 1]
        return (self.use_true if e.sign else self.use_false)(branch, e, found.groupdict())

    def go_on(self, branch: Branch, path: tuple, label: tuple, *adds: list[tuple[bool, Formula]]) -> int:
        copies = [branch.copy() for _ in adds[1:]]
        for b, parts in reversed(list(zip([branch, *copies], adds))):
            b.add(path, label, parts)
            self.open.append(b)
        return len(adds)

    def use_true(self, b: Branch, e: Entry, words: dict[str, str | None]) -> tuple[str, int]:
        path = b.path(e.label)
        label = Reader(words["to"]).label() if words["to"] else e.label
        to, place, f, word = b.path(label), b.place(path, e), e.formula, "No"
        b.paths.setdefault(label, to)
        if f[0] == "all":
            word = "(Tm %s)" % self.term(b, to, Reader(words["term"] or "").term())
        if f[0] == "ex":
            word = "(Nm %d)" % self.new_name(b, to, words["name"] or "")
        return "UT %s %d %s %s" % (path_text(path), place, path_text(to[len(path):]), word), self.go_on(b, to, label, *branches(True, f))

    def use_false(self, b: Branch, e: Entry, words: dict[str, str | None]) -> tuple[str, int]:
        path, label, f, word = b.path(e.label), e.label, e.formula, "No"
        place = b.place(path, e)
        text, home = "UF %s %d " % (path_text(path), place), path
        if f[0] == "ex":
            word = "(Tm %s)" % self.term(b, path, Reader(words["term"] or "").term())
        if f[0] in ("atom", "not", "imp", "all") and not self.is_classical:  # a world of its own
            home, label = path + (b.nodes[path].kids,), label + (words["new"],)
            b.nodes[path] = replace(b.nodes[path], kids=b.nodes[path].kids + 1)
            b.nodes[home], b.paths[label] = Node(), home
        if f[0] == "all":
            word = "(Nm %d)" % self.new_name(b, home, words["name"] or "")
        return text + word, self.go_on(b, home, label, *branches(False, f))

    def new_name(self, b: Branch, path: tuple, word: str) -> int:
        """A branch may make a name twice, so names get numbers of our own."""
        self.names += 1
        b.made[int(word[3:])] = self.names
        b.nodes[path] = replace(b.nodes[path], names=b.nodes[path].names + (self.names,))
        return self.names

    def term(self, b: Branch, path: tuple, t: Term) -> str:
        if t[0] == "fun":
            text = "(Sym %d)" % self.symbols["fun", t[1], len(t[2])]
            for part in t[2]:
                text = "(App %s %s)" % (text, self.term(b, path, part))
            return text
        name = b.made.get(t[1]) if t[0] == "eigen" else None
        if name is not None and b.in_scope(path, name):
            return "(Eig %d)" % name
        return "(Sym %d)" % self.symbols["fun", None, 0]  # anything will do


def definitions(steps: list[tuple[str, int]]) -> Iterator[str]:
    """The derivation as definitions, each of few steps; the last one is named steps."""
    stack: list[tuple[str, int]] = []  # texts of finished parts with their numbers of steps, the first branch on top
    count = 0
    for text, left in reversed(steps):
        parts = [stack.pop() for _ in range(left)]
        whole, size = "D%d (%s)%s" % (left, text, "".join(" " + p for p, _ in parts)), 1 + sum(n for _, n in parts)
        if size >= CHUNK:
            count += 1
            yield "Definition steps%d := %s." % (count, whole)
            whole, size = "steps%d" % count, 0
        stack.append(("(%s)" % whole, size))
    yield "Definition steps := %s." % stack[0][0]


def folded(f: Formula) -> Formula:
    """With truth, falsity and equivalences as Coq has them, where the canonical formula has what they stand for."""
    if f == TRUTH:
        return ("true",)
    if f == ("not", TRUTH):
        return ("false",)
    if f[0] == "and" and f[1][0] == f[2][0] == "imp" and f[1][1:] == f[2][:0:-1]:
        return ("iff", folded(f[1][1]), folded(f[1][2]))
    return tuple(folded(x) if isinstance(x, tuple) and f[0] != "atom" else x for x in f)


class Symbols:
    """The symbols of a problem, numbered for the checker, and their names in Coq."""

    def __init__(self, formula: Formula) -> None:
        self.number: dict[tuple, int] = {("pred", "$$o", 0): 0, ("fun", None, 0): 1}
        self.coq = {("pred", "$$o", 0): "True", ("fun", None, 0): "anything"}
        self.collect(formula)

    def collect(self, f: Formula) -> None:
        if f[0] in ("atom", "fun"):
            self.add("pred" if f[0] == "atom" else "fun", f[1], len(f[2]))
        for part in f[2] if f[0] in ("atom", "fun") else f[1:]:
            if isinstance(part, tuple):
                self.collect(part)

    def add(self, kind: str, name: str, arity: int) -> None:
        key = (kind, name, arity)
        if key in self.number:
            return
        self.number[key] = len(self.number)
        base = ("f_" if kind == "fun" else "p_") + re.sub(r"\W", "_", name.strip("'"), flags=re.ASCII)
        while base in self.coq.values():
            base += "'"
        self.coq[key] = "@eq U" if name == "=" else base

    def variables(self) -> Iterator[str]:
        yield "Variable U : Type."
        yield "Variable anything : U. (* there is something *)"
        for (kind, name, arity), coq in self.coq.items():
            if coq not in ("True", "anything", "@eq U"):
                note = "" if coq[2:] == name else " (* %s *)" % re.sub(r"[^A-Za-z0-9_=$ ]", "?", (name or "").strip("'"))
                yield "Variable %s : %s%s.%s" % (coq, "U -> " * arity, "U" if kind == "fun" else "Prop", note)

    def table(self) -> Iterator[str]:
        for key, coq in list(self.coq.items())[1:]:
            sort = "Base 0" if key[0] == "fun" else "Prp"
            for _ in range(key[2]):
                sort = "Arr (Base 0) (%s)" % sort
            yield "V [U] (%s) (%s)" % (sort, coq)

    # -- statements

    def term(self, t: Term) -> str:
        if t[0] == "var":
            return "x" + t[1][1:]
        words = [self.coq["fun", t[1], len(t[2])], *map(self.term, t[2])]
        return "(%s)" % " ".join(words) if t[2] else words[0]

    def says(self, f: Formula) -> str:
        kind = f[0]
        if kind == "atom" and f[1] == "=":
            return "(%s = %s)" % tuple(map(self.term, f[2]))
        if kind == "atom":
            words = [self.coq["pred", f[1], len(f[2])], *map(self.term, f[2])]
            return "(%s)" % " ".join(words) if f[2] else words[0]
        if kind in ("all", "ex"):
            return "(%s x%s : U, %s)" % ("forall" if kind == "all" else "exists", f[2][1:], self.says(f[1]))
        if kind in ("true", "false"):
            return {"true": "True", "false": "False"}[kind]
        if kind == "not":
            return "~ " + self.says(f[1])
        return "(%s %s %s)" % (self.says(f[1]), {"and": "/\\", "or": "\\/", "imp": "->", "iff": "<->"}[kind], self.says(f[2]))

    # -- data

    def term_data(self, t: Term, bound: tuple) -> str:
        if t[0] == "var":
            return "(Var %d)" % bound.index(t[1])
        text = "(Sym %d)" % self.number["pred" if t[0] == "atom" else "fun", t[1], len(t[2])]
        for part in t[2]:
            text = "(App %s %s)" % (text, self.term_data(part, bound))
        return text

    def data(self, f: Formula, bound: tuple = ()) -> str:
        kind = f[0]
        if kind == "atom":
            return "(Atom %s)" % self.term_data(f, bound)
        if kind in ("all", "ex"):
            return "(%s (Base 0) %s)" % ("All" if kind == "all" else "Ex", self.data(f[1], (f[2], *bound)))
        word = {"true": "Top", "false": "Bot"}.get(kind, kind.capitalize())
        return "(%s)" % " ".join([word, *(self.data(x, bound) for x in f[1:])]) if f[1:] else word


def halves(f: Formula, count: int) -> list[Formula]:
    """What balanced conjunction joined."""
    if count == 1:
        return [f]
    if f[0] != "and":
        raise NotTheFormula
    first = (count + 1) // 2
    return halves(f[1], first) + halves(f[2], count - first)


def balanced(texts: list[str]) -> str:
    if len(texts) == 1:
        return texts[0]
    half = (len(texts) + 1) // 2
    return "(conj %s %s)" % (balanced(texts[:half]), balanced(texts[half:]))


@dataclass
class Parts:
    """The formula of a problem, taken apart as the problem states it."""
    equations: list[Formula]
    premises: list[tuple[str, Formula]]
    conjecture: Formula | None

    @staticmethod
    def of(formula: Formula, file: str, root: str | None) -> "Parts":
        items = list(canonical_formula.passing(file, root, []))
        names = [item[1] for item in items if item[2] != "conjecture"]
        has_conjecture = len(names) < len(items)
        functions: dict = {}
        predicates: dict = {}
        equations = any([canonical_formula.symbols(item[3], functions, predicates) for item in items])
        axioms = len(list(canonical_formula.equality_axioms(functions, predicates))) if equations else 0
        count = axioms + len(names)
        if count == 0:
            return Parts([], [], formula)
        if formula[0] != ("imp" if has_conjecture else "not"):
            raise NotTheFormula
        given = halves(formula[1], count)
        return Parts(given[:axioms], list(zip(names, given[axioms:])), formula[2] if has_conjecture else None)


def own_names(names: Iterable[str], taken: Iterable[str]) -> list[str]:
    """Names of hypotheses that Coq takes and that are used once."""
    used, out = set(taken), []
    for name in names:
        base = re.sub(r"\W", "_", name, flags=re.ASCII)
        base = base if re.match(r"[A-Za-z]", base) else "h_" + base
        while base in used:
            base += "'"
        used.add(base)
        out.append(base)
    return out


def theorem(lines: list[str], file: str, root: str | None) -> list[str]:
    """A file of Coq. The lines are those of version 1 of a derivation of the problem in the file."""
    logic = lines[1].split()[1]
    formula = Reader(lines[2][len("formula "):]).formula()
    parts, symbols = Parts.of(formula, file, root), Symbols(formula)
    first = next(i for i, line in enumerate(lines) if line.split(" ")[0] in ("use", "axiom"))
    replayed = Replay(formula, lines[first:lines.index("end")], logic == "classical", symbols.number)
    names = own_names([name for name, _ in parts.premises], [*TAKEN, *symbols.coq.values()])
    axioms = ["e%d" % (i + 1) for i in range(len(parts.equations))]
    axioms = own_names(axioms, [*TAKEN, *symbols.coq.values(), *names])
    rule, middle = ("classical", "classic ") if logic == "classical" else ("intuitionistic", "")
    conclusion = ("false",) if parts.conjecture is None else folded(parts.conjecture)
    mode = rule.capitalize()
    proof = "%s [U] table sorts the_formula steps %seq_refl (eq_refl true <: accepts %s sorts the_formula steps = true)" % (
        rule, middle, mode)
    given = axioms + names
    return [
        "(* Made by leancop-coq, over the theory of tools/coq. What is to be read is what stands between \"Section\" and \"Proof.\": that it",
        "   is proved, Coq says. *)",
        "From Coq Require Import List NArith%s." % (" Classical_Prop" if middle else ""),
        "From Leancop Require Import Leancop.",
        "Import ListNotations.",
        "Definition the_formula := %s." % symbols.data(folded(formula)),
        *definitions(replayed.steps),
        "Section Problem.",
        *symbols.variables(),
        *("Hypothesis %s : %s." % (name, symbols.says(folded(f))) for name, (_, f) in zip(names, parts.premises)),
        "Theorem the_problem : %s." % symbols.says(conclusion),
        "Proof.",
        "  pose (table := [%s])." % "; ".join(symbols.table()),
        "  pose (sorts := map (vs [U]) table).",
        *("  assert (%s : %s) by leancop_equality." % (name, symbols.says(folded(f))) for name, f in zip(axioms, parts.equations)),
        "  exact (%s%s)." % (proof, " " + balanced(given) if given else ""),
        "Qed.",
        "End Problem.",
        "Print Assumptions the_problem."]
