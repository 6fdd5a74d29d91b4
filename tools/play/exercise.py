"""A proof that the reader makes. The program's `check` judges the text so far, line by line; from its answer this tells the line that is
wrong and why in words, and from the rules what is still open. The rest of a proof, and the hint, which is its first step, are a
derivation that `prove` found, carried over to what stands there already and accepted by `check` as a whole."""
from __future__ import annotations

import re
from collections.abc import Callable
from dataclasses import dataclass
from pathlib import Path
from typing import Any

import canonical_formula as canonical
from sequent import (Branch, Derivation, Entry, Label, Rest, Step, Tree, Unreadable, Wrong, head_of, kind_of, names_in, read_label,
                     read_step, read_term, tree_of)
from shown import Reader, label_of, rule, step_in_words, wanted, world

Check = Callable[[str], str]  # what the program says of the text of a derivation
MOST_STEPS, LONGEST_STEP, GREATEST_NUMBER = 2_000, 4_000, 2**32 - 1


def formula_of(file: Path, logic: str) -> Tree:
    """The problem's formula, with the variables of its text. canonical_formula.py tells how it is made of the items."""
    premises: list[Tree] = []
    conjecture: Tree = ()
    functions: dict[tuple[str, int], None] = {}
    predicates: dict[tuple[str, int], None] = {}
    equations = False
    for _, _, role, formula in canonical.passing(str(file), None, []):
        equations |= canonical.symbols(formula, functions, predicates)
        if role == "conjecture":
            conjecture = formula
        else:
            premises.append(formula)
    if equations and logic in ("classical", "intuitionistic"):
        premises = [*canonical.equality_axioms(functions, predicates), *premises]
    if not premises:
        return conjecture
    given = canonical.balanced("and", premises)
    return ("imp", given, conjecture) if conjecture else ("not", given)


def setting_of(logic: str, domains: str) -> str:
    if logic in ("classical", "intuitionistic"):
        return logic
    return f"{logic} constant" if (logic, domains) == ("s5", "cumulative") else f"{logic} {domains}"


@dataclass
class Judged:
    """What `check` says of the steps: those that it takes, and the fault of the first one that it does not."""

    made: Derivation
    text: str
    done: bool = False
    at: int | None = None
    fault: str = ""


class Exercise:
    """One problem in one logic."""

    def __init__(self, file: Path, logic: str, domains: str, reader: Reader, check: Check) -> None:
        self.logic, self.domains, self.reader, self.check = logic, domains, reader, check
        self.formula = formula_of(file, logic)
        self.functions: dict[tuple[str, int], None] = {}
        self.predicates: dict[tuple[str, int], None] = {}
        canonical.symbols(self.formula, self.functions, self.predicates)
        self.head = f"leancop derivation 1\nlogic {setting_of(logic, domains)}\nformula {canonical.text(self.formula, {None: 0})}\nlimit 1\n"

    # ---- judging

    def judged(self, lines: list[str]) -> Judged:
        lines = lines[:MOST_STEPS]
        made = Derivation(self.logic, self.formula)
        for line in lines:
            try:
                step = read_step(line)
                self.give_homes(made, step)
                made.apply(step)
            except (Unreadable, Wrong):
                break
        names = made.name_lines()
        text = self.head + "".join(line + "\n" for line in [*names, *lines, "end"])
        said = self.check(text)
        if said == "accepted":
            return Judged(made, text, done=True)
        place = re.fullmatch(r"rejected at line (\d+): ([a-z ]+)", said)
        if not place:
            raise RuntimeError(said)
        at, fault = int(place[1]) - 5 - len(names), place[2]
        if at == len(lines) and fault == "still open" and len(made.steps) == len(lines):
            return Judged(made, text)
        if not 0 <= at < len(lines):
            raise RuntimeError(said)
        before = self.judged(lines[:at])  # the steps before it, judged for themselves: a fault of form is told before others
        return before if before.fault else Judged(before.made, before.text, before.done, at, fault)

    def give_homes(self, made: Derivation, step: Step) -> None:
        """A spare constant gets a home when a step first has it: any world, or with varying domains the one where the step puts it."""
        if step.term is None or not 0 < step.entry <= len(made.open[-1].all() if made.open else []):
            return
        for name in names_in(step.term):
            if name[0] == "spare":
                home = made.label_of(made.open[-1].all()[step.entry - 1], step) if self.domains == "varying" else None
                made.homes.setdefault(("s", name[1]), home)

    # ---- what the reader asks for

    def line(self, asked: dict[str, Any], made: Derivation) -> str:
        """The line of a step as the reader filled it in. What is in no form stays as it is, for the program to refuse."""
        entry = int(asked.get("entry", 0))
        if asked.get("rule") == "axiom":
            other = int(asked.get("other", 0))
            entries = made.open[-1].all() if made.open else []
            if 0 < entry <= len(entries) and entries[entry - 1].sign == "F":
                entry, other = other, entry
            return f"axiom {entry} {other}"
        words = f"use {entry}"
        if asked.get("to") is not None:
            words += " to " + label_of(str(asked["to"]))
        if asked.get("new"):
            words += " new " + self.free_mark(made)
        if asked.get("term") is not None:
            words += " term " + self.term(str(asked["term"]))
        if asked.get("name"):
            words += f" name $$e{1 + max([n for letter, n in made.homes if letter == 'e'], default=0)}"
        return re.sub(r"[\x00-\x1f]", " ", words)[:LONGEST_STEP]

    def term(self, text: str) -> str:
        known = {self.reader.name("function", name): name for name, _ in self.functions}

        def word(found: re.Match[str]) -> str:
            name = found[0].translate(str.maketrans("₀₁₂₃₄₅₆₇₈₉", "0123456789"))
            if name in known:
                return term_name(known[name])
            return "$$" + name if re.fullmatch(r"[es][1-9]\d*", name, re.A) else name

        return re.sub(r"(?<![\w$'])\w[\w']*", word, re.sub(r"\s+", "", text)) or "?"

    def free_mark(self, made: Derivation) -> str:
        used = {m for e in made.open[-1].all() for m in e.label} if made.open else set()
        used |= {m for home in made.homes.values() if home for m in home}
        return next(f"$$c{i}" for i in range(1, len(used) + 2) if f"$$c{i}" not in used)

    # ---- what the reader sees

    def state(self, lines: list[str], asked: dict[str, Any] | None = None) -> dict[str, Any]:
        judged = self.judged(lines)
        if asked is not None and not judged.fault:
            lines = [*lines, self.line(asked, judged.made)]
            judged = self.judged(lines)
        made = judged.made
        taken = [step.text() for step in made.steps]
        answer: dict[str, Any] = {
            "steps": taken, "done": judged.done, "open": len(made.open), "tree": self.branch(made.root, made), "text": judged.text,
            "worlds": [], "terms": [], "modal": self.logic != "classical", "fault": None,
        }
        if made.open:
            answer |= self.choices(made)
        if judged.fault and judged.at is not None:
            line = lines[judged.at]
            answer["fault"] = {"line": line, "word": judged.fault, "said": self.in_words(judged.fault, line, made), "lost": len(lines) - judged.at - 1}
        return answer

    def branch(self, branch: Branch, made: Derivation) -> dict[str, Any]:
        closed = branch.closed
        return {
            "entries": [self.entry(e, made) for e in branch.entries],
            "closed": [closed.entry, closed.other] if closed else None,
            "current": bool(made.open) and branch is made.open[-1], "open": branch in made.open,
            "fork": [self.branch(below, made) for below in branch.fork],
        }

    def entry(self, e: Entry, made: Derivation) -> dict[str, Any]:
        kind = kind_of(self.logic, e.sign, e.formula)
        return {
            "n": e.number, "sign": e.sign, "formula": self.reader.formula(e.formula), "world": world(e.label), "from": e.source,
            "rule": rule(self.logic, e.sign, e.formula), "literal": kind.shape == "literal", "uses": kind.shape != "literal" or bool(kind.modal),
        }

    def choices(self, made: Derivation) -> dict[str, Any]:
        """The worlds and the terms that stand on the branch, to choose from; others may be typed."""
        entries = made.open[-1].all()
        labels: dict[Label, None] = dict.fromkeys(e.label for e in entries)
        if self.logic in ("d", "t", "s5"):
            further = [(*w, "$$d1") for w in [()] + [w for w in labels if self.logic != "s5"]]
            labels |= dict.fromkeys(further)
        terms = [name for name, count in self.functions if not count]
        names = list(dict.fromkeys(name for e in entries for name in names_in(e.formula)))
        return {
            "worlds": [world(w) for w in labels],
            "terms": [self.reader.formula(t) for t in [*names, *(("fun", name, ()) for name in terms)]] + ["s₁"] * (not names and not terms),
            "functions": [self.reader.name("function", name) for name, count in self.functions if count],
        }

    def in_words(self, fault: str, line: str, made: Derivation) -> str:
        """A fault that the program told of a line, to somebody who learns."""
        entries = made.open[-1].all() if made.open else []
        try:
            step = read_step(line)
        except Unreadable:
            return self.form(line)
        used = entries[step.entry - 1] if 0 < step.entry <= len(entries) else None
        if fault == "line":
            return self.form(line)
        if fault == "no entry":
            return f"This branch has the entries 1 to {len(entries)}."
        if fault == "no connection" and used and step.other and step.other <= len(entries):
            return self.unconnected(used, entries[step.other - 1])
        if fault == "wrong arguments" and used:
            return f"Entry {used.number} is {used.sign} {self.reader.formula(used.formula)}: {wanted(self.logic, used)}."
        if fault == "unknown name":
            unknown = [self.reader.formula(n) for n in names_in(step.term or ("fun", "", ())) if (n[0][0], n[1]) not in made.homes]
            return f"Nothing is named {', '.join(unknown) or 'so'} yet: a name e₁, e₂, .. comes from the rule of a ∃ that is true or a ∀ that is false."
        if fault == "not reachable" and used and step.to is not None:
            return self.unreached(used.label, step.to)
        if fault == "not new":
            return "The new world or name stands on this branch already; it must be one of which nothing is known."
        if fault == "wrong home":
            return "The name belongs to the world where the step puts it."
        if fault == "not allowed" and used and step.term:
            return self.not_there(step.term, made, made.label_of(used, step))
        return {"all closed": "All branches are closed: the proof is done."}.get(fault, f"The program says: {fault}.")

    def form(self, line: str) -> str:
        """A line that is in no form of the format, stops before its end, or has a symbol that the problem does not have."""
        words = line.split(" ")
        behind = WANTED_BEHIND.get(words[-1]) or ("the number of the entry that it contradicts" if re.fullmatch(r"axiom \d+ ?", line) else None)
        if behind or not line.strip():
            return f"The line stops here: {behind or 'a step'} is missing."
        great = next((n for n in re.findall(r"(?<![\w'$])\d+|(?<=\$\$[a-z])\d+", line, re.A) if int(n[:20]) > GREATEST_NUMBER), None)
        if great:
            return f"{great[:20]}{'..' * (len(great) > 20)} is greater than any number of an entry or a name."
        term = re.search(r" term (.*)$", line)
        has = ", ".join(self.reader.name("function", n) + (f" with {k} arguments" if k > 1 else " with 1 argument" if k else "") for n, k in self.functions)
        has = f"The problem's names are: {has}" if has else "The problem names nothing"
        has += ". Besides there are e₁, e₂, .. that were made on the branch, and s₁, s₂, .. for someone of whom nothing is said."
        if term:
            try:
                for name, count in symbols_of(read_term(term[1])):
                    if (name, count) not in self.functions:
                        how = f" with {count} arguments" if count > 1 else " with 1 argument" if count else ""
                        return f"{self.reader.name('function', name)}{how} is no name of this problem. {has}"
            except Unreadable:
                return f"“{term[1]}” is no term. A term is a name or a function of terms, such as a or f(a,e₁). {has}"
        to = re.search(r" to (\S+)", line)
        if to:
            try:
                read_label(to[1])
            except Unreadable:
                return "This is no world. A world is root, or characters such as c₁ or c₁·c₂ that lead there."
        return "This line is in no form of a step: use N, with to, new, term or name, or axiom N N."

    def unconnected(self, a: Entry, b: Entry) -> str:
        for e in (a, b):
            if e.formula[0] not in ("atom", "equal"):
                return f"Entry {e.number} is no atom: first take it apart."
        if a.sign == b.sign:
            return f"Both entries say {'true' if a.sign == 'T' else 'false'}: a contradiction has one of each."
        if a.formula != b.formula:
            return f"{self.reader.formula(a.formula)} and {self.reader.formula(b.formula)} are different atoms."
        return f"Entry {a.number} speaks of the world {world(a.label)}, entry {b.number} of {world(b.label)}."

    def unreached(self, here: Label, there: Label) -> str:
        steps = {"d": "one step further, and no less", "t": "to itself and one step further", "s4": "to itself and to all that begins with it",
                 "intuitionistic": "to itself and to all later ones, whose names begin with its own", "s5": "to each world of one character, and to the root"}
        return f"From the world {world(here)} this logic reaches {steps.get(self.logic, 'itself alone')}: not {world(there)}."

    def not_there(self, term: Tree, made: Derivation, label: Label) -> str:
        for name in names_in(term):
            home = made.homes.get((name[0][0], name[1]))
            if home is not None:
                who = self.reader.formula(name)
                where = "there alone" if self.domains == "varying" else "there and at the worlds behind it"
                return f"{who} was named at the world {world(home)}, and with these domains it is {where}: not at {world(label)}."
        return f"The term may not stand at the world {world(label)} with these domains."

    # ---- help

    def rest(self, lines: list[str], found: str) -> dict[str, Any]:
        """The steps that are missing, by the text of a derivation that the program found; accepted as a whole."""
        judged = self.judged(lines)
        made = judged.made
        if judged.done or not made.open:
            return {"steps": [], "hint": "All branches are closed: the proof is done.", "text": judged.text}
        homes, steps = head_of(found)
        entries = made.open[-1].all()
        rest = Rest(made, homes)
        missing = rest.steps(tree_of(self.logic, self.formula, steps))
        whole = Derivation(self.logic, self.formula)
        whole.homes = dict(rest.new_homes)
        for step in [*made.steps, *missing]:
            whole.apply(step)
        text = self.head + "".join(f"{line}\n" for line in [*whole.name_lines(), *(s.text() for s in whole.steps), "end"])
        said = self.check(text)
        if said != "accepted":
            raise RuntimeError(f"the rest was not accepted: {said}")
        first = missing[0]
        asks = {"entry": first.entry, "rule": "axiom" if first.other is not None else "use"}
        return {"steps": [s.text() for s in missing], "hint": step_in_words(self.logic, entries, first, self.reader), "asks": asks, "text": text}


WANTED_BEHIND = {"use": "the number of an entry", "axiom": "the number of an entry", "to": "the world that is reached", "new": "the new character",
                 "term": "the term", "name": "the new name"}


def term_name(name: str) -> str:
    return name if re.fullmatch(r"[a-z]\w*", name, re.A) else "'" + re.sub(r"(['\\])", r"\\\1", name) + "'"


def symbols_of(term: Tree) -> list[tuple[str, int]]:
    if term[0] != "fun":
        return []
    return [(term[1], len(term[2])), *(symbol for t in term[2] for symbol in symbols_of(t))]


