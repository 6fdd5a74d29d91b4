"""What a reader sees of formulas, worlds, steps and faults: signs of books, the reader's own names, and sentences."""
from __future__ import annotations

import re
from collections.abc import Callable

from formulas import INFIX
from sequent import Entry, Label, Step, Tree, kind_of

SUBSCRIPT = str.maketrans("0123456789", "₀₁₂₃₄₅₆₇₈₉")
BINARY = {"and": "∧", "or": "∨", "imp": "→", "equal": "="}
PREFIX = {"not": "¬", "box": "□", "dia": "◇", "all": "∀", "ex": "∃"}
RESERVED = ("atom", None, ())  # the atom of $true, which is (o => o)
TRUE = ("imp", RESERVED, RESERVED)
LOGICS = {"classical": "classical logic", "intuitionistic": "intuitionistic logic", "d": "D", "t": "T", "s4": "S4", "s5": "S5"}


class Reader:
    """The names of one reader: what stands in a text of the format, in the words of the formula that was typed."""

    def __init__(self, name: Callable[[str, str], str] | None = None) -> None:
        self.name = name or (lambda _, word: word)

    def formula(self, f: Tree, inner: bool = False) -> str:
        kind = f[0]
        if f == TRUE:
            return "⊤"
        if kind == "not" and f[1] == TRUE:
            return "⊥"
        if kind == "var":
            return self.name("variable", f[1])
        if kind in ("eigen", "spare"):
            return f"{kind[0]}{f[1]}".translate(SUBSCRIPT)
        if kind == "atom" and f[1] is None:
            return "o"
        if kind == "atom" and f[1] in INFIX and len(f[2]) == 2:
            text = f"{self.formula(f[2][0])} {INFIX[f[1]]} {self.formula(f[2][1])}"
            return f"({text})" if inner else text
        if kind in ("fun", "atom"):
            name = self.name("function" if kind == "fun" else "predicate", f[1])
            return name + ("(" + ", ".join(self.formula(t) for t in f[2]) + ")" if f[2] else "")
        if kind in ("all", "ex"):
            return f"{PREFIX[kind]}{self.name('variable', f[2])} {self.formula(f[1], True)}"
        if kind in PREFIX:
            return PREFIX[kind] + self.formula(f[1], True)
        text = f"{self.formula(f[1], True)} {BINARY[kind]} {self.formula(f[2], True)}"
        return f"({text})" if inner else text


def world(label: Label) -> str:
    return "·".join(m[2] + m[3:].translate(SUBSCRIPT) for m in label) or "root"


def label_of(text: str) -> str:
    """The label that a reader means: root, c1·c2, c₁ c₂, [$$c1,$$c2]."""
    digits = text.translate(str.maketrans("₀₁₂₃₄₅₆₇₈₉", "0123456789")).strip()
    if digits in ("root", "[]"):
        return "[]"
    marks = re.findall(r"[^\s,·.\[\]$]+", digits)
    return "[" + ",".join("$$" + m for m in marks) + "]"


SAYS = {
    "T and": "Both sides of a true conjunction are true.", "F or": "Both sides of a false disjunction are false.",
    "F imp": "A false implication has a true left side and a false right side.",
    "T not": "What a true negation denies is false.", "F not": "What a false negation denies is true.",
    "F and": "A false conjunction has a false side: two cases.", "T or": "A true disjunction has a true side: two cases.",
    "T imp": "A true implication has a false left side or a true right side: two cases.",
    "T all": "What holds for all holds for each one: take a term.", "F ex": "What holds for none fails for each one: take a term.",
    "F all": "What does not hold for all fails for someone, who gets a new name.",
    "T ex": "What holds for someone holds for one who gets a new name.",
    "T box": "What is necessary is true at each world that is reached: take one.",
    "F dia": "What is not possible is false at each world that is reached: take one.",
    "F box": "What is not necessary is false at some world that is reached, which gets a new name.",
    "T dia": "What is possible is true at some world that is reached, which gets a new name.",
}
SAYS_LATER = {
    "F imp": "An implication that is not established fails at some later state, which gets a new name: its left side holds there, its right side does not.",
    "F not": "A negation that is not established: at some later state, which gets a new name, what it denies holds.",
    "F all": "A universal statement that is not established fails at some later state for someone; both get new names.",
    "T imp": "An established implication holds at each later state: take one. Its left side fails there, or its right side holds: two cases.",
    "T not": "An established negation holds at each later state: take one. What it denies fails there.",
    "T all": "An established universal statement holds at each later state for each one there: take a state and a term.",
    "T atom": "What is established stays so at each later state: take one.",
    "F atom": "An atom that is not established fails at some later state, which gets a new name.",
}
SAYS_LATER["T equal"], SAYS_LATER["F equal"] = SAYS_LATER["T atom"], SAYS_LATER["F atom"]


def rule(logic: str, sign: str, f: Tree) -> str:
    """What may be done with an entry, in a sentence."""
    what = f"{sign} {f[0]}"
    closes = "An atom: it closes the branch together with the same atom of the other sign" + (
        "." if logic == "classical" else " at the same world.")
    if logic == "intuitionistic" and what in SAYS_LATER:
        return SAYS_LATER[what] + (" " + closes if f[0] in ("atom", "equal") else "")
    return SAYS.get(what, closes)


ARGUMENTS = {"nu": "a world that is reached (to)", "pi": "a new world (new)", "gamma": "a term (term)", "delta": "a new name (name)"}


def wanted(logic: str, entry: Entry) -> str:
    """The arguments that the rule of an entry takes."""
    kind = kind_of(logic, entry.sign, entry.formula)
    takes = [ARGUMENTS[part] for part in (kind.modal, kind.shape) if part in ARGUMENTS]
    if kind.shape == "literal" and not kind.modal:
        return "it is an atom and has no rule: it only closes a branch, with the same atom of the other sign"
    return "its rule takes " + (" and ".join(takes) if takes else "nothing besides")


def step_in_words(logic: str, entries: list[Entry], step: Step, reader: Reader) -> str:
    """What a step does, to a reader who sees the entries."""
    used = entries[step.entry - 1]
    if step.other is not None:
        return f"Entries {step.entry} and {step.other} contradict each other: close the branch."
    text = f"Use entry {step.entry}, {used.sign} {reader.formula(used.formula)}. {rule(logic, used.sign, used.formula)}"
    taken = []
    if step.to is not None:
        taken.append(f"the world {world(step.to)}")
    if step.term:
        taken.append(f"the term {reader.formula(step.term)}")
    return text + (f" Take {' and '.join(taken)}." if taken else "")
