"""The texts of derivations, of either version, as lines and tuples: for companions that rewrite them. Nothing is judged here: what is
read was accepted by the program."""
import re
import sys
from collections.abc import Callable
from typing import Any

Formula = tuple  # (kind, part..): all, ex (formula, variable), not, box, dia (formula), and, or, imp (two formulas), atom (name, terms)
Term = tuple  # ("var", name), ("fun", name, terms), ("eigen", number), ("spare", number)


class Reader:
    """Canonical texts: terms, labels and formulas as tuples that begin with their kind."""

    def __init__(self, text: str) -> None:
        self.text, self.at = text, 0

    def take(self, word: str) -> bool:
        found = self.text.startswith(word, self.at)
        self.at += len(word) * found
        return found

    def match(self, regex: str) -> str:
        found = re.compile(regex).match(self.text, self.at)
        if not found:
            sys.exit("leancop: not understood: " + self.text[self.at:self.at + 60])
        self.at = found.end()
        return found[0]

    def listed(self, one: Callable[[], Any], opening: str = "(", closing: str = ")") -> tuple:
        if not self.take(opening):
            return ()
        items = []
        while not self.take(closing):
            items.append(one())
            self.take(",")
        return tuple(items)

    def term(self) -> Term:
        for start, kind in (("$$e", "eigen"), ("$$s", "spare")):
            if self.take(start):
                return (kind, int(self.match(r"\d+")))
        name = self.match(r"'(?:\\.|[^'\\])*'|\$\$o|\w+")
        return ("var", name) if name[0].isupper() else ("fun", name, self.listed(self.term))

    def label(self) -> tuple:
        return self.listed(lambda: self.match(r"\$\$[cd]\d+"), "[", "]")

    def formula(self) -> Formula:
        for word, kind in (("~", "not"), ("#box:", "box"), ("#dia:", "dia")):
            if self.take(word):
                return (kind, self.formula())
        for word, kind in (("![", "all"), ("?[", "ex")):
            if self.take(word):
                name = self.match(r"X\d+")
                self.take("]:")
                return (kind, self.formula(), name)
        if not self.take("("):
            return ("atom",) + self.term()[1:]
        if self.text[self.at] in "(~!?#":
            a = self.formula()
        else:
            left = self.term()
            if self.take(" = "):
                right = self.term()
                self.take(")")
                return ("atom", "=", (left, right))
            a = ("atom",) + left[1:]
        kind = {" & ": "and", " | ": "or", " => ": "imp"}[self.match(r" (?:&|\||=>) ")]
        b = self.formula()
        self.take(")")
        return (kind, a, b)


def in_version_one(lines: list[str]) -> list[str]:
    """The lines of a derivation, with labels and terms in place of the numbers that version 2 has."""
    if lines[0] == "leancop derivation 1":
        return lines
    labels: dict[str, str] = {}
    terms: dict[str, str] = {}
    out = []
    for line in lines:
        words = line.split(" ")
        if words[0] in ("label", "term"):
            (labels if words[0] == "label" else terms)[words[1]] = line.split(" ", 2)[2]
        elif words[0] == "name":
            out.append(" ".join(words[:2] + [labels.get(words[2], words[2])]))
        elif words[0] == "use":
            stated = {"to": labels, "term": terms}
            out.append(" ".join(stated.get(words[i - 1], {}).get(word, word) for i, word in enumerate(words)))
        else:
            out.append(line)
    return out


STEP = re.compile(r"use (\d+)(?: to (?P<to>\S+)| new (?P<new>\S+))?(?: term (?P<term>.+)| name (?P<name>\S+))?")
