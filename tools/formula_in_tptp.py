#!/usr/bin/env python3
"""formula_in_tptp.py FILE OFFSET [--logic=L]

Reads the item of FILE round this byte as people write formulas (precedence, -> and the signs of logic, forall x., [] and <>, names with
capitals), and prints it as an item of TPTP, or of QMLTP where it has modal operators. Prints nothing and ends with 1 where it cannot
be read in one way, or where the program does not read what would be printed: it is asked. LEANCOP names the program; without it,
it is looked for beside this folder, then by PATH."""
from __future__ import annotations

import os
import re
import subprocess
import sys
import tempfile

MODAL = ("d", "t", "s4", "s5")
TOKEN = re.compile(r"""\s+|(?P<quoted>'(?:\\.|[^'\\])+')|(?P<iff><=+>|<-+>|↔|⇔|≡|\biff\b|\\(?:iff|leftrightarrow|Leftrightarrow|equiv)\b)
    |(?P<imp>=+>|-+>|→|⇒|⊃|\bimplies\b|\\(?:to|implies|rightarrow|Rightarrow|supset)\b)
    |(?P<box>\#?box\b:?|\[\]|□|◻|\\(?:Box|square)\b)|(?P<dia>\#?dia\b:?|<>|◇|◊|\\(?:Diamond|lozenge)\b)
    |(?P<and>&&?|∧|/\\|\band\b|\\(?:land|wedge)\b)|(?P<or>\|\|?|∨|\\/|\bor\b|\\(?:lor|vee)\b)
    |(?P<unequal>!=|≠|\\neq?\b)|(?P<not>~|¬|-|\bnot\b|\\(?:neg|lnot)\b)|(?P<all>!|∀|\\?\bforall\b)|(?P<ex>\?|∃|\\?\bexists\b)|(?P<equal>==?)
    |(?P<word>\$?[A-Za-z_]\w*)|(?P<sign>[()\[\],.:])|(?P<top>⊤|\\top\b)|(?P<bottom>⊥|\\bot\b)""", re.X)
BINARY = [("iff",), ("imp",), ("or",), ("and",)]  # from the loosest
SIGNS = {"iff": "<=>", "imp": "=>", "or": "|", "and": "&"}


class Unread(Exception):
    """The text is no formula that can be read in one way."""


class Reader:
    def __init__(self, text: str) -> None:
        self.tokens: list[tuple[str, str]] = []
        at = 0
        while at < len(text):
            found = TOKEN.match(text, at)
            if not found:
                raise Unread
            if found.lastgroup:
                self.tokens.append((found.lastgroup, found[0]))
            at = found.end()
        self.at = 0
        self.bound: list[str] = []
        self.predicates: dict[str, str] = {}  # how a name was written, by the name in TPTP
        self.functions: dict[str, str] = {}
        self.is_modal = any(kind in ("box", "dia") for kind, _ in self.tokens)

    def peek(self) -> tuple[str, str]:
        return self.tokens[self.at] if self.at < len(self.tokens) else ("end", "")

    def take(self, kind: str, text: str | None = None) -> str:
        found = self.peek()
        if found[0] != kind or text is not None and found[1] != text:
            return ""
        self.at += 1
        return found[1]

    def need(self, text: str) -> None:
        if not self.take("sign", text):
            raise Unread

    def whole(self) -> str:
        told = self.formula(0)[1]
        if self.peek()[0] != "end":
            raise Unread
        return told

    def formula(self, level: int) -> tuple[str, str]:
        """The connective outside of brackets, or nothing for a unit, and the text."""
        if level == len(BINARY):
            return "", self.unit()
        kind = BINARY[level][0]
        parts = [self.formula(level + 1)]
        while self.take(kind):
            parts.append(self.formula(level + 1))
        if len(parts) == 1:
            return parts[0]
        if kind in ("and", "or"):
            return kind, (" %s " % SIGNS[kind]).join(text if op in ("", kind) else "(%s)" % text for op, text in parts)
        op, told = parts.pop()
        while parts:  # a => b => c is a => (b => c)
            before, left = parts.pop()
            told = "%s %s %s" % (self.bracketed(before, left), SIGNS[kind], self.bracketed(op, told))
            op = kind
        return kind, told

    @staticmethod
    def bracketed(op: str, text: str) -> str:
        return "(%s)" % text if op else text

    def unit(self) -> str:
        if self.take("sign", "("):
            op, told = self.formula(0)
            self.need(")")
            if self.peek()[0] in ("equal", "unequal"):
                raise Unread
            return self.bracketed(op, told)
        if self.take("not"):
            return "~" + self.unit()
        if self.take("box"):
            self.take("sign", ":")
            return "#box:" + self.unit()
        if self.take("dia"):
            self.take("sign", ":")
            return "#dia:" + self.unit()
        for kind, sign in (("all", "!"), ("ex", "?")):
            if self.take(kind):
                return self.quantified(sign)
        return self.atom()

    def quantified(self, sign: str) -> str:
        in_brackets = self.take("sign", "[") or self.take("sign", "(")
        names = [self.take("word")]
        while self.take("sign", ","):
            names.append(self.take("word"))
        if "" in names or any(not re.fullmatch(r"[A-Za-z]\w*", name) for name in names):
            raise Unread
        if in_brackets:
            self.need("]" if in_brackets == "[" else ")")
        reaches_far = bool(self.take("sign", "."))
        if not reaches_far:
            self.take("sign", ":")
        self.bound += names
        op, told = self.formula(0) if reaches_far else ("", self.unit())
        del self.bound[len(self.bound) - len(names):]
        return "%s[%s]: %s" % (sign, ",".join(name[0].upper() + name[1:] for name in names), self.bracketed(op, told))

    def atom(self) -> str:
        if self.take("top"):
            return "$true"
        if self.take("bottom"):
            return "$false"
        start = self.at
        functions = dict(self.functions)
        left = self.term()
        for kind, sign in (("equal", " = "), ("unequal", " != ")):
            if self.take(kind):
                return left + sign + self.term()
        self.at, self.functions = start, functions
        kind, name = self.peek()
        self.at += 1
        if kind == "word" and name in self.bound:
            raise Unread  # a variable is no proposition
        return self.named(kind, name, self.predicates) + self.arguments()

    def named(self, kind: str, name: str, known: dict[str, str]) -> str:
        """A name as TPTP has it, where no other name has become the same."""
        if kind == "quoted" or name in ("$true", "$false"):
            return name
        if kind != "word" or name[0] in "$_":
            raise Unread
        told = name[0].lower() + name[1:]
        if known.setdefault(told, name) != name:
            raise Unread
        return told

    def arguments(self) -> str:
        if not self.take("sign", "("):
            return ""
        terms = [self.term()]
        while self.take("sign", ","):
            terms.append(self.term())
        self.need(")")
        return "(" + ",".join(terms) + ")"

    def term(self) -> str:
        kind, name = self.peek()
        self.at += 1
        if name in self.bound:
            if self.peek() == ("sign", "("):
                raise Unread
            return name[0].upper() + name[1:]
        if kind == "word" and name[0].isupper() and self.peek() != ("sign", "("):
            return name  # a variable that nothing binds
        return self.named(kind, name, self.functions) + self.arguments()


def item_round(text: str, offset: int) -> tuple[str, str, str]:
    """The name, the role and the formula of the item at a place; a text without items is a formula itself."""
    starts = [m for m in re.finditer(r"\b(?:fof|cnf|qmf|tff)\s*\(\s*([\w]+|'[^']*')\s*,\s*([a-z_]+)\s*,", text) if m.start() <= offset]
    if not starts:
        plain = re.sub(r"%[^\n]*", "", text).strip()
        return "c", "conjecture", plain.removesuffix(".")
    rest = text[starts[-1].end():]
    end = re.search(r"\)\s*\.\s*(?=$|%|\n|fof|cnf|qmf|include)", rest)
    return starts[-1][1], starts[-1][2], re.sub(r"%[^\n]*", "", rest[:end.start()] if end else rest)


def is_read(item: str, logic: str) -> bool:
    beside = os.path.join(os.path.dirname(os.path.realpath(__file__)), "../leancop")
    os.environ["LEANCOP_BUILD"] = "no"
    program = os.environ.get("LEANCOP") or (beside if os.path.isfile(beside) else "leancop")
    with tempfile.NamedTemporaryFile("w", suffix=".p") as problem:
        problem.write(item + "\n")
        problem.flush()
        told = subprocess.run([program, "check", problem.name, os.devnull, "--logic=" + logic], stdin=subprocess.DEVNULL,
                              stdout=subprocess.PIPE, check=False).stdout
    return told == b"rejected at line 1: version\n"


def main(words: list[str]) -> int:
    files = [w for w in words if not w.startswith("--")]
    logic = dict(w.split("=", 1) for w in words if w.startswith("--logic=")).get("--logic", "classical")
    if "--help" in words or len(files) != 2 or not files[1].isdigit():
        print(__doc__, file=sys.stdout if "--help" in words else sys.stderr)
        return 0 if "--help" in words else 5
    try:
        with open(files[0], "rb") as text:
            told = text.read(1 << 20)
        offset = len(told[:int(files[1])].decode("utf-8"))
        name, role, formula = item_round(told.decode("utf-8"), offset)
        reader = Reader(formula)
        shown = reader.whole()
    except (OSError, UnicodeDecodeError, Unread, RecursionError):
        return 1
    if reader.is_modal and logic not in MODAL:
        logic = "s4"
    item = "%s(%s,%s,%s)." % ("qmf" if logic in MODAL else "fof", name, role, shown)
    if len(item) > 1000 or not is_read(item, logic):
        return 1
    print(item)
    return 0


if __name__ == "__main__":
    sys.exit(main(sys.argv[1:]))
