"""Formulas as books write them: read with the place of what cannot be read, and written as items of TPTP or QMLTP.

A tree is a tuple (kind, ..): ("imp", A, B), also iff xor; ("and", A, B, ..), also or; ("not", A), also box dia; ("all", A, variable), also ex; ("true",),
("false",); ("atom", name, terms); ("equal", s, t); a term is ("var", name) or ("fun", name, terms). Names are the reader's own.

    python3 formulas.py [--logic=L]    reads a formula a line, and prints the formula in TPTP, or the place and what is wanted there"""
from __future__ import annotations

import re
import sys
import unicodedata
from dataclasses import dataclass, field

Tree = tuple  # of a kind, trees and names, as above
LONGEST, DEEPEST = 20_000, 150  # characters of a formula; levels of brackets, quantifiers and connectives in front

# What stands for what. A word of letters counts only as a whole word.
SIGNS = {
    "iff": "↔ <-> <=> ⇔ ≡ <--> \\leftrightarrow \\Leftrightarrow \\iff \\equiv iff",
    "xor": "<~> ⊕ \\oplus xor",
    "imp": "→ -> => ⇒ ⊃ --> \\to \\rightarrow \\Rightarrow \\implies \\supset implies",
    "back": "← <= ⇐ \\leftarrow \\Leftarrow",
    "or": "∨ | || \\/ \\lor \\vee or",
    "and": "∧ & && /\\ \\land \\wedge and",
    "not": "¬ ~ - − \\neg \\lnot not",
    "box": "□ [] ◻ \\Box \\square #box: #box box",
    "dia": "◇ <> ◊ ⋄ \\Diamond \\diamond \\lozenge #dia: #dia dia",
    "all": "∀ \\forall forall all ⋀",
    "ex": "∃ \\exists exists ex ⋁",
    "true": "⊤ \\top $true",
    "false": "⊥ \\bot $false",
    "equal": "= \\eq",
    "unequal": "!= ≠ \\neq \\ne",
    "turnstile": "⊢ |- ⊨ |= ∴ \\vdash \\models \\therefore",
    "!": "!", "?": "?", "(": "( \\left( {", ")": ") \\right) }", "[": "[", "]": "]", ",": ", ;", ".": ". :",
}
RELATIONS = {"∈": "in", "\\in": "in", "<": "less", "≤": "leq", "\\leq": "leq", "\\le": "leq", ">": "greater", "≥": "geq", "\\geq": "geq",
             "\\ge": "geq", "⊆": "subset", "\\subseteq": "subset"}
NOTHING = {"\\,", "\\;", "\\!", "\\ ", "\\quad", "\\qquad", "\\left", "\\right", "$", "\\mathrm", "\\mathit", "\\text", "\\mathsf", "\\big", "\\Big"}
GREEK = "alpha beta gamma delta epsilon varepsilon zeta eta theta iota kappa lambda mu nu xi pi rho sigma tau phi varphi chi psi omega".split()
SIGN_OF = {word: kind for kind, words in SIGNS.items() for word in words.split()}
PLAIN = sorted((w for w in [*SIGN_OF, *RELATIONS, "$", "\\,", "\\;", "\\!", "\\ "] if not re.fullmatch(r"\\?[A-Za-z]+", w)), key=len, reverse=True)
LETTER = r"[^\W\d_]"
TOKEN = re.compile(r"(?P<space>\s+)|(?P<tex>\\[A-Za-z]+)|(?P<plain>\[\s+\]|%s)|(?P<word>%s(?:_\{\w+\}|\w|['′])*)"
                   % ("|".join(map(re.escape, PLAIN)), LETTER))
SAID = {"end": "the end of the formula", "word": "a name", "relation": "a sign"}
BINARY = {"iff": "↔", "xor": "⊕", "imp": "→", "or": "∨", "and": "∧", "equal": "="}
PREFIX = {"not": "¬", "box": "□", "dia": "◇", "all": "∀", "ex": "∃"}
INFIX = {word: sign for sign, word in RELATIONS.items() if sign[0] != "\\"}


class Unread(Exception):
    """Where a text cannot be read, from one character to another, and what is wanted there."""

    def __init__(self, start: int, end: int, said: str) -> None:
        super().__init__(said)
        self.start, self.end, self.said = start, end, said


@dataclass
class Token:
    kind: str
    text: str
    start: int
    end: int


def tokens_of(text: str) -> list[Token]:
    if len(text) > LONGEST:
        raise Unread(LONGEST, len(text), f"a formula has at most {LONGEST} characters here")
    tokens, at = [], 0
    while at < len(text):
        found = TOKEN.match(text, at)
        if not found:
            raise Unread(at, at + 1, f"“{text[at]}” is no sign that is known here")
        word, end = found[0], found.end()
        if found["tex"] and word[1:] in GREEK:
            tokens.append(Token("word", word[1:], at, end))
        elif found["plain"] and word[0] == "[" and word[-1] == "]":
            tokens.append(Token("box", word, at, end))
        elif word in SIGN_OF:
            tokens.append(Token(SIGN_OF[word], word, at, end))
        elif word in RELATIONS:
            tokens.append(Token("relation", RELATIONS[word], at, end))
        elif found["tex"] and word not in NOTHING:
            raise Unread(at, end, f"the command {word} is not known here")
        elif found["word"]:
            name = unicodedata.normalize("NFKC", re.sub(r"[{}]", "", word).replace("′", "'"))  # subscripts become digits
            tokens.append(Token("word", name, at, end))
        at = end
    tokens.append(Token("end", "", len(text), len(text)))
    return tokens


@dataclass
class Read:
    """What a text says: premises before a turnstile, the formula, the first modal operator, and names that no quantifier binds."""

    premises: list[Tree]
    formula: Tree
    modal: Token | None
    free: list[str]


class Parser:
    """One formula, or premises, a turnstile and a formula. Connectives bind as in books: ¬ □ ◇ ∀ ∃, then ∧, ∨, →, ↔."""

    def __init__(self, text: str) -> None:
        self.tokens, self.at, self.depth = tokens_of(text), 0, 0
        self.bound: list[str] = []
        self.modal: Token | None = None
        self.free: list[str] = []

    def here(self) -> Token:
        return self.tokens[self.at]

    def take(self, *kinds: str) -> Token | None:
        if self.here().kind in kinds:
            self.at += 1
            return self.tokens[self.at - 1]
        return None

    def fail(self, said: str, token: Token | None = None) -> Unread:
        token = token or self.here()
        return Unread(token.start, max(token.end, token.start + 1), said)

    def need(self, kind: str, said: str) -> Token:
        token = self.take(kind)
        if token is None:
            raise self.fail(said)
        return token

    def whole(self) -> Read:
        if self.here().kind == "end":
            raise self.fail("a formula is wanted")
        formulas = [] if self.here().kind == "turnstile" else [self.formula()]
        while formulas and self.take(","):
            formulas.append(self.formula())
        if self.take("turnstile"):
            formulas.append(self.formula())
        elif len(formulas) > 1:
            raise self.fail("a comma parts premises, so a ⊢ and the conclusion are wanted behind them")
        self.take(".")
        if self.here().kind != "end":
            raise self.fail(self.surplus())
        return Read(formulas[:-1], formulas[-1], self.modal, self.free)

    def surplus(self) -> str:
        token = self.here()
        if token.kind == ")":
            return "this bracket closes none"
        if token.kind == "iff":
            return "two ↔ side by side: brackets say which of them comes first"
        if token.kind in ("word", "(", "[", "all", "ex", "not", "box", "dia", "true", "false"):
            return "a connective such as ∧, ∨, → or ↔ is wanted before this"
        return "this cannot stand here"

    def formula(self) -> Tree:
        self.depth += 1
        if self.depth > DEEPEST:
            raise self.fail(f"more than {DEEPEST} brackets and signs inside one another")
        left = self.implication()
        sign = self.take("iff", "xor")
        if sign:
            left = (sign.kind, left, self.implication())
        self.depth -= 1
        return left

    def implication(self) -> Tree:
        parts = [self.chain("or")]
        while self.take("imp"):
            parts.append(self.chain("or"))
        if len(parts) > DEEPEST:
            raise self.fail(f"more than {DEEPEST} arrows side by side")
        if len(parts) == 1 and self.take("back"):
            return ("imp", self.chain("or"), parts[0])
        tree = parts.pop()
        while parts:
            tree = ("imp", parts.pop(), tree)
        return tree

    def chain(self, kind: str) -> Tree:
        units = [self.chain("and") if kind == "or" else self.unit()]
        while self.take(kind):
            units.append(self.chain("and") if kind == "or" else self.unit())
        return (kind, *units) if len(units) > 1 else units[0]

    def unit(self) -> Tree:
        self.depth += 1
        if self.depth > DEEPEST:
            raise self.fail(f"more than {DEEPEST} brackets and signs inside one another")
        tree = self.prefixed()
        self.depth -= 1
        return tree

    def prefixed(self) -> Tree:
        sign = self.take("not", "box", "dia", "all", "ex", "!", "?", "true", "false", "(", "[")
        if sign is None:
            return self.atom()
        if sign.kind in ("true", "false"):
            return (sign.kind,)
        if sign.kind in ("(", "["):
            return self.bracketed(sign)
        if sign.kind in ("not", "box", "dia"):
            if sign.kind != "not":
                self.modal = self.modal or sign
                self.take(".")  # as in #box: and box:
            return (sign.kind, self.unit())
        return self.quantified(sign)

    def bracketed(self, sign: Token) -> Tree:
        inside = self.formula()
        if not self.take(")" if sign.kind == "(" else "]"):
            if self.here().kind == "end":
                raise self.fail("this bracket is not closed", sign)
            raise self.fail(self.surplus())
        return inside

    def quantified(self, sign: Token) -> Tree:
        kind = {"!": "all", "?": "ex"}.get(sign.kind, sign.kind)
        tptp = self.take("[")
        if sign.kind in ("!", "?") and not tptp:
            raise self.fail("negation is ¬ or ~; a quantifier is ∀x, ∃x or, as in TPTP, ![X]: and ?[X]:", sign)
        names = self.variables()
        if tptp:
            self.need("]", "a ] is wanted behind the variables")
        wide = self.take(".") is not None and not tptp
        self.bound += names
        tree = self.formula() if wide else self.unit()
        del self.bound[len(self.bound) - len(names):]
        for name in reversed(names):
            tree = (kind, tree, name)
        return tree

    def variables(self) -> list[str]:
        names: list[str] = []
        while True:
            token = self.need("word", "a variable is wanted behind the quantifier")
            run = re.fullmatch(r"([a-z](?:_?\d+|'+)?)([A-Z]\w*)", token.text)
            if run:  # ∀xFx
                names.append(run[1])
                self.at -= 1
                self.tokens[self.at] = Token("word", run[2], token.end - len(run[2]), token.end)
                return names
            names += list(token.text) if re.fullmatch(r"[u-z]{2,}", token.text) else [token.text]
            if not self.take(","):
                return names

    def atom(self) -> Tree:
        token = self.here()
        if token.kind == "end":
            raise self.fail("a formula is wanted here, and the text ends")
        if token.kind != "word":
            raise self.fail("a formula is wanted here")
        self.at += 1
        run = re.fullmatch(r"([A-Z])([a-z]{1,6})", token.text)
        if run and self.here().kind not in ("(", "equal", "unequal", "relation") and all(c in self.bound or c in "abcdxyz" for c in run[2]):
            return ("atom", run[1], tuple(self.named(c) for c in run[2]))  # Fx, Rab
        arguments = self.arguments(token)
        if self.here().kind in ("equal", "unequal", "relation"):
            return self.related(self.named(token.text, arguments))
        if token.text in self.bound:
            raise self.fail(f"{token.text} is a variable, and a formula is wanted here, such as P({token.text})", token)
        return ("atom", token.text, arguments)

    def related(self, left: Tree) -> Tree:
        sign = self.take("equal", "unequal", "relation")
        if sign is None:
            raise self.fail("a relation such as = is wanted behind a term")
        right = self.term()
        if sign.kind == "relation":
            return ("atom", sign.text, (left, right))
        return ("equal", left, right) if sign.kind == "equal" else ("not", ("equal", left, right))

    def arguments(self, name: Token) -> tuple:
        bracket = self.here()
        if bracket.kind != "(" or name.text in self.bound:
            return ()
        self.at += 1
        terms = [self.term()]
        while self.take(","):
            terms.append(self.term())
        if not self.take(")"):
            if self.here().kind == "end":
                raise self.fail("this bracket is not closed", bracket)
            raise self.fail("a comma or a closing bracket is wanted behind a term")
        return tuple(terms)

    def term(self) -> Tree:
        self.depth += 1
        if self.depth > DEEPEST:
            raise self.fail(f"more than {DEEPEST} brackets and signs inside one another")
        token = self.need("word", "a term is wanted here, such as x, a or f(x)")
        tree = self.named(token.text, self.arguments(token))
        self.depth -= 1
        return tree

    def named(self, name: str, arguments: tuple = ()) -> Tree:
        if name in self.bound:
            return ("var", name)
        if not arguments and re.fullmatch(r"[u-zU-Z][0-9']*", name) and name not in self.free:
            self.free.append(name)
        return ("fun", name, arguments)


def read(text: str) -> Read:
    return Parser(text).whole()


@dataclass
class Names:
    """The words of TPTP for the reader's names: a small or a capital first letter, and quotes where two names would become one."""

    words: dict[tuple[str, str], str] = field(default_factory=dict)

    def word(self, kind: str, name: str) -> str:
        if (kind, name) in self.words:
            return self.words[kind, name]
        letters = (c if c.isascii() else unicodedata.normalize("NFKD", c).encode("ascii", "ignore").decode()
                   or unicodedata.name(c, "sign").split()[-1].lower() for c in name)
        plain = re.sub(r"\W", "_", "".join(letters).replace("'", "_prime"))
        first = plain[0].upper() if kind == "variable" else plain[0].lower()
        word, taken = first + plain[1:], {w for (k, _), w in self.words.items() if k == kind}
        count = 1
        while word in taken:
            count += 1
            word = f"{first}{plain[1:]}_{count}"
        self.words[kind, name] = word
        return word

    def reader(self, kind: str, word: str) -> str:
        """The reader's name for a word of TPTP."""
        return next((name for (k, name), w in self.words.items() if k == kind and w == word), word)

    def by_kind(self) -> dict[str, dict[str, str]]:
        """The reader's names of all words, by kind."""
        return {kind: {w: name for (k, name), w in self.words.items() if k == kind} for kind in ("variable", "function", "predicate")}


def tptp(tree: Tree, names: Names) -> str:
    kind = tree[0]
    if kind in ("true", "false"):
        return "$" + kind
    if kind == "var":
        return names.word("variable", tree[1])
    if kind in ("fun", "atom"):
        arguments = ",".join(tptp(t, names) for t in tree[2])
        return names.word("function" if kind == "fun" else "predicate", tree[1]) + (f"({arguments})" if arguments else "")
    if kind in ("all", "ex"):
        return f"({'!' if kind == 'all' else '?'} [{names.word('variable', tree[2])}] : {tptp(tree[1], names)})"
    if kind in ("not", "box", "dia"):
        return "(" + {"not": "~ ", "box": "#box: ", "dia": "#dia: "}[kind] + tptp(tree[1], names) + ")"
    sign = {"iff": "<=>", "xor": "<~>", "imp": "=>", "or": "|", "and": "&", "equal": "="}[kind]
    return "(" + f" {sign} ".join(tptp(part, names) for part in tree[1:]) + ")"


def book(tree: Tree, inner: bool = False) -> str:
    """The formula with the brackets that say how it was read."""
    kind = tree[0]
    if kind in ("true", "false"):
        return "⊤" if kind == "true" else "⊥"
    if kind == "var":
        return tree[1]
    if kind == "atom" and tree[1] in INFIX and len(tree[2]) == 2:
        text = f" {INFIX[tree[1]]} ".join(book(t) for t in tree[2])
        return f"({text})" if inner else text
    if kind in ("fun", "atom"):
        return tree[1] + ("(" + ", ".join(book(t) for t in tree[2]) + ")" if tree[2] else "")
    if kind in PREFIX:
        return PREFIX[kind] + (tree[2] + " " if len(tree) > 2 else "") + book(tree[1], True)
    text = f" {BINARY[kind]} ".join(book(part, True) for part in tree[1:])
    return f"({text})" if inner else text


@dataclass
class Problem:
    """A problem's text, how its formulas were read, what is to be remarked, and the words of its names."""

    text: str
    read_as: list[str]
    notes: list[str]
    names: Names

    def title(self) -> str:
        """What its pages are called by: the formula and its premises, as they were read."""
        if not self.read_as:
            return "your problem"
        *premises, formula = self.read_as
        said = ", ".join(premises) + " ⊢ " * bool(premises) + formula
        return said if len(said) <= 80 else said[:79] + "…"


class Misread(Exception):
    """A field of the page that cannot be read: "formula", or "premises" with the place counted over all its lines."""

    def __init__(self, place: str, fault: Unread, offset: int = 0) -> None:
        super().__init__(fault.said)
        self.place, self.start, self.end, self.said = place, fault.start + offset, fault.end + offset, fault.said


def arities(tree: Tree, found: dict[tuple[str, str], set[int]]) -> None:
    if tree[0] in ("fun", "atom"):
        found.setdefault((tree[0], tree[1]), set()).add(len(tree[2]))
    for part in tree[2] if tree[0] in ("fun", "atom") else tree[1:]:
        if isinstance(part, tuple):
            arities(part, found)


def remarks(reads: list[Read], trees: list[Tree], modal: bool) -> list[str]:
    notes = []
    free = list(dict.fromkeys(name for one in reads for name in one.free))
    if free:
        notes.append(f"No quantifier binds {', '.join(free)}: read as a name of one thing.")
    found: dict[tuple[str, str], set[int]] = {}
    for tree in trees:
        arities(tree, found)
    notes += [f"{name} stands with {' and '.join(str(n) for n in sorted(numbers))} arguments: these are different symbols."
              for (_, name), numbers in found.items() if len(numbers) > 1]
    if modal and any("=" in tptp(tree, Names()).replace("=>", "").replace("<=", "") for tree in trees):
        notes.append("In modal logics = is a predicate like others, without axioms.")
    return notes


def problem(formula: str, premises: str, logic: str) -> Problem:
    """The problem of a formula and of premises, one a line, for a logic; Misread where there is none."""
    modal = logic not in ("classical", "intuitionistic")
    reads: list[Read] = []

    def one(place: str, text: str, offset: int) -> Read:
        try:
            got = read(text)
            if got.modal and not modal:
                raise Unread(got.modal.start, got.modal.end, "□ and ◇ need a modal logic: D, T, S4 or S5")
            if place == "premises" and got.premises:
                raise Unread(0, len(text), "a premise has no ⊢")
        except Unread as fault:
            raise Misread(place, fault, offset) from None
        reads.append(got)
        return got

    given, offset = [], 0
    for line in premises.split("\n"):
        if line.strip():
            given.append(one("premises", line, offset).formula)
        offset += len(line) + 1
    last = one("formula", formula, 0)
    given += last.premises
    names, item = Names(), "qmf" if modal else "fof"
    lines = [f"{item}(premise_{i},axiom,{tptp(tree, names)}).\n" for i, tree in enumerate(given, 1)]
    lines.append(f"{item}(conclusion,conjecture,{tptp(last.formula, names)}).\n")
    return Problem("".join(lines), [book(tree) for tree in [*given, last.formula]], remarks(reads, [*given, last.formula], modal), names)


ITEMS = re.compile(r"\s*(?:%|/\*|(?:fof|cnf|qmf|tff|thf|tcf|tpi|include)\s*\()")


def is_tptp(text: str) -> bool:
    """Whether a text is a whole problem of TPTP or QMLTP, and no formula."""
    return ITEMS.match(text) is not None


def include_in(text: str) -> Unread | None:
    """The first word "include" of a problem's text. Wherever it stands, also in a comment: so nothing that is read as one passes."""
    found = re.search(r"\binclude\b", text, re.A)
    return Unread(found.start(), found.end(), "this page reads no files, so nothing can be included") if found else None


def main(words: list[str]) -> int:
    logic = next((w.removeprefix("--logic=") for w in words if w.startswith("--logic=")), "classical")
    for line in sys.stdin:
        try:
            made = problem(line.rstrip("\n"), "", logic)
            print("; ".join(re.sub(r"^\w+\(\w+,\w+,(.*)\)\.$", r"\1", item) for item in made.text.splitlines()))
        except Misread as fault:
            print(f"{fault.start}-{fault.end}: {fault.said}")
    return 0


if __name__ == "__main__":
    sys.exit(main(sys.argv[1:]))
