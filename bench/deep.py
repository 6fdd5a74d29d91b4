#!/usr/bin/env python3
"""bench/deep.py [options]
Runs the built program on deep and long inputs: 500 and 501 levels of each construct, 16 MiB of each kind of token, derivations
with terms of 1,000,000 levels, as many names and labels, searches 200 levels deep. A run that ends by a signal, in another way
than is expected, or with less stack in another way than with more, is told.
  --program=FILE   the program (crates/leancop/out/leancop, which ./leancop builds)
  --stacks=N,..    kilobytes of stack (8192,1024)
  --gigabytes=N    of memory at the most (4); with less than a run wants it is to end with status 7, which is told
  --filter=RE      the inputs whose names match
  --kept=FOLDER    keeps the files of what was told there
A line for each input: what it is, its bytes, and for each stack the status, the answer, seconds of the processor and MB."""
from __future__ import annotations

import os
import re
import resource
import shutil
import sys
import tempfile
from collections.abc import Callable, Iterator

from processes import Run, Runner, find_program, is_an_answer, read_options

MILLION = 1000000
MEBIBYTES = 16 << 20
DEEP, ACCEPTED = "nesting too deep", "accepted"
DERIVED = "leancop derivation"


def fof(formula: str, role: str = "conjecture") -> str:
    return "fof(c,%s,%s).\n" % (role, formula)


def qmf(formula: str) -> str:
    return "qmf(c,conjecture,%s).\n" % formula


def around(opening: str, count: int, inner: str, closing: str = "") -> str:
    return opening * count + inner + closing * count


def derivation(formula: str, lines: list[str], setting: str = "classical") -> str:
    return "leancop derivation 1\nlogic %s\nformula %s\nlimit 1\n%send\n" % (setting, formula, "".join(lines))


# Each construct with a token that has so many brackets, operators and quantifiers round it.
CONSTRUCTS = {
    "negations": lambda n: fof("~" * n + "p"),
    "brackets": lambda n: fof(around("(", n, "p", ")")),
    "universal quantifiers": lambda n: fof("![X]:" * n + "p(X)"),
    "existential quantifiers": lambda n: fof("?[X]:" * n + "p(X)"),
    "implications to the right": lambda n: fof(around("(p=>", n, "p", ")")),
    "implications to the left": lambda n: fof(around("(", n, "p", "=>p)")),
    "conjunctions": lambda n: fof(around("(p&", n, "p", ")")),
    "disjunctions": lambda n: fof(around("(p|", n, "p", ")")),
    "terms": lambda n: fof("p(%s)" % around("f(", n - 1, "a", ")")),
    "terms in equations": lambda n: fof("%s=a" % around("f(", n, "a", ")")),
    "terms of clauses": lambda n: "cnf(c,axiom,p(%s)).\n" % around("f(", n - 1, "X", ")"),
    "boxes": lambda n: qmf("#box:" * n + "p"),
    "diamonds": lambda n: qmf("#dia:" * n + "p"),
    "notes": lambda n: "fof(c,conjecture,p,%s).\n" % around("f(", n, "a", ")"),
    "lists of notes": lambda n: "fof(c,conjecture,p,%s).\n" % around("[", n, "a", "]"),
}


# Each input: its name, the words, the texts of its files or a function that makes them, and how the answer begins where that is fixed.
Input = tuple[str, list[str], dict[str, str] | Callable[[], dict[str, str]], str | None]


def nested() -> Iterator[Input]:
    for name, make in CONSTRUCTS.items():
        words = ["prove", "m.p", "--steps=1000"] + (["--logic=s4"] if "qmf" in make(1) else [])
        for count in (490, 500, 501, 100000):
            wanted = None if "notes" in name else DEEP if count > 501 else None
            yield "%d %s" % (count, name), words, {"m.p": make(count)}, wanted
    for name in ("negations", "implications to the right", "universal quantifiers", "conjunctions", "terms"):
        yield "490 %s, intuitionistic" % name, ["prove", "m.p", "--logic=intuitionistic", "--steps=1000"], {"m.p": CONSTRUCTS[name](490)}, None


def long_tokens() -> Iterator[Input]:
    rest = MEBIBYTES - 100
    for name, make in {
        "one lower word": lambda: fof("a" * rest),
        "one upper word": lambda: fof("![%s]:p" % ("X" * rest)),
        "one dollar word": lambda: fof("$" + "a" * rest),
        "one hash word": lambda: qmf("#" + "b" * rest),
        "one quoted name": lambda: fof("'%s'" % ("a" * rest)),
        "one distinct object": lambda: fof('"%s"' % ("a" * rest)),
        "one number": lambda: fof("p(%s)" % ("1" * rest)),
        "one comment to the end of a line": lambda: "%" + "a" * rest + "\n" + fof("p"),
        "one block comment": lambda: "/*" + "a" * rest + "*/" + fof("p"),
        "blanks": lambda: " " * rest + fof("p"),
        "line feeds": lambda: "\n" * rest + fof("p"),
        "lower words": lambda: "a " * (rest // 2),
        "upper words": lambda: "X " * (rest // 2),
        "dollar words": lambda: "$a " * (rest // 3),
        "hash words": lambda: "#b " * (rest // 3),
        "quoted names": lambda: "'a' " * (rest // 4),
        "distinct objects": lambda: '"a" ' * (rest // 4),
        "numbers": lambda: "1 " * (rest // 2),
        "comments": lambda: "%\n" * (rest // 2) + fof("p"),
        "block comments": lambda: "/**/" * (rest // 4) + fof("p"),
        "round brackets": lambda: fof("(" * rest),
        "square brackets": lambda: fof("[" * rest),
        "negations": lambda: fof("~" * rest + "p"),
        "notes": lambda: "fof(c,conjecture,p,[%sa]).\n" % ("a," * (rest // 2)),
        "variables of a quantifier": lambda: fof("![%sX]:p" % ("X," * (rest // 2))),
        "equations in a chain": lambda: fof("X=Y|" * (rest // 4) + "p"),
        "atoms in a chain": lambda: fof("p&" * (rest // 2) + "p"),
        "literals of a clause": lambda: "cnf(c,axiom,%sp).\n" % ("p|" * (rest // 2)),
        "clauses": lambda: "cnf(c,axiom,p).\n" * (rest // 16),
        "includes": lambda: "include('a.p').\n" * (rest // 16),
        "names of an include": lambda: "include('a.p',[%sa]).\n" % ("a," * (rest // 2)),
        "arguments": lambda: fof("p(%sa)" % ("a," * (rest // 2))),
    }.items():
        yield "16 MiB: " + name, ["prove", "m.p", "--steps=1000"], lambda: {"m.p": make(), "a.p": ""}, None


def terms() -> Iterator[Input]:
    for name, formula, problem in [("f(..)", "?[X1]:(p(X1) => p(X1))", "?[X]:(p(X) => p(X))")]:
        for levels in (20000, MILLION):
            term = around("f(", levels, "a", ")")
            known = "(p(f(a)) => %s)" % formula
            lines = ["use 1\n", "use 3 term %s\n" % term, "use 4\n", "axiom 5 6\n"]
            yield "a term of %d levels" % levels, ["check", "m.p", "d"], {"m.p": fof("p(f(a)) => " + problem), "d": derivation(known, lines)}, ACCEPTED
            yield "a term of %d levels in an axiom that fails" % levels, ["check", "m.p", "d"], {
                "m.p": fof("p(f(a)) => " + problem), "d": derivation(known, [*lines[:3], "axiom 2 6\n"])}, "rejected at line 8: no connection"
    broad = "f(%sa)" % ("a," * MILLION)
    yield "a term with 1,000,001 arguments", ["check", "m.p", "d"], {
        "m.p": fof("?[X]:(p(X) => p(X))"), "d": derivation("?[X1]:(p(X1) => p(X1))", ["use 1 term %s\n" % broad])}, "rejected at line 5: line"


def numbered(count: int, form: str) -> list[str]:
    return [form % (n + 1) for n in range(count)]


def label_of(count: int) -> str:
    return "[%s]" % ",".join(numbered(count, "$$d%d"))


def names_and_labels() -> Iterator[Input]:
    first, formula = fof("p => p"), "(p => p)"
    lines = ["use 1\n", "axiom 2 3\n"]
    yield "1,000,000 names", ["check", "m.p", "d"], lambda: {
        "m.p": first, "d": derivation(formula, numbered(MILLION, "name $$e%d []\n") + lines)}, ACCEPTED
    yield "1,000,000 spare constants", ["check", "m.p", "d"], lambda: {
        "m.p": first, "d": derivation(formula, numbered(MILLION, "name $$s%d any\n") + lines)}, ACCEPTED
    modal, boxed = qmf("(#box:p) => #dia:p"), "(#box:p => #dia:p)"
    ends = ["use 2 to [$$d1]\n", "use 3 to [$$d1]\n", "axiom 4 5\n"]
    yield "1,000,000 labels of length 1", ["check", "m.p", "d", "--logic=d"], lambda: {"m.p": modal, "d": derivation(boxed, [
        "use 1\n", *numbered(MILLION, "use 2 to [$$d%d]\n"), "use 3 to [$$d7]\n", "axiom 10 %d\n" % (MILLION + 4)], "d constant")}, ACCEPTED
    yield "a label of 1,000,000 characters", ["check", "m.p", "d", "--logic=s4"], lambda: {"m.p": modal, "d": derivation(boxed, [
        "use 1\n", "use 2 to %s\n" % label_of(MILLION), "use 3 to %s\n" % label_of(MILLION), ends[2]], "s4 constant")}, ACCEPTED
    yield "a home of 1,000,000 characters", ["check", "m.p", "d", "--logic=s4"], lambda: {"m.p": modal, "d": derivation(boxed, [
        "name $$e1 %s\n" % label_of(MILLION), "use 1\n", *ends], "s4 constant")}, ACCEPTED
    yield "1,000,000 steps", ["check", "m.p", "d"], lambda: {
        "m.p": first, "d": derivation(formula, ["use 1\n"] * MILLION + ["axiom 2 3\n"])}, ACCEPTED
    nots = fof("p => ~~p")
    forks = fof("(p => p) & (p => p)")
    yield "500 negations, judged", ["check", "m.p", "d"], {
        "m.p": fof("p => " + "~" * 480 + "p"), "d": derivation("(p => %sp)" % ("~" * 480), [
            "use 1\n", *("use %d\n" % (n + 3) for n in range(480)), "axiom 2 483\n"])}, ACCEPTED
    yield "one line of 16 MiB", ["check", "m.p", "d"], {"m.p": nots, "d": derivation("(p => ~~p)", ["use %s\n" % ("1" * MEBIBYTES)])}, "rejected at line 5: line"
    yield "1,000,000 empty lines", ["check", "m.p", "d"], {"m.p": forks, "d": "\n" * MILLION}, "rejected at line 1: version"


def symbols() -> Iterator[Input]:
    many = "".join("fof(a%d,axiom,p%d(f%d(a),X%%s)).\n" % (n, n, n) for n in range(30000)).replace("X%s", "a")
    yield "60,001 symbols with arguments", ["prove", "m.p", "--steps=1000"], {"m.p": many + fof("p7(f7(a),a)")}, DERIVED
    equal = "".join("fof(a%d,axiom,p%d(a)).\n" % (n, n) for n in range(30000))
    yield "30,000 predicates and an equation", ["prove", "m.p", "--steps=1000"], {"m.p": equal + fof("a=b")}, None
    wide = "p(%sa)" % ("a," * 65535)
    yield "a predicate of 65,536 arguments", ["prove", "m.p", "--steps=1000"], {"m.p": fof("%s => %s" % (wide, wide))}, DERIVED
    yield "the same with an equation", ["prove", "m.p", "--steps=1000"], {"m.p": fof("(%s & a=b) => %s" % (wide, wide))}, DEEP
    broad = "p(%s)" % ",".join("f%d(a)" % n for n in range(65000))
    yield "65,000 functions in an atom", ["prove", "m.p", "--steps=1000"], {"m.p": fof("%s => %s" % (broad, broad))}, DERIVED


def searches() -> Iterator[Input]:
    words = ["prove", "m.p", "--limit=200", "--steps=100000"]
    chain = "".join("fof(a%d,axiom,p%d => p%d).\n" % (n, n, n + 1) for n in range(198)) + fof("p198") + "fof(s,axiom,p0).\n"
    yield "a tableau 199 deep", words, {"m.p": chain}, DERIVED
    shift = "fof(s,axiom,p(a)).\nfof(n,axiom,![X]:(p(X) => p(f(X)))).\n" + fof("p(%s)" % around("f(", 198, "a", ")"))
    yield "a tableau 199 deep with terms", words, {"m.p": shift}, DERIVED
    grown = "fof(s,axiom,p(a)).\nfof(n,axiom,![X]:(p(%s) => p(X))).\n" % around("f(", 450, "X", ")") + fof("?[X]:(p(X) & q(X))")
    yield "terms that grow by 450 levels 199 times", [*words[:3], "--steps=1000"], {"m.p": grown}, None
    for clauses in (10, 22, 23, 60, 198):
        steps = "".join("cnf(c%d,axiom,~p%d(X) | p%d(%s)).\n" % (n, n, n + 1, around("f(", 450, "X", ")")) for n in range(clauses))
        yield "terms of %d levels" % (450 * clauses), words, {
            "m.p": "cnf(first,axiom,p0(a)).\n%scnf(last,negated_conjecture,~p%d(X)).\n" % (steps, clauses)}, DERIVED
    boxes = qmf("(%sp) => %sp" % ("#box:" * 200, "#box:" * 200))
    yield "200 boxes on both sides in D", [*words, "--logic=d"], {"m.p": boxes}, DERIVED
    yield "200 boxes on both sides in S4", [*words, "--logic=s4"], {"m.p": boxes}, None
    yield "a tower of 150", ["make", "tower", "150", "--logic=s4"], {}, "made tower 150"
    yield "a chain of 150", ["make", "chain", "150", "--limit=200"], {}, "made chain 150"
    yield "a shift of 150", ["make", "shift", "150", "--limit=200"], {}, "made shift 150"
    nots = "~" * 480
    yield "480 negations on both sides", words, {"m.p": fof("%sp => %sp" % (nots, nots))}, DERIVED
    for count in (60, 120, 240):
        nots = "~" * count
        yield "%d negations on both sides, intuitionistic" % count, ["prove", "m.p", "--steps=1000", "--logic=intuitionistic"], {
            "m.p": fof("%sp => %sp" % (nots, nots))}, DERIVED


def others() -> Iterator[Input]:
    nots = fof("~" * 240 + "p => " + "~" * 240 + "p")
    yield "a translation of 481 levels", ["transfer", "m.p", "d"], {"m.p": nots, "d": ""}, "rejected at line 1: version"
    text = derivation("(%sp => %sp)" % ("~" * 240, "~" * 240), ["use 1 new $$c1\n"], "intuitionistic")
    yield "a derivation of it", ["transfer", "m.p", "d"], {"m.p": nots, "d": text}, "rejected at line 6: still open"
    yield "500 negations translated", ["check", "m.p", "d", "--logic=intuitionistic", "--as=s4"], {"m.p": fof("~" * 500 + "p"), "d": ""}, DEEP
    structure = "leancop structure 1\nlogic classical\nworlds 1\nelements %d\nrelation 1 1\ndomain 1 %s\n%send\n"
    yield "a table of 1,000,000 entries", ["model", "m.p", "s"], {
        "m.p": fof("p(a,a,a,a,a,a)"), "s": structure % (10, " ".join(str(n + 1) for n in range(10)), "function a 0 1\npredicate p 6 1 %s\n" % ("1" * MILLION))}, "true at the root"
    small = structure % (1, "1", "predicate p 0 1 1\n")
    for name in ("negations", "implications to the right", "conjunctions", "brackets"):
        yield "480 %s at a structure" % name, ["model", "m.p", "s"], {"m.p": CONSTRUCTS[name](480), "s": small}, "true at the root"
    quantified = structure % (2, "1 2", "predicate p 1 1 11\n")
    yield "480 quantifiers at a structure", ["model", "m.p", "s", "--steps=1000000"], {"m.p": CONSTRUCTS["universal quantifiers"](480), "s": quantified}, None
    yield "10,002 words", ["prove", "m.p", *["--limit=1"] * 10000], {"m.p": fof("p")}, "bad word 4"
    deep = {"m%d.p" % n: "include('m%d.p').\n" % (n + 1) for n in range(18)}
    yield "includes 17 deep", ["prove", "m0.p"], {**deep, "m18.p": ""}, "m16.p:0: include too deep"
    doubled = {"m%d.p" % n: "include('m%d.p').\n" % (n + 1) * 2 for n in range(16)}
    yield "includes that double 16 times", ["prove", "m0.p", "--steps=1"], {**doubled, "m16.p": "fof(a,axiom,p).\n"}, None


def write(texts: dict[str, str]) -> tuple[int, list[str]]:
    """The files: their bytes together, and their names."""
    for file, text in texts.items():
        with open(file, "w") as opened:
            opened.write(text)
    return sum(map(len, texts.values())), list(texts)


def first_line(output: bytes) -> str:
    return output.split(b"\n")[0][:40].decode("latin-1")


def faults_of(runs: list[Run], wanted: str | None) -> list[str]:
    faults = ["no answer of the table" for got in runs if not is_an_answer(got)][:1]
    faults += ["memory ended" for got in runs if got.code == 7][:1]
    if any(got[:2] != runs[0][:2] for got in runs):
        faults.append("with less stack another answer")
    if wanted and not runs[0].output.decode("latin-1").startswith(wanted):
        faults.append("not " + wanted)
    return faults


def main() -> None:
    options = read_options(__doc__)
    program, stacks = find_program(options), [int(n) for n in options.get("stacks", "8192,1024").split(",")]
    kept = os.path.abspath(options["kept"]) if "kept" in options else None
    resource.setrlimit(resource.RLIMIT_CORE, (0, 0))
    folder = tempfile.mkdtemp(prefix="leancop-deep-")
    os.chdir(folder)
    count, broken, runner = 0, 0, Runner(int(options.get("gigabytes", 4)))
    try:
        for family in (nested, long_tokens, terms, names_and_labels, symbols, searches, others):
            for name, words, texts, wanted in family():
                if not re.search(options.get("filter", ""), name):
                    continue
                size, files = write(texts() if callable(texts) else texts)
                runs = [runner.run([program, *words], stack) for stack in stacks]
                faults = faults_of(runs, wanted)
                told = "; ".join("%d kB: %d, %s, %.2f s, %d MB" % (stack, got.code, first_line(got.output), got.seconds, got.kilobytes // 1024)
                                 for stack, got in zip(stacks, runs))
                print("%s (%d bytes): %s%s" % (name, size, told, " !! " + ", ".join(faults) if faults else ""), flush=True)
                count, broken = count + 1, broken + bool(faults)
                if faults and kept:
                    shutil.copytree(folder, os.path.join(kept, re.sub(r"\W+", "_", name)), dirs_exist_ok=True)
                for file in files:
                    os.remove(file)
    finally:
        os.chdir("/")
        shutil.rmtree(folder)
    print("%d inputs, %d told" % (count, broken))
    sys.exit(1 if broken else 0)


if __name__ == "__main__":
    main()
