#!/usr/bin/env python3
"""bench/hol_light_tactics.py [TACTIC..] [options]
Each theorem of bench/problems as a goal of HOL Light over one type, closed by each tactic (MESON_TAC[] and LEANCOP_TAC[] where none
stands). Prints how many each closes, the processor time with that of the program, and the same of the goals that all of them close.
  --seconds=S        processor time for a goal: of HOL Light, and of the program as often as it is called (10)
  --filter=RE        problems whose file matches
  --table=FILE       writes a line for each goal and tactic: file, tactic, answer, seconds, parted by tabs
LEANCOP names the program. HOL Light takes minutes to load first. Answers: ok, no, time."""
from __future__ import annotations

import os
import re
import statistics
import subprocess
import sys
import tempfile

HERE = os.path.dirname(os.path.abspath(__file__))
sys.path.insert(0, os.path.join(HERE, "../tools"))
sys.dont_write_bytecode = True
import canonical_formula  # noqa: E402
from coq_theorem import TRUTH, Symbols, folded  # noqa: E402
from derivation_text import Formula, Reader, Term  # noqa: E402

PROBLEMS = os.path.join(HERE, "problems")
# A limit that MESON, which catches Failure, does not catch.
PREAMBLE = """#use "%s";;
meson_chatty := false;; verbose := false;; leancop_seconds := %d;;
exception Late;;
unset_jrh_lexer;;
let wait s = ignore(Unix.setitimer Unix.ITIMER_PROF {Unix.it_interval = 0.0; Unix.it_value = s});;
set_jrh_lexer;;
let within seconds f x =
  Sys.set_signal Sys.sigprof (Sys.Signal_handle(fun _ -> raise Late)); wait seconds;
  try let y = f x in wait 0.0; y with e -> wait 0.0; raise e;;
let used () = let t = Unix.times() in t.Unix.tms_utime +. t.Unix.tms_stime +. t.Unix.tms_cutime +. t.Unix.tms_cstime;;
let attempt file name tactic tm =
  let before = used() in
  let answer = try let th = within %.1f (fun t -> prove(t,tactic)) tm in
      if hyp th = [] && aconv (concl th) tm then "ok" else "other" with Late -> "time" | Stack_overflow -> "stack" | _ -> "no" in
  Printf.printf "\\n@@\\t%%s\\t%%s\\t%%s\\t%%.3f\\n%%!" file name answer (used() -. before);;
"""


class Printer:
    """Formulas as terms of HOL Light, each symbol with its type."""

    def __init__(self, formula: Formula) -> None:
        self.names = Symbols(formula).coq

    def apply(self, kind: str, name: str, terms: tuple[Term, ...]) -> str:
        word = "(%s:%s%s)" % (self.names[kind, name, len(terms)], "A->" * len(terms), "A" if kind == "fun" else "bool")
        return "(%s)" % " ".join([word, *map(self.term, terms)]) if terms else word

    def term(self, t: Term) -> str:
        return "x" + t[1][1:] if t[0] == "var" else self.apply("fun", t[1], t[2])

    def says(self, f: Formula) -> str:
        kind = f[0]
        if kind == "atom":
            return "(%s = %s)" % tuple(map(self.term, f[2])) if f[1] == "=" else self.apply("pred", f[1], f[2])
        if kind in ("all", "ex"):
            return "(%s(x%s:A). %s)" % ("!" if kind == "all" else "?", f[2][1:], self.says(f[1]))
        if kind in ("true", "false"):
            return kind[0].upper()
        if kind == "not":
            return "(~ %s)" % self.says(f[1])
        return "(%s %s %s)" % (self.says(f[1]), {"and": "/\\", "or": "\\/", "imp": "==>", "iff": "<=>"}[kind], self.says(f[2]))


def goal(file: str) -> str:
    """The problem without axioms of equality, which HOL Light has."""
    items = list(canonical_formula.passing(file, None, []))
    formulas = [Reader(canonical_formula.text(item[3], {None: 0})).formula() for item in items]
    premises = [f for f, item in zip(formulas, items) if item[2] != "conjecture"]
    conjecture = [f for f, item in zip(formulas, items) if item[2] == "conjecture"] or [("not", TRUTH)]
    printer = Printer(("and", *formulas))
    told = [printer.says(folded(f)) for f in premises]
    return " ==> ".join([" /\\ ".join(told)] * bool(told) + [printer.says(folded(conjecture[0]))])


def told(name: str, seconds: list[float]) -> str:
    if not seconds:
        return name
    good = sorted(seconds)
    return "%s: %.1f s of the processor, median %.3f, nine of ten below %.3f, greatest %.2f" % (
        name, sum(good), statistics.median(good), good[min(len(good) - 1, len(good) * 9 // 10)], good[-1])


def main(words: list[str]) -> int:
    tactics = [w for w in words if not w.startswith("--")] or ["MESON_TAC[]", "LEANCOP_TAC[]"]
    options = {"seconds": "10", "filter": "", "table": os.devnull}
    asked = dict(w[2:].split("=", 1) for w in words if w.startswith("--") and "=" in w)
    if "--help" in words or not set(asked) <= set(options):
        print(__doc__, file=sys.stderr)
        return 0 if "--help" in words else 5
    options.update(asked)
    seconds = float(options["seconds"])
    with open(os.path.join(PROBLEMS, "index.tsv"), encoding="utf-8") as index:
        rows = [line.split("\t") for line in index if not line.startswith("#")]
    files = [row[0] for row in rows if row[1] != "non-theorem" and re.search(options["filter"], row[0])]
    lines = [PREAMBLE % (os.path.join(HERE, "../tools/hol-light/leancop.ml"), int(seconds), seconds)]
    for file in files:
        statement = goal(os.path.join(PROBLEMS, file))
        lines += ['attempt "%s" "%s" (%s) `%s`;;\n' % (file, tactic, tactic, statement) for tactic in tactics]
    good: dict[str, dict[str, float]] = {tactic: {} for tactic in tactics}
    count = 0
    with open(options["table"], "a", encoding="utf-8") as table, tempfile.TemporaryFile("w+") as text:
        text.writelines(lines)
        text.seek(0)
        prover = subprocess.Popen(["hol-light"], stdin=text, stdout=subprocess.PIPE, stderr=subprocess.STDOUT, text=True)
        assert prover.stdout
        for line in prover.stdout:
            if not line.startswith("@@\t"):
                continue
            _, file, tactic, answer, used = line.rstrip("\n").split("\t")
            count += 1
            print("\t".join((file, tactic, answer, used)), file=table, flush=True)
            if answer == "ok":
                good[tactic][file] = float(used)
    if count != len(files) * len(tactics):
        print("%d of %d goals were tried: is HOL Light here?" % (count, len(files) * len(tactics)), file=sys.stderr)
        return 1
    for tactic in tactics:
        print(told("%s: %d of %d closed" % (tactic, len(good[tactic]), len(files)), list(good[tactic].values())))
    both = set.intersection(*(set(found) for found in good.values()))
    for tactic in tactics:
        print(told("%s, of the %d that all close" % (tactic, len(both)), [good[tactic][file] for file in both]))
    return 0


if __name__ == "__main__":
    sys.setrecursionlimit(100000)
    sys.exit(main(sys.argv[1:]))
