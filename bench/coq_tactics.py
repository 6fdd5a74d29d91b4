#!/usr/bin/env python3
"""bench/coq_tactics.py TACTIC [options]
Each theorem of bench/problems as a goal of Coq over one type with something in it, closed by a tactic of Coq such as `ileancop`,
`leancop`, `firstorder` or `intuition ileancop`. Prints how many are closed, and the processor time of coqc with the program.
  --coq=FOLDER       tools/coq where it is built (tools/coq)
  --seconds=S        the tactics' own limit, in seconds of the clock (5); for other tactics, of processor time
  --require=TEXT     what the file begins with (From Leancop Require Import Classical.)
  --filter=RE        problems whose file matches
  --table=FILE       writes a line for each problem: file, answer, seconds, what the proof rests on, parted by tabs
LEANCOP names the program. Answers: ok, no (the tactic fails), time, and ? (Coq does not understand the goal)."""
import os
import re
import resource
import statistics
import subprocess
import sys
import tempfile

HERE = os.path.dirname(os.path.abspath(__file__))
sys.path.insert(0, os.path.join(HERE, "../tools"))
sys.dont_write_bytecode = True
import canonical_formula  # noqa: E402
from coq_theorem import TRUTH, Symbols, folded  # noqa: E402
from derivation_text import Reader  # noqa: E402

PROBLEMS = os.path.join(HERE, "problems")


def goal(file: str) -> list[str]:
    """Variables and the theorem's statement: the problem without axioms of equality, which Coq has."""
    items = list(canonical_formula.passing(file, None, []))
    formulas = [Reader(canonical_formula.text(item[3], {None: 0})).formula() for item in items]
    premises = [f for f, item in zip(formulas, items) if item[2] != "conjecture"]
    conjecture = [f for f, item in zip(formulas, items) if item[2] == "conjecture"] or [("not", TRUTH)]
    symbols = Symbols(("and", *formulas))
    return [*symbols.variables(), "Theorem it : %s." % " -> ".join(symbols.says(folded(f)) for f in premises + conjecture)]


def run(file: str, tactic: str, options: dict[str, str]) -> tuple[str, float, str]:
    """The answer, processor seconds, and what the proof rests on."""
    folder, seconds = options["coq"], float(options["seconds"])
    is_ours = "leancop" in tactic
    lines = [options["require"], "Set Leancop Seconds %d. Set Leancop Refute 0." % seconds if is_ours else "", "Section S.", *goal(file),
             "Proof. intros. %s. Qed." % tactic, "End S.", "Print Assumptions it."]
    limit = int(seconds) if not is_ours else resource.RLIM_INFINITY
    with tempfile.TemporaryDirectory() as place:
        name = os.path.join(place, "goal.v")
        with open(name, "w", encoding="utf-8") as out:
            out.write("\n".join(lines) + "\n")
        before = resource.getrusage(resource.RUSAGE_CHILDREN)
        environment = {**os.environ, "OCAMLPATH": os.path.join(folder, "src") + ":" + os.environ.get("OCAMLPATH", "")}
        words = ["coqc", "-q", "-R", os.path.join(folder, "theories"), "Leancop", "-I", os.path.join(folder, "src"), name]
        try:
            done = subprocess.run(words, env=environment, stdout=subprocess.PIPE, stderr=subprocess.STDOUT, text=True, check=False,
                                  timeout=20 * seconds + 60, preexec_fn=lambda: resource.setrlimit(resource.RLIMIT_CPU, (limit, limit)))
        except subprocess.TimeoutExpired:
            return "time", 20 * seconds + 60, ""
    after = resource.getrusage(resource.RUSAGE_CHILDREN)
    used = after.ru_utime + after.ru_stime - before.ru_utime - before.ru_stime
    if done.returncode == 0:
        return "ok", used, "nothing" if "Closed under" in done.stdout else "classic" if "classic" in done.stdout else "?"
    if done.returncode < 0:
        return "time", used, ""
    return "?" if "Syntax error" in done.stdout or "was not found" in done.stdout else "no", used, " ".join(done.stdout.split())[-80:]


def main(words: list[str]) -> int:
    given = [w for w in words if not w.startswith("--")]
    options = {"coq": os.path.join(HERE, "../tools/coq"), "seconds": "5", "require": "From Leancop Require Import Classical.",
               "filter": "", "table": os.devnull}
    asked = dict(w[2:].split("=", 1) for w in words if w.startswith("--") and "=" in w)
    if len(given) != 1 or not set(asked) <= set(options):
        print(__doc__, file=sys.stderr)
        return 0 if "--help" in words else 5
    options.update(asked)
    options["coq"] = os.path.abspath(options["coq"])
    with open(os.path.join(PROBLEMS, "index.tsv"), encoding="utf-8") as index:
        rows = [line.split("\t") for line in index if not line.startswith("#")]
    files = [row[0] for row in rows if row[1] != "non-theorem" and re.search(options["filter"], row[0])]
    told = []
    with open(options["table"], "a", encoding="utf-8") as table:
        for file in files:
            answer, used, rest = run(os.path.join(PROBLEMS, file), given[0], options)
            told.append((answer, used, rest))
            print("%s\t%s\t%.2f\t%s" % (file, answer, used, rest), file=table, flush=True)
    good = sorted(used for answer, used, _ in told if answer == "ok")
    print("%s: %d of %d closed, %d of them without an axiom" % (
        given[0], len(good), len(told), sum(answer == "ok" and rest == "nothing" for answer, _, rest in told)))
    if good:
        print("processor seconds: median %.2f, nine of ten below %.2f, greatest %.2f" % (
            statistics.median(good), good[min(len(good) - 1, len(good) * 9 // 10)], good[-1]))
    return 0


if __name__ == "__main__":
    sys.setrecursionlimit(100000)
    sys.exit(main(sys.argv[1:]))
