#!/usr/bin/env python3
"""bench/run.py [options]
Runs the built program over problems whose status is known, and prints how many are solved in which time.
  --program=FILE     the program (crates/leancop/out/leancop, which ./leancop builds)
  --problems=FOLDER  a folder with an index.tsv: file, theorem or non-theorem, source, parted by tabs (bench/problems)
  --logic=L          the logic (classical)
  --domains=D        the domains, for a modal logic
  --jobs=N           so many problems side by side (1); times are of the processor, and busy processors lengthen them
  --table=FILE       appends a line for each problem to a file (problem, status, prover, words, answer, seconds, kB, parted by
                     tabs), and does not run again what stands there with the same words
  --root=FOLDER      the folder of included files (the one of the problem)
  --filter=RE        problems whose file matches
  --time=S           processor seconds for a problem (10)
  --steps=N          the budget (1099511627776)
  --cut=L            first a search up to this limit that does not return to solved goals
  --baseline         the same calculus in Prolog (baseline.pl) beside it, where swipl is installed
  --speed            speed alone, of both: the time that one path limit takes which is searched whole and in vain, and steps in a
                     second on the same problems
Answers: T a derivation, which `check` accepts; N no tableau; x exhausted, or steps ended; r refused; . out of time; ? other.
A `!` after an answer: it contradicts the status."""
from __future__ import annotations

import concurrent.futures
import math
import os
import re
import shutil
import subprocess
import sys
import tempfile
import threading
from typing import NamedTuple, TextIO

HERE = os.path.dirname(os.path.abspath(__file__))
options = dict((a[2:] + "=1").split("=")[:2] for a in sys.argv[1:] if a.startswith("--"))
if "help" in options:
    print(__doc__)
    sys.exit(0)
if any(not a.startswith("--") for a in sys.argv[1:]) or not set(options) <= set(re.findall(r"^  --([a-z]+)", __doc__, re.M)):
    sys.exit(__doc__)
PROGRAM = os.path.abspath(options.get("program", os.path.join(HERE, "../crates/leancop/out/leancop")))
PROBLEMS = os.path.abspath(options.get("problems", os.path.join(HERE, "problems")))
LIMIT = float(options.get("time", 10))
STEPS = options.get("steps", "1099511627776")
HAS_PROLOG = shutil.which("swipl") is not None
JOBS = int(options.get("jobs", 1))
SETTING = ["--%s=%s" % (name, options[name]) for name in ("logic", "domains") if name in options]
CUT = ["--cut=" + options["cut"]] if "cut" in options else []
KEPT_WORDS = " ".join([*SETTING, *CUT, "--steps=" + STEPS, "--time=%g" % LIMIT])
# problems, each with a path limit within which nothing is closed
SPEED = {"fam/grpeq_rinv.p": 5, "fam/set_distr.p": 5, "pel/p34.p": 4, "fam/debruijn_n3.p": 4}
TIMES = [0.1, 1, 10]


class Problem(NamedTuple):
    file: str
    status: str


class Run(NamedTuple):
    """How a run ended; the code is None where its time ran out."""

    code: int | None
    output: str
    seconds: float
    kilobytes: int


def run(command: list[str], folder: str, limit: float) -> Run:
    """A process with its processor time; the code is None where its time ran out."""
    command = ["sh", "-c", 'ulimit -t "$0" && exec "$@"', str(math.ceil(limit)), *command]
    with tempfile.TemporaryFile() as out:
        p = subprocess.Popen(command, cwd=folder, stdin=subprocess.DEVNULL, stdout=out, stderr=subprocess.DEVNULL)
        timer = threading.Timer(3 * limit + 1, p.kill)
        timer.start()
        _, status, use = os.wait4(p.pid, 0)
        timer.cancel()
        p.returncode = os.waitstatus_to_exitcode(status)
        out.seek(0)
        code = p.returncode if p.returncode >= 0 else None
        return Run(code, out.read().decode("latin-1"), use.ru_utime + use.ru_stime, use.ru_maxrss)


def place(problem: Problem) -> tuple[str, str]:
    full = os.path.join(PROBLEMS, problem.file)
    return os.path.basename(full), os.path.dirname(full)


def words(command: str, problem: Problem, *more: str) -> list[str]:
    name, folder = place(problem)
    return [PROGRAM, command, "--root=" + os.path.abspath(options.get("root", folder)), *SETTING, name, *more]


def prove(problem: Problem) -> tuple[str, Run]:
    name, folder = place(problem)
    got = run(words("prove", problem, "--limit=200", "--steps=" + STEPS, *CUT), folder, LIMIT)
    answer = {0: "T", 1: "x", 2: "N", 3: "x", 4: "r", None: "."}.get(got.code, "?")
    if answer == "T":
        with tempfile.NamedTemporaryFile("w", encoding="latin-1") as derivation:
            derivation.write(got.output)
            derivation.flush()
            judged = run(words("check", problem, derivation.name), folder, 60)
        if judged.output != "accepted\n":
            answer = "?"
    return answer, got


def prove_in_prolog(problem: Problem, *more: str, limit: float = LIMIT) -> tuple[str, Run]:
    name, folder = place(problem)
    command = ["swipl", "-O", "--stack_limit=4g", os.path.join(HERE, "baseline.pl"), name, *SETTING, "--root=" + os.path.abspath(options.get("root", folder)), "--time=%g" % limit, *more]
    got = run(command, folder, limit + 1)
    return {"Theorem": "T", "NoTableau": "N", "Exhausted": "x", "Timeout": "."}.get(got.output.split(" ")[0], "." if got.code is None else "?"), got


def is_right(problem: Problem, answer: str) -> bool:
    return (answer, problem.status) in [("T", "theorem"), ("N", "non-theorem")]


def is_wrong(problem: Problem, answer: str) -> bool:
    return (answer, problem.status) in [("N", "theorem"), ("T", "non-theorem")]


def read_problems() -> list[Problem]:
    with open(os.path.join(PROBLEMS, "index.tsv")) as index:
        rows = [line.rstrip("\n").split("\t") for line in index if not line.startswith("#")]
    return [Problem(r[0], r[1]) for r in rows if re.search(options.get("filter", ""), r[0])]


def read_table() -> tuple[dict[tuple[str, str], tuple[str, Run]], TextIO | None]:
    """The answers that the table has, and the table to go on with, without a last line that was broken off."""
    if "table" not in options:
        return {}, None
    known = {}
    table = open(options["table"], "a+")
    table.seek(0)
    text = table.read()
    whole = text[:text.rfind("\n") + 1]
    table.truncate(len(whole.encode()))
    for file, _, name, kept, answer, seconds, kilobytes in (line.split("\t") for line in whole.splitlines()):
        if kept == KEPT_WORDS:
            known[file, name] = answer, Run(None, "", float(seconds), int(kilobytes))
    return known, table


def solve(problems: list[Problem]) -> None:
    provers = [("leancop", prove)] + ([("prolog", prove_in_prolog)] if "baseline" in options and HAS_PROLOG else [])
    seen: dict[str, list[tuple[Problem, str, Run]]] = {name: [] for name, _ in provers}
    known, table = read_table()

    def answers_of(problem: Problem) -> list[tuple[str, Run]]:
        return [known.get((problem.file, name)) or prover(problem) for name, prover in provers]

    with concurrent.futures.ThreadPoolExecutor(JOBS) as pool:
        for problem, answers in zip(problems, pool.map(answers_of, problems)):
            line = "%-26s %-12s" % (problem.file, problem.status)
            for (name, _), (answer, got) in zip(provers, answers):
                seen[name].append((problem, answer, got))
                line += "  %s%s %7.2f s %7d kB" % (answer, "!" if is_wrong(problem, answer) else " ", got.seconds, got.kilobytes)
                if table and (problem.file, name) not in known:
                    print(problem.file, problem.status, name, KEPT_WORDS, answer, "%.2f" % got.seconds, got.kilobytes, sep="\t", file=table, flush=True)
            print(line, flush=True)
    print("\n| prover | solved of %d in %s s | exhausted or steps ended | out of time | refused | other | wrong |" % (len(problems), ", ".join("%g" % t for t in TIMES)))
    print("|---|---|---|---|---|---|---|")
    for name, rows in seen.items():
        solved = ", ".join(str(sum(is_right(p, a) and g.seconds <= t for p, a, g in rows)) for t in TIMES)
        counts: list[int] = [sum(a == letter for _, a, _ in rows) for letter in "x.r?"]
        print("| %s |" % " | ".join([name, solved, *map(str, counts), str(sum(is_wrong(p, a) for p, a, _ in rows))]))


def show(form: str, x: float | None) -> str:
    return form % x if x else "-"


def measure_speed(problems: list[Problem]) -> None:
    """Times of one limit searched whole compare the two: Prolog counts an extension before it looks at regularity, and leancop after."""
    print("| problem | limit | leancop, s | Prolog, s | times less | leancop, steps a second | Prolog, steps a second |\n|---|---|---|---|---|---|---|")
    for problem in [p for p in problems if p.file in SPEED]:
        name, folder = place(problem)
        limit = "--limit=%d" % SPEED[problem.file]
        whole = run(words("prove", problem, limit, "--steps=1099511627776"), folder, 600)
        mine = whole.seconds if whole.code == 1 else None
        stopped = run(words("prove", problem, "--limit=200", "--steps=1000000"), folder, 60)
        ended = re.search(r"at (\d+) steps", stopped.output)
        rate = int(ended.group(1)) / max(stopped.seconds, 1e-3) if ended else None
        theirs = their_rate = None
        if HAS_PROLOG:
            answer, got = prove_in_prolog(problem, limit, limit=600)
            told = re.search(r"steps=(\d+) kept=\d+ cpu=([\d.]+)", got.output)
            theirs = float(told.group(2)) if told and answer == "x" else None
            their_rate = int(told.group(1)) / max(float(told.group(2)), 1e-3) if told else None
        ratio = theirs / mine if mine and theirs else None
        print("| %s | %d | %s | %s | %s | %s | %s |" % (problem.file, SPEED[problem.file], show("%.2f", mine), show("%.2f", theirs), show("%.1f", ratio), show("%.0f", rate), show("%.0f", their_rate)), flush=True)


if __name__ == "__main__":
    if "speed" in options:
        measure_speed(read_problems())
    else:
        solve(read_problems())
