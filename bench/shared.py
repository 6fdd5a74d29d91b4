#!/usr/bin/env python3
"""bench/shared.py [options]
Proves problems whose tableaux name values inside values, which a table of ground lists keeps once: A => A behind pairs of
quantifiers, or of boxes and diamonds, negations on both sides in intuitionistic logic, chains of clauses that double a term, and
terms that grow along a tableau. What should be linear in the size of the problem is seen by its figures.
  --program=FILE   the program (crates/leancop/out/leancop, which ./leancop builds)
  --filter=RE      the problems whose names match
  --seconds=N      for each run at the most (60)
  --print=NAME     writes the problem of this name to standard output, and runs nothing
A line for each: its name, bytes, the answer, lines and bytes of the derivation, seconds of the processor and MB, and what `check`
says of the derivation, with its seconds and MB. A run that takes less memory than this script is told with the script's."""
from __future__ import annotations

import os
import re
import resource
import shutil
import sys
import tempfile
from collections.abc import Iterator

from processes import Run, find_program, read_options, run


def fof(formula: str) -> str:
    return "fof(c,conjecture,%s).\n" % formula


def qmf(formula: str) -> str:
    return "qmf(c,conjecture,%s).\n" % formula


def quantified(pairs: int) -> str:
    side = "(%sp(X,Y))" % ("![X]:?[Y]:" * pairs)
    return fof("%s => %s" % (side, side))


def boxed(pairs: int) -> str:
    side = "(%sp)" % ("#box:#dia:" * pairs)
    return qmf("%s => %s" % (side, side))


def negated(count: int) -> str:
    return fof("%sp => %sp" % ("~" * count, "~" * count))


# q0(x, f(x)), and each further one goes twice as far: the last goes 2^k times.
def doubling(clauses: int) -> str:
    steps = ["![X]: q0(X,f(X))"]
    steps += ["![X,Y,Z]: ((q%d(X,Y) & q%d(Y,Z)) => q%d(X,Z))" % (n, n, n + 1) for n in range(clauses)]
    return "".join("fof(a%d,axiom,%s).\n" % (n, step) for n, step in enumerate(steps)) + fof("?[Z]: q%d(a,Z)" % clauses)


# The term grows by 450 levels at each clause.
def grown(clauses: int) -> str:
    term = "f(" * 450 + "X" + ")" * 450
    steps = "".join("cnf(c%d,axiom,~p%d(X) | p%d(%s)).\n" % (n, n, n + 1, term) for n in range(clauses))
    return "cnf(first,axiom,p0(a)).\n%scnf(last,negated_conjecture,~p%d(X)).\n" % (steps, clauses)


# Each: its name, the words behind the problem's file, and its text.
def problems() -> Iterator[tuple[str, list[str], str]]:
    for pairs in (10, 20, 30, 60, 120):
        yield "quantifiers-%d" % pairs, [], quantified(pairs)
    for logic in ("d", "t", "s4", "s5"):
        for pairs in (10, 20, 30, 60):
            yield "boxes-%s-%d" % (logic, pairs), ["--logic=" + logic], boxed(pairs)
    for count in (30, 60, 120, 240):
        yield "negations-%d" % count, ["--logic=intuitionistic"], negated(count)
    for clauses in (4, 6, 8, 10, 12):
        yield "doubling-%d" % clauses, ["--limit=200", "--steps=10000000"], doubling(clauses)
    for clauses in (10, 20, 50, 100):
        yield "grown-%d" % clauses, ["--limit=200"], grown(clauses)


def megabytes(got: Run) -> float:
    return got.kilobytes / 1024


def first_line(output: bytes) -> str:
    return output.split(b"\n")[0][:40].decode("latin-1")


def told(program: str, words: list[str], text: str, seconds: float) -> tuple[str, bool]:
    with open("m.p", "w") as opened:
        opened.write(text)
    got = run([program, "prove", "m.p", *words], seconds)
    line = "%d bytes: %d, %s, %d lines, %d bytes, %.2f s, %.1f MB" % (
        len(text), got.code, first_line(got.output), got.output.count(b"\n"), len(got.output), got.seconds, megabytes(got))
    if got.code != 0:
        return line, False
    with open("d.txt", "wb") as opened:
        opened.write(got.output)
    judged = run([program, "check", "m.p", "d.txt", *[w for w in words if w.startswith("--logic")]], seconds)
    return "%s; %s, %.2f s, %.1f MB" % (line, first_line(judged.output), judged.seconds, megabytes(judged)), judged.output == b"accepted\n"


def main() -> None:
    options = read_options(__doc__)
    if "print" in options:
        texts = {name: text for name, _, text in problems()}
        if options["print"] not in texts:
            sys.exit("one of: " + " ".join(texts))
        print(texts[options["print"]], end="")
        return
    program = find_program(options)
    resource.setrlimit(resource.RLIMIT_CORE, (0, 0))
    folder = tempfile.mkdtemp(prefix="leancop-shared-")
    os.chdir(folder)
    count, others = 0, 0
    try:
        for name, words, text in problems():
            if re.search(options.get("filter", ""), name):
                line, good = told(program, words, text, int(options.get("seconds", 60)))
                print("%s: %s" % (name, line), flush=True)
                count, others = count + 1, others + (not good)
    finally:
        os.chdir("/")
        shutil.rmtree(folder)
    print("%d problems, %d without an accepted derivation" % (count, others))


if __name__ == "__main__":
    main()
