#!/usr/bin/env python3
"""bench/refuse_memory.py [options]
Refuses each allocation of a run of the built program in turn: the run answers as without, or ends for want of memory, with
status 7 and nothing written. Then each opening of a file, each read and each write fails in turn (an I/O error), and each read
and write of several bytes moves one: a file that cannot be read is told, a sink that fails has a prefix of the output, and a
short read or write changes nothing.
  --program=FILE   the program (crates/leancop/out/leancop, which ./leancop builds)
  --filter=RE      the runs whose words match
  --every=N        each Nth allocation alone (1)
It needs cc, for refuse.c, which stands between the program and the C library. A line for each run tells how many calls there
were and how the refused ones ended; the last line counts all. The status is 0 where each ended as it should."""
from __future__ import annotations

import collections
import os
import re
import shutil
import subprocess
import sys
import tempfile

from processes import HERE, Run, find_program, is_an_answer, read_options, run

FIRST = "fof(c,conjecture,p => p).\n"
DRINKER = "fof(c,conjecture,?[X]:![Y]:(d(X) => d(Y))).\n"
EXCLUDED = "fof(c,conjecture,~~(p | ~p)).\n"
LONG = "fof(c,conjecture,%s => %s).\n" % ("a" * 3000, "a" * 3000)
MODAL = "qmf(c,conjecture,(![X]:#box:p(X)) => #box:![X]:p(X)).\n"
MORE = "qmf(k,axiom,q(a)).\nqmf(c,conjecture,(![X]:#box:p(X)) => #box:?[X]:p(X)).\n"
EQUAL = "fof(e,axiom,a = b).\nfof(f,axiom,p(a)).\nfof(c,conjecture,p(b)).\n"
KEPT = "fof(a,axiom,p(a)).\nfof(b,axiom,p(b)).\nfof(c,axiom,q(b)).\nfof(d,axiom,r => q(a)).\nfof(e,axiom,r).\n" \
       "fof(g,conjecture,?[X]:(p(X) & q(X))).\n"
INCLUDING = "include('ax.p',[b]).\ninclude('ax.p').\nfof(c,conjecture,q).\n"
TABLEAU = "leancop tableau 1\nlogic classical\nformula ?[X1]:![X2]:(d(X1) => d(X2))\nlimit 1\nstart r {$$s1}\n" \
          "extend 0 l {$$e1{$$s1}}\nend\n"
STRUCTURE = "leancop structure 1\nlogic classical\nworlds 1\nelements 1\nrelation 1 1\ndomain 1 1\npredicate p 0 1 %d\nend\n"
# The words of each run; its files are those of the texts below.
RUNS = ["prove first.p", "check first.p =first.p", "prove drinker.p", "check drinker.p =drinker.p",
        "prove excluded.p --logic=intuitionistic", "check excluded.p =excluded.p --logic=intuitionistic",
        "transfer excluded.p =excluded.p", "prove long.p", "check long.p =long.p", "tableau drinker.p", "tcheck drinker.p drinker.txt",
        "convert drinker.p drinker.txt", "tableau modal.p --logic=s4 --domains=varying", "tcheck first.p drinker.txt",
        "prove equal.p --format=2", "check equal.p ==equal.p", "migrate equal.p =equal.p", "migrate modal.p =modal.p --logic=t",
        "migrate drinker.p ==drinker.p", "migrate first.p first.p", "migrate first.p none.txt",
        *("prove modal.p --logic=%s --domains=%s" % (logic, domains)
          for logic in ("d", "t", "s4", "s5") for domains in ("constant", "cumulative", "varying")),
        "check modal.p =modal.p --logic=t", "prove more.p --logic=t --domains=varying", "prove equal.p", "check equal.p =equal.p",
        "prove kept.p --cut=2", "prove drinker.p --steps=1", "prove single.p", "prove modal.p", "make chain 3", "make shift 3",
        "make tower 3 --logic=s4", "make tower 3 --logic=t", "model single.p false.txt", "model single.p true.txt",
        "model single.p first.p", "prove including.p", "prove including.p --root=.", "prove absent.p", "prove missing.p", "prove round.p",
        "check including.p =including.p", "prove first.p --limit=0", "check first.p none.txt"]
TEXTS = {"first.p": FIRST, "drinker.p": DRINKER, "excluded.p": EXCLUDED, "long.p": LONG, "modal.p": MODAL, "more.p": MORE,
         "drinker.txt": TABLEAU, "equal.p": EQUAL, "kept.p": KEPT, "single.p": "fof(c,conjecture,p).\n", "true.txt": STRUCTURE % 1, "false.txt": STRUCTURE % 0,
         "including.p": INCLUDING, "ax.p": "fof(a,axiom,p). fof(b,axiom,p => q).\n", "absent.p": "include('ax.p',[z]).\n",
         "missing.p": "include('none.p').\n", "round.p": "include('round.p').\n"}
CALLS = ["alloc", "open", "read", "write"]


class Refuser:
    def __init__(self, program: str, library: str) -> None:
        self.program, self.variables = program, {"LD_PRELOAD": library}

    def run(self, words: list[str], refused: str = "") -> Run:
        return run([self.program, *words], 10, {**self.variables, "REFUSED": refused, "COUNTED": "counts"})

    def counts(self) -> dict[str, int]:
        with open("counts") as file:
            return dict(zip(CALLS, map(int, file.read().split())))


def ends_well(call: str, whole: Run, got: Run) -> str | None:
    """How a run with a refused call ended, beside the run without; None where it may not end so."""
    if got[:2] == whole[:2]:
        return "as without"
    if call == "alloc":
        return "no memory" if got.code == 7 and got.output == b"" else None
    if call in ("open", "read"):
        return "read fault" if got.code == 6 and got.output.startswith(b"read fault: ") and is_an_answer(got) else None
    return "write fault" if call == "write" and got.code == 6 and whole.output.startswith(got.output) else None


def refuse_each(refuser: Refuser, words: list[str], every: int) -> tuple[Run, dict[str, collections.Counter[str]], list[tuple[str, Run]]]:
    """Each call of the run refused in turn: counts of how they ended, by the call; and what ended otherwise."""
    whole = refuser.run(words)
    counts = refuser.counts()
    ended: dict[str, collections.Counter[str]] = {}
    wrong: list[tuple[str, Run]] = []
    if not is_an_answer(whole):
        wrong.append(("", whole))
    for call in [*CALLS, "short-read", "short-write"]:
        ended[call] = collections.Counter()
        for number in range(1, counts[call.removeprefix("short-")] + 1, every if call == "alloc" else 1):
            got = refuser.run(words, "%s:%d" % (call, number))
            how = ends_well(call, whole, got)
            ended[call][how or "otherwise"] += 1
            if how is None:
                wrong.append(("%s:%d" % (call, number), got))
    return whole, ended, wrong


def write_texts(refuser: Refuser) -> None:
    """The texts, and the derivations that are judged: `=FILE` is that of FILE in the logic of the words, `==FILE` the same in
    version 2."""
    for name, text in TEXTS.items():
        with open(name, "w") as file:
            file.write(text)
    for words in (line.split() for line in RUNS if "=" in line):
        name = next((word for word in words if word.startswith("=")), "")
        if not name:
            continue
        logic = ["--logic=intuitionistic"] if name.lstrip("=") == "excluded.p" else [word for word in words if word.startswith("--logic")]
        version = ["--format=2"] if name.startswith("==") else []
        with open(name, "wb") as file:
            file.write(refuser.run(["prove", name.lstrip("="), *logic, *version]).output)


def main() -> None:
    options = read_options(__doc__)
    program = find_program(options)
    if shutil.which("cc") is None:
        sys.exit("refuse_memory.py needs cc")
    folder = tempfile.mkdtemp(prefix="leancop-refuse-")
    library = os.path.join(folder, "refuse.so")
    subprocess.run(["cc", "-O2", "-shared", "-fPIC", "-o", library, os.path.join(HERE, "refuse.c"), "-ldl"], check=True)
    os.chdir(folder)
    total: collections.Counter[tuple[str, str]] = collections.Counter()
    faults = 0
    try:
        refuser = Refuser(program, library)
        write_texts(refuser)
        for line in RUNS:
            if not re.search(options.get("filter", ""), line):
                continue
            whole, ended, wrong = refuse_each(refuser, line.split(), int(options.get("every", 1)))
            faults += len(wrong)
            told = []
            for call, ends in ended.items():
                total.update({(call, how): count for how, count in ends.items()})
                told += ["%s: %s" % (call, ", ".join("%d %s" % (n, how) for how, n in sorted(ends.items())))] if ends else []
            print("%s (status %d): %s" % (line, whole.code, "; ".join(told)), flush=True)
            for call, got in wrong:
                print("  %s: status %d, wrote %r" % (call, got.code, got.output[:100]))
    finally:
        os.chdir("/")
        shutil.rmtree(folder)
    for call in [*CALLS, "short-read", "short-write"]:
        print("%s: %s" % (call, ", ".join("%d %s" % (n, how) for (of, how), n in sorted(total.items()) if of == call) or "none"))
    print("%d calls refused, %d ended otherwise" % (sum(total.values()), faults))
    sys.exit(1 if faults else 0)


if __name__ == "__main__":
    main()
