#!/usr/bin/env python3
"""bench/modalities.py [options]
Proves the implications and equivalences between any two modalities of some signs, as `#box:#dia:p <=> #box:#box:#dia:p`, both
orders. Which of them hold is known: in D a sign may become weaker in its place, in T a box may go and a diamond come too, S4 has
seven positive modalities, and in S5 the last sign counts.
  --program=FILE   the program (crates/leancop/out/leancop, which ./leancop builds)
  --logic=LOGIC    d, t, s4 or s5 (all four)
  --signs=N        of a modality at the most (4)
  --steps=N        for each problem at the most (20000)
  --only=N         so many of the problems, taken evenly
  --all            those that do not hold too, none of which may be derived
Each that holds and is not derived, or the other way round; for each logic how many were derived; and the longest run, in seconds of
the processor."""
from __future__ import annotations

import itertools
import os
import resource
import shutil
import tempfile
from collections.abc import Iterator

from processes import find_program, read_options, run

SIGNS = {"b": "#box:", "d": "#dia:"}
# S4's positive modalities, each with those right above it
ABOVE = {"b": ("", "bdb"), "": ("d",), "bdb": ("bd", "db"), "bd": ("dbd",), "db": ("dbd",), "dbd": ("d",), "d": ()}


def modalities(signs: int) -> list[str]:
    return ["".join(word) for n in range(signs + 1) for word in itertools.product("bd", repeat=n)]


def in_s4(word: str) -> str:
    """The modality without repetitions, which is the same in S4."""
    word = "".join(sign for sign, _ in itertools.groupby(word))
    while "bdbd" in word or "dbdb" in word:
        word = word.replace("bdbd", "bd").replace("dbdb", "db")
    return word


def is_below(a: str, b: str) -> bool:
    """Whether the one of S4's modalities implies the other."""
    return a == b or any(is_below(c, b) for c in ABOVE[a])


def is_weaker(a: str, b: str, resting: bool) -> bool:
    """Whether b comes from a by boxes that become diamonds and, where worlds see themselves, by boxes that go and diamonds that come."""
    if not a or not b:
        return a == b or resting and set(a) <= {"b"} and set(b) <= {"d"}
    if (a[0] == "b" or b[0] == "d") and is_weaker(a[1:], b[1:], resting):
        return True
    return resting and (a[0] == "b" and is_weaker(a[1:], b, resting) or b[0] == "d" and is_weaker(a, b[1:], resting))


def implies(logic: str, a: str, b: str) -> bool:
    """Whether the one modality implies the other in the logic."""
    if logic == "s4":
        return is_below(in_s4(a), in_s4(b))
    if logic == "s5":
        return is_below(a[-1:], b[-1:])
    return is_weaker(a, b, logic == "t")


def problems(logic: str, signs: int) -> Iterator[tuple[str, str, str, bool]]:
    for a, b in itertools.permutations(modalities(signs), 2):
        there, back = implies(logic, a, b), implies(logic, b, a)
        yield "=>", a, b, there
        yield "<=>", a, b, there and back


def told(program: str, logic: str, options: dict[str, str]) -> tuple[int, int]:
    chosen = [p for p in problems(logic, int(options.get("signs", 4))) if p[3] or "all" in options]
    only = int(options.get("only", 0))
    if 0 < only < len(chosen):
        chosen = [chosen[k * len(chosen) // only] for k in range(only)]
    count: dict[tuple[bool, bool], int] = {}
    longest, wrong = (0.0, ""), 0
    for sign, a, b, holds in chosen:
        text = "(%sp) %s (%sp)" % ("".join(SIGNS[s] for s in a), sign, "".join(SIGNS[s] for s in b))
        with open("m.p", "w") as opened:
            opened.write("qmf(c,conjecture,%s).\n" % text)
        got = run([program, "prove", "m.p", "--logic=" + logic, "--limit=4", "--steps=" + options.get("steps", "20000")], 60)
        is_derived = got.code == 0
        count[holds, is_derived] = count.get((holds, is_derived), 0) + 1
        longest = max(longest, (got.seconds, text))
        if holds != is_derived:
            wrong += 1
            answer = got.output.split(b"\n")[0].decode("latin-1")
            print("%s: %s: %s, %s" % (logic, text, "holds" if holds else "does not hold", answer), flush=True)
    print("%s: %d of %d that hold derived, %d of %d others; %.2f s at the most: %s" % (
        logic, count.get((True, True), 0), count.get((True, True), 0) + count.get((True, False), 0),
        count.get((False, True), 0), count.get((False, True), 0) + count.get((False, False), 0), *longest), flush=True)
    return len(chosen), wrong


def main() -> None:
    options = read_options(__doc__)
    program = find_program(options)
    resource.setrlimit(resource.RLIMIT_CORE, (0, 0))
    folder = tempfile.mkdtemp(prefix="leancop-modalities-")
    os.chdir(folder)
    try:
        sums = [told(program, logic, options) for logic in ([options["logic"]] if "logic" in options else ["d", "t", "s4", "s5"])]
    finally:
        os.chdir("/")
        shutil.rmtree(folder)
    print("%d problems, %d not as they should be" % (sum(n for n, _ in sums), sum(wrong for _, wrong in sums)))


if __name__ == "__main__":
    main()
