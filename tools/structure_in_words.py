#!/usr/bin/env python3
"""structure_in_words.py PROBLEM STRUCTURE [--logic=L] [--root=FOLDER] [--lines=N]

Says why the problem's formula is false at the root of the structure, which `leancop model` has judged so: each line is a sentence that
rests on those below it. Prints N lines at most (40), and nothing where it does not find the formula false by itself."""
from __future__ import annotations

import os
import sys

sys.dont_write_bytecode = True
sys.path[:0] = [os.path.dirname(os.path.realpath(__file__))]
import canonical_formula as canonical  # noqa: E402
from refutation import words  # noqa: E402


def main(arguments: list[str]) -> int:
    files = [w for w in arguments if not w.startswith("--")]
    options = dict(w.split("=", 1) for w in arguments if w.startswith("--") and "=" in w)
    if len(files) != 2 or "--help" in arguments:
        print(__doc__, file=sys.stdout if "--help" in arguments else sys.stderr)
        return 0 if "--help" in arguments else 5
    sys.setrecursionlimit(100_000)
    premises, conjecture = [], None
    for _, _, role, formula in canonical.passing(files[0], options.get("--root"), []):
        if role == "conjecture":
            conjecture = formula
        else:
            premises.append(formula)
    with open(files[1], encoding="latin-1") as text:
        structure = words.Finite.read(text.read())
    try:
        told = words.why(structure, premises, conjecture, options.get("--logic", "classical"), int(options.get("--lines", "40")))
    except words.TooLarge:
        told = []
    for line in told:
        sys.stdout.buffer.write(line.encode("latin-1") + b"\n")
    return 0 if told else 1


if __name__ == "__main__":
    sys.exit(main(sys.argv[1:]))
