#!/usr/bin/env python3
"""tstp_lines.py FILE..: follows derivations of TSTP as GDV does, by the prover E: each line with parents, which stand before it, is
proved from these alone, one without parents from nothing, and the last line is a theorem or $false. Tells how many lines it
proved, and ends with 1 where one failed."""
from __future__ import annotations

import re
import subprocess
import sys

TOKEN = re.compile(r"'(?:\\.|[^'\\])*'|[()\[\],]|[^'()\[\],]+")


def arguments(text: str) -> list[str]:
    """The parts between the commas outside of brackets and quotes."""
    parts, depth = [""], 0
    for token in TOKEN.findall(text):
        depth += (token in "([") - (token in ")]")
        if token == "," and depth == 0:
            parts.append("")
        else:
            parts[-1] += token
    return [p.strip() for p in parts]


def is_theorem(premises: list[str], formula: str) -> bool:
    problem = "".join("fof(a%d,axiom,%s).\n" % pair for pair in enumerate(premises)) + "fof(c,conjecture,%s).\n" % formula
    told = subprocess.run(["eprover", "--auto", "--silent", "--cpu-limit=10"], input=problem.encode("latin-1"), stdout=subprocess.PIPE,
                          stderr=subprocess.STDOUT, check=False).stdout
    return b"SZS status Theorem" in told or b"SZS status ContradictoryAxioms" in told


def main(files: list[str]) -> int:
    proved, failed = 0, 0
    for file in files:
        formulas: dict[str, str] = {}
        role = formula = ""
        with open(file, encoding="latin-1") as text:
            lines = [line for line in text.read().split("\n") if line.startswith("fof(")]
        for line in lines:
            name, role, formula, source = arguments(line[len("fof("):-len(").")])
            if source.startswith("inference("):
                _, _, parents = arguments(source[len("inference("):-1])
                premises = [formulas[parent] for parent in arguments(parents[1:-1]) if parent]
                if is_theorem(premises, formula):
                    proved += 1
                else:
                    failed += 1
                    print("%s: %s does not follow: %s" % (file, name, line[:200]))
            formulas[name] = formula
        if role != "theorem" and formula != "$false":
            failed += 1
            print("%s: the last line is no theorem: %s" % (file, lines[-1:]))
    print("%d lines follow, %d do not" % (proved, failed))
    return 1 if failed else 0


if __name__ == "__main__":
    sys.exit(main(sys.argv[1:]))
