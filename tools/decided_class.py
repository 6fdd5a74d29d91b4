#!/usr/bin/env python3
"""decided_class.py PROBLEM [--logic=L] [--root=FOLDER]

Prints the class of a classical problem of which it is proved that `no tableau` tells that the formula is false somewhere: `propositional N`,
where N is the number of its propositions, or `ground`, where there is no function symbol with arguments, no equation, and no quantifier that
becomes an eigenvariable inside one that takes terms. Prints nothing for others. The formula that is looked at is one that the program finds to
be the problem's own.

LEANCOP names the program; without it, it is looked for beside this folder, then by PATH."""
from __future__ import annotations

import sys

sys.dont_write_bytecode = True
from canonical_formula import confirmed  # noqa: E402
from derivation_text import Formula, Reader  # noqa: E402


def atoms(f: Formula) -> list[Formula]:
    return [f] if f[0] == "atom" else [atom for part in f[1:] if isinstance(part, tuple) for atom in atoms(part)]


def is_flat(f: Formula, sign: bool, below_gamma: bool = False) -> bool:
    """No delta position below a gamma position, and no modal operator."""
    kind = f[0]
    if kind in ("all", "ex"):
        is_gamma = sign == (kind == "all")
        return (is_gamma or not below_gamma) and is_flat(f[1], sign, below_gamma or is_gamma)
    if kind in ("box", "dia"):
        return False
    if kind == "not":
        return is_flat(f[1], not sign, below_gamma)
    if kind == "imp":
        return is_flat(f[1], not sign, below_gamma) and is_flat(f[2], sign, below_gamma)
    return kind == "atom" or all(is_flat(part, sign, below_gamma) for part in f[1:])


def has_functions(atom: Formula) -> bool:
    return any(term[0] == "fun" and term[2] for term in atom[2])


def class_of(formula: Formula) -> str:
    """The formula is the one that a derivation has with sign F."""
    found = atoms(formula)
    if all(not atom[2] for atom in found) and is_flat(formula, False) and not has_quantifiers(formula):
        return f"propositional {len({atom[1] for atom in found})}"
    if is_flat(formula, False) and not any(atom[1] == "=" or has_functions(atom) for atom in found):
        return "ground"
    return ""


def has_quantifiers(f: Formula) -> bool:
    return f[0] in ("all", "ex") or f[0] != "atom" and any(has_quantifiers(part) for part in f[1:])


def main(words: list[str]) -> int:
    files, options = [w for w in words if not w.startswith("--")], [w for w in words if w.startswith("--")]
    if len(files) != 1:
        print(__doc__)
        return 0 if "--help" in options else 5
    logic = dict(w.split("=", 1) for w in options if "=" in w).get("--logic", "classical")
    if logic != "classical":
        return 0
    text, told, status = confirmed(files[0], options)
    if text is None:
        print("decided_class.py: " + (told or "no answer"), file=sys.stderr)
        return int(status)
    found = class_of(Reader(text.decode("latin-1")).formula())
    if found:
        print(found)
    return 0


if __name__ == "__main__":
    sys.exit(main(sys.argv[1:]))
