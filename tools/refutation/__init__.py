"""The search for a finite structure at whose root a problem's formula is false, for leancop-refute.

formulas.py reads the problem, structures.py and truth.py write the clauses, solver.py asks a SAT solver, search.py goes through the sizes,
program.py asks leancop. Nothing of it is trusted: what is printed was judged by `leancop model`."""
