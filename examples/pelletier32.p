% Problem 32 of Pelletier (1986), a chain of conditions. `leancop prove` answers a derivation at
% limit 4.
fof(a1,axiom, ![X]: ((f(X) & (g(X) | h(X))) => i(X))).
fof(a2,axiom, ![X]: ((i(X) & h(X)) => j(X))).
fof(a3,axiom, ![X]: (k(X) => h(X))).
fof(pelletier32,conjecture, ![X]: ((f(X) & k(X)) => j(X))).
