% Problem 27 of Pelletier (1986), of monadic predicates. `leancop prove` answers a derivation at
% limit 4.
fof(a1,axiom, ?[X]: (f(X) & ~ g(X))).
fof(a2,axiom, ![X]: (f(X) => h(X))).
fof(a3,axiom, ![X]: ((j(X) & i(X)) => f(X))).
fof(a4,axiom, (?[X]: (h(X) & ~ g(X))) => ![X]: (i(X) => ~ h(X))).
fof(pelletier27,conjecture, ![X]: (j(X) => ~ i(X))).
