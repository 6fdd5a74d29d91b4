% Problem 46 of Pelletier (1986), with two predicates of two places. `leancop prove` answers a
% derivation at limit 4.
fof(a1,axiom, ![X]: ((f(X) & ![Y]: ((f(Y) & h(Y,X)) => g(Y))) => g(X))).
fof(a2,axiom, (?[X]: (f(X) & ~ g(X)))
    => ?[X]: (f(X) & ~ g(X) & ![Y]: ((f(Y) & ~ g(Y)) => j(X,Y)))).
fof(a3,axiom, ![X,Y]: ((f(X) & f(Y) & h(X,Y)) => ~ j(Y,X))).
fof(pelletier46,conjecture, ![X]: (f(X) => g(X))).
