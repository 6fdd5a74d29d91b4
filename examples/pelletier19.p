% Problem 19 of Pelletier, "Seventy-five problems for testing automatic theorem provers" (1986).
% `leancop prove` answers a derivation at limit 2.
fof(pelletier19,conjecture,
    ?[X]: ![Y,Z]: ((p(Y) => q(Z)) => (p(X) => q(X)))).
