% Problem 42 of Pelletier (1986): there is no set of just the sets that are in no circle of two.
% `leancop prove` answers a derivation at limit 2.
fof(pelletier42,conjecture,
    ~ ?[Y]: ![X]: (member(X,Y) <=> ~ ?[Z]: (member(X,Z) & member(Z,X)))).
