% There is no set of just the sets that are not members of themselves (Russell; problem 39 of
% Pelletier 1986). `leancop prove` answers a derivation at limit 1.
fof(russell,conjecture,
    ~ ?[X]: ![Y]: (member(Y,X) <=> ~ member(Y,Y))).
