% There is someone such that, if this one drinks, everyone drinks (Smullyan's drinker). The proof
% takes the premise twice, for two people. `leancop prove` answers a derivation at limit 1.
fof(drinker,conjecture,
    ?[X]: ![Y]: (drinks(X) => drinks(Y))).
