% The drinker: a theorem of classical logic that intuitionistic logic does not have.
fof(drinker,conjecture, ? [X] : (d(X) => ! [Y] : d(Y))).
