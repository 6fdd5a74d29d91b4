% Double negation shift: a theorem of classical logic that intuitionistic logic does not have.
fof(double_negation_shift,conjecture, (! [X] : ~ ~ p(X) => ~ ~ ! [X] : p(X))).
