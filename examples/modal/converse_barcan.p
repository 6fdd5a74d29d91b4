% The converse of the Barcan formula. Valid where a world has all things of a world reaching it:
% with constant and cumulative domains.
qmf(converse_barcan,conjecture, ((#box: (! [X] : p(X))) => (! [X] : (#box: p(X))))).
