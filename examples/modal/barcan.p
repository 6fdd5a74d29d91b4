% The Barcan formula: where each thing necessarily has a property, necessarily each thing has it.
% Valid where no world has things that a world reaching it lacks: with constant domains.
qmf(barcan,conjecture, ((! [X] : (#box: p(X))) => (#box: (! [X] : p(X))))).
