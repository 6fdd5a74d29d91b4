% The search may go from f(a) to f(f(a)) and on without end: at each path limit there is more to
% try. `leancop prove --limit=3` answers `exhausted at limit 3`, which does not say that there is
% no proof.
fof(endless,conjecture, (![X]: (p(f(X)) => p(X))) => p(a)).
