% If each one has a friend, there need not be a friend of all. No tableau is closed within any path
% limit, and `leancop prove` answers `no tableau at limit 1`, where it sees this.
fof(exchange,conjecture,
    (![X]: ?[Y]: friend(X,Y)) => ?[Y]: ![X]: friend(X,Y)).
