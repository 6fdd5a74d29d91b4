% Problem 57 of Pelletier (1986), with function symbols. `leancop prove` answers a derivation at
% limit 2.
fof(a1,axiom, f(g(a,b),g(b,c))).
fof(a2,axiom, f(g(b,c),g(a,c))).
fof(a3,axiom, ![X,Y,Z]: ((f(X,Y) & f(Y,Z)) => f(X,Z))).
fof(pelletier57,conjecture, f(g(a,b),g(a,c))).
