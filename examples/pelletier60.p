% Problem 60 of Pelletier (1986). `leancop prove` answers a derivation at limit 3.
fof(pelletier60,conjecture,
    ![X]: (f(X,g(X)) <=> ?[Y]: ((![Z]: (f(Z,Y) => f(Z,g(X)))) & f(X,Y)))).
