% A name that is a term where its quantifier has no use of it, and is made later.
qmf(c,conjecture, ((![X]: p) => (![X]: (p & (q(X) => q(X))))) ).
