% Two is even. `leancop prove` answers a derivation at limit 2.
fof(start,axiom, even(zero)).
fof(step,axiom, ![X]: (even(X) => even(s(s(X))))).
fof(two,conjecture, even(s(s(zero)))).
