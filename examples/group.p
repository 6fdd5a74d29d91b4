% In a group, an element's inverse takes the element away from the left. Equality is written with
% `=`; the program adds the axioms that it obeys. `leancop prove` answers a derivation at limit 4.
fof(associativity,axiom, ![X,Y,Z]: product(product(X,Y),Z) = product(X,product(Y,Z))).
fof(left_identity,axiom, ![X]: product(e,X) = X).
fof(left_inverse,axiom, ![X]: product(inverse(X),X) = e).
fof(cancelled,conjecture, ![X,Y]: product(inverse(X),product(X,Y)) = Y).
