% In a group that has left inverses they are right inverses too. This is hard for a calculus that
% treats equality by axioms alone: the search does not come to the proof within 2,000 steps, and
% `leancop prove --steps=2000` says so with the last limit that it searched whole.
fof(associativity,axiom, ![X,Y,Z]: product(product(X,Y),Z) = product(X,product(Y,Z))).
fof(left_identity,axiom, ![X]: product(e,X) = X).
fof(left_inverse,axiom, ![X]: product(inverse(X),X) = e).
fof(right_inverse,conjecture, ![X]: product(X,inverse(X)) = e).
