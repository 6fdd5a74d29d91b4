% A strict order has no circle of two. The axioms stand in a file of their own, whose name is taken
% from the folder that `--root=` names. `leancop prove --root=examples` answers a derivation at
% limit 2.
include('axioms/order.ax').
fof(asymmetric,conjecture, ![X,Y]: (less(X,Y) => ~ less(Y,X))).
