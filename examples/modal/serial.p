% D: what is necessary is possible. Valid where each world reaches one: in D, T, S4 and S5. The
% derivation in serial.txt was written by hand; `leancop check --logic=d` accepts it.
qmf(serial,conjecture, (#box: p) => #dia: p).
