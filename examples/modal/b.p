% B: what is the case is necessarily possible. Valid where reaching is symmetric: in S5.
qmf(b,conjecture, (p => (#box: (#dia: p)))).
