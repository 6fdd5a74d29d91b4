% 4: what is necessary is necessarily so. Valid where reaching is transitive: in S4 and S5.
qmf(four,conjecture, ((#box: p) => (#box: (#box: p)))).
