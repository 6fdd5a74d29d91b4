% 5: what is possible is necessarily possible. Valid where worlds reached from one reach each
% other: in S5.
qmf(five,conjecture, ((#dia: p) => (#box: (#dia: p)))).
