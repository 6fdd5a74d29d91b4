% T: what is necessary is the case. Valid where each world reaches itself: in T, S4 and S5.
qmf(t,conjecture, ((#box: p) => p)).
