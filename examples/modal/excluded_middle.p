% What is necessary or not necessary is decided at each world, in every modal logic.
qmf(excluded_middle,conjecture, ((#box: p) | ~ (#box: p))).
