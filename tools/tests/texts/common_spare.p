% A spare constant that may stand at each world, in varying domains.
qmf(c,conjecture, ((![X]: p(X)) => p(a)) ).
