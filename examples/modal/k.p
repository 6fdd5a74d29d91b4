% K: what is necessary together with its necessary consequences. Valid in every modal logic.
qmf(k,conjecture, ((#box: (p => q)) => ((#box: p) => (#box: q)))).
