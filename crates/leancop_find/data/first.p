fof(c,conjecture,p => p).
