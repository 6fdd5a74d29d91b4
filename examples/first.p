% What is given may be concluded. `leancop prove` answers a derivation at limit 1.
fof(c,conjecture,p => p).
