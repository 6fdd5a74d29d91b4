% Peirce's law, which holds in classical logic and not in intuitionistic logic. The proof closes a
% goal by one above it on its branch. `leancop prove` answers a derivation at limit 1.
fof(peirce,conjecture, ((p => q) => p) => p).
