% Peirce's law: implication alone, and a theorem of classical logic only.
fof(peirce,conjecture, (((p => q) => p) => p)).
