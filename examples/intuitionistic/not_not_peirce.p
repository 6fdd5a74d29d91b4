% The double negation of Peirce's law.
fof(not_not_peirce,conjecture, ~ ~ (((p => q) => p) => p)).
