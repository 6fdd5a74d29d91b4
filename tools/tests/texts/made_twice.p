% A name stands for nothing in a formula where its quantifier has no use of it, so a branch may make it twice.
fof(c,conjecture, (p => ((![X]:p) | (![X]:q))) ).
