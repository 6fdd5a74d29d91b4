% De Morgan: where not both hold, one does not. Of the four laws the one that intuitionistic logic
% lacks.
fof(de_morgan_and,conjecture, (~ (p & q) => (~ p | ~ q))).
