% De Morgan: what is not one or the other is neither. A theorem of intuitionistic logic.
fof(de_morgan_or,conjecture, (~ (p | q) => (~ p & ~ q))).
