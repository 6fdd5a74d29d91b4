% De Morgan: what is neither is not one or the other. A theorem of intuitionistic logic.
fof(or_de_morgan,conjecture, ((~ p & ~ q) => ~ (p | q))).
