% De Morgan: where one of two does not hold, not both do. A theorem of intuitionistic logic.
fof(and_de_morgan,conjecture, ((~ p | ~ q) => ~ (p & q))).
