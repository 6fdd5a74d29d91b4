% Where something lacks a property, not each thing has it. A theorem of intuitionistic logic.
fof(exists_not,conjecture, (? [X] : ~ p(X) => ~ ! [X] : p(X))).
