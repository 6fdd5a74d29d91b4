% Excluded middle: a theorem of classical logic that intuitionistic logic does not have.
fof(excluded_middle,conjecture, (p | ~ p)).
