% The double negation of excluded middle: a theorem of intuitionistic logic (Glivenko).
fof(not_not_excluded_middle,conjecture, ~ ~ (p | ~ p)).
