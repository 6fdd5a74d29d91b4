# shellcheck shell=sh
# closed.sh FILE.v: a file of Coq that prints what each proof of FILE.v rests on. Goals without a name are named in their order.
name="$(basename "$1" .v)"
echo "From LeancopTest Require $name."
awk -v file="$name" '
    / Qed\./ && !/^ *(Lemma|Theorem|Module) / { printf "Print Assumptions %s.Unnamed_thm%s.\n", file, unnamed++ ? unnamed - 2 : "" }
    /^(Lemma|Theorem) / { sub(/@.*/, "", $2); printf "Print Assumptions %s.%s.\n", file, $2 }' "$1"
