# shellcheck shell=bash disable=SC2154
# tools/leancop-coq: the statements that it writes, refusals, both versions, and the proofs by Coq where it is here (over the theory of
# tools/coq in classical and intuitionistic logic, which needs no library of Coq for OCaml).

# theorem FILE: the assumptions and the theorem of a file of Coq, in one line
theorem() { sed -n '/^Variable/p; /^Hypothesis/p; /^Theorem/p' "$1" | sed 's/ *(\*.*\*)//' | tr '\n' ' '; }
# in_coq NAME PROBLEM WORD..: writes NAME.v by the program's own derivation
in_coq() {
    local name="$1" problem="$2"
    shift 2
    "$LEANCOP" prove "$problem" "$@" >"$folder/$name.txt"
    tools/leancop-coq "$problem" "$folder/$name.txt" "$@" >"$folder/$name.v" || fail "leancop-coq $problem $*"
}

in_coq first examples/first.p
same 'a classical statement' "$(theorem "$folder/first.v")" \
    'Variable U : Type. Variable anything : U. Variable p_p : Prop. Theorem the_problem : (p_p -> p_p). '
in_coq even examples/even.p --logic=intuitionistic
same 'premises by their names' "$(theorem "$folder/even.v")" \
    'Variable U : Type. Variable anything : U. Variable p_even : U -> Prop. Variable f_zero : U. Variable f_s : U -> U. Hypothesis start : (p_even f_zero). Hypothesis step : (forall x1 : U, ((p_even x1) -> (p_even (f_s (f_s x1))))). Theorem the_problem : (p_even (f_s (f_s f_zero))). '
printf "fof(conj,axiom,a = b). fof(conj,axiom,b = c). fof('1',axiom,p(c) <=> \$true). fof(g,conjecture,p(a)).\n" >"$folder/equal.p"
in_coq equal "$folder/equal.p"
has 'equality of Coq, and names that Coq has' "$(theorem "$folder/equal.v")" \
    "Hypothesis conj' : (f_a = f_b). Hypothesis conj'' : (f_b = f_c). Hypothesis h_1 : ((p_p f_c) <-> True). Theorem the_problem : (p_p f_a)."
printf 'fof(a,axiom,p). fof(b,axiom,~ p).\n' >"$folder/none.p"
in_coq none "$folder/none.p"
has 'a problem without a conjecture' "$(theorem "$folder/none.v")" 'Hypothesis a : p_p. Hypothesis b : ~ p_p. Theorem the_problem : False.'
in_coq serial examples/modal/serial.p --logic=d
same 'a statement of D' "$(theorem "$folder/serial.v")" \
    'Variable U : Type. Variable anything : U. Variable W : Type. Variable root : W. Variable R : W -> W -> Prop. Hypothesis serial : forall w, exists v, R w v. Variable p_p : W -> Prop. Theorem the_problem : ((forall v1, R root v1 -> (p_p v1)) -> (exists v2, R root v2 /\ (p_p v2))). '
in_coq converse examples/modal/converse_barcan.p --logic=s4 --domains=cumulative
has 'a statement of S4' "$(theorem "$folder/converse.v")" \
    'Hypothesis reflexive : forall w, R w w. Hypothesis transitive : forall u v w, R u v -> R v w -> R u w. Variable E : W -> U -> Prop. Hypothesis inhabited : forall w, exists x, E w x. Hypothesis grows : forall w v x, R w v -> E w x -> E v x. Variable p_p : W -> U -> Prop. Theorem the_problem : ((forall v1, R root v1 -> (forall x2 : U, E v1 x2 -> (p_p v1 x2))) -> (forall x3 : U, E root x3 -> (forall v4, R root v4 -> (p_p v4 x3)))).'
in_coq negation examples/intuitionistic/not_not_excluded_middle.p --logic=intuitionistic
has 'a statement of intuitionistic logic' "$(theorem "$folder/negation.v")" \
    'Variable p_p : Prop. Theorem the_problem : ~ ~ (p_p \/ ~ p_p).'
in_coq names tools/tests/texts/names.p
has 'a name that is no name of Coq' "$(grep '^Variable' "$folder/names.v")" "p_a_b' : Prop. (* a?b *)"
same 'a name that would be an axiom' "$(grep -c '^ *Axiom' "$folder/names.v")" 0
for name in made_twice made_later common_spare; do
    tools/leancop-coq "tools/tests/texts/$name.p" "tools/tests/texts/$name.txt" >"$folder/$name.v" || fail "leancop-coq $name"
done

# What check does not accept is not printed, and the setting is the text's where no word says another.
got="$(tools/leancop-coq examples/even.p examples/drinker.txt 2>"$folder/said")"
same 'leancop-coq of another problem' "$? $got$(cat "$folder/said")" '8 leancop-coq: rejected at line 3: formula'
tools/leancop-coq examples/modal/serial.p examples/modal/serial.txt >"$folder/again.v"
same 'leancop-coq without --logic=' "$(theorem "$folder/again.v")" "$(theorem "$folder/serial.v")"
tools/leancop-coq --logic=t examples/modal/serial.p examples/modal/serial.txt >/dev/null 2>&1
same 'leancop-coq in another logic' "$?" 8
tools/leancop-coq examples/even.p none.txt >/dev/null 2>&1
same 'leancop-coq without a derivation' "$?" 1

# Version 2: the same file of Coq. Where the program does not read version 2 yet, a stand-in accepts the texts.
printf '#!/bin/sh\necho accepted\n' >"$folder/accepts"
chmod +x "$folder/accepts"
reader="$LEANCOP"
knows migrate || reader="$folder/accepts"
for name in examples/drinker examples/modal/serial; do
    two="tools/tests/texts/${name##*/}_two.txt"
    LEANCOP="$reader" tools/leancop-coq "$name.p" "$two" >"$folder/two.v"
    tools/leancop-coq "$name.p" "$name.txt" >"$folder/one.v"
    same "version 2 of $name.txt" "$(cat "$folder/two.v")" "$(cat "$folder/one.v")"
done

if command -v coqc >/dev/null; then
    in_coq drinker examples/drinker.p
    in_coq k examples/modal/k.p --logic=t
    in_coq five examples/modal/five.p --logic=s5
    in_coq b examples/modal/b.p --logic=s5 --domains=varying
    in_coq four examples/modal/four.p --logic=s4
    in_coq barcan examples/modal/barcan.p --logic=d
    in_coq exists_not examples/intuitionistic/exists_not.p --logic=intuitionistic
    in_coq or_de_morgan examples/intuitionistic/or_de_morgan.p --logic=intuitionistic
    count=0
    closed=0
    echo 'From Leancop Require Leancop.' >"$folder/all"
    for file in "$folder"/*.v; do # one file of modules, since coqc takes longest to begin
        if grep -q 'accepts Intuitionistic' "$file"; then closed=$((closed + 1)); else count=$((count + 1)); fi
        printf 'Module M%d.\n%s\nEnd M%d.\n' $((count + closed)) "$(cat "$file")" $((count + closed))
    done >>"$folder/all"
    mkdir "$folder/theory"
    mv "$folder/all" "$folder/All.v"
    cp tools/coq/theories/Leancop.v "$folder/theory"
    got="$(cd "$folder" && coqc -q -R theory Leancop theory/Leancop.v && coqc -q -w -require-in-module -R theory Leancop All.v 2>&1)"
    same 'coqc' "$?" 0
    same 'classical proofs rest on classic alone' "$(grep -c '^classic : ' <<<"$got") $(grep -c ' : ' <<<"$got")" "$count $count"
    same 'intuitionistic ones on nothing' "$(grep -c '^Closed under the global context$' <<<"$got")" "$closed"
else
    skip 'coqc is not here'
fi
