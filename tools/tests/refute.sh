# shellcheck shell=bash disable=SC2154
# tools/leancop-refute, leancop-decide, and what leancop-szs and leancop-explain say of structures: what is printed the program judges to
# be false, and each formula of the gallery without a proof is refuted within two seconds, save the one that no finite structure refutes.

# ended WHAT STATUS WORD..: the words end so; the output stands in $folder/answer, standard error in $folder/said
ended() {
    local what="$1" wanted="$2"
    shift 2
    "$@" >"$folder/answer" 2>"$folder/said" </dev/null
    same "$what" "$?" "$wanted"
}
here() { for solver in cadical minisat picosat cryptominisat5; do command -v "$solver"; done; }

# Without a solver, and without a program: one line, and no build.
mkdir "$folder/few" "$folder/unbuilt" "$folder/unbuilt/crates" "$folder/unbuilt/crates/leancop"
ln -s "$(python3 -c 'import sys; print(sys.executable)')" "$folder/few/python3"
ln -s "$(command -v env)" "$folder/few/env"
ended 'refute without a solver' 70 env PATH="$folder/few" tools/leancop-refute examples/quantifiers.p
has 'what is said without a solver' "$(cat "$folder/said")" 'leancop-refute: no SAT solver is here'
ended 'decide without a solver' 2 env PATH="$folder/few" tools/leancop-decide examples/quantifiers.p
same 'what decide prints without a solver' "$(cat "$folder/answer")" 'no tableau at limit 1'
cp -R tools "$folder/unbuilt/tools"
# shellcheck disable=SC2016
printf '#!/bin/sh\ntouch "$0.ran"\n' >"$folder/unbuilt/leancop"
chmod +x "$folder/unbuilt/leancop"
for command in leancop-refute leancop-decide; do
    ended "$command that is not built" 70 env LEANCOP='' "$folder/unbuilt/tools/$command" examples/quantifiers.p
    same "what $command says" "$(cat "$folder/said")" "$command: the program is not built: run ./leancop once, or name it by LEANCOP"
done
same 'the launcher was not asked' "$([ -e "$folder/unbuilt/leancop.ran" ] || echo no)" no
ended 'refute --help' 0 tools/leancop-refute --help
ended 'decide --help' 0 tools/leancop-decide --help
ended 'refute with a bad word' 5 tools/leancop-refute examples/quantifiers.p --worlds-max=0
ended 'decide with a bad word' 5 tools/leancop-decide examples/quantifiers.p --limit=0

if [ -z "$(here)" ]; then
    skip 'no SAT solver is here'
    return
fi

# Random formulas, for a minute, beside what follows.
# shellcheck disable=SC2016
begin differential bash -c 'bench/differential.py --time=60 --seed="$(date +%j)"; echo "ended with $?"'

# Each line of the gallery by which a search finds no proof. The two seconds are of the processor, as other work may go on beside.
TIMEFORMAT='%U'
while IFS=$'\t' read -r _ _ words; do
    read -r -a list <<<"$words"
    asked=()
    for word in "${list[@]:1}"; do case "$word" in --limit=* | --steps=*) ;; *) asked+=("$word") ;; esac done
    case "$words" in
    *double_negation_shift*) # no finite structure refutes it
        ended "refute ${asked[*]}" 2 tools/leancop-refute --time=2 "${asked[@]}" ;;
    *)
        { time ended "refute ${asked[*]}" 0 tools/leancop-refute --time=30 "${asked[@]}"; } 2>"$folder/seconds"
        has "seconds for ${asked[*]}" "0. 1." "$(cut -c 1-2 "$folder/seconds")"
        same "the structure for ${asked[*]}" "$("$LEANCOP" model "${asked[@]}" "$folder/answer")" 'false at the root'
        ;;
    esac
done < <(grep "^[12]	" examples/expected.tsv)
unset TIMEFORMAT

# What is no theorem has no derivation, and what has one no structure.
ended 'refute a theorem' 2 tools/leancop-refute examples/even.p
has 'what is said of a theorem' "$(cat "$folder/said")" 'derives the formula'
same 'no structure of a theorem' "$(cat "$folder/answer")" ''
ended 'refute a missing file' 6 tools/leancop-refute none.p
same 'the missing file' "$(cat "$folder/said")" 'leancop-refute: missing: none.p'
ended 'refute without --root=' 6 tools/leancop-refute examples/order.p
ended 'refute within bounds' 1 tools/leancop-refute --worlds-max=1 --logic=s4 examples/modal/b.p
has 'the sizes without a structure' "$(cat "$folder/said")" 'without one: 1x1'
for solver in $(here); do
    ended "refute by ${solver##*/}" 0 tools/leancop-refute --solver="${solver##*/}" --logic=intuitionistic examples/intuitionistic/drinker.p
done
# Included files, a pipe, quoted names, and text that is deep or written out many times.
printf '%s\n' "fof(a,axiom,![X]:('a b'(X,X) | f(X) = 'c\\\\d'))." >"$folder/inside.ax"
printf '%s\n' "include('inside.ax'). fof(c,conjecture, ?[X]: ~ 'a b'(f(X),X))." >"$folder/m.p"
ended 'refute with an include' 0 tools/leancop-refute "--root=$folder" "$folder/m.p"
same 'its structure' "$("$LEANCOP" model "--root=$folder" "$folder/m.p" "$folder/answer")" 'false at the root'
got="$(tools/leancop-refute /dev/stdin <examples/quantifiers.p 2>"$folder/said")"
same 'refute a pipe' "$(printf '%s\n' "$got" | "$LEANCOP" model examples/quantifiers.p /dev/stdin)" 'false at the root'
got="$(echo 'p q' | tools/leancop-refute /dev/stdin 2>&1)"
same 'refute a bad pipe' "$? $got" '4 leancop-refute: /dev/stdin:0: syntax'
printf 'fof(c,conjecture,%sp).\n' "$(printf '~%.0s' {1..498})" >"$folder/m.p"
ended 'refute what is deep' 0 tools/leancop-refute --logic=intuitionistic "$folder/m.p"
formula=p
for name in q r s t u v w; do formula="($formula <=> ($name <=> $formula))"; done
printf 'fof(c,conjecture,%s & q).\n' "$formula" >"$folder/m.p"
ended 'refute equivalences inside one another' 0 tools/leancop-refute "$folder/m.p"
# Many premises, of which each is a clause for the solver; and a time that ends before such a problem is read.
for i in {1..20000}; do echo "fof(a$i,axiom,(p$((i % 4000))(a$((i % 7))) => p$((i * 7 % 4001))(b$((i % 11)))))."; done >"$folder/m.p"
echo 'fof(c,conjecture,p1(a1)).' >>"$folder/m.p"
ended 'refute 20,000 premises' 0 tools/leancop-refute --time=60 "$folder/m.p"
ended 'refute in too short a time' 1 tools/leancop-refute --time=0.05 --no-proofs "$folder/m.p"
same 'what is said of the time' "$(cat "$folder/said")" 'leancop-refute: no structure found in this time, which ended while the problem was read'
# Nothing is printed that the program does not find false.
# shellcheck disable=SC2016
printf '%s\n' '#!/bin/sh' 'if [ "$1" = model ]; then echo "true at the root"; else exec "$PROGRAM" "$@"; fi' >"$folder/other"
chmod +x "$folder/other"
export PROGRAM="$LEANCOP"
LEANCOP="$folder/other" ended 'a program that does not agree' 70 tools/leancop-refute examples/quantifiers.p
same 'what is printed then' "$(cat "$folder/answer")" ''

# The first answer of the two, and what is known where there is none.
ended 'decide a theorem' 0 tools/leancop-decide examples/even.p
same 'its derivation' "$("$LEANCOP" check examples/even.p "$folder/answer")" accepted
ended 'decide no theorem' 9 tools/leancop-decide --logic=intuitionistic examples/intuitionistic/peirce.p
same 'its structure' "$("$LEANCOP" model --logic=intuitionistic examples/intuitionistic/peirce.p "$folder/answer")" 'false at the root'
ended 'decide what no finite structure refutes' 2 tools/leancop-decide --logic=intuitionistic examples/intuitionistic/double_negation_shift.p
has 'what is known of it' "$(cat "$folder/said")" 'instances of the double negation shift'
ended 'decide where the time ends' 124 tools/leancop-decide --time=1 --steps=1099511627776 bench/problems/fam/set_distr.p
has 'what is said then' "$(cat "$folder/said")" 'the time ended in the search for a proof'
# shellcheck disable=SC2016
printf '%s\n' '#!/bin/sh' 'if [ "$1" = prove ]; then cat "$DERIVATION"; else exec "$PROGRAM" "$@"; fi' >"$folder/other"
DERIVATION=examples/drinker.txt LEANCOP="$folder/other" ended 'a derivation that is rejected' 70 tools/leancop-decide --solver=none examples/even.p
# Where it is ended, what it runs ends too.
# shellcheck disable=SC2016
printf '%s\n' '#!/bin/sh' 'echo "$$" >"$0.process"' 'exec sleep 60' >"$folder/other"
LEANCOP="$folder/other" tools/leancop-decide examples/even.p >/dev/null 2>&1 &
running=$!
awaited "$folder/other.process"
kill "$running"
wait "$running" 2>/dev/null
ends 'what decide runs' "$(cat "$folder/other.process")"

# SZS statuses on proved ground, in all logics, and the text between the output lines.
refuted() { # refuted SZS PROBLEM WORD..
    local szs="$1" problem="$2"
    shift 2
    ended "leancop-szs $problem $*" 9 tools/leancop-szs "$problem" "$@"
    same "the status of $problem $*" "$(head -n 1 "$folder/answer")" "% SZS status $szs for ${problem##*/}"
    sed '1,/^% SZS output start FiniteModel/d; /^% SZS output end FiniteModel/,$d' "$folder/answer" >"$folder/s.txt"
    same "the structure of $problem $*" "$("$LEANCOP" model "$problem" "$folder/s.txt" "$@")" 'false at the root'
}
printf 'fof(a,axiom,![X]: (p(X) | q)). fof(b,axiom,~ q).\n' >"$folder/f.p"
printf 'qmf(a,axiom,#dia:p). qmf(b,axiom,~ #box:p). qmf(c,axiom,?[X]: ~ r(X)).\n' >"$folder/q.p"
refuted CounterSatisfiable examples/quantifiers.p
refuted CounterSatisfiable examples/endless.p --steps=100
refuted CounterSatisfiable examples/intuitionistic/excluded_middle.p --logic=intuitionistic
refuted CounterSatisfiable examples/modal/b.p --logic=s4
refuted Satisfiable "$folder/f.p"
refuted Satisfiable "$folder/f.p" --logic=intuitionistic
for logic in d t s4 s5; do refuted Satisfiable "$folder/q.p" "--logic=$logic" --domains=varying; done
ended 'leancop-szs of a theorem' 0 tools/leancop-szs examples/even.p
ended 'leancop-szs where no finite structure refutes' 2 tools/leancop-szs --time=4 --logic=intuitionistic examples/intuitionistic/double_negation_shift.p
has 'its status' "$(cat "$folder/answer")" '% SZS status CounterSatisfiable for double_negation_shift.p'

# Why, as a page and in words.
tools/leancop-refute --logic=intuitionistic examples/intuitionistic/peirce.p >"$folder/s.txt" 2>/dev/null
has 'the page of what was found' "$(tools/leancop-view examples/intuitionistic/peirce.p "$folder/s.txt")" 'predicate p 0 2 1'
ended 'explain a structure' 9 tools/leancop-explain model --logic=intuitionistic examples/intuitionistic/peirce.p "$folder/s.txt"
has 'the reason' "$(cat "$folder/said")" 'at world 1 p => q does not hold, since at world 2 p holds and q does not'
while IFS=$'\t' read -r _ _ words; do
    read -r -a list <<<"$words"
    ended "the reason for ${list[-1]}" 0 tools/structure_in_words.py "${list[@]:1}"
done < <(grep "^9	" examples/expected.tsv)
ended 'no reason where it is true' 1 tools/structure_in_words.py examples/first.p "$folder/s.txt"

# What random formulas told; and programs that are false, which are found out.
finish differential
has 'bench/differential.py' "$got" 'ended with 0'
# shellcheck disable=SC2016
printf '%s\n' '#!/bin/sh' 'case $1 in prove | check) echo accepted ;; *) exec "$PROGRAM" "$@" ;; esac' >"$folder/other"
LEANCOP="$folder/other" ended 'bench/differential.py with a program that derives all' 1 bench/differential.py --time=2 --keep="$folder/kept_formulas"
has 'what it finds' "$(cat "$folder/answer")" 'a derivation and a structure'
same 'what it keeps' "$([ -n "$(ls "$folder/kept_formulas")" ] || echo nothing)" ''
# shellcheck disable=SC2016
printf '%s\n' '#!/bin/sh' 'if [ "$1" = model ]; then echo "true at the root"; else exec "$PROGRAM" "$@"; fi' >"$folder/other"
LEANCOP="$folder/other" ended 'bench/differential.py with a program that calls all true' 1 bench/differential.py --time=2
has 'what it finds of that' "$(cat "$folder/answer")" 'the program does not find it false'
