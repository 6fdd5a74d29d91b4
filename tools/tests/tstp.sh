# shellcheck shell=bash disable=SC2154
# tools/leancop-tstp: what it prints, refusals, both versions, and each line by the prover E where it is here.

# in_tstp NAME PROBLEM WORD..: writes NAME.tstp by the program's own derivation
in_tstp() {
    local name="$1" problem="$2"
    shift 2
    "$LEANCOP" prove "$problem" "$@" >"$folder/$name.txt"
    tools/leancop-tstp "$problem" "$folder/$name.txt" "$@" >"$folder/$name.tstp" || fail "leancop-tstp $problem $*"
}
in_tstp even examples/even.p
same 'a sequent' "$(sed -n 6p "$folder/even.tstp")" \
    'fof(s3,plain,((even(zero) & (even(zero) => even(s(s(zero))))) => even(s(s(zero)))),inference(leftImplies,[status(thm)],[s2,s1])).'
same 'the last line' "$(tail -n 1 "$folder/even.tstp")" 'fof(two_proved,theorem,even(s(s(zero))),inference(cut,[status(thm)],[s6,start,step])).'
"$LEANCOP" migrate examples/even.p "$folder/even.txt" >"$folder/two.txt"
same 'version 2' "$(tools/leancop-tstp examples/even.p "$folder/two.txt" | cksum)" "$(cksum <"$folder/even.tstp")"
in_tstp drinker examples/drinker.p
has 'an eigenvariable' "$(cat "$folder/drinker.tstp")" '![E2]:(drinks(E2) => drinks(E2))'
in_tstp order examples/order.p --root=examples
has 'an included item' "$(cat "$folder/order.tstp")" 'fof(transitive,axiom,'
in_tstp names tools/tests/texts/names.p # E takes no name for a function and a predicate, so it is not asked
in_tstp group examples/group.p
has 'an axiom of equality' "$(cat "$folder/group.tstp")" 'theory(equality)'
printf '%s\n' "cnf(a,axiom,p(X,'X b') | q). cnf(a,axiom,~q). cnf('it''s',negated_conjecture,~p(Y,'X b'))." >"$folder/m.p"
sed -i "s/''s/\\\\'s/" "$folder/m.p"
in_tstp clauses "$folder/m.p"
# shellcheck disable=SC2016
same 'a refutation' "$(tail -n 1 "$folder/clauses.tstp" | sed 's/,\[s[0-9]*,/,[S,/')" 'fof(refutation,plain,$false,inference(cut,[status(thm)],[S,a,a_2,'"'it\\'s'"'])).'
# shellcheck disable=SC2016
echo 'fof(c,conjecture,(($true & p) => (p & ~$false))).' >"$folder/m.p"
in_tstp truth "$folder/m.p"

got="$(tools/leancop-tstp examples/even.p examples/drinker.txt 2>"$folder/said")"
same 'leancop-tstp of another problem' "$? $got$(cat "$folder/said")" '8 leancop-tstp: rejected at line 3: formula'
got="$(tools/leancop-tstp examples/modal/serial.p examples/modal/serial.txt 2>"$folder/said")"
same 'leancop-tstp of a modal derivation' "$? $got" '5 '
has 'what it says' "$(cat "$folder/said")" 'derivations of classical logic alone'
tools/leancop-tstp examples/even.p >/dev/null 2>&1
same 'leancop-tstp without a derivation' "$?" 5
same 'leancop-tstp without the file' "$(tools/leancop-tstp examples/even.p none.txt 2>&1; echo "$?")" 'leancop-tstp: none.txt: No such file or directory
6'

if command -v eprover >/dev/null; then
    same 'the lines by E' "$(tools/tests/tstp_lines.py "$folder"/{even,drinker,order,group,clauses,truth}.tstp | sed 's/^[1-9][0-9]* //')" 'lines follow, 0 do not'
    sed 's/^fof(s2,plain,(even(zero) => even(zero))/fof(s2,plain,(even(zero) => even(s(zero)))/' "$folder/even.tstp" >"$folder/wrong.tstp"
    has 'a line that does not follow' "$(tools/tests/tstp_lines.py "$folder/wrong.tstp")" 's2 does not follow'
else
    skip 'eprover is not here'
fi
