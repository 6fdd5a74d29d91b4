# shellcheck shell=bash disable=SC2154
# tools/leancop-explain: output and status are the program's, and standard error has what helps.

# explained PART WORD..: runs the words, and looks for PART in standard error (nothing may stand there where PART is empty)
explained() {
    local part="$1" wanted ended got
    shift
    wanted="$("$LEANCOP" "$@" </dev/null)"
    ended=$?
    got="$(tools/leancop-explain "$@" 2>"$folder/said" </dev/null)"
    same "status of explain $*" "$?" "$ended"
    same "output of explain $*" "$got" "$wanted"
    if [ -n "$part" ]; then has "explain $*" "$(cat "$folder/said")" "$part"; else same "explain $*" "$(cat "$folder/said")" ''; fi
}
# wrong FORMULA PART: the problem that asks for this formula is refused, and PART is said
wrong() {
    printf '\nfof(c,conjecture,%s).\n' "$1" >"$folder/m.p"
    explained "$2" prove "$folder/m.p"
}

explained '' prove examples/even.p
explained '' check examples/drinker.p examples/drinker.txt
explained 'is missing' prove
explained 'check FILE DERIVATION' --help
# A bad word has one cause, and the usage is that of its command where it helps.
explained 'prove takes FILE' prove
explained '--limit= and its value are one word, as in --limit=3.' prove examples/even.p --limit 3
explained '--limit= is a number from 1 to 200' prove examples/even.p --limit=0
explained '--limit= stands twice, as word 3' prove examples/even.p --limit=1 --limit=2
explained '--logic=S4 is written --logic=s4' prove examples/even.p --logic=S4
explained '--logic=intuitionist is written --logic=intuitionistic' prove examples/even.p --logic=intuitionist
explained 'is one of classical, intuitionistic, d, t, s4, s5' prove examples/even.p --logic=K
explained 'Is --logic=s4 meant?' prove examples/even.p --logik=s4
explained 'check has no option --limit=; prove, make, tableau have it' check examples/drinker.p examples/drinker.txt --limit=3
explained 'is one operand too many: prove takes FILE' prove examples/even.p examples/drinker.p
explained 'as in --logic=s4' prove -logic=s4 examples/even.p
explained 'a logic is named by --logic=s4' prove examples/even.p s4
explained 'needs --logic=intuitionistic' check examples/drinker.p examples/drinker.txt --as=s4
explained 'N is a number from 1 to 150' make chain 151
explained 'FAMILY is one of chain, shift, tower' make ring 3
explained 'a family of a modal logic' make tower 3
explained 'Is prove meant?' Prove examples/even.p
explained 'as in leancop prove examples/even.p' examples/even.p
same 'the usage of one command' "$(tools/leancop-explain check 2>&1 >/dev/null </dev/null | grep -c 'leancop ')" 1
same 'no usage with a cause' "$(tools/leancop-explain make chain 151 2>&1 >/dev/null </dev/null | wc -l)" 1
"$LEANCOP" tableau examples/even.p >"$folder/t.txt"
explained 'tcheck judges it' check examples/even.p "$folder/t.txt"
explained 'check judges it' tcheck examples/drinker.p examples/drinker.txt
explained 'model tells' check examples/drinker.p examples/structures/drinker.txt
explained 'This is a problem' check examples/even.p examples/even.p
explained 'needs a modal logic' prove examples/even.p --domains=varying
explained 'There is no file none.p' prove none.p
explained '/dev/stdin' prove -
explained 'below that of --root=FOLDER' prove examples/order.p
explained 'below the folder of --root=' prove --root=docs examples/order.p
explained 'it is a folder' prove examples
explained 'a greater --limit=' prove --limit=2 examples/endless.p
explained 'came to its end' prove examples/quantifiers.p
explained 'a greater --steps=' prove --steps=100 examples/endless.p
explained 'of another problem' check examples/even.p examples/drinker.txt
explained 'not that of --logic=' check --logic=t examples/modal/serial.p examples/modal/serial.txt
explained 'A qmf item needs a modal logic' prove examples/modal/serial.p
sed 's/$/\r/' examples/drinker.txt >"$folder/d.txt"
explained 'carriage returns' check examples/drinker.p "$folder/d.txt"
sed 's/^axiom .*/axiom 1 1/' examples/drinker.txt >"$folder/d.txt"
explained 'axiom 1 1' check examples/drinker.p "$folder/d.txt"
# What is wrong with a line that is in no form.
head -n 5 examples/drinker.txt >"$folder/d.txt"
explained 'The text stops before this line' check examples/drinker.p "$folder/d.txt"
printf 'use' >>"$folder/d.txt"
explained 'The text stops within this line' check examples/drinker.p "$folder/d.txt"
sed 's/^use 1 term .*/use 1 term somebody/' examples/drinker.txt >"$folder/d.txt"
explained 'The formula has no function or constant somebody.' check examples/drinker.p "$folder/d.txt"
sed 's/^use 1 term .*/use 1 term  /' examples/drinker.txt >"$folder/d.txt"
explained 'It is not in its form.' check examples/drinker.p "$folder/d.txt"

mark="line 2, column 24:
      fof(c,conjecture,p & q | r).
                             ^
  There is no precedence"
wrong 'p & q | r' "$mark" # and the formula in TPTP behind it
wrong 'p => q => p' 'There is no precedence'
wrong 'P => P' 'is a variable, and no predicate'
wrong 'P(a)' 'is a variable, and no predicate'
wrong '![x]: p(x)' 'A variable begins with a capital letter'
wrong '!X: p(X)' 'in square brackets'
wrong 'p -> p' 'The connectives are'
wrong 'p → p' 'The connectives are'
wrong 'p /\ p' 'The connectives are'
wrong "p('a)" 'The quote is not closed'
wrong '(p & q' 'A bracket is still open'
wrong 'p))' 'one closing bracket too many'
wrong 'p(1)' 'are no terms here'
# shellcheck disable=SC2016
wrong '$$p' '$true and $false'
# The same formula in TPTP, where it can be read, and none where it cannot in one way.
if command -v python3 >/dev/null; then
    wrong 'p -> p' 'fof(c,conjecture,p => p).'
    wrong '∀x p(x)' 'fof(c,conjecture,![X]: p(X)).'
    wrong '∀x. p(x) → ∃y. q(x,y)' 'fof(c,conjecture,![X]: (p(X) => ?[Y]: q(X,Y))).'
    wrong '[]p' 'with a modal logic (--logic=d, t, s4 or s5): qmf(c,conjecture,#box:p).'
    wrong 'p & q | r' 'fof(c,conjecture,(p & q) | r).'
    wrong 'p => q => r' 'fof(c,conjecture,p => (q => r)).'
    wrong 'P & Q -> R' 'fof(c,conjecture,(p & q) => r).'
    wrong 'P(a) /\ ~Q' 'fof(c,conjecture,p(a) & ~q).'
    # shellcheck disable=SC1003
    wrong '\forall x. P(x) \to \neg Q' 'fof(c,conjecture,![X]: (p(X) => ~q)).'
    for formula in 'P & p => p' 'p q' 'forall x. x' 'p -> '; do
        printf 'fof(c,conjecture,%s).\n' "$formula" >"$folder/m.p"
        tools/leancop-explain prove "$folder/m.p" >/dev/null 2>"$folder/said"
        same "no other reading of $formula" "$(grep -c 'As the program reads it' "$folder/said")" 0
    done
    printf 'qmf(c,conjecture,[](p -> q) -> <>p).\n' >"$folder/m.p"
    explained 'reads it: qmf(c,conjecture,#box:(p => q) => #dia:p).' prove --logic=s4 "$folder/m.p"
    printf 'P -> P\n' >"$folder/m.p"
    explained 'fof(c,conjecture,p => p).' prove "$folder/m.p"
    printf "fof(a,axiom,q). %% all\\nfof(b,axiom,r).\n  fof('a b',hypothesis,\n  p & q -> r).\nfof(c,conjecture,r).\n" >"$folder/m.p"
    explained "fof('a b',hypothesis,(p & q) => r)." prove "$folder/m.p"
    same 'formula_in_tptp.py --help' "$(tools/formula_in_tptp.py --help | sed -n 1p)" 'formula_in_tptp.py FILE OFFSET [--logic=L]'
else
    skip 'python3 is not here'
fi
printf 'fof(c,conjecture,p)' >"$folder/m.p"
explained 'The text ends here' prove "$folder/m.p"
printf 'fof(a,axiom,p)\nfof(c,conjecture,p).' >"$folder/m.p"
explained 'The item before it ends with' prove "$folder/m.p"
{ head -c 3000 /dev/zero | tr '\0' ' ' && echo 'p q'; } >"$folder/m.p"
explained 'column 3001:' prove "$folder/m.p"
same 'a long line is cut' "$(wc -L <"$folder/said" | awk '{ print ($1 < 200) }')" 1

# Answers of commands that need a text of their own, by a stand-in.
# shellcheck disable=SC2016
printf '%s\n' '#!/bin/sh' 'echo "$ANSWER"' 'exit "$ENDS"' >"$folder/later"
chmod +x "$folder/later"
later() { # later STATUS ANSWER PART WORD..
    export ENDS="$1" ANSWER="$2"
    shift 2
    LEANCOP="$folder/later" explained "$@"
}
later 9 'false at the root' 'refutes the formula' model m.p s.txt
later 10 'rejected structure at line 5: reflexive' 'relation 1 1 2' model m.p examples/structures/barcan.s4.cumulative.txt
later 10 'rejected structure at line 5: reflexive' 'each world reaches itself' model m.p examples/structures/barcan.s4.cumulative.txt
later 8 'rejected at line 6: not regular' 'A goal stands twice on a branch' tcheck m.p tools/tests/texts/even_tableau.txt
later 3 'steps ended after limit 0 at 5 steps' 'a greater --steps= looks on' model m.p s.txt --steps=5

# Input from a pipe reaches the program, which is not asked again.
got="$(tools/leancop-explain prove /dev/stdin <examples/first.p 2>"$folder/said" | head -n 1)"
same 'explain with standard input' "$got" 'leancop derivation 1'
got="$(echo 'p' | tools/leancop-explain prove /dev/stdin 2>"$folder/said")"
same 'explain with a bad text from a pipe' "$got$(cat "$folder/said")" '/dev/stdin:0: syntax'
# Where it is ended, the program ends too: here one that takes long.
# shellcheck disable=SC2016
printf '%s\n' '#!/bin/sh' 'echo "$$" >"$0.process"' 'exec sleep 60' >"$folder/long"
chmod +x "$folder/long"
LEANCOP="$folder/long" tools/leancop-explain prove m.p >/dev/null 2>&1 &
explaining=$!
awaited "$folder/long.process"
kill "$explaining"
wait "$explaining" 2>/dev/null
ends 'the program' "$(cat "$folder/long.process")"
