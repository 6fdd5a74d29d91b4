# shellcheck shell=bash disable=SC2154
# tools/leancop-szs: each SZS status, the exit status, includes, standard input, limits, and the scripts beside it.

# status_of SZS EXIT WORD..: the first line of the answer and the exit status, where no structure is looked for (refute.sh does)
status_of() {
    local szs="$1" ended="$2" got
    shift 2
    got="$(tools/leancop-szs --no-structures "$@" </dev/null 2>"$folder/said")"
    same "exit status of leancop-szs $*" "$?" "$ended"
    has "leancop-szs $*" "$got" "% SZS status $szs"
}
# problem TEXT: writes it as a problem
problem() { printf '%s\n' "$1" >"$folder/m.p"; }

status_of 'Theorem for even.p' 0 examples/even.p
status_of 'GaveUp for endless.p' 1 examples/endless.p --limit=2
status_of 'CounterSatisfiable for quantifiers.p' 2 examples/quantifiers.p
status_of 'ResourceOut for endless.p' 3 --steps=100 examples/endless.p
status_of 'OSError for none.p' 6 none.p
status_of UsageError 5
status_of UsageError 5 a b
status_of UsageError 5 a --time=x
status_of 'UsageError for even.p' 5 examples/even.p --limit=0
status_of 'ResourceOut for set_distr.p' 3 --time=60 --steps=1000 bench/problems/fam/set_distr.p
# With a time, the greatest path limit and budget hold where no others stand.
status_of 'Timeout for set_distr.p' 124 --time=1 bench/problems/fam/set_distr.p
status_of 'GaveUp for chain100.p' 1 bench/problems/fam/chain100.p
status_of 'Theorem for chain100.p' 0 --time=60 bench/problems/fam/chain100.p
# A schedule: the setting that gave the answer is told.
status_of 'Theorem for p56.p' 0 --schedule --time=60 bench/problems/pel/p56.p
same 'the setting of an answer' "$(tools/leancop-szs --schedule --time=60 bench/problems/pel/p56.p | sed -n 2p)" '% setting: --cut=6'
printf '%s\n' '#!/bin/sh' 'case "$*" in *--cut=6*) echo "steps ended after limit 1 at 9 steps" && exit 3 ;; esac' "exec '$LEANCOP' \"\$@\"" >"$folder/second"
chmod +x "$folder/second"
same 'the setting of another' "$(LEANCOP="$folder/second" tools/leancop-szs --schedule --time=10 examples/even.p | sed -n 1,2p | tr '\n' ' ')" \
    '% SZS status Theorem for even.p % setting: without --cut= '
status_of 'Timeout for p55.p' 124 --schedule --time=2 bench/problems/pel/p55.p
status_of 'OSError for none.p' 6 --schedule none.p
status_of UsageError 5 --schedule --cut=3 examples/even.p
# Without a conjecture; a comment or another role that names one is none.
problem 'cnf(a,axiom,p). cnf(conjecture,axiom,~p). % fof(c,conjecture,p).'
status_of 'Unsatisfiable for m.p' 0 "$folder/m.p"
problem "fof(a,axiom,p). /* fof(c, conjecture, p). */ fof('conjecture',axiom,q)."
status_of 'Satisfiable for m.p' 2 "$folder/m.p"
problem "fof('a name' , conjecture , p)."
status_of 'CounterSatisfiable for m.p' 2 "$folder/m.p"
problem 'fof(c,conjecture,p & q | r).'
status_of 'SyntaxError for m.p' 4 "$folder/m.p"
problem 'tff(c,conjecture,p).'
status_of 'Inappropriate for m.p' 4 "$folder/m.p"
problem 'fof(c,plain,p).'
status_of 'SemanticError for m.p' 4 "$folder/m.p"
# No tableau tells that the formula is not valid, but of equality in modal logic, which is a predicate like others there.
status_of 'CounterSatisfiable for b.p' 2 --logic=d examples/modal/b.p
status_of 'CounterSatisfiable for b.p' 2 --logic=s4 examples/modal/b.p
status_of 'CounterSatisfiable for excluded_middle.p' 2 --logic=intuitionistic examples/intuitionistic/excluded_middle.p
problem 'qmf(c,conjecture,a = b).'
status_of 'GaveUp for m.p' 2 --logic=d "$folder/m.p"
status_of 'GaveUp for m.p' 2 --logic=s4 "$folder/m.p"
problem 'qmf(c,conjecture,(p <=> q)).'
status_of 'CounterSatisfiable for m.p' 2 --logic=d "$folder/m.p"
# Memory ends in the middle of a proof whose terms are deep: its text has 27 MB.
deep="$(printf 'f(%.0s' {1..450})X$(printf ')%.0s' {1..450})"
{
    echo 'cnf(first,axiom,p0(a)).'
    for i in {0..197}; do echo "cnf(c$i,axiom,~p$i(X) | p$((i + 1))($deep))."; done
    echo 'cnf(last,negated_conjecture,~p198(X)).'
} >"$folder/m.p"
status_of 'MemoryOut for m.p' 7 --limit=200 --memory=40 "$folder/m.p"

# Includes: beside the problem, else below $TPTP.
mkdir -p "$folder/beside/axioms" "$folder/tptp/Axioms"
echo 'fof(a,axiom,p).' | tee "$folder/beside/axioms/one.ax" >"$folder/tptp/Axioms/two.ax"
echo "include('axioms/one.ax'). fof(c,conjecture,p)." >"$folder/beside/one.p"
echo "include('Axioms/two.ax'). fof(c,conjecture,p)." >"$folder/beside/two.p"
status_of 'Theorem for one.p' 0 "$folder/beside/one.p"
status_of 'OSError for two.p' 6 "$folder/beside/two.p"
export TPTP="$folder/tptp"
status_of 'Theorem for one.p' 0 "$folder/beside/one.p"
status_of 'Theorem for two.p' 0 "$folder/beside/two.p"
# One beside the problem and one below $TPTP; the conjecture is in one of them, behind another include, and by its name.
echo "include('Axioms/two.ax'). fof(c,conjecture,p). fof(d,conjecture,q)." >"$folder/beside/axioms/asked.ax"
echo "include('axioms/asked.ax',[a,c])." >"$folder/beside/both.p"
status_of 'Theorem for both.p' 0 "$folder/beside/both.p"
echo "include('axioms/asked.ax',[a]). cnf(n,axiom,~p)." >"$folder/beside/both.p"
status_of 'Unsatisfiable for both.p' 0 "$folder/beside/both.p"
echo "include('../beside/axioms/one.ax'). fof(c,conjecture,p)." >"$folder/beside/up.p"
status_of 'Theorem for up.p' 0 "$folder/beside/up.p"
# What is wrong with an included file is told of the file itself.
echo 'fof(a,axiom,p' >"$folder/tptp/Axioms/open.ax"
echo "include('axioms/one.ax'). include('Axioms/open.ax')." >"$folder/beside/open.p"
status_of 'SyntaxError for open.p' 4 "$folder/beside/open.p"
same 'the place in an included file' "$(tools/leancop-szs "$folder/beside/open.p" | sed -n 2p)" "% $(readlink -f "$folder")/tptp/Axioms/open.ax:14: syntax"
echo "include('Axioms/none.ax')." >"$folder/beside/none.p"
status_of 'OSError for none.p' 6 "$folder/beside/none.p"
same 'a file that is nowhere' "$(tools/leancop-szs "$folder/beside/none.p" | sed -n 2p)" "% missing: $folder/beside/Axioms/none.ax"
# A modal problem with equality in an included file alone.
echo 'qmf(a,axiom,a = b).' >"$folder/tptp/Axioms/equal.ax"
echo "qmf(a,axiom,('a=b' => q)). % a = b" >"$folder/tptp/Axioms/none_equal.ax"
echo "include('Axioms/equal.ax'). qmf(c,conjecture,p)." >"$folder/beside/equal.p"
status_of 'GaveUp for equal.p' 2 --logic=d "$folder/beside/equal.p"
echo "include('Axioms/none_equal.ax'). qmf(c,conjecture,p)." >"$folder/beside/equal.p"
status_of 'CounterSatisfiable for equal.p' 2 --logic=d "$folder/beside/equal.p"
unset TPTP
status_of 'Theorem for two.p' 0 "--root=$folder/tptp" "$folder/beside/two.p"

# What it rests on where no structure is at hand: proved for propositional problems and those with finitely many ground terms.
rests_on() { # rests_on WHAT WORD..
    local what="$1"
    shift
    same "what $* rests on" "$(tools/leancop-szs --no-structures "$@" | sed -n 2p)" "% $what"
}
problem 'fof(c,conjecture,(p => q) => (q => p)).'
rests_on 'proved: there are truth values at which the formula is false' "$folder/m.p"
rests_on 'not proved here, but by Wallen: a valid formula has instances that span' --logic=intuitionistic "$folder/m.p"
# shellcheck disable=SC2016 # LIMIT is that of the run
printf '%s\n' '#!/bin/sh' 'case $1 in prove) echo "exhausted at limit $LIMIT" && exit 1 ;; esac' "exec '$LEANCOP' \"\$@\"" >"$folder/second"
export LIMIT=1
LEANCOP="$folder/second" status_of 'GaveUp for m.p' 1 "$folder/m.p"
LIMIT=2 LEANCOP="$folder/second" status_of 'CounterSatisfiable for m.p' 1 "$folder/m.p"
LIMIT=2 LEANCOP="$folder/second" status_of 'GaveUp for m.p' 1 --cut=2 "$folder/m.p"
problem 'fof(a,axiom,![X]:(p(X) => q(X))). fof(c,conjecture,![X]:(q(X) => p(X))).'
rests_on 'proved: there is a structure of its ground terms in which the formula is false' "$folder/m.p"
rests_on 'not proved here, but by Herbrand: a valid formula has instances that span' examples/quantifiers.p
while IFS=: read -r wanted text; do
    problem "fof(c,conjecture,$text)."
    same "the class of $text" "$(tools/decided_class.py "$folder/m.p")" "$wanted"
done <<'END'
propositional 3:(p <=> q) | ~r
ground:![X]: (p(X,a) => ?[Y]: p(Y,b))
ground:![X,Y]: p(X,Y)
:?[X]: ![Y]: p(X,Y)
:(![X]: ?[Y]: p(X,Y)) => p(a,a)
:p(f(a))
:![X]: X = a
END

# What stands between the output lines is the derivation.
tools/leancop-szs - <examples/even.p >"$folder/szs"
same 'standard input' "$(head -n 1 "$folder/szs")" '% SZS status Theorem for stdin'
sed '1,/^% SZS output start Proof/d; /^% SZS output end Proof/,$d' "$folder/szs" >"$folder/d.txt"
same 'the derivation in the output' "$("$LEANCOP" check examples/even.p "$folder/d.txt")" accepted
# Where it is ended, it tells so, and the program ends too.
tools/leancop-szs --no-structures --steps=1099511627776 bench/problems/fam/set_distr.p >"$folder/szs" &
running=$!
sleep 0.5
kill "$running"
wait "$running"
same 'leancop-szs that is ended' "$? $(cat "$folder/szs")" '130 % SZS status Forced for set_distr.p'

# StarExec: an archive of three files, and a problem elsewhere.
mkdir "$folder/bin"
cp "$LEANCOP" "$folder/bin/leancop"
cp tools/leancop-szs tools/starexec_run_default "$folder/bin/"
got="$(LEANCOP='' STAREXEC_CPU_LIMIT=10 "$folder/bin/starexec_run_default" "$PWD/examples/even.p" | head -n 1)"
same 'starexec_run_default' "$got" '% SZS status Theorem for even.p'

# BenchExec: the module by BenchExec's own classes where they are here, else by stand-ins that have what it names.
got="$(PYTHONDONTWRITEBYTECODE=1 python3 - <<'PYTHON'
import sys, types
sys.path.insert(0, "tools")
try:
    import benchexec.tools.template
except ImportError:
    names = "benchexec benchexec.result benchexec.tools benchexec.tools.template".split()
    for name in names:
        sys.modules[name] = types.ModuleType(name)
    base, result, tools, template = (sys.modules[name] for name in names)
    base.result, base.tools, tools.template = result, tools, template
    template.BaseTool2 = object
    result.RESULT_TRUE_PROP, result.RESULT_FALSE_PROP, result.RESULT_UNKNOWN, result.RESULT_ERROR = "true", "false", "unknown", "ERROR"
import benchexec_leancop
tool, space = benchexec_leancop.Tool(), types.SimpleNamespace
told = [tool.determine_result(space(output=lines)) for lines in (
    ["% SZS status Theorem for m.p", "x"], ["% SZS status CounterSatisfiable for m.p"], ["% SZS status Timeout for m.p"], [])]
print(*tool.cmdline("leancop-szs", ["--logic=d"], space(single_input_file="m.p"), space(cputime=9, walltime=None)), *told)
PYTHON
)"
same 'benchexec_leancop.py' "$got" 'leancop-szs --logic=d --time=9 m.p true false unknown(Timeout) ERROR'

# Many problems with GNU parallel, which goes on where it was stopped.
if parallel --version 2>/dev/null | grep -q GNU; then
    mkdir "$folder/out"
    batch() { # over the problems named: what it wrote anew
        (cd examples && printf '%s\n' "$@" | parallel --will-cite --jobs 2 --joblog "$folder/log.tsv" --resume "../tools/leancop-szs {} --time=5 > $folder/out/{/.}.szs; echo {}")
    }
    same 'a batch' "$(batch even.p first.p | sort | tr '\n' ' ')" 'even.p first.p '
    same 'a batch that goes on' "$(batch even.p first.p peirce.p)" 'peirce.p'
    same 'the statuses of a batch' "$(cat "$folder"/out/*.szs | grep -c '^% SZS status Theorem')" 3
else
    skip 'GNU parallel is not here'
fi
