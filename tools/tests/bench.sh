# shellcheck shell=bash disable=SC2154
# bench/run.py: its options, and a table that it goes on with. bench/scale.py: that its texts are answered as it says, and its verdicts.
same 'bench/run.py --help' "$(bench/run.py --help | sed -n 1p)" 'bench/run.py [options]'
bench/run.py --jbos=2 >/dev/null 2>&1
same 'an unknown option of bench/run.py' "$?" 1
run() { bench/run.py "--program=$LEANCOP" --filter='pel/p(01|03|04|05)' --steps=100000 --jobs=2 "--table=$folder/table" "$@" | tail -n 1; }
first="$(run)"
has 'bench/run.py' "$first" '| leancop | 4, 4, 4 |'
head -c -3 "$folder/table" >"$folder/broken" && mv "$folder/broken" "$folder/table" # the last line was being written
same 'bench/run.py that goes on' "$(run)" "$first"
same 'the lines of its table' "$(wc -l <"$folder/table")" 4
has 'bench/run.py in another logic' "$(run --logic=d)" '| leancop | 0, 0, 0 | 0 | 0 | 4 |'
same 'the lines of its table with another logic' "$(wc -l <"$folder/table")" 8
same 'bench/scale.py, the first size of each family' "$(bench/scale.py "--program=$LEANCOP" --sizes=1 | tail -n 1)" "$(bench/scale.py --list | wc -l) families, 0 do not hold"
bench/scale.py --family=none >/dev/null 2>&1
same 'a family that bench/scale.py does not have' "$?" 1
judge='from scale import FAMILIES, Point, faults_of
plain, other = (next(one for one in FAMILIES if (one.worth is None) == kind) for kind in (True, False))
def told(family, seconds, megabytes):
    points = [Point(n, n << 20, n << 20, s, m, "") for n, s, m in zip((1, 2, 4), seconds, megabytes)]
    return "".join(fault.split()[-1] + " " for fault in faults_of(family, points, 1.0))
print(told(plain, (0.1, 0.2, 0.4), (24, 48, 96)), told(plain, (0.1, 0.4, 1.6), (24, 48, 96)), told(plain, (0.1, 0.2, 0.4), (25, 50, 100)),
      told(other, (0.1, 0.2, 0.4), (101, 201, 401)), told(other, (0.1, 0.2, 0.4), (101, 401, 1601)), sep="/")'
same 'what bench/scale.py makes of figures' "$(cd bench && PYTHONDONTWRITEBYTECODE=1 python3 -c "$judge")" '/worth /byte //worth '
