# shellcheck shell=bash disable=SC2154
# tools/why3: leancop as a prover of Why3.
if command -v why3 >/dev/null; then
    sed "s,/usr/share/leancop,$PWD/tools," tools/why3/leancop.conf >"$folder/why3.conf"
    got="$(PATH="$PWD/tools:$PATH" why3 prove --extra-config="$folder/why3.conf" -P leancop -t 2 tools/tests/texts/logic.why 2>&1 |
        sed -n 's/^Goal \(.*\)\.$/\1/p; s/^Prover result is: \([A-Z][a-z]*\).*/\1/p' | tr '\n' ' ')"
    case "$got" in # Why3 adds axioms of equality, by which a false goal has no end
    'drinker Valid chosen Valid wrong Timeout ' | 'drinker Valid chosen Valid wrong Unknown ') pass ;;
    *) fail "Why3: $got" ;;
    esac
else
    skip 'why3 is not here'
fi
