# shellcheck shell=bash disable=SC2154
# tools/leancop-propositional: what it prints is accepted, and it says so where it finds nothing.
for given in 'intuitionistic bench/problems/fam/php_p2.p' 'intuitionistic bench/problems/fam/debruijn_p1.p' 'classical bench/problems/pel/p71b.p'; do
    logic="${given%% *}" file="${given#* }"
    tools/leancop-propositional --logic="$logic" "$file" >"$folder/propositional.txt"
    same "a derivation of $file" "$("$LEANCOP" check --logic="$logic" "$file" "$folder/propositional.txt")" accepted
done
same 'nothing found' "$(tools/leancop-propositional --logic=intuitionistic examples/intuitionistic/peirce.p 2>&1; echo $?)" \
    $'leancop-propositional: nothing found\n3'
same 'variables' "$(tools/leancop-propositional examples/drinker.p 2>&1; echo $?)" $'leancop-propositional: the problem has variables\n3'
same 'nested equivalences are decided' "$(tools/leancop-decide bench/problems/pel/p71b.p | sed -n 1p)" 'leancop derivation 1'
