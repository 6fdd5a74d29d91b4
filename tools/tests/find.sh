# shellcheck shell=bash disable=SC2154
# tools/leancop-find: what it prints is accepted, and it says so where it finds nothing.
if [ -x "${LEANCOP_FIND:-crates/leancop_find/out/leancop_find}" ]; then
    for given in 'classical bench/problems/fam/set_distr.p' 'classical bench/problems/pel/p56.p' 'intuitionistic bench/problems/fam/grp_cl2.p' \
        's4 examples/modal/four.p'; do
        logic="${given%% *}" file="${given#* }"
        tools/leancop-find --time=20 --logic="$logic" "$file" >"$folder/found.txt"
        same "a derivation of $file" "$("$LEANCOP" check --logic="$logic" "$file" "$folder/found.txt")" accepted
        tools/leancop-find --tableau --time=20 --logic="$logic" "$file" >"$folder/found.txt"
        same "a tableau of $file" "$("$LEANCOP" tcheck --logic="$logic" "$file" "$folder/found.txt")" accepted
    done
    same 'no proof' "$(tools/leancop-find --steps=100000 --logic=intuitionistic examples/intuitionistic/peirce.p; echo $?)" $'nothing found\n3'
    same 'no problem' "$(tools/leancop-find none.p; echo $?)" $'missing: none.p\n6'
    same 'no words' "$(tools/leancop-find 2>"$folder/said"; echo $?)" 5
else
    skip 'tools/leancop-find: the finder is not built'
fi
