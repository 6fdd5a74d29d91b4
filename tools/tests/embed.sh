# shellcheck shell=bash disable=SC2154,SC2016
# The library for C: examples/embed judges, writes formulas and runs as the program does, over the gallery and with changed lines.
archive=crates/leancop_c/out/libleancop_c.a
kit="$(dirname -- "$(rt doc 2>/dev/null)")"
compiler="$(command -v cc)" || compiler="$kit/toolchain/bin/clang -fuse-ld=lld"
# compiled WHAT FILE WORD..: compiles and links FILE
compiled() {
    local what="$1" file="$2"
    shift 2
    # shellcheck disable=SC2086
    if $compiler -O2 -Iinclude "$@" -o "$file" 2>"$folder/said"; then pass; else fail "$what: $(cat "$folder/said")"; fi
}
causes=([1]=syntax unsupported 'reserved word' 'wrong language' 'second conjecture' 'unknown role' 'include too deep' 'include name absent'
    'no formula' 'input too large' 'nesting too deep' 'formula too large' 'too many symbols')
faults=([1]=version [2]=setting [3]=formula [4]=limit [5]=name [6]=line [7]='text after end' [8]=label [9]=term [10]=table
    [21]='no entry' [22]='no connection' [23]='wrong arguments' [24]='unknown name' [25]='not reachable' [26]='not new' [27]='wrong home'
    [28]='not allowed' [31]='all closed' [32]='still open')
logics=(classical intuitionistic d t s4 s5)
kinds=(constant cumulative varying)
# numbered NAME ITEM..: the place of the name among the items, 0 where it is none
numbered() {
    local name="$1" place=0 item
    shift
    for item in "$@"; do
        [ "$item" != "$name" ] || { echo "$place"; return; }
        place=$((place + 1))
    done
    echo 0
}
# judged PROBLEM DERIVATION LOGIC DOMAINS: what the library says, and the status
judged() {
    local told
    told="$("$folder/embedded" "$@")"
    echo "$? $told"
}
# named NAME NUMBER..: the lines of embed_edges.c for these numbers of the table of faults or causes
named() {
    local -n table="${1}s"
    local number
    for number in "${@:2}"; do echo "$1 $number ${table[number]}"; done
}
# as_program PROBLEM DERIVATION WORD..: the two judgements are the same
as_program() {
    local wanted problem="$1" derivation="$2"
    shift 2
    wanted="$("$LEANCOP" check "$problem" "$derivation" "$@")"
    local ended="$?"
    [ "$ended" != 6 ] || wanted='' # a problem with includes
    same "leancop_check of $problem and $derivation, $*" "$(judged "$problem" "$derivation" "$logic" "$domains")" "$ended $wanted"
}

# The header and the example, without the library too.
if command -v cc >/dev/null; then
    same 'warnings of examples/embed/check.c' "$(cc -std=c11 -Wall -Wextra -Wpedantic -Iinclude -fsyntax-only examples/embed/check.c 2>&1)" ''
    same 'warnings of leancop.h in C++' "$(cc -xc++ -Wall -Wextra -Wpedantic -fsyntax-only include/leancop.h 2>&1 | grep -v 'pragma once')" ''
fi
if [ ! -e "$archive" ]; then
    skip "$archive is not built: rt lib, in crates/leancop_c"
else
    compiled 'examples/embed/check.c' "$folder/embedded" examples/embed/check.c "$archive" "$kit/c/liblibc_c.a"
    while IFS=$'\t' read -r _ _ words; do
        case "$words" in *--root=* | *endless.p*) continue ;; prove\ *) ;; *) continue ;; esac
        read -r -a list <<<"$words"
        option=() logic=0 domains=0 problem=''
        for word in "${list[@]:1}"; do
            case "$word" in
                --logic=*) logic="$(numbered "${word#*=}" "${logics[@]}")" option+=("$word") ;;
                --domains=*) domains="$(numbered "${word#*=}" "${kinds[@]}")" option+=("$word") ;;
                --*) ;;
                *) problem="$word" ;;
            esac
        done
        "$LEANCOP" "${list[@]}" >"$folder/wanted"
        wanted="$?"
        "$folder/embedded" --run "${list[@]}" >"$folder/got"
        same "leancop_run $words" "$? $(cksum <"$folder/got")" "$wanted $(cksum <"$folder/wanted")"
        [ "$wanted" = 0 ] || { as_program "$problem" "$folder/wanted" "${option[@]}"; continue; }
        same "leancop_formula of $problem" "$("$folder/embedded" --formula "$problem" "$logic" "$domains")" "$(sed -n 3p "$folder/wanted")"
        as_program "$problem" "$folder/wanted" "${option[@]}"
        for change in 1d 2d 3d 4d 5d '$d' '5s/use 1/use 2/' '6s/$/ /' '$s/$/\nend/' 's/axiom 2/axiom 3/'; do
            sed "$change" "$folder/wanted" >"$folder/changed"
            as_program "$problem" "$folder/changed" "${option[@]}"
        done
    done <examples/expected.tsv
    logic=0 domains=0
    for text in 'fof(c,conjecture,p & q => p).' 'fof(c,conjecture,p).fof(d,conjecture,p).' 'cnf(c,lemon,p).' "fof(c,axiom,'p" '%' \
        'tff(c,axiom,p).' 'qmf(c,axiom,p).' 'fof(c,axiom,$p).' "fof(c,conjecture,$(printf '~%.0s' {1..501})p)."; do
        printf '%s' "$text" >"$folder/m.p"
        as_program "$folder/m.p" examples/drinker.txt
    done
    echo "include('drinker.p')." >"$folder/m.p"
    same 'a problem with an include' "$(judged "$folder/m.p" examples/drinker.txt 0 0)" '6 '
    same 'a number of no logic' "$(judged examples/drinker.p examples/drinker.txt 6 0)" '5 '
    same 'a number of no domains' "$(judged examples/drinker.p examples/drinker.txt 0 3)" '5 '
    same 'a problem that is not there' "$("$folder/embedded" none.p examples/drinker.txt 2>/dev/null; echo "$?")" 6
    same 'bad words' "$("$folder/embedded" --run prove --limit=0 examples/first.p)" 'bad word 2'
    same 'a word that is not UTF-8' "$("$folder/embedded" --run $'\xff'; echo "$?")" 6
    same 'make' "$("$folder/embedded" --run make chain 100)" "$("$LEANCOP" make chain 100)"

    if command -v cc >/dev/null; then
        compiled 'tools/tests/refused_memory.c' "$folder/refused_memory" tools/tests/refused_memory.c "$archive" "$kit/c/liblibc_c.a" \
            -Wl,--wrap=malloc,--wrap=realloc,--wrap=free
        compiled 'tools/tests/embed_edges.c' "$folder/embed_edges" tools/tests/embed_edges.c "$archive" "$kit/c/liblibc_c.a"
        "$folder/embed_edges" >"$folder/said"
        same 'edges of leancop.h' "$(sort -k1,1 -k2,2n "$folder/said")" "$(named cause "${!causes[@]}"; named fault "${!faults[@]}")"
        "$LEANCOP" prove examples/even.p >"$folder/even.txt"
        if "$folder/refused_memory" examples/even.p "$folder/even.txt" >"$folder/said"; then pass; else fail "$(cat "$folder/said")"; fi
        compiled 'the shared object' "$folder/libleancop.so" -shared -Wl,--whole-archive "$archive" -Wl,--no-whole-archive "$kit/c/liblibc_c.a"
        python() { PYTHONDONTWRITEBYTECODE=1 examples/embed/check.py "$folder/libleancop.so" "$@"; }
        same 'check.py' "$(python examples/even.p "$folder/even.txt")" accepted
        same 'check.py of another problem' "$(python examples/even.p examples/drinker.txt)" 'rejected at line 3: formula'
        same 'check.py --formula' "$(python --formula examples/even.p)" "$(sed -n 3p "$folder/even.txt")"
        same 'check.py --run' "$(python --run prove examples/pigeonhole3.p | cksum)" "$("$LEANCOP" prove examples/pigeonhole3.p | cksum)"
    else
        skip 'cc is not here: no refused allocation, no shared object'
    fi
    if command -v valgrind >/dev/null && command -v cc >/dev/null; then
        for words in "examples/even.p $folder/even.txt" 'examples/even.p examples/drinker.txt' '--formula examples/even.p' '--run prove examples/even.p'; do
            # shellcheck disable=SC2086
            valgrind -q --leak-check=full --error-exitcode=99 "$folder/embedded" $words >/dev/null 2>"$folder/said"
            if [ "$?" = 99 ]; then fail "valgrind, $words: $(head -c 300 "$folder/said")"; else pass; fi
        done
    else
        skip 'valgrind is not here'
    fi
fi
