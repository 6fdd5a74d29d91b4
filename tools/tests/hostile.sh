# shellcheck shell=bash disable=SC2154
# bench/fuzz.py, bench/deep.py, bench/refuse_memory.py, bench/shared.py and bench/modalities.py: a few cases of each, and false programs,
# which they tell.
for script in fuzz deep refuse_memory shared modalities; do
    same "bench/$script.py --help" "$("bench/$script.py" --help | sed -n 1p)" "bench/$script.py [options]"
    "bench/$script.py" --prgoram=x >/dev/null 2>&1
    same "an unknown option of bench/$script.py" "$?" 1
done
# false_program LINE..: a program for the shell
false_program() {
    printf '%s\n' '#!/bin/sh' "$@" >"$folder/false"
    chmod +x "$folder/false"
}
last() { tail -n 1; }

fuzz() { bench/fuzz.py --cases=20 --steps=100 "--kept=$folder/kept" "$@"; }
same 'bench/fuzz.py' "$(fuzz "--program=$LEANCOP" | last)" '20 cases, 0 broke'
same 'what bench/fuzz.py keeps then' "$(ls "$folder/kept" 2>/dev/null)" ''
same 'a second run of bench/fuzz.py' "$(fuzz "--program=$LEANCOP" | cksum)" "$(fuzz "--program=$LEANCOP" | cksum)"
# shellcheck disable=SC2016
false_program 'kill -s SEGV $$'
same 'bench/fuzz.py with a program that ends by a signal' "$(fuzz "--program=$folder/false" | last)" '20 cases, 20 broke'
same 'what bench/fuzz.py keeps of it' "$(find "$folder/kept" -name words | wc -l)" 20
has 'bench/deep.py with that program' "$(bench/deep.py "--program=$folder/false" --filter='^490 negations$' | last)" '1 inputs, 1 told'
# shellcheck disable=SC2016
false_program 'echo "bad word $$"; exit 5'
same 'bench/fuzz.py with a program that answers anew each time' "$(fuzz "--program=$folder/false" | last)" '20 cases, 20 broke'
has 'bench/deep.py' "$(bench/deep.py "--program=$LEANCOP" --stacks=8192 --filter='^(490|501) negations$' | last)" '2 inputs, 0 told'
has 'bench/shared.py with that program' "$(bench/shared.py "--program=$folder/false" --filter='^boxes-d-10$' | last)" '1 problems, 1 without'
has 'bench/shared.py' "$(bench/shared.py "--program=$LEANCOP" --filter='^(quantifiers|boxes-s4)-30$' | last)" '2 problems, 0 without'
has 'bench/modalities.py with that program' "$(bench/modalities.py "--program=$folder/false" --logic=s4 --signs=1 | last)" '3 problems, 3 not'
has 'bench/modalities.py' "$(bench/modalities.py "--program=$LEANCOP" --signs=2 --only=20 --all | last)" '80 problems, 0 not'

if command -v cc >/dev/null; then
    refuse() { bench/refuse_memory.py --filter='^prove first.p$' "$@" | last; }
    has 'bench/refuse_memory.py' "$(refuse --every=20 "--program=$LEANCOP")" ' calls refused, 0 ended otherwise'
    printf '%s\n' '#include <stdio.h>' '#include <stdlib.h>' 'int main(void) { return puts(malloc(1) ? "accepted" : "true at the root") < 0; }' >"$folder/false.c"
    cc -O0 -o "$folder/false" "$folder/false.c"
    has 'bench/refuse_memory.py with a false program' "$(refuse "--program=$folder/false")" ' calls refused, 1 ended otherwise'
else
    skip 'bench/refuse_memory.py: cc is not here'
fi
