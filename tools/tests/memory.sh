# shellcheck shell=bash disable=SC2154
# Memory of the program: all of it is given back, once, and nothing else is read. That a block is freed no contract says.

if command -v valgrind >/dev/null; then
    valgrind -q --leak-check=full --show-leak-kinds=all --errors-for-leak-kinds=all --error-exitcode=99 --log-file="$folder/memory" \
        "$LEANCOP" prove examples/even.p >/dev/null
    same 'a run under valgrind ends as without it' "$?" 0
    same 'what valgrind tells' "$(head -c 300 "$folder/memory")" ''
else
    skip 'memory: no valgrind'
fi
