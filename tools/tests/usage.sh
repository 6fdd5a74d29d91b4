# shellcheck shell=bash disable=SC2154
# tools/usage.py: the written files are those of this program, and they work.
got="$(tools/usage.py --check "--program=$LEANCOP" 2>&1)"
same 'usage.py --check' "$got" ''
got="$(tools/usage.py --check --sources 2>&1)"
case "$got" in
*'another shape'*) skip 'the table of the sources has another shape' ;;
*) same 'usage.py --check --sources' "$got" '' ;;
esac
if command -v man >/dev/null; then
    got="$(MANWIDTH=80 man --warnings -l tools/generated/leancop.1 2>&1 >"$folder/page")"
    same 'warnings of man' "$got" ''
    has 'the man page' "$(cat "$folder/page")" 'EXIT STATUS'
else
    skip 'man is not here'
fi
# complete WORD..: what completion offers for the last word, where the words are parted as bash parts them
complete_words() {
    bash -c 'compopt() { :; }; . tools/generated/leancop.bash-completion; COMP_WORDS=("$@"); COMP_CWORD=$(($# - 1)); _leancop; echo "${COMPREPLY[*]}"' _ "$@"
}
has 'completion of commands' "$(complete_words leancop '')" 'prove check'
same 'completion of a family' "$(complete_words leancop make '')" 'chain shift tower'
same 'completion of help' "$(complete_words leancop help mo)" model
same 'completion of a logic' "$(complete_words leancop prove --logic = c)" classical
same 'completion of an option' "$(complete_words leancop prove --st)" '--steps='
same 'completion of another command'"'"'s option' "$(complete_words leancop check --st)" ''
same 'completion of a file' "$(complete_words leancop check tools/usage.p)" tools/usage.py
