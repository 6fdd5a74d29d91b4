# shellcheck shell=bash disable=SC2154
# tools/leancop-play: formulas of books, the server by requests, exercises over the gallery, and the page in a browser.

# Three parts take their time, and go on beside one another.
player='' # that of another part may have this name
begin exercises timeout 300 python3 tools/tests/play_exercise.py "$LEANCOP" 20
begin server timeout 300 python3 tools/tests/play_server.py
if command -v node >/dev/null && command -v chromium >/dev/null; then
    tools/leancop-play --no-browser --port=0 'http://127.0.0.1:8642/#f=p' >"$folder/played" &
    player=$!
    for _ in {1..9}; do [ -s "$folder/played" ] || awaited "$folder/played"; done # a busy machine
    begin browser timeout 600 node tools/tests/play_browser.js "$(sed -n '1s/^leancop-play: \(.*\)#f=p$/\1/p' "$folder/played")"
fi

# Formulas are read as the table says, and the program reads what is written of them.
for logic in classical intuitionistic s4; do
    grep "^$logic	" tools/tests/play_formulas.tsv | cut -f2 | python3 tools/play/formulas.py "--logic=$logic" >"$folder/read.txt"
    while IFS=$'\t' read -r got wanted text; do
        same "the formula $text in $logic" "$got" "$wanted"
        case "$got" in *[0-9]-[0-9]*:* | *'; '*) continue ;; esac
        item=fof
        [ "$logic" = s4 ] && item=qmf
        printf '%s(c,conjecture,%s).\n' "$item" "$got" >"$folder/read.p"
        same "the program reads $got" "$("$LEANCOP" check "$folder/read.p" /dev/null "--logic=$logic")" 'rejected at line 1: version'
    done < <(paste "$folder/read.txt" <(awk -F '\t' -v "logic=$logic" '$1 == logic { print $3 "\t" $2 }' tools/tests/play_formulas.tsv))
done
# The examples of the page are read in their logics.
same 'examples of the page' "$(python3 -c '
import json, sys
sys.dont_write_bytecode = True
sys.path.insert(0, "tools/play")
import formulas
examples = [e for group in json.load(open("tools/play/examples.json", encoding="utf-8")) for e in group["of"]]
print(len(examples) > 10 and all(formulas.problem(e["f"], e.get("p", ""), e["l"]).text for e in examples))')" True

has 'leancop-play --help' "$(tools/leancop-play --help)" 'leancop-play [LINK] [--port=N] [--no-browser]'
same 'a bad word' "$(tools/leancop-play --prot=1 2>&1 | head -n 1) $(tools/leancop-play --prot=1 >/dev/null 2>&1; echo $?)" 'leancop-play: bad word --prot=1 5'

finish exercises
same 'exercises of the gallery' "$(tail -n 3 <<<"$got")" "$(grep -c '^0	limit [0-9]*	prove ' <(grep -v -- --root examples/expected.tsv))"

finish server
case "$got" in
*' as wanted, refutes') if [ "$(wc -l <<<"$got")" = 1 ]; then pass; else fail "$got"; fi ;;
*' as wanted') if [ "$(wc -l <<<"$got")" = 1 ]; then pass && skip 'no counter-structures: leancop-refute or a SAT solver is not here'; else fail "$got"; fi ;;
*) fail "play_server.py: $got" ;;
esac

if [ -n "${player:-}" ]; then
    has 'a link that is opened' "$(cat "$folder/played")" '/#f=p'
    finish browser
    if [[ "$got" =~ ^[0-9]+\ as\ wanted$ ]]; then pass; else fail "$got"; fi
    kill "$player"
    wait "$player" 2>/dev/null
    ends 'leancop-play' "$player"
else
    skip 'node or chromium is not here: the page of leancop-play is not tried in a browser'
fi
