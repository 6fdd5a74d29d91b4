# shellcheck shell=bash disable=SC2154
# tools/leancop-view: only what the program accepts is drawn, the text comes whole, and nothing of it runs; the page judges as the
# program does. And the formula of a problem, which a page of a structure shows.

# text_in PAGE: the text in a page, as a browser reads it
text_in() {
    python3 -c 'import html, re, sys; print(html.unescape(re.search("<pre id=\"given\" hidden>\n(.*?)</pre>", open(sys.argv[1], encoding="latin-1").read(), re.S)[1]), end="")' "$1"
}
# viewed PROBLEM TEXT WORD..: the page holds the text
viewed() {
    tools/leancop-view "$@" >"$folder/page.html" 2>"$folder/said" || fail "leancop-view $*: $(cat "$folder/said")"
    same "leancop-view $*" "$(text_in "$folder/page.html")" "$(cat "$2")"
}

viewed examples/drinker.p examples/drinker.txt
viewed examples/modal/serial.p examples/modal/serial.txt # the setting is that of the text
"$LEANCOP" prove --logic=s4 --domains=cumulative examples/modal/converse_barcan.p >"$folder/d.txt"
viewed examples/modal/converse_barcan.p "$folder/d.txt"
"$LEANCOP" prove tools/tests/texts/names.p >"$folder/names.txt"
viewed tools/tests/texts/names.p "$folder/names.txt"
cp "$folder/page.html" "$folder/names.html"
same 'a text from a pipe' "$(tools/leancop-view examples/drinker.p /dev/stdin <examples/drinker.txt | grep -c '^use 1 term')" 2

# refused STATUS SAID WORD..: no page, the status and the answer
refused() {
    local wanted="$1" said="$2" got
    shift 2
    got="$(tools/leancop-view "$@" 2>"$folder/said")"
    same "leancop-view $*" "$? $got$(head -n 1 "$folder/said")" "$wanted $said"
}
refused 8 'leancop-view: rejected at line 3: formula' examples/even.p examples/drinker.txt
refused 8 'leancop-view: rejected at line 2: setting' --logic=t examples/modal/serial.p examples/modal/serial.txt
refused 6 'leancop-view: missing: none.p' none.p examples/drinker.txt
refused 8 'leancop-view: rejected at line 1: version' examples/even.p examples/even.p
refused 6 'leancop-view: none.txt: No such file or directory' examples/even.p none.txt
refused 5 'leancop-view PROBLEM TEXT [--logic=L] [--domains=D] [--root=FOLDER] [--as=s4] [--name=NAME] [--names=FILE] > page.html' examples/even.p
has 'leancop-view --help' "$(tools/leancop-view --help)" 'Prints a page for a browser'

# The page has the names of the problem's file: its own, and those of premises (by position) and variables (in the order of quantifiers).
told() { sed -n 's/^<pre id="told" hidden>\(.*\)<\/pre>$/\1/p'; }
"$LEANCOP" prove examples/even.p >"$folder/even.txt"
same 'names of a problem' "$(tools/leancop-view examples/even.p "$folder/even.txt" | told)" \
    '{"problem": "even.p", "answer": "accepted", "variables": ["X"], "names": {"2": "start", "3": "step", "7": "two"}}'
# What the words of its file are called on the page.
echo '{"variable": {"X": "x"}, "function": {"zero": "0"}, "predicate": {"even": "Even"}, "infix": {}}' >"$folder/called.json"
has 'names that are given' "$(tools/leancop-view "--names=$folder/called.json" examples/even.p "$folder/even.txt" | told)" \
    '"variables": ["x"], "names": {"2": "start", "3": "step", "7": "two"}, "symbols": {"function": {"zero": "0"}, "predicate": {"even": "Even"}, "infix": {}}'
refused 5 "leancop-view: $folder/even.txt: no names in JSON" "--names=$folder/even.txt" examples/even.p "$folder/even.txt"
has 'a name that is given' "$(tools/leancop-view --name='a < b' examples/even.p "$folder/even.txt" | told)" '"problem": "a &lt; b"'
printf 'fof(c,conjecture,p(\x27\xe9\x27) => p(\x27\xe9\x27)).\n' >"$folder/latin.p" # a byte that is no UTF-8
"$LEANCOP" prove "$folder/latin.p" >"$folder/latin.txt"
has 'a text that is no UTF-8' "$(tools/leancop-view "$folder/latin.p" "$folder/latin.txt")" "formula (p('é') =&gt; p('é'))"

# The text is escaped, and the page's policy allows its own script alone, by the checksum.
same 'hostile names are escaped' "$(sed -n '/^<pre id="given"/,/<\/pre>/p' "$folder/names.html" | grep -c '<script\|<img')" 0
checksum="$(python3 -c 'import base64, hashlib, re, sys; print(base64.b64encode(hashlib.sha256(re.search("<script>(.*?)</script>", open(sys.argv[1], encoding="utf-8").read(), re.S)[1].encode()).digest()).decode())' tools/leancop-view.html)"
has 'the checksum of the script' "$(sed -n 's/.*script-src \([^;]*\);.*/\1/p' tools/leancop-view.html)" "'sha256-$checksum'"
same 'scripts of the page' "$(grep -c '<script' tools/leancop-view.html)" 1
same 'outside parts of the page' "$(grep -ciE '(src|href) *= *"|@import|url\(http|fetch\(' tools/leancop-view.html)" 0

# The formula of a problem: the program finds it to be its own.
for words in examples/even.p tools/tests/texts/names.p '--root=examples examples/order.p' examples/group.p examples/pelletier60.p bench/problems/fam/php_cnf2.p \
    '--logic=s5 --domains=cumulative examples/modal/barcan.p' '--logic=intuitionistic examples/intuitionistic/peirce.p'; do
    read -r -a list <<<"$words"
    has "canonical_formula.py $words" "$(tools/canonical_formula.py "${list[@]}" 2>&1)" '('
done
printf '%s\n' "include('more.p',[two,four]). fof(c,conjecture, ?[X,Y]: (p(X) <=> (q(Y) | \$false)))." \
    "fof('it\\'s',axiom, 'a\\\\b'(X,f(Y)) & X != g(Y,Z) & ~ r & (r <~> r) & (p(Y) <= r) & (r ~| r) & (r ~& r)). /* c */" \
    "cnf(d,axiom, p(X) | ~q(Y), file('x',[1,2.5]))." >"$folder/odd.p"
printf 'fof(one,axiom,z). fof(two,axiom,p(a)). fof(3,axiom,zz). fof(four,axiom,q(b)).' >"$folder/more.p"
has 'canonical_formula.py with all forms' "$(tools/canonical_formula.py "$folder/odd.p" "--root=$folder" 2>&1)" 'p(a)'

got="$(tools/canonical_formula.py examples/modal/barcan.p 2>&1)"
same 'canonical_formula.py in another logic' "$? $got" "4 canonical_formula.py: examples/modal/barcan.p:$("$LEANCOP" prove examples/modal/barcan.p | cut -d: -f2): wrong language"

viewed examples/drinker.p tools/tests/texts/drinker_two.txt
viewed examples/even.p tools/tests/texts/even_tableau.txt

# The structures of the gallery, by its table. The page judges them once more, by itself.
# listed PROBLEM TEXT WORD..: a line of the list of texts for mutants.js, with the options that tell the problem
listed() {
    local problem="$1" text="$2"
    shift 2
    printf '%s\t%s\t%s\n' "$problem" "$(printf '%s\n' "$@" | grep -E '^--(logic|domains|root)=' | paste -sd ' ')" "$text" >>"$folder/gallery"
}
structures=0
while IFS=$'\t' read -r _ _ words; do
    case "$words" in 'model '*) ;; *) continue ;; esac
    read -r -a list <<<"$words"
    structures=$((structures + 1))
    tools/leancop-view "${list[@]: -2}" >"$folder/page.html"
    text_in "$folder/page.html" >"$folder/structure$structures.txt"
    has "the formula for ${list[-1]}" "$(tail -n 1 "$folder/structure$structures.txt")" 'formula '
    listed "${list[-2]}" "$folder/structure$structures.txt" "${list[@]}"
done <examples/expected.tsv

# Pages as readers see them are looked at beside what follows.
if command -v chromium >/dev/null && command -v node >/dev/null; then
    mkdir "$folder/pages"
    "$LEANCOP" prove examples/pigeonhole3.p >"$folder/pigeonhole3.txt"
    tools/leancop-view examples/even.p "$folder/even.txt" >"$folder/pages/even.html"
    tools/leancop-view examples/pigeonhole3.p "$folder/pigeonhole3.txt" >"$folder/pages/long.html"
    tools/leancop-view examples/pelletier46.p tools/tests/texts/pelletier46_idle.txt >"$folder/pages/trimmed.html"
    "$LEANCOP" prove examples/group.p >"$folder/group.txt"
    tools/leancop-view examples/group.p "$folder/group.txt" >"$folder/pages/broad.html"
    tools/leancop-view examples/modal/converse_barcan.p "$folder/d.txt" >"$folder/pages/worlds.html"
    tools/leancop-view examples/drinker.p tools/tests/texts/drinker_tableau.txt >"$folder/pages/tableau.html"
    tools/leancop-view examples/modal/barcan.p examples/structures/barcan.s4.cumulative.txt >"$folder/pages/structure.html"
    begin pages timeout 600 node tools/tests/view_pages.js "$folder/pages" tools/leancop-view.html
fi

if command -v node >/dev/null; then
    reads() { node tools/tests/page.js tools/leancop-view.html "$@"; }
    # What prove and tableau print of the gallery.
    count=0
    while IFS=$'\t' read -r status _ words; do
        case "$status $words" in '0 prove'*) ;; *) continue ;; esac
        read -r -a list <<<"$words"
        count=$((count + 1))
        for form in 'prove --format=1' 'prove --format=2' tableau; do
            text="$folder/gallery_${form: -1}$count.txt"
            # shellcheck disable=SC2086
            "$LEANCOP" $form "${list[@]:1}" >"$text"
            [ "$(wc -l <"$text")" -gt 200 ] || listed "${list[-1]}" "$text" "${list[@]}"
        done
    done <examples/expected.tsv
    same 'closings of the gallery' "$(reads "$folder"/gallery_1*.txt)" "$(cat "$folder"/gallery_1*.txt | grep -c '^axiom')"
    same 'closings of the gallery in version 2' "$(reads "$folder"/gallery_2*.txt)" "$(cat "$folder"/gallery_2*.txt | grep -c '^axiom')"
    same 'closings of tableaux of the gallery' "$(reads "$folder"/gallery_u*.txt)" "$(cat "$folder"/gallery_u*.txt | grep -cE '^(reduce|extend)')"
    same 'closings of version 2' "$(reads tools/tests/texts/*_two.txt)" 2
    same 'closings of tableaux' "$(reads tools/tests/texts/*_tableau.txt)" 4
    same 'structures that refute' "$(reads "$folder"/structure*.txt)" "$structures"

    # The page judges as the program does: a text that seems right, and many that are changed at random.
    printf '%s\n' 'leancop derivation 1' 'logic classical' 'formula (p => q)' 'limit 1' 'use 1' 'axiom 2 3' end >"$folder/wrong.txt"
    same 'a wrong derivation' "$(reads --verdict "$folder/wrong.txt")" 'rejected at line 6: no connection'
    # What is wrong with a line that is in no form is said in words, and the steps before it are drawn.
    head -n 6 "$folder/even.txt" >"$folder/stops.txt"
    sed 's/term zero/term one/' "$folder/even.txt" >"$folder/unknown.txt"
    sed 's/term zero/term s(zero,zero)/' "$folder/even.txt" >"$folder/arity.txt"
    sed '6s/use 2/use  2/' "$folder/even.txt" >"$folder/form.txt"
    same 'faults in words' "$(reads --why "$folder/stops.txt" "$folder/unknown.txt" "$folder/arity.txt" "$folder/form.txt")" \
        'The text stops here, before its last line, “end”. 2
The formula has no constant one; it has zero, s with 1 argument. 2
The formula has no function s with 2 arguments; it has zero, s with 1 argument. 2
From column 5 on it is not in its form. 1'
    begin mutants node tools/tests/mutants.js tools/leancop-view.html 500 "$folder/gallery"

    # What the page shows of a derivation without idle steps is a derivation. The program also makes steps once that several branches
    # make, so it prints fewer.
    idle=tools/tests/texts/pelletier46_idle.txt
    reads --trim "$idle" >"$folder/trimmed.txt"
    same 'a derivation without idle steps' "$("$LEANCOP" check examples/pelletier46.p "$folder/trimmed.txt")" accepted
    same 'its steps' "$(grep -cE '^(use|axiom)' "$folder/trimmed.txt") of $(grep -cE '^(use|axiom)' "$idle")" '59 of 735'
    same 'the steps that the program prints' "$("$LEANCOP" prove examples/pelletier46.p | grep -cE '^(use|axiom)')" 47

    # What is drawn of a text that a reader pastes has no element of the text.
    got="$(reads --draw "$folder/names.txt")"
    has 'a hostile text is drawn' "$got" '&lt;script&gt;'
    same 'elements of a hostile text' "$(grep -c '<script\|<img' <<<"$got")" 0
else
    skip 'node is not here'
fi

if command -v chromium >/dev/null; then
    timeout 60 chromium --headless --no-sandbox --disable-gpu --dump-dom "file://$folder/names.html" >"$folder/dom" 2>/dev/null
    has 'the page in a browser' "$(cat "$folder/dom")" '43 steps'
    # What would stand in the page in spite of that does not run either.
    sed 's|<div id="page"></div>|&<script>document.title="script"</script><img src=x onerror="document.title=1">|' "$folder/names.html" >"$folder/broken.html"
    got="$(timeout 60 chromium --headless --no-sandbox --disable-gpu --virtual-time-budget=2000 --dump-dom "file://$folder/broken.html" 2>/dev/null)"
    has 'what the policy of the page stops' "$got" '<title>names.p: a derivation</title>'
    same 'scripts of a hostile text in a browser' "$(sed -n 's/.*<title>\(.*\)<\/title>.*/\1/p' "$folder/dom") $(grep -c '<img' "$folder/dom")" 'names.p: a derivation 0'
else
    skip 'chromium is not here'
fi

if [ -n "${begun[mutants]:-}" ]; then
    finish mutants
    same 'texts that are changed' "$got" '500 alike, some accepted'
fi

# Pages as readers see them: on a desk and on a phone, light and dark, by keys, printed, in a frame.
if [ -n "${begun[pages]:-}" ]; then
    finish pages
    same 'pages as readers see them' "${got//[0-9]/}" ' held'
    has 'how many checks held' "$got" '154 held'
else
    skip 'chromium or node is not here'
fi
