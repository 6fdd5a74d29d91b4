# shellcheck shell=bash disable=SC2154
# shellcheck disable=SC2016
# ./leancop: what it adds at a prompt, and nowhere else, in a checkout where the program is built.

checkout="$folder/checkout"
mkdir -p "$checkout/crates/leancop/out"
cp leancop "$checkout/"
cp -r tools "$checkout/"
cp VERSION "$checkout/"
touch "$checkout/crates.txt" "$checkout/HANDLES"
cp "$LEANCOP" "$checkout/crates/leancop/out/leancop"
touch "$checkout/crates/leancop/out/launcher.stamp"

has 'leancop at a prompt' "$(at_prompt "$checkout/leancop" prove none.p)" 'There is no file none.p'
has 'its status' "$(at_prompt "$checkout/leancop" prove none.p)" 'status 6'
same 'leancop called by a program at a terminal' "$(at_prompt sh -c '"$0" prove none.p; exit $?' "$checkout/leancop" | tr -d '\r' | tr '\n' ' ')" 'missing: none.p status 6 '
same 'leancop in a script' "$(LEANCOP='' "$checkout/leancop" prove none.p 2>&1)" 'missing: none.p'
same 'leancop-explain by ./leancop at a prompt tells once' "$(at_prompt "$checkout/tools/leancop-explain" prove none.p | grep -c 'There is no file')" 1
has 'leancop-szs by ./leancop' "$(LEANCOP='' "$checkout/tools/leancop-szs" examples/even.p)" '% SZS status Theorem for even.p'

# Words that ask about leancop itself, here and where it is installed.
version="$(cat VERSION)"
same 'leancop --version' "$(LEANCOP='' "$checkout/leancop" --version)" "leancop $version"
for word in --help -h help; do
    same "leancop $word" "$(LEANCOP='' "$checkout/leancop" "$word"; echo "$?")" "$(awk -v RS= 'NR == 1' tools/generated/usage.txt)
0"
done
has 'leancop help make' "$(LEANCOP='' "$checkout/leancop" help make)" 'chain, shift, tower'
same 'leancop make --help' "$(LEANCOP='' "$checkout/leancop" make --help)" "$(LEANCOP='' "$checkout/leancop" help make)"
same 'leancop help of no command' "$(LEANCOP='' "$checkout/leancop" help proof 2>&1 | sed -n 1p)" 'leancop: there is no command proof'
same 'leancop without words' "$(LEANCOP='' "$checkout/leancop" 2>"$folder/said"; echo "$?")" 5
has 'what it says then' "$(cat "$folder/said")" 'prove FILE '
same 'a file whose name is -h' "$(LEANCOP='' "$checkout/leancop" check -h none.txt)" 'missing: -h'
