# shellcheck shell=bash disable=SC2154
# tools/make-release: the package, whose programs find one another, wherever it is unpacked, and the archive with the same files.
if command -v dpkg-deb >/dev/null; then
    tools/make-release "$folder" "$LEANCOP" >"$folder/said" 2>&1 || fail "make-release: $(cat "$folder/said")"
    dpkg-deb -x "$folder"/leancop_*.deb "$folder/installed"
    has 'the package' "$(dpkg-deb -f "$folder"/leancop_*.deb Depends)" 'libc6 (>= '
    has 'what it needs' "$(dpkg-deb -f "$folder"/leancop_*.deb Depends)" 'python3'
    same 'its version' "$(dpkg-deb -f "$folder"/leancop_*.deb Version)" "$(cat VERSION)"
    for file in copyright changelog.gz README.md docs/TUTORIAL.md examples/even.p examples/embed/check.c; do
        if [ -s "$folder/installed/usr/share/doc/leancop/$file" ]; then pass; else fail "the package lacks $file"; fi
    done
    installed() { LEANCOP='' PATH="$folder/installed/usr/bin:$PATH" "$@"; }
    same 'leancop of the package' "$(installed leancop prove examples/first.p | sed -n 1p)" 'leancop derivation 1'
    same 'leancop-szs of the package' "$(installed leancop-szs examples/first.p | sed -n 1p)" '% SZS status Theorem for first.p'
    has 'leancop-explain of the package' "$(installed leancop-explain make chain 151 2>&1)" 'a number from 1 to 150'
    echo 'fof(c,conjecture,P -> P).' >"$folder/m.p"
    has 'a hint of the package' "$(installed leancop-explain prove "$folder/m.p" 2>&1)" 'fof(c,conjecture,p => p).'
    same 'leancop --version of the package' "$(installed leancop --version)" "leancop $(cat VERSION)"
    has 'leancop help make of the package' "$(installed leancop help make)" 'chain, shift, tower'
    same 'leancop without words of the package' "$(installed leancop 2>/dev/null; echo "$?")" 5
    has 'leancop of the package at a prompt' "$(installed at_prompt leancop prove none.p)" 'There is no file none.p'
    same 'its exit status' "$(installed leancop prove none.p; echo "$?")" 'missing: none.p
6'
    has 'leancop-tstp of the package' "$(installed leancop-tstp examples/drinker.p examples/drinker.txt)" 'fof(drinker_proved,theorem,'
    has 'leancop-view of the package' "$(installed leancop-view examples/drinker.p examples/drinker.txt)" 'use 1 term '
    has 'leancop-coq of the package' "$(installed leancop-coq examples/drinker.p examples/drinker.txt)" 'Theorem the_problem'
    has 'leancop-refute of the package' "$(installed leancop-refute examples/even.p 2>&1)" 'leancop-refute: no '
    same 'leancop-decide of the package' "$(installed leancop-decide examples/first.p | sed -n 1p)" 'leancop derivation 1'
    has 'a structure explained by the package' "$(installed leancop-explain model examples/quantifiers.p examples/structures/quantifiers.txt 2>&1)" 'friend(2,1) does not hold'
    same 'the tactics of the package' "$(cd "$folder/installed/usr/share/leancop" && find coq hol-light -type f | sort)" \
        "$(cd tools && git ls-files coq hol-light | grep -v '/\.gitignore$' | sort)"
    for name in leancop leancop-szs leancop-view leancop-refute leancop-decide; do
        has "the man page of $name" "$(gzip -dc "$folder/installed/usr/share/man/man1/$name.1.gz")" ".SH SYNOPSIS"
    done
    for program in "$folder"/installed/usr/bin/leancop*; do
        same "${program##*/} --help" "$(installed "$program" --help >/dev/null 2>&1 </dev/null; echo "$?")" 0
    done
    LEANCOP='' PATH="$folder/installed/usr/bin:$PATH" leancop-play --no-browser --port=0 >"$folder/installed_played" &
    player=$!
    awaited "$folder/installed_played"
    for _ in {1..9}; do [ -s "$folder/installed_played" ] || awaited "$folder/installed_played"; done # a busy machine
    link="$(sed -n '1s/^leancop-play: //p' "$folder/installed_played")"
    has 'leancop-play of the package' "$(python3 -c 'import sys, urllib.request; print(urllib.request.urlopen(sys.argv[1]).read().decode())' "$link")" '<textarea id="formula"'
    kill "$player"
    wait "$player" 2>/dev/null
    # The archive: the same files, with sums, and the program runs where it is unpacked.
    tar -C "$folder" -xzf "$folder"/leancop-*.tar.gz
    release="$(echo "$folder"/leancop-*/RELEASE)" && release="${release%/RELEASE}"
    same 'leancop of the archive' "$(LEANCOP='' "$release/bin/leancop" prove examples/first.p | cksum)" "$("$LEANCOP" prove examples/first.p | cksum)"
    same 'what RELEASE tells first' "$(sed -n 's/ .*//; 1,4p' "$release/RELEASE" | tr '\n' ' ')" 'leancop commit kit machine '
    same 'its sums' "$(cd "$release" && sed 1,4d RELEASE | sha256sum --check --quiet 2>&1)" ''
    same 'files of the archive without a sum' "$(cd "$release" && find . -type f ! -name RELEASE | wc -l)" "$(sed 1,4d "$release/RELEASE" | wc -l)"
    same 'SHA256SUMS' "$(cd "$folder" && sha256sum --check --quiet SHA256SUMS 2>&1)" ''
    if command -v lintian >/dev/null; then
        same 'errors that lintian finds' "$(timeout 300 lintian --allow-root "$folder"/leancop_*.deb 2>/dev/null | grep '^E:')" ''
    else
        skip 'lintian is not here'
    fi
else
    skip 'dpkg-deb is not here'
fi
