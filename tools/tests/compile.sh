# shellcheck shell=bash disable=SC2154
# Each script can be read by its language.
for file in tools/*.py tools/tests/*.py tools/leancop-coq tools/leancop-tstp tools/leancop-view bench/run.py examples/embed/check.py; do
    got="$(python3 -c 'import sys; compile(open(sys.argv[1]).read(), sys.argv[1], "exec")' "$file" 2>&1)"
    same "$file" "$got" ''
done
for file in tools/leancop-explain tools/leancop-szs tools/starexec_run_default tools/make-deb tools/make-release tools/leancop-installed leancop .ci/tools .ci/library; do
    interpreter="$(sed -n '1s/^#!//p' "$file")"
    read -r -a command <<<"$interpreter"
    same "$file" "$("${command[@]}" -n "$file" 2>&1)" ''
done
