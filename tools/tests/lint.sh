# shellcheck shell=bash disable=SC2154
# Scripts: shellcheck finds nothing in those of the shell, ruff nothing in those of Python (or, where ruff is not here, pyflakes and
# pycodestyle by the rules that ruff has from the start), and each function of Python has types.
of_kind() { # of_kind SUFFIX INTERPRETER: the scripts of the checkout
    find . \( -name out -o -name .git -o -name crates \) -prune -o -type f -print | LC_ALL=C sort | while read -r file; do
        case "${file##*/}" in *"$1") echo "$file" && continue ;; ?*.*) continue ;; esac
        IFS= read -r -n 40 first <"$file" 2>/dev/null
        case "$first" in '#!'*"$2") echo "$file" ;; esac
    done
}
mapfile -t shells < <(of_kind .sh sh)
mapfile -t pythons < <(of_kind .py python3)
if command -v shellcheck >/dev/null; then
    same "what $(shellcheck --version | sed -n 's/^version: /shellcheck /p') finds" "$(shellcheck -x -f gcc "${shells[@]}" 2>&1 | head -n 20)" ''
else
    skip 'shellcheck is not here'
fi
if command -v ruff >/dev/null; then
    same "what $(ruff --version) finds" "$(ruff check --no-cache --output-format concise --select E4,E7,E9,F,ANN --ignore ANN401 --target-version py311 "${pythons[@]}" 2>&1 | grep -v '^All checks passed' | head -n 20)" ''
elif /usr/bin/python3 -c 'import pyflakes, pycodestyle' 2>/dev/null; then
    skip 'ruff is not here: pyflakes and pycodestyle look instead'
    same 'what pyflakes finds' "$(/usr/bin/python3 -m pyflakes "${pythons[@]}" 2>&1 | head -n 20)" ''
    same 'what pycodestyle finds' "$(/usr/bin/python3 -m pycodestyle --select=E4,E7,E9 "${pythons[@]}" 2>&1 | grep -v ': E402 ' | head -n 20)" ''
else
    skip 'neither ruff nor pyflakes and pycodestyle are here'
fi
same 'functions without types' "$(python3 - "${pythons[@]}" <<'PYTHON'
import ast
import sys

for file in sys.argv[1:]:
    for f in ast.walk(ast.parse(open(file, encoding="utf-8").read())):
        if isinstance(f, ast.FunctionDef):
            named = [a for a in [*f.args.posonlyargs, *f.args.args, *f.args.kwonlyargs, f.args.vararg, f.args.kwarg] if a and a.arg not in ("self", "cls")]
            if f.returns is None or not all(a.annotation for a in named):
                print(f"{file}:{f.lineno}: {f.name}")
PYTHON
)" ''
