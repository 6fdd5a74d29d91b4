"""play_exercise.py PROGRAM SEED: exercises over the gallery, each proof of its table. Prints the number of proofs, or what is wrong.

Of each: the steps that are left of what `prove` found, without those that nothing needs, are a proof (the program accepts them when they
are put together); a beginning of them is open and without fault, and what is missing then is no longer than what was left out; and after
random steps, which are the program's to take or to refuse, there is a rest that the program accepts. And faults in words."""
import os
import random
import subprocess
import sys
from pathlib import Path

sys.dont_write_bytecode = True
sys.path[:0] = ["tools/play", "tools"]
sys.setrecursionlimit(20_000)
from exercise import Exercise  # noqa: E402
from sequent import kind_of  # noqa: E402
from shown import Reader  # noqa: E402

PROGRAM = sys.argv[1]
random.seed(int(sys.argv[2]))
os.environ["LEANCOP"] = PROGRAM


def told(*words: str, text: str = "") -> str:
    done = subprocess.run([PROGRAM, *words], input=text.encode("latin-1"), stdout=subprocess.PIPE, check=False)
    return done.stdout.decode("latin-1").strip()


def opened(file: str, options: list[str]) -> Exercise:
    given = dict(o[2:].split("=") for o in options)
    return Exercise(Path(file), given.get("logic", "classical"), given.get("domains", "constant"), Reader(),
                    lambda text: told("check", file, "/dev/stdin", *options, text=text))


def at_random(exercise: Exercise, lines: list[str]) -> None:
    """Twelve steps with arguments of the right kinds, and what they are. The program refuses some, and those are told in words."""
    for _ in range(12):
        made = exercise.judged(lines).made
        if not made.open:
            return
        entry = random.choice(made.open[-1].all())
        kind, choices = kind_of(exercise.logic, entry.sign, entry.formula), exercise.choices(made)
        asked = {"entry": entry.number, "rule": "use", "new": kind.modal == "pi", "name": kind.shape == "delta"}
        if kind.modal == "nu":
            asked["to"] = random.choice(choices["worlds"])
        if kind.shape == "gamma":
            asked["term"] = random.choice(choices["terms"])
        state = exercise.state(lines, asked)
        if state["fault"]:
            assert len(state["fault"]["said"]) > 20, state["fault"]
        else:
            lines.append(state["steps"][-1])


def over_the_gallery() -> int:
    count = 0
    for row in Path("examples/expected.tsv").read_text(encoding="utf-8").splitlines():
        status, _, words = row.split("\t") if row.count("\t") == 2 else ("", "", "")
        _, *options, file = words.split() or ["", ""]
        if status != "0" or not words.startswith("prove") or "--root" in words:
            continue
        exercise, found = opened(file, options), told("prove", file, *options)
        steps = exercise.rest([], found)["steps"]
        assert len(steps) <= sum(line.startswith(("use", "axiom")) for line in found.split("\n")), words
        some = random.randrange(len(steps))
        state = exercise.state(steps[:some])
        assert state["fault"] is None and not state["done"] and state["open"] > 0, (words, state)
        assert len(exercise.rest(steps[:some], found)["steps"]) <= len(steps) - some, words
        assert exercise.state(steps)["done"], words
        odd: list[str] = []
        at_random(exercise, odd)
        rest = exercise.rest(odd, found)["steps"]
        assert exercise.state(odd + rest)["done"], words
        count += 1
    return count


FAULTS: list[tuple[str, list[str], list[str], str, str]] = [  # problem, options, steps, the last of which is wrong, the program's fault, and words of what is said
    ("examples/drinker.p", [], ["use 2"], "no entry", "the entries 1 to 1"),
    ("examples/drinker.p", [], ["axiom 1 1"], "no connection", "Entry 1 is no atom"),
    ("examples/drinker.p", [], ["use 1"], "wrong arguments", "takes a term"),
    ("examples/drinker.p", [], ["use 1 term zero"], "line", "zero is no name of this problem"),
    ("examples/drinker.p", [], ["use 1 term f(("], "line", "is no term"),
    ("examples/drinker.p", [], ["use 1 term"], "line", "The line stops here: the term is missing"),
    ("examples/peirce.p", [], ["use 99999999999"], "line", "99999999999 is greater than any number"),
    ("examples/peirce.p", [], ["use 1", "axiom 3"], "line", "The line stops here: the number of the entry that it contradicts"),
    ("examples/drinker.p", [], ["use 1 term $$e1"], "unknown name", "Nothing is named e₁ yet"),
    ("examples/drinker.p", [], ["use 1 term $$s1", "use 2 name $$e1", "use 3", "axiom 4 5"], "no connection", "different atoms"),
    ("examples/peirce.p", [], ["use 1", "axiom 3 2"], "no connection", "no atom"),
    ("examples/modal/t.p", ["--logic=d"], ["use 1", "use 2 to []"], "not reachable", "From the world root this logic reaches one step further"),
    ("examples/modal/t.p", ["--logic=t"], ["use 1", "use 2 to here"], "line", "This is no world"),
    ("examples/modal/four.p", ["--logic=d"], ["use 1", "use 3 new $$c1", "use 4 new $$c1"], "not new", "stands on this branch already"),
    ("examples/modal/converse_barcan.p", ["--logic=s4", "--domains=varying"],
     ["use 1", "use 3 name $$e1", "use 4 new $$c1", "use 2 to [$$c1]", "use 6 term $$e1"], "not allowed", "there alone: not at c₁"),
    ("examples/first.p", [], ["use 1", "axiom 2 3", "use 1"], "all closed", "the proof is done"),
]


def faults() -> None:
    for file, options, steps, fault, words in FAULTS:
        state = opened(file, options).state(steps)
        got = state["fault"] or {"word": "", "said": ""}
        assert got["word"] == fault and words in got["said"], (file, steps, got)
        assert state["steps"] == steps[:-1], (file, state["steps"])


faults()
print(over_the_gallery())
