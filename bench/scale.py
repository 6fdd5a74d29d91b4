#!/usr/bin/env python3
"""bench/scale.py [options]
Runs the built program on families of texts that grow, and tells how time and memory grow with them: whether every input costs what
it is worth. A family has five sizes, each twice the one before; those that are larger than one that ended by its bounds are left out.
  --program=FILE    the program (crates/leancop/out/leancop, which ./leancop builds)
  --family=NAME,..  these families alone; a name that ends with `-` stands for all that begin with it
  --time=N          seconds of the processor for a run at the most (20)
  --gigabytes=N     of memory for a run at the most (4)
  --sizes=N         so many sizes of each family (5)
  --csv             a line of values for each run
  --list            the families, and what they are; nothing is run
A line for each run: the size, bytes of its files, seconds of the processor, MB, and the growth of time and memory since the size
before. Then whether the family holds: for four times the worth at most 4.8 times the time, and at most 24 bytes of memory for each
byte of text or, where the worth is another number than that of bytes, 4.8 times the memory. What takes less than 0.05 s, or no more
memory than a program that is told nothing, holds. The exit status is 0 where all of these families hold, and 1 where one does not;
a family that is known not to hold is told as such, and counts as one that does not."""
import math
import os
import re
import resource
import shutil
import sys
import tempfile
from collections.abc import Callable, Iterator
from dataclasses import dataclass

from processes import Run, Runner, find_program, is_an_answer, read_options

FOR_FOUR_TIMES, BYTES_FOR_A_BYTE = 4.8, 24.0
LEAST_SECONDS, LEAST_MEGABYTES = 0.05, 2.0
ACCEPTED = "accepted"
Texts = dict[str, str]


@dataclass(frozen=True)
class Family:
    """Texts that grow by n, the words that are given for them, and how the answer begins."""

    name: str
    what: str
    first: int
    words: list[str]
    texts: Callable[[int], Texts]
    answer: str | tuple[str, ...]
    worth: Callable[[int], int] | None = None  # where it is not the number of bytes
    is_known: bool = True  # that it does not hold
    is_written: bool = False  # what is written is worth as much as what is read


# Formulas in their canonical texts, so that the problem and the second file have the same one.
def balanced(op: str, units: list[str]) -> str:
    if len(units) == 1:
        return units[0]
    half = (len(units) + 1) // 2
    return f"({balanced(op, units[:half])} {op} {balanced(op, units[half:])})"


def sides_of(place: int, count: int) -> str:
    """The way to a unit of a balanced chain of conjunctions on the left."""
    if count == 1:
        return ""
    half = (count + 1) // 2
    return "l" + sides_of(place, half) if place < half else "r" + sides_of(place - half, count - half)


def tree(leaves: int) -> str:
    if leaves == 1:
        return "a"
    half = (leaves + 1) // 2
    return f"f({tree(half)},{tree(leaves - half)})"


def label(count: int) -> str:
    return "[%s]" % ",".join(f"$$d{n + 1}" for n in range(count))


def problem(formula: str, kind: str = "fof") -> str:
    return f"{kind}(c,conjecture,{formula}).\n"


def judged(formula: str, lines: list[str], first: str = "leancop derivation 2", setting: str = "classical") -> Texts:
    head = f"{first}\nlogic {setting}\nformula {formula}\nlimit 100\n"
    return {"m.p": problem(formula, "qmf" if "#" in formula else "fof"), "d": head + "".join(line + "\n" for line in lines) + "end\n"}


def tableau(formula: str, lines: list[str], setting: str = "classical") -> Texts:
    return judged(formula, lines, "leancop tableau 1", setting)


def wrong_lines(n: int) -> Texts:
    formula = f"({balanced('|', [f'p{k}' for k in range(n)])} => c)"
    return tableau(formula, ["start r {}"] + ["extend 0 l {}"] * n)


def wrong_values(n: int) -> Texts:
    formula = "(%sp => c(a))" % "".join(f"![X{k + 1}]:" for k in range(n))
    return tableau(formula, ["start r {}"] + ["extend 0 l {$$s%d%s}" % (k + 1, ",a" * (n - 1)) for k in range(n)])


def accepted_values(n: int) -> Texts:
    units = [*[f"(p{k + 1} => p{k})" for k in range(98)], "p98"]
    formula = "(%s%s => p0)" % ("".join(f"![X{k + 1}]:" for k in range(n)), balanced("&", units))
    values = [",".join([f"$$s{k + 1}"] * n) for k in range(99)]
    return tableau(formula, ["start r {}"] + ["extend %d l%s {%s}" % (k < 98, sides_of(k, 99), values[k]) for k in range(99)])


def long_strings(n: int) -> Texts:
    values = "{%s}" % ",".join([label(n)] * n)
    return tableau(f"({'#box:' * n}p => {'#dia:' * n}p)", [f"start r {values}", f"extend 0 l {values}"], "s4 constant")


def not_in_order(n: int) -> Texts:
    return judged("#dia:p", [f"label 1 {label(n)}", "label 2 [$$d1]"] + ["use 1 to 1"] * n, setting="s4 constant")


def label_again(n: int) -> Texts:
    steps = ["use 1"] + ["use 2 to 1"] * n + ["use 3 to 1", f"axiom 4 {n + 4}"]
    return judged("(#box:p => #dia:p)", [f"label 1 {label(n)}", *steps], setting="s4 constant")


def comb(n: int) -> Texts:
    formula = "((r | r) => ?[X1]:(p(f(X1,X1)) => p(f(X1,X1))))"
    term = "".join(f"f($$s{k + 1}," for k in range(n)) + "$$s1" + ")" * n
    lines = [f"name $$s{k + 1} any" for k in range(n)] + [f"term 1 {term}", "use 1"]
    for k in range(n):  # the branches that stay open grow by an entry at each fork
        lines += ["use 2", "use 3 term 1", f"use {k + 5}", f"axiom {k + 6} {k + 7}"]
    return judged(formula, lines + ["use 3 term 1", f"use {n + 4}", f"axiom {n + 5} {n + 6}"])


def implications(n: int) -> Texts:
    formula = "(" * n + "p" + " => p)" * n
    return {"m.p": f"fof(a,axiom,{formula}).\n" + problem(formula)}


def below_boxes(n: int) -> str:
    return "#box:#dia:" * n + balanced("|", [f"q{k}" for k in range(n + 1)])


def boxes_and_diamonds(n: int) -> Texts:
    return {"m.p": problem(f"({below_boxes(n)} => z)", "qmf")}


def boxes_on_both_sides(n: int) -> Texts:
    return {"m.p": problem(f"({below_boxes(n)} => {below_boxes(n)})", "qmf")}


FORK = 480


def forks(n: int) -> Texts:
    links = ["(" * FORK + f"(q{k} => q{k + 1})" + " | ~p)" * FORK for k in range(n)]
    units = ["p", "q0", *links]
    sides = ["l" + sides_of(k, len(units)) for k in range(len(units))]
    lines = ["start r {}", *(f"extend 1 {sides[k + 2]} {{}}" for k in reversed(range(n))), f"extend 0 {sides[1]} {{}}"]
    return tableau(f"({balanced('&', units)} => q{n})", lines + [f"extend 0 {sides[0]} {{}}"] * (n * FORK))


def closed_often(formula: str, lines: list[str], fork: int, axiom: str, n: int) -> Texts:
    return judged(formula, lines + [f"use {fork}", axiom] * n + [axiom], "leancop derivation 1")


def ground_atoms(n: int) -> Texts:
    atom = f"p({tree(n)})"
    return closed_often(f"(({atom} & (r | r)) => {atom})", ["use 1", "use 2"], 5, "axiom 4 3", n)


def variable_and_term(n: int) -> Texts:
    term = tree(n)
    return closed_often(f"((![X1]:p(X1) & (r | r)) => p({term}))", ["use 1", "use 2", f"use 4 term {term}"], 5, "axiom 6 3", n)


def longer_label(n: int) -> Texts:
    characters = ",".join(["$$c1", *(f"$$d{k + 1}" for k in range(n))])
    return judged("(p => p)", [f"label 1 [{characters}]", "use 1 new $$c1"] + ["use 2 to 1"] * n + ["axiom 2 3"], setting="intuitionistic")


def nested_left(n: int) -> Texts:
    side = "(" * n + "p0" + "".join(f" => p{k + 1})" for k in range(n))
    return {"m.p": problem(f"({side} => {side})")}


STRUCTURE = "leancop structure 1\nlogic classical\nworlds 1\nelements 2\nrelation 1 1\ndomain 1 1 2\n%send\n"


def closed_terms(n: int) -> Texts:
    quantifiers = "".join(f"![X{k + 1}]:" for k in range(n.bit_length() - 1))  # as many ways as leaves of the term
    tables = "function f 2 1 2 2 1\nfunction a 0 1\npredicate p 1 1 11\n"
    return {"m.p": problem(f"{quantifiers}p({tree(n)})"), "d": STRUCTURE % tables}


def many_symbols(n: int) -> Texts:
    return {"m.p": problem(balanced("&", [f"p{k}" for k in range(n)]), "qmf"), "d": "leancop structure 1\nlogic s4 constant\nworlds 64\nelements 64\nx\n"}


def pairs_of_quantifiers(n: int) -> Texts:
    side = "".join(f"![X{2 * k + 1}]:?[X{2 * k + 2}]:" for k in range(n)) + f"p(X{2 * n - 1},X{2 * n})"
    return {"m.p": problem(f"({side} => {side})")}


def second_file(n: int) -> Texts:
    return {"m.p": problem("p"), "d": "a" * n}


JUDGED = ["m.p", "d"]
S4, INTUITIONISTIC = "--logic=s4", "--logic=intuitionistic"
FAMILIES = [
    Family("tableau-lines", "n lines with a clause of n literals, the second of which is wrong",
           1000, ["tcheck", *JUDGED], wrong_lines, "rejected at line 6: no connection"),
    Family("tableau-lines-convert", "the same, converted",
           1000, ["convert", *JUDGED], wrong_lines, "rejected at line 6: no connection"),
    Family("ways-values", "n quantifiers, n lines of n values, the second of which is wrong",
           30, ["tcheck", *JUDGED], wrong_values, "rejected at line 6: no connection", is_known=False),
    Family("ways-accepted", "n quantifiers, 99 lines of n values",
           30, ["tcheck", *JUDGED], accepted_values, ACCEPTED, is_known=False),
    Family("ways-strings", "n boxes on both sides with strings of n characters",
           30, ["tcheck", *JUDGED, S4], long_strings, ACCEPTED, is_known=False),
    Family("table-not-in-order", "a label that is not used, and one of n characters that is used n times",
           1000, ["check", *JUDGED, S4], not_in_order, "rejected at line 6: table", is_known=False),
    Family("table-label", "a label of n characters that is used n times",
           1000, ["check", *JUDGED, S4], label_again, ACCEPTED, is_known=False),
    Family("table-term", "a term of n names in n branches",
           500, ["check", *JUDGED], comb, ACCEPTED, is_known=False),
    Family("prefixes-implications", "implications n deep as axiom and conjecture, ten steps, the worth being literals times nesting",
           15, ["prove", "m.p", INTUITIONISTIC, "--steps=10", "--limit=1"], implications, ("steps ended", "exhausted"),
           lambda n: n ** 3, is_known=False),
    Family("prefixes-boxes", "n pairs of a box and a diamond before n literals, one step",
           15, ["prove", "m.p", S4, "--steps=1"], boxes_and_diamonds, ("steps ended", "no tableau"), lambda n: n * n, is_known=False),
    Family("prefixes-copies", "the formula of that family as axiom and conjecture, one step",
           15, ["prove", "m.p", S4, "--steps=1"], boxes_on_both_sides, "steps ended", lambda n: n * n),
    Family("forks", "n clauses of 482 literals, each below all forks of the one before, the worth being also what is written",
           6, ["convert", *JUDGED], forks, "leancop derivation", is_known=False, is_written=True),
    Family("axioms-ground", "two equal ground atoms of n symbols, n axioms",
           1000, ["check", *JUDGED], ground_atoms, ACCEPTED, is_known=False),
    Family("axioms-variable", "a variable for which a term of n symbols is put, and that term, n axioms",
           1000, ["check", *JUDGED], variable_and_term, ACCEPTED, is_known=False),
    Family("transfer", "a label of n characters that is used n times, translated",
           500, ["transfer", *JUDGED], longer_label, "leancop derivation"),
    Family("budget", "A => A with n implications to the left, 1,000 steps",
           1, ["prove", "m.p", INTUITIONISTIC, "--steps=1000"], nested_left, ("leancop derivation", "steps ended")),
    Family("structure-terms", "a closed term of n symbols at n choices of elements",
           1024, ["model", *JUDGED], closed_terms, "true at the root", is_known=False),
    Family("structure-room", "n symbols, and a structure of 64 worlds that is wrong at line 5",
           2000, ["model", *JUDGED, S4], many_symbols, "rejected structure at line 5: line", is_known=False),
    Family("tableau-values", "n pairs of quantifiers before both sides, the worth being also what is written",
           1, ["tableau", "m.p"], pairs_of_quantifiers, "leancop tableau", is_known=False, is_written=True),
    Family("second-file", "a second file of n thousand bytes",
           1000, ["check", *JUDGED], lambda n: second_file(1000 * n), "rejected at line 1: version", is_known=False),
]


@dataclass(frozen=True)
class Point:
    """A run of a family at a size."""

    size: int
    bytes: int
    worth: int
    seconds: float
    megabytes: float
    told: str  # what is wrong with it


def told_of(family: Family, got: Run) -> str:
    if got.code in (-9, -24):
        return "out of time"
    if got.code == 7:
        return "out of memory"
    first = got.output.split(b"\n")[0][:60].decode("latin-1")
    if got.code < 0:
        return f"ended by signal {-got.code}"
    return "" if is_an_answer(got) and first.startswith(family.answer) else f"not the answer of the family: {first}"


def points(family: Family, program: str, runner: Runner, count: int) -> Iterator[Point]:
    """The runs, up to the first one that ended by its bounds. Short ones are done three times, and the shortest counts."""
    for power in range(count):
        size = family.first << power
        texts = family.texts(size)
        for name, text in texts.items():
            with open(name, "w") as opened:
                opened.write(text)
        got = runner.run([program, *family.words])
        if LEAST_SECONDS / 4 < got.seconds < 0.2:
            got = min([got, *(runner.run([program, *family.words]) for _ in range(2))], key=lambda one: one.seconds)
        length = sum(map(len, texts.values()))
        worth = length if family.worth is None else family.worth(size)
        if family.is_written:
            worth += len(got.output)
        told = told_of(family, got)
        yield Point(size, length, worth, got.seconds, got.kilobytes / 1024, told)
        if told:
            return


def growth(before: float, after: float, least: float, times: float) -> float:
    """How many times more it is for four times the worth, which is `times` as much here; nothing counts for less than the least."""
    if times <= 1:
        return 1.0
    return (max(after, least) / max(before, least)) ** (math.log(4) / math.log(times))


def faults_of(family: Family, all_points: list[Point], idle: float) -> list[str]:
    """Why the family does not hold: over the two last doublings."""
    last = all_points[-1]
    if last.told:
        return [f"{last.told} at {last.size}"]
    first = all_points[max(0, len(all_points) - 3)]
    times = last.worth / first.worth
    faults = []
    time_growth = growth(first.seconds, last.seconds, LEAST_SECONDS / 4, times)
    if last.seconds >= LEAST_SECONDS and time_growth > FOR_FOUR_TIMES:
        faults.append(f"{time_growth:.1f} times the time for four times the worth")
    if last.megabytes <= idle + LEAST_MEGABYTES:
        return faults
    if family.worth is None:
        share = (last.megabytes - first.megabytes) * (1 << 20) / max(1, last.worth - first.worth)
        if share > BYTES_FOR_A_BYTE:
            faults.append(f"{share:.0f} bytes of memory for a byte")
    else:
        memory_growth = growth(first.megabytes - idle, last.megabytes - idle, LEAST_MEGABYTES, times)
        if memory_growth > FOR_FOUR_TIMES:
            faults.append(f"{memory_growth:.1f} times the memory for four times the worth")
    return faults


def tell(point: Point, before: Point | None, family: Family, csv: bool) -> None:
    grown = ("", "") if before is None else (f"{point.seconds / max(before.seconds, 0.001):.1f}", f"{point.megabytes / before.megabytes:.1f}")
    values = [str(point.size), str(point.bytes), f"{point.seconds:.3f}", f"{point.megabytes:.1f}", *grown, point.told]
    if csv:
        print(",".join([family.name, *values]), flush=True)
    else:
        print("  %8s %10s %9s %9s %7s %7s  %s" % tuple(values), flush=True)


def chosen(options: dict[str, str]) -> list[Family]:
    names = options.get("family", "").split(",")
    wanted = [one for one in FAMILIES if any(not name or one.name == name or (name[-1] == "-" and one.name.startswith(name)) for name in names)]
    if not wanted:
        sys.exit(f"bench/scale.py: no family {options['family']}; --list tells them")
    return wanted


def main() -> None:
    options = read_options(__doc__)
    families = chosen(options)
    if "list" in options:
        for family in families:
            print(f"{family.name}: {family.what}{' (known not to hold)' if family.is_known else ''}")
        return
    for name in ("time", "gigabytes", "sizes"):
        if not re.fullmatch("[1-9][0-9]*", options.get(name, "1")):
            sys.exit(__doc__)
    program, seconds, count, csv = find_program(options), int(options.get("time", 20)), int(options.get("sizes", 5)), "csv" in options
    resource.setrlimit(resource.RLIMIT_CORE, (0, 0))
    folder = tempfile.mkdtemp(prefix="leancop-scale-")
    os.chdir(folder)
    runner = Runner(int(options.get("gigabytes", 4)), 6 * seconds, seconds)
    broken = 0
    try:
        idle = runner.run([program]).kilobytes / 1024
        print("family,size,bytes,seconds,megabytes,times the time,times the memory,told" if csv else
              "  %8s %10s %9s %9s %7s %7s" % ("size", "bytes", "seconds", "MB", "time", "memory"))
        for family in families:
            if not csv:
                print(f"{family.name}: {family.what}")
            seen: list[Point] = []
            for point in points(family, program, runner, count):
                tell(point, seen[-1] if seen else None, family, csv)
                seen.append(point)
            faults = faults_of(family, seen, idle)
            broken += bool(faults)
            if not csv:
                known = " (this is known)" if faults and family.is_known else ""
                print("  does not hold: %s%s" % ("; ".join(faults), known) if faults else "  holds", flush=True)
    finally:
        os.chdir("/")
        shutil.rmtree(folder)
    print(f"{len(families)} families, {broken} do not hold", file=sys.stderr if csv else sys.stdout)
    sys.exit(1 if broken else 0)


if __name__ == "__main__":
    main()
