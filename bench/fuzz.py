#!/usr/bin/env python3
"""bench/fuzz.py [options]
Alters problems, derivations, tableaux, structures and words, and runs the built program on them. Each run is to end with a status
of docs/COMMANDS.md and what belongs to it, within time and memory that are linear in the input, and a second one in the same way;
a derivation or a tableau that is printed is to be accepted. What breaks is kept, with all that is needed to run it again.
  --program=FILE   the program (crates/leancop/out/leancop, which ./leancop builds)
  --seed=N         the number that all is drawn from (1): the same one gives the same cases
  --cases=N        so many (1000)
  --first=N        the number of the first one (0)
  --minutes=N      ends after so many minutes (60)
  --steps=N        the budget of a search (500)
  --stack=N        kilobytes of stack (8192)
  --kept=FOLDER    where what breaks is kept (fuzz_kept)
The last line counts the cases; the status is 0 where nothing broke. The answers that were seen stand above it."""
from __future__ import annotations

import collections
import os
import random
import re
import resource
import shutil
import sys
import tempfile
import time
from collections.abc import Callable
from typing import NamedTuple

from processes import Run, find_program, is_an_answer, read_options, run, set_stack

HERE = os.path.dirname(os.path.abspath(__file__))
TOP = os.path.dirname(HERE)
# What a run may use: so much, and so much for each byte of its files and words. A search has its steps, too.
SECONDS, SECONDS_A_BYTE, SECONDS_A_STEP = 0.5, 0.00001, 0.001
KILOBYTES, KILOBYTES_A_BYTE = 60000, 1
LOGICS = ["classical", "intuitionistic", "d", "t", "s4", "s5"]
DOMAINS = ["constant", "cumulative", "varying"]
OPTIONS = ["--logic=" + name for name in LOGICS] + ["--domains=" + name for name in DOMAINS] + [
    "--limit=1", "--limit=3", "--limit=200", "--limit=201", "--cut=1", "--cut=20", "--as=s4", "--root=.", "--root=", "--root=none",
    "--format=1", "--format=2", "--steps=0", "--steps=1", "--steps=7", "--limit=007", "--logic=S4", "--", "-h", ""]
COMMANDS = ["prove", "check", "make", "model", "transfer", "migrate", "tableau", "tcheck", "convert", "Prove"]
NUMBERS = ["0", "1", "2", "9", "10", "63", "64", "65", "100", "199", "200", "201", "255", "256", "65535", "65536", "4294967295",
           "4294967296", "18446744073709551615", "18446744073709551616", "9" * 40, "00", "01", "-1", ""]
BYTES = [b for b in b"()[]{}~&|=><!?:,.'\"\\%*/$#_ \t\n\r\0aXp019@^-+;`\x7f\x80\xff"]
OPENING = [b"(", b"~", b"![X]:", b"?[Y]:", b"#box:", b"#dia:", b"f(", b"(p=>", b"(p&", b"(p|", b"[", b"'", b'"', b"/*", b"%", b"$$", b"!["]
CLOSING = {b"(": b")", b"f(": b")", b"(p=>": b")", b"(p&": b")", b"(p|": b")", b"[": b"]"}
DEPTHS = [1, 1, 2, 3, 10, 100, 499, 500, 501, 2000]


class Seed(NamedTuple):
    """A case: the words, and the texts of the files 0.p and 1.p."""

    words: list[str]
    texts: list[bytes]


def flip(draw: random.Random, text: bytes, _: bytes) -> bytes:
    at = draw.randrange(len(text) + 1)
    new = draw.choice(BYTES) if draw.random() < 0.8 else draw.randrange(256)
    return text[:at] + bytes([new]) + text[at + draw.randrange(2):]


def delete(draw: random.Random, text: bytes, _: bytes) -> bytes:
    at = draw.randrange(len(text) + 1)
    return text[:at] + text[at + draw.choice([1, 1, 2, 5, 20, 200]):]


def cut(draw: random.Random, text: bytes, _: bytes) -> bytes:
    return text[:draw.randrange(len(text) + 1)]


def piece(draw: random.Random, text: bytes) -> bytes:
    at = draw.randrange(len(text) + 1)
    return text[at:at + draw.choice([1, 3, 10, 40, 200])]


def copy_piece(draw: random.Random, text: bytes, other: bytes) -> bytes:
    at = draw.randrange(len(text) + 1)
    return text[:at] + piece(draw, draw.choice([text, other])) * draw.choice([1, 1, 1, 2, 5, 50]) + text[at:]


def alter_lines(draw: random.Random, text: bytes, other: bytes) -> bytes:
    lines = text.split(b"\n")
    at, to = draw.randrange(len(lines)), draw.randrange(len(lines))
    kind = draw.randrange(6)
    if kind == 0:
        del lines[at]
    elif kind == 1:
        lines.insert(to, lines[at])
    elif kind == 2:
        lines[at], lines[to] = lines[to], lines[at]
    elif kind == 3:
        lines.insert(to, draw.choice(other.split(b"\n")))
    elif kind == 4:
        lines[at] = lines[at] + draw.choice([b" ", b"\r", b"\t", b" end", b"\nend"])
    else:
        lines[at:at] = [lines[at]] * draw.choice([1, 2, 10, 300])
    return b"\n".join(lines)


def alter_number(draw: random.Random, text: bytes, _: bytes) -> bytes:
    found = list(re.finditer(rb"\d+", text))
    if not found:
        return text
    at = draw.choice(found)
    new = draw.choice(NUMBERS)
    if draw.random() < 0.5 and len(at[0]) < 30:
        new = str(max(0, int(at[0]) + draw.choice([-2, -1, 1, 2, 10])))
    return text[:at.start()] + new.encode() + text[at.end():]


def nest(draw: random.Random, text: bytes, _: bytes) -> bytes:
    start = draw.randrange(len(text) + 1)
    end = start + draw.choice([0, 1, 5, 30])
    opening, depth = draw.choice(OPENING), draw.choice(DEPTHS)
    closing = CLOSING.get(opening, b"") * (depth + draw.choice([0, 0, 0, 1, -1]))
    return text[:start] + opening * depth + text[start:end] + closing + text[end:]


def alter_one_line(draw: random.Random, text: bytes, other: bytes) -> bytes:
    """A small change behind the head of a derivation, tableau or structure, so that the head stays right."""
    lines = text.split(b"\n")
    at = draw.randrange(min(4, len(lines) - 1), len(lines))
    change = draw.choice([alter_number, alter_number, exchange_words, flip, nest])
    lines[at] = change(draw, lines[at], draw.choice(lines))
    if draw.random() < 0.3:
        lines.insert(draw.randrange(at, len(lines) + 1), draw.choice(lines[4:] or lines))
    return b"\n".join(lines)


def exchange_words(draw: random.Random, text: bytes, other: bytes) -> bytes:
    found = list(re.finditer(rb"[A-Za-z_$][\w$]*|[^\w\s]+", text))
    if not found:
        return text
    at, new = draw.choice(found), draw.choice(found)[0]
    if draw.random() < 0.3:
        new = draw.choice(re.findall(rb"[\w$]+|[^\w\s]+", other) or [b""])
    return text[:at.start()] + new + text[at.end():]


Change = Callable[[random.Random, bytes, bytes], bytes]
CHANGES: list[Change] = [flip, flip, delete, cut, copy_piece, alter_lines, alter_lines, alter_number, alter_number, nest, exchange_words, exchange_words]


def alter_words(draw: random.Random, words: list[str]) -> list[str]:
    words = list(words)
    kind, at = draw.randrange(5), draw.randrange(len(words))
    if kind == 0:
        del words[at]
    elif kind == 1:
        words.insert(at, words[at])
    elif kind == 2:
        words.insert(draw.randrange(len(words) + 1), draw.choice(OPTIONS + COMMANDS))
    elif kind == 3:
        words[at] = draw.choice(OPTIONS + COMMANDS)
    else:
        word = words[at].encode("utf-8", "surrogateescape")
        word = draw.choice([flip, delete, alter_number, copy_piece])(draw, word, b"--logic=d").replace(b"\0", b"")
        words[at] = word.decode("utf-8", "surrogateescape")
    return words


def bounded(words: list[str], steps: int) -> list[str]:
    """The words with a budget that a run can use up in a short time."""
    words = [re.sub(r"^(--steps=)(\d{5,})$", lambda found: found[1] + found[2][:4], word) for word in words]
    if words[:1] in (["prove"], ["make"], ["model"], ["tableau"]) and not any(word.startswith("--steps=") for word in words):
        words.append("--steps=%d" % steps)
    return words


def read(file: str) -> bytes:
    with open(os.path.join(TOP, file), "rb") as opened:
        return opened.read()


def read_seeds(program: str, steps: int) -> list[Seed]:
    """The gallery, and what the program prints for it: derivations in both versions, and tableaux."""
    seeds = [Seed(["make", family, "3", "--limit=9"], []) for family in ("chain", "shift")]
    seeds.append(Seed(["make", "tower", "2", "--logic=s4"], []))
    for line in read("examples/expected.tsv").decode().splitlines():
        if line.startswith("#"):
            continue
        command, *rest = line.split("\t")[2].split(" ")
        options = [word for word in rest if word.startswith("--") and not word.startswith("--root=")]
        texts = [read(word) for word in rest if not word.startswith("--")]
        files = ["0.p", "1.p"][:len(texts)]
        bounds = ["--steps=%d" % steps] if command in ("prove", "model") else []
        seeds.append(Seed([command, *files, *options, *bounds], texts))
        if command != "prove":
            continue
        if len(seeds) % 3 == 0:
            seeds.append(Seed([command, *files, *options, *bounds, "--cut=%d" % (1 + len(seeds) % 5)], texts))
        seeds.append(Seed(["tableau", *files, *options, *bounds], texts))
        write(texts)
        derivation = run([program, command, "0.p", *options, "--steps=100000"], 20)
        if derivation.code != 0:
            continue
        tableau = run([program, "tableau", "0.p", *options, "--steps=100000"], 20)
        texts = [*texts, derivation.output]
        judging = [word for word in options if word.startswith(("--logic", "--domains"))]
        seeds += [Seed([word, "0.p", "1.p", *judging], [texts[0], tableau.output]) for word in ("tcheck", "convert")]
        write(texts)
        migrated = run([program, "migrate", "0.p", "1.p", *judging], 20)
        for text in (derivation.output, migrated.output):
            seeds += [Seed([word, "0.p", "1.p", *judging], [texts[0], text]) for word in ("check", "migrate")]
        if "--logic=intuitionistic" in options:
            seeds.append(Seed(["transfer", "0.p", "1.p"], texts))
            write(texts)
            moved = run([program, "transfer", "0.p", "1.p"], 20)
            seeds.append(Seed(["check", "0.p", "1.p", "--logic=intuitionistic", "--as=s4"], [texts[0], moved.output]))
    seeds = [seed for seed in seeds if sum(map(len, seed.texts)) < 20000]
    included = [seed.texts[0] for seed in seeds if seed.words[0] == "prove"][:6]
    including = b"include('1.p').\ninclude('1.p',[a,b]).\nfof(c,conjecture,p).\n"
    return seeds + [Seed(["prove", "0.p", "--steps=%d" % steps], [including, text]) for text in included]


def make_case(seeds: list[Seed], draw: random.Random, steps: int) -> tuple[list[str], list[bytes]]:
    seed = draw.choice(seeds)
    other = draw.choice(draw.choice([s for s in seeds if s.texts]).texts)
    texts, words = list(seed.texts), list(seed.words)
    for _ in range(draw.choice([1, 1, 1, 2, 3, 6])):
        if not texts or draw.random() < 0.08:
            words = alter_words(draw, words) if words else words
        else:
            at = draw.choice([0, 1, 1]) if len(texts) == 2 else 0
            changes: list[Change] = [alter_one_line] if at == 1 and draw.random() < 0.6 else CHANGES
            texts[at] = draw.choice(changes)(draw, texts[at], other)
    return bounded(words, steps), texts


def write(texts: list[bytes]) -> None:
    """The files of a case, and no others."""
    for name in ("0.p", "1.p"):
        if os.path.exists(name):
            os.remove(name)
    for number, text in enumerate(texts):
        with open("%d.p" % number, "wb") as file:
            file.write(text)


def steps_of(words: list[str]) -> int:
    """The steps that the words ask for, so far as one knows without reading them as the program does."""
    searches = 2 if any(word.startswith("--cut=") for word in words) else 1
    return searches * sum(int(word[8:]) for word in words if re.fullmatch(r"--steps=\d{1,7}", word))


def kind_of(run: Run) -> tuple[int, str]:
    """The status, and what the answer says without its numbers and names."""
    line = run.output.split(b"\n")[0]
    told = line.split(b": ")[0 if run.code == 6 else -1]
    return run.code, re.sub(rb"\d+", b"N", told).decode("latin-1")


def fault_of(program: str, words: list[str], texts: list[bytes]) -> tuple[str | None, Run]:
    """What is wrong with a case, or nothing; and its run."""
    size = sum(map(len, texts)) + sum(map(len, words))
    steps = steps_of(words)
    seconds = SECONDS + SECONDS_A_BYTE * size + SECONDS_A_STEP * steps
    first = run([program, *words], seconds)
    if not is_an_answer(first):
        return "no answer of the table: status %d, %r" % (first.code, first.output[:100]), first
    if first.code == 7:
        return "memory ended", first
    if first.seconds > seconds:
        return "%.1f s for %d bytes and %d steps" % (first.seconds, size, steps), first
    if first.kilobytes > KILOBYTES + KILOBYTES_A_BYTE * size:
        return "%d kB for %d bytes" % (first.kilobytes, size), first
    second = run([program, *words], seconds)
    if second[:2] != first[:2]:
        return "another answer the second time: %d, %r" % (second.code, second.output[:100]), first
    if first.code == 0 and first.output.startswith(b"leancop "):
        return judge_printed(program, words, first.output), first
    return None, first


def judge_printed(program: str, words: list[str], text: bytes) -> str | None:
    """A derivation or tableau that was printed is accepted, of the problem that the words name."""
    with open("printed", "wb") as file:
        file.write(text)
    problem = next((word for word in words[1:] if not word.startswith("--")), "")
    options = [word for word in words if word.startswith(("--logic=", "--domains=", "--root="))]
    if words[0] == "transfer":
        options += ["--logic=intuitionistic", "--as=s4"]
    judging = "tcheck" if text.startswith(b"leancop tableau") else "check"
    judged = run([program, judging, problem, "printed", *options], 20)
    if judged.output != b"accepted\n":
        return "what it printed is not accepted: %r" % judged.output[:100]
    return None


def keep(folder: str, number: int, fault: str, words: list[str], texts: list[bytes]) -> None:
    place = os.path.join(folder, str(number))
    os.makedirs(place, exist_ok=True)
    for name, text in [*(("%d.p" % n, text) for n, text in enumerate(texts)), ("fault", fault.encode() + b"\n"),
                       ("words", "\n".join(words).encode("utf-8", "surrogateescape") + b"\n")]:
        with open(os.path.join(place, name), "wb") as file:
            file.write(text)


def main() -> None:
    options = read_options(__doc__)
    program = find_program(options)
    first, count = int(options.get("first", 0)), int(options.get("cases", 1000))
    kept = os.path.abspath(options.get("kept", "fuzz_kept"))
    end = time.monotonic() + 60 * float(options.get("minutes", 60))
    set_stack(int(options.get("stack", 8192)))
    resource.setrlimit(resource.RLIMIT_CORE, (0, 0))
    folder = tempfile.mkdtemp(prefix="leancop-fuzz-")
    os.chdir(folder)
    answers: collections.Counter[tuple[int, str]] = collections.Counter()
    broken = done = 0
    try:
        steps = int(options.get("steps", 500))
        seeds = read_seeds(program, steps)
        for number in range(first, first + count):
            if time.monotonic() > end:
                break
            words, texts = make_case(seeds, random.Random("%s:%d" % (options.get("seed", 1), number)), steps)
            write(texts)
            fault, got = fault_of(program, words, texts)
            done += 1
            answers[kind_of(got)] += 1
            if fault:
                broken += 1
                keep(kept, number, fault, words, texts)
                print("case %d: %s" % (number, fault), flush=True)
            if done % 10000 == 0:
                print("so far %d cases, %d broke" % (done, broken), flush=True)
    finally:
        os.chdir("/")
        shutil.rmtree(folder)
    for (code, line), seen in sorted(answers.items()):
        print("%8d  status %d  %s" % (seen, code, line))
    print("%d cases, %d broke" % (done, broken))
    sys.exit(1 if broken else 0)


if __name__ == "__main__":
    main()
