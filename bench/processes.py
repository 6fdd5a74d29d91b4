"""Runs a program with bounds, for fuzz.py, deep.py, scale.py and refuse_memory.py; and their options."""
from __future__ import annotations

import multiprocessing
import os
import re
import resource
import signal
import sys
from multiprocessing.connection import Connection
from typing import NamedTuple

HERE = os.path.dirname(os.path.abspath(__file__))
PROGRAM = os.path.abspath(os.path.join(HERE, "../crates/leancop/out/leancop"))


class Run(NamedTuple):
    """How a run ended: code is the exit status, less than 0 a signal; seconds of the processor; kilobytes at the most."""

    code: int
    output: bytes
    seconds: float
    kilobytes: int


# What a run may write, by its exit status (docs/COMMANDS.md).
PRINTED = r"leancop (derivation [12]|tableau 1)\nlogic [^\n]*\nformula [^\n]*\nlimit \d+\n(?s:.*\n)?end\n"
MADE = r"made (chain|shift|tower) \d+: \d+ bytes\n"
CAUSE = "(syntax|unsupported|reserved word|wrong language|second conjecture|unknown role|include too deep|include name absent|no formula)"
TEXT_FAULT = "version|setting|formula|limit|name|line|text after end|label|term|table"
STEP_FAULT = "no entry|no connection|wrong arguments|unknown name|not reachable|not new|wrong home|not allowed|all closed|still open"
TABLEAU_FAULT = "path limit|no instance|not positive|not regular|string too long" # and some of those above
STRUCTURE_FAULT = ("version|setting|size|line|text after end|empty domain|serial|reflexive|transitive|total|worlds|domains"
                   "|function|persistence")
ANSWERS = {code: re.compile(pattern.encode()) for code, pattern in {
    0: f"accepted\n|true at the root\n|{MADE}derived at limit \\d+\naccepted\n|{PRINTED}",
    1: f"({MADE})?exhausted at limit \\d+\n",
    2: f"({MADE})?no tableau at limit \\d+\n",
    3: f"({MADE})?steps ended after limit \\d+ at \\d+ steps\n",
    4: f"(?s:.*):\\d+: {CAUSE}\n|(input|matrix|formula) too (large|deep)\n|nesting too deep\n|too many symbols\n",
    5: r"bad word \d+\n",
    6: r"(missing|read fault): (?s:.*)\n|",
    7: "",
    8: f"rejected at line \\d+: ({TEXT_FAULT}|{STEP_FAULT}|{TABLEAU_FAULT})\n",
    9: "false at the root\n",
    10: f"rejected structure at line \\d+: ({STRUCTURE_FAULT})\n",
}.items()}


def is_an_answer(run: Run) -> bool:
    """Whether the run ended with a status of the table, and wrote what belongs to it."""
    return run.code in ANSWERS and ANSWERS[run.code].fullmatch(run.output) is not None


def set_stack(kilobytes: int) -> None:
    """The stack of the processes that are started from here on."""
    hard = resource.getrlimit(resource.RLIMIT_STACK)[1]
    resource.setrlimit(resource.RLIMIT_STACK, (kilobytes * 1024, hard))


def run(words: list[str], seconds: float, variables: dict[str, str] | None = None, output: str = "output") -> Run:
    """A process in this folder, with no input; it is killed after ten times the seconds by the clock. It writes to a file."""
    opened = [(os.POSIX_SPAWN_OPEN, 0, "/dev/null", os.O_RDONLY, 0),
              (os.POSIX_SPAWN_OPEN, 1, output, os.O_WRONLY | os.O_CREAT | os.O_TRUNC, 0o600),
              (os.POSIX_SPAWN_OPEN, 2, "/dev/null", os.O_WRONLY, 0)]
    process = os.posix_spawn(words[0], words, {**os.environ, **(variables or {})}, file_actions=opened)
    signal.signal(signal.SIGALRM, lambda number, frame: os.kill(process, signal.SIGKILL))
    signal.setitimer(signal.ITIMER_REAL, 10 * seconds)
    try:
        _, status, use = os.wait4(process, 0)
    except BaseException:
        os.kill(process, signal.SIGKILL)
        raise
    finally:
        signal.setitimer(signal.ITIMER_REAL, 0)
    with open(output, "rb") as written:
        text = written.read()
    return Run(os.waitstatus_to_exitcode(status), text, use.ru_utime + use.ru_stime, use.ru_maxrss)


class Runner:
    """A process that starts the runs: what this one has in memory would count for those that it starts."""

    def __init__(self, gigabytes: int, seconds: float = 60, processor_seconds: int | None = None) -> None:
        self.pipe, other = multiprocessing.Pipe()
        self.seconds, self.processor_seconds = seconds, processor_seconds
        multiprocessing.get_context("fork").Process(target=self.serve, args=(other, gigabytes), daemon=True).start()

    def serve(self, pipe: Connection, gigabytes: int) -> None:
        resource.setrlimit(resource.RLIMIT_AS, (gigabytes << 30, gigabytes << 30))
        if self.processor_seconds is not None:
            resource.setrlimit(resource.RLIMIT_CPU, (self.processor_seconds, self.processor_seconds + 1))
        while True:
            words, stack = pipe.recv()
            if stack is not None:
                set_stack(stack)
            pipe.send(run(words, self.seconds))

    def run(self, words: list[str], stack: int | None = None) -> Run:
        self.pipe.send((words, stack))
        return self.pipe.recv()


def read_options(help_text: str) -> dict[str, str]:
    """The options of the words, each of which the help names as `  --NAME=`; ends where a word is none."""
    words = sys.argv[1:]
    if "--help" in words:
        print(help_text)
        sys.exit(0)
    known = set(re.findall(r"^  --([a-z]+)", help_text, re.M))
    options = dict((word[2:] + "=1").split("=")[:2] for word in words if word.startswith("--"))
    if any(not word.startswith("--") for word in words) or not set(options) <= known:
        sys.exit(help_text)
    return options


def find_program(options: dict[str, str]) -> str:
    program = os.path.abspath(options.get("program", PROGRAM))
    if not os.access(program, os.X_OK):
        sys.exit("%s is not built: ./leancop builds it" % program)
    return program
