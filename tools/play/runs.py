"""Processes with limits, which end with the server: each has a group of its own, and a keeper, a process apart that outlives the server
by a moment, ends the groups that are left and removes the temporary folder, however the server ended."""
from __future__ import annotations

import os
import resource
import shutil
import signal
import subprocess
import sys
import tempfile
import threading
import time
from dataclasses import dataclass
from io import BufferedReader
from pathlib import Path

LARGEST_OUTPUT = 8_000_000  # bytes of what a process prints; one that prints more is ended


@dataclass
class Ended:
    """How a process ended: its status, or None where it was stopped, ran out of time or printed too much."""

    status: int | None
    out: bytes
    err: bytes
    late: bool = False
    long: bool = False


class Keeper:
    """The process apart. It reads lines "+ GROUP" and "- GROUP" from a pipe, and the pipe's end is the end of the server."""

    def __init__(self) -> None:
        self.folder = Path(tempfile.mkdtemp(prefix="leancop-play-"))
        self.process = subprocess.Popen([sys.executable, "-I", __file__, str(self.folder)], stdin=subprocess.PIPE, start_new_session=True)
        self.lock = threading.Lock()

    def tell(self, sign: str, group: int) -> None:
        with self.lock:
            if self.process.stdin:
                self.process.stdin.write(f"{sign} {group}\n".encode())
                self.process.stdin.flush()

    def close(self) -> None:
        if self.process.stdin:
            self.process.stdin.close()
        self.process.wait(10)


def keep(folder: Path) -> None:
    """The keeper's work."""
    groups: set[int] = set()
    for line in sys.stdin:
        sign, number = line.split()
        (groups.add if sign == "+" else groups.discard)(int(number))
    for group in groups:
        end_group(group)
    shutil.rmtree(folder, ignore_errors=True)


def end_group(group: int) -> None:
    try:
        os.killpg(group, signal.SIGKILL)
    except ProcessLookupError:
        pass


class Run:
    """One process. `wait` returns how it ended; `stop` may be called from any thread."""

    def __init__(self, keeper: Keeper, words: list[str], seconds: float, megabytes: int, program: str) -> None:
        self.keeper, self.late, self.long, self.stopped, self.ended = keeper, False, False, False, False
        self.lock = threading.Lock()
        environment = {**os.environ, "LEANCOP": program, "PYTHONDONTWRITEBYTECODE": "1", "TMPDIR": str(keeper.folder)}
        self.process = subprocess.Popen(words, stdin=subprocess.DEVNULL, stdout=subprocess.PIPE, stderr=subprocess.PIPE,
                                        cwd=keeper.folder, env=environment, start_new_session=True)
        keeper.tell("+", self.process.pid)
        self.limit(resource.RLIMIT_AS, megabytes << 20)
        self.limit(resource.RLIMIT_CPU, int(seconds) + 2)  # of each process, also where nobody is left to end it
        self.limit(resource.RLIMIT_CORE, 0)
        self.until = time.monotonic() + seconds

    def limit(self, what: int, most: int) -> None:
        try:
            resource.prlimit(self.process.pid, what, (most, most))
        except ProcessLookupError:  # it has ended
            pass

    def read(self, pipe: BufferedReader, parts: list[bytes]) -> None:
        left = LARGEST_OUTPUT
        while part := pipe.read1(1 << 16):
            left -= len(part)
            if left < 0:
                self.long = True
                self.end()
                return
            parts.append(part)

    def end(self) -> None:
        with self.lock:
            if not self.ended:
                end_group(self.process.pid)

    def stop(self) -> None:
        self.stopped = True
        self.end()

    def wait(self) -> Ended:
        out: list[bytes] = []
        err: list[bytes] = []
        readers = [threading.Thread(target=self.read, args=pair, daemon=True) for pair in ((self.process.stdout, out), (self.process.stderr, err))]
        for reader in readers:
            reader.start()
        try:
            self.process.wait(max(0.0, self.until - time.monotonic()))
        except subprocess.TimeoutExpired:
            self.late = True
        self.end()  # also what it left behind in its group
        self.process.wait()
        with self.lock:
            self.ended = True
        self.keeper.tell("-", self.process.pid)
        for reader in readers:
            reader.join(5)
        for pipe in (self.process.stdout, self.process.stderr):
            if pipe:
                pipe.close()
        status = self.process.returncode
        broken = self.late or self.long or self.stopped
        return Ended(None if broken else status, b"".join(out), b"".join(err), self.late, self.long)


if __name__ == "__main__":
    signal.signal(signal.SIGINT, signal.SIG_IGN)
    keep(Path(sys.argv[1]))
