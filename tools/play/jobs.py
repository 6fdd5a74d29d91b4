"""What is at work: the tools of this machine, the questions that are being answered by processes, and the pages that were drawn."""
from __future__ import annotations

import os
import shutil
import threading
import time
from collections import OrderedDict
from collections.abc import Callable
from dataclasses import dataclass, field
from pathlib import Path
from typing import Any

import formulas
from runs import Ended, Keeper, Run

Event = dict[str, Any]


class Refused(Exception):
    """A question that is not answered, and why."""


@dataclass
class Tools:
    """Where the program and its companions are on this machine."""

    program: str
    folder: Path  # of the companions
    here: dict[str, str] = field(default_factory=dict)

    def __post_init__(self) -> None:
        for name in ("leancop-view", "leancop-refute", "leancop-coq", "leancop-explain"):
            beside = self.folder / name
            found = str(beside) if os.access(beside, os.X_OK) else shutil.which(name)
            if found:
                self.here[name] = found

    def remarks(self) -> list[str]:
        """A line for each part that is not on this machine."""
        lines = []
        if "leancop-refute" not in self.here:
            lines.append("leancop-refute is not here, so no counter-structures are looked for.")
        elif not any(shutil.which(s) for s in ("cadical", "minisat", "picosat", "cryptominisat5", "kissat")):
            lines.append("No SAT solver is here (apt-get install cadical), so no counter-structures are looked for.")
        if "leancop-view" not in self.here:
            lines.append("leancop-view is not here, so nothing is drawn.")
        return lines


class Job:
    """A question that is being answered, by processes of its own. Its events are fetched by the page."""

    def __init__(self, bench: Bench, name: str) -> None:
        self.bench, self.name = bench, name
        self.events: list[Event] = []
        self.changed = threading.Condition()
        self.over, self.stopped = False, False
        self.runs: set[Run] = set()
        self.asked_for = time.monotonic()

    def tell(self, event: Event) -> None:
        with self.changed:
            self.events.append(event)
            self.changed.notify_all()

    def since(self, number: int, seconds: float) -> tuple[list[Event], bool]:
        with self.changed:
            self.asked_for = time.monotonic()
            self.changed.wait_for(lambda: len(self.events) > number or self.over, seconds)
            self.asked_for = time.monotonic()
            return self.events[number:], self.over

    def run(self, words: list[str], seconds: float, megabytes: int, among: set[Run] | None = None) -> Ended:
        while not self.bench.places.acquire(timeout=0.2):
            if self.stopped:
                return Ended(None, b"", b"")
        try:
            with self.changed:
                if self.stopped:
                    return Ended(None, b"", b"")
                run = Run(self.bench.keeper, words, max(0.1, seconds), megabytes, self.bench.tools.program)
                self.runs.add(run)
                if among is not None:
                    among.add(run)
            ended = run.wait()
            with self.changed:
                self.runs.discard(run)
                if among is not None:
                    among.discard(run)
            return ended
        finally:
            self.bench.places.release()

    def stop(self) -> None:
        with self.changed:
            self.stopped = True
            runs = list(self.runs)
        for run in runs:
            run.stop()

    def end(self) -> None:
        with self.changed:
            self.over = True
            self.changed.notify_all()


class Bench:
    """What is shared: the tools, the temporary folder, the jobs at work and the pages that were drawn."""

    MOST_JOBS, MOST_PAGES, UNWATCHED = 12, 100, 30.0

    def __init__(self, keeper: Keeper, tools: Tools) -> None:
        self.keeper, self.tools = keeper, tools
        self.lock = threading.Lock()
        self.jobs: OrderedDict[str, Job] = OrderedDict()
        self.pages: OrderedDict[str, bytes] = OrderedDict()
        self.found: OrderedDict[tuple[str, str, str], str] = OrderedDict()
        self.places = threading.BoundedSemaphore(max(8, 2 * (os.cpu_count() or 1)))

    def start(self, name: str, work: Callable[[Job], None]) -> Job:
        job = Job(self, name)
        with self.lock:
            for old, other in list(self.jobs.items()):
                if other.over and time.monotonic() - other.asked_for > self.UNWATCHED:
                    del self.jobs[old]
            if sum(not other.over for other in self.jobs.values()) >= self.MOST_JOBS or len(self.jobs) >= 50 * self.MOST_JOBS:
                raise Refused("too many questions are being answered: stop one of them")
            self.jobs[name] = job
        threading.Thread(target=self.work, args=(job, work), daemon=True).start()
        threading.Thread(target=self.watch, args=(job,), daemon=True).start()
        return job

    def work(self, job: Job, work: Callable[[Job], None]) -> None:
        try:
            work(job)
        except formulas.Misread as fault:
            job.tell({"kind": "misread", "place": fault.place, "start": fault.start, "end": fault.end, "said": fault.said})
        except Refused as refusal:
            job.tell({"kind": "refused", "said": str(refusal)})
        except Exception as fault:  # noqa: BLE001  the page is told of a fault of this program, and goes on
            job.tell({"kind": "refused", "said": f"leancop-play failed: {type(fault).__name__}: {fault}"})
        finally:
            job.end()

    def watch(self, job: Job) -> None:
        """Stops a job that no page asks for any more."""
        while not job.over:
            time.sleep(1)
            if time.monotonic() - job.asked_for > self.UNWATCHED:
                job.stop()

    def stop_all(self) -> None:
        with self.lock:
            jobs = list(self.jobs.values())
        for job in jobs:
            job.stop()

    def keep(self, name: str, page: bytes) -> None:
        with self.lock:
            self.pages[name] = page
            while len(self.pages) > self.MOST_PAGES or sum(map(len, self.pages.values())) > 64_000_000:
                self.pages.popitem(last=False)

    def remember(self, key: tuple[str, str, str], derivation: str) -> None:
        with self.lock:
            self.found[key] = derivation
            while len(self.found) > 20:
                self.found.popitem(last=False)
