"""Questions of the page and their answers. Searching and judging are the program's: a proof is shown where `check` accepts it, a structure
where `model` finds the formula false in it; what else is said is what the program answered, or that its time is over."""
from __future__ import annotations

import json
import re
import shutil
import tempfile
import threading
import time
from collections.abc import Callable
from dataclasses import dataclass, replace
from functools import partial
from pathlib import Path

import formulas
from exercise import Exercise
from jobs import Event, Job, Refused
from picture import svg_of
from runs import Ended, Run
from shown import LOGICS, Reader

MODAL = ("d", "t", "s4", "s5")
DOMAINS = ("constant", "cumulative", "varying")
SETTINGS = [("classical", ""), ("intuitionistic", "")] + [(m, d) for m in MODAL for d in DOMAINS if (m, d) != ("s5", "cumulative")]
LONGEST_TEXT = 200_000  # characters of a field of the page
OTHER_LANGUAGE = ["A qmf item is of a modal logic: pick D, T, S4 or S5.", "Items fof and cnf are of classical or intuitionistic logic: pick one of them."]
FIRST_STEPS, MORE = 20_000, 8  # budgets of the search, one after the other: what is searched whole is known when the time is over


def side_by_side(works: list[Callable[[], None]]) -> None:
    """Runs these in threads of their own, until all have ended."""
    threads = [threading.Thread(target=work, daemon=True) for work in works]
    for thread in threads:
        thread.start()
    for thread in threads:
        thread.join()


def words_of(logic: str, domains: str) -> list[str]:
    return [f"--logic={logic}"] + ([f"--domains={domains}"] if logic in MODAL else [])


@dataclass(frozen=True)
class Question:
    formula: str
    premises: str
    logic: str
    domains: str
    seconds: float
    megabytes: int

    @staticmethod
    def of(asked: Event) -> Question:
        def text(key: str) -> str:
            value = asked.get(key, "")
            if not isinstance(value, str) or len(value) > LONGEST_TEXT:
                raise Refused(f"{key} is no text of at most {LONGEST_TEXT} characters")
            return value.replace("\r", "")

        def number(key: str, least: int, most: int, usual: int) -> int:
            value = asked.get(key, usual)
            if not isinstance(value, int) or not least <= value <= most:
                raise Refused(f"{key} is no number from {least} to {most}")
            return value

        logic, domains = text("logic") or "classical", text("domains") or "constant"
        if logic not in LOGICS or domains not in DOMAINS:
            raise Refused("there is no such logic or domain condition")
        return Question(text("formula"), text("premises"), logic, domains, number("seconds", 1, 600, 10), number("megabytes", 64, 8192, 1024))

    def words(self) -> list[str]:
        return words_of(self.logic, self.domains)

    def problem(self) -> formulas.Problem:
        """The problem's text. A whole problem of TPTP stands for itself, and includes nothing."""
        if not formulas.is_tptp(self.formula):
            return formulas.problem(self.formula, self.premises, self.logic)
        include = formulas.include_in(self.formula)
        if include:
            raise formulas.Misread("formula", include)
        if self.premises.strip():
            raise formulas.Misread("premises", formulas.Unread(0, len(self.premises), "the premises of a problem of TPTP stand among its items"))
        return formulas.Problem(self.formula + "\n", [], [], formulas.Names())


class Work:
    """One problem in one logic, in a folder of its own within the temporary one."""

    def __init__(self, job: Job, question: Question, problem: formulas.Problem) -> None:
        self.job, self.q, self.problem = job, question, problem
        self.bench, self.tools = job.bench, job.bench.tools
        self.folder = Path(tempfile.mkdtemp(dir=self.bench.keeper.folder))
        self.file = self.folder / "problem.p"
        self.file.write_bytes(problem.text.encode("utf-8", "replace"))
        self.began = time.monotonic()
        self.known: list[str] = []

    def __enter__(self) -> Work:
        return self

    def __exit__(self, *_: object) -> None:
        shutil.rmtree(self.folder, ignore_errors=True)

    def left(self) -> float:
        return self.q.seconds - (time.monotonic() - self.began)

    def key(self) -> tuple[str, str, str]:
        return self.problem.text, self.q.logic, self.q.domains

    def reader(self) -> Reader:
        return Reader(self.problem.names.reader)

    def program(self, command: str, *words: str, text: str = "", seconds: float = 20, among: set[Run] | None = None) -> Ended:
        files = [str(self.file)]
        if text:
            given = self.folder / f"text{threading.get_ident()}"
            given.write_bytes(text.encode("latin-1", "replace"))
            files.append(str(given))
        return self.job.run([self.tools.program, command, *files, *words, *self.q.words()], seconds, self.q.megabytes, among)

    def said(self, command: str, text: str) -> str:
        ended = self.program(command, text=text)
        return ended.out.decode("latin-1").replace(str(self.file), "problem.p").strip() or "no answer"

    def check(self, text: str) -> str:
        return self.said("check", text)

    def refuse(self, ended: Ended) -> None:
        """The program's refusal of a problem, with its place where the page's own text has it."""
        said = ended.out.decode("latin-1").strip()
        place = re.fullmatch(re.escape(str(self.file)) + r":(\d+): (.*)", said)
        if place and formulas.is_tptp(self.q.formula):
            before = self.problem.text.encode("utf-8")[:int(place[1])].decode("utf-8", "ignore")
            why = OTHER_LANGUAGE[self.q.logic in MODAL] if place[2] == "wrong language" else self.explained()
            raise formulas.Misread("formula", formulas.Unread(len(before), len(before) + 1, f"the program says: {place[2]}. {why}"))
        raise Refused(f"The program says: {said.replace(str(self.file), 'problem.p')}. {self.explained()}")

    def explained(self) -> str:
        """What leancop-explain says of a refusal: its last line."""
        if "leancop-explain" not in self.tools.here:
            return ""
        ended = self.job.run([self.tools.here["leancop-explain"], "prove", str(self.file), "--steps=1", *self.q.words()], 20, self.q.megabytes)
        return ended.err.decode("utf-8", "replace").strip().split("\n")[-1].strip()

    # ---- a proof or a structure, whichever comes first

    def decide(self) -> Event:
        runs: set[Run] = set()
        results: list[Event] = []
        refusals: list[Exception] = []
        found = threading.Event()

        def search(look: Callable[[set[Run], threading.Event], Event | None]) -> None:
            try:
                result = look(runs, found)
            except Exception as fault:  # noqa: BLE001  it is raised again below
                refusals.append(fault)
                result = None
            if result or refusals:
                if result:
                    results.append(result)
                found.set()
                with self.job.changed:
                    others = list(runs)
                for run in others:
                    run.stop()

        looks = [self.prove, self.refute] if "leancop-refute" in self.tools.here else [self.prove]
        side_by_side([partial(search, look) for look in looks])
        if results:
            return results[0]
        if refusals:
            raise refusals[0]
        return {"kind": "stopped" if self.job.stopped else "unknown", "known": self.known, "seconds": self.q.seconds}

    def prove(self, runs: set[Run], found: threading.Event) -> Event | None:
        steps, reached = FIRST_STEPS, ""
        cut: list[str] = []
        while self.left() > 0 and not found.is_set() and not self.job.stopped:
            ended = self.program("prove", f"--steps={steps}", *cut, seconds=self.left(), among=runs)
            said = ended.out.decode("latin-1", "replace").strip() if ended.status else ""
            if ended.status == 0:
                return self.proof(ended.out.decode("latin-1"))
            if ended.status == 3:
                after = re.fullmatch(r"steps ended after limit (\d+) at (\d+) steps", said)
                reached = f"No proof has paths of at most {after[1]} steps; a longer one may be there." if after and after[1] != "0" else ""
                steps, cut = steps * MORE, ["--cut=5"]
                continue
            if found.is_set() or self.job.stopped:
                return None
            if ended.status == 2:
                self.known.append(f"The search for a proof came to its end: {said}. So none is to be expected; that the calculus finds each proof is "
                                  "known from the literature, and not proved here.")
                return None
            if ended.status == 1:
                self.known.append(f"The search for a proof ended: {said}, the greatest limit there is.")
                return None
            if ended.status in (4, 5, 6):
                self.refuse(ended)
            if ended.long:
                self.known.append("A proof was found whose text is too long for this page: run leancop itself.")
                return None
            if not ended.late:
                self.known.append(f"The proof search came to its limit of memory, {self.q.megabytes} MB.")
                break
        if reached:
            self.known.append(reached)
        return None

    def refute(self, runs: set[Run], found: threading.Event) -> Event | None:
        program = self.tools.here["leancop-refute"]
        words = [program, str(self.file), f"--time={max(1, int(self.q.seconds * 0.7))}", *self.q.words()]
        ended = self.job.run(words, self.left(), self.q.megabytes + 1024, runs)  # its stacks alone are large, though not used
        said = ended.err.decode("utf-8", "replace").strip().split("\n")[-1].removeprefix("leancop-refute: ").replace(str(self.file), "problem.p")
        if ended.status == 0:
            text = ended.out.decode("latin-1")
            judged = self.said("model", text)
            if judged == "false at the root":
                return self.structure(text)
            self.known.append(f"A structure was found that the program does not take: {judged}.")
        elif found.is_set() or self.job.stopped or ended.status in (4, 5, 6, 7):
            return None
        elif ended.late:
            self.known.append("No finite counter-structure was found in this time.")
        elif ended.status in (1, 2, 70):
            self.known.append(none_found(said))
        else:
            self.known.append("The search for counter-structures broke off.")
        return None

    def proof(self, text: str) -> Event:
        judged = self.check(text)
        if judged != "accepted":
            raise Refused(f"A derivation was found that the program does not take: {judged}.")
        self.bench.remember(self.key(), text)
        steps = sum(line.startswith(("use ", "axiom ")) for line in text.split("\n"))
        return {"kind": "proof", "text": text, "steps": steps, "page": self.drawn(text), "took": round(time.monotonic() - self.began, 2)}

    def structure(self, text: str) -> Event:
        sizes = dict(re.findall(r"^(worlds|elements) (\d+)$", text, re.M))
        return {"kind": "structure", "text": text, "worlds": int(sizes.get("worlds", 1)), "elements": int(sizes.get("elements", 1)),
                "page": self.drawn(text), "took": round(time.monotonic() - self.began, 2)}

    def drawn(self, text: str) -> str | None:
        """The name of the page that leancop-view makes of a text, which it has judged once more."""
        if "leancop-view" not in self.tools.here:
            return None
        given, names = self.folder / "drawn.txt", self.folder / "names.json"
        given.write_bytes(text.encode("latin-1"))
        called = {**self.problem.names.by_kind(), "infix": formulas.INFIX if self.problem.read_as else {}}
        names.write_text(json.dumps(called), encoding="utf-8")
        words = [str(self.file), str(given), f"--name={self.problem.title()}", f"--names={names}", *self.q.words()]
        ended = self.job.run([self.tools.here["leancop-view"], *words], 30, self.q.megabytes)
        if ended.status != 0:
            return None
        name = f"{self.job.name}.{len(self.bench.pages)}.{time.monotonic_ns()}"
        self.bench.keep(name, ended.out)
        return name


def none_found(said: str) -> str:
    """What leancop-refute says where it finds nothing, in a sentence."""
    sizes = re.fullmatch(r".* sizes \(worlds x elements\) without one: (.*)", said)
    if not sizes:
        return "Counter-structures: " + said
    several = [f"{w} world{'s' * (w != '1')} and {e} element{'s' * (e != '1')}" for w, e in re.findall(r"(\d+)x(\d+)", sizes[1])]
    return "No counter-structure was found." + (f" By the SAT solver's word there is none of {', none of '.join(several)}." if several else "")


# ---- what the page asks for


def ask(job: Job, question: Question) -> None:
    problem = question.problem()
    job.tell({"kind": "read", "text": problem.text, "as": problem.read_as, "notes": problem.notes})
    with Work(job, question, problem) as work:
        job.tell(work.decide())


def table(job: Job, question: Question) -> None:
    """All settings, some at a time. A problem of TPTP is one of the logics of its items alone."""
    tptp = formulas.is_tptp(question.formula)
    modal = "qmf" in replace(question, logic="s4").problem().text  # where the formula cannot be read at all, this is told once

    def one(logic: str, domains: str) -> Event:
        q = replace(question, logic=logic, domains=domains or "constant", seconds=min(question.seconds, 10))
        if tptp and modal != (logic in MODAL):
            return {"kind": "other", "said": "the items are of other logics"}
        try:
            problem = q.problem()
            with Work(job, q, problem) as work:
                return {**work.decide(), "problem": problem.text}
        except formulas.Misread as fault:
            if "modal logic" in fault.said:
                return {"kind": "other", "said": "has no □ and ◇"}
            raise
        except Refused as refusal:
            return {"kind": "refused", "said": str(refusal)}

    waiting = list(SETTINGS)
    faults: list[Exception] = []

    def worker() -> None:
        while not faults and not job.stopped:
            with job.changed:
                if not waiting:
                    return
                logic, domains = waiting.pop(0)
            try:
                job.tell({**one(logic, domains), "logic": logic, "domains": domains})
            except Exception as fault:  # noqa: BLE001  it is raised again below
                faults.append(fault)

    side_by_side([worker, worker])
    if faults:
        raise faults[0]


def help_exercise(job: Job, question: Question, steps: list[str]) -> None:
    """The rest of a proof, whose first step is the hint; or what is known where no proof is found."""
    with Work(job, question, question.problem()) as work:
        text = work.bench.found.get(work.key())
        if text is None:
            answer = work.decide()
            if answer["kind"] != "proof":
                job.tell(answer)
                return
            text = answer["text"]
        exercise = Exercise(work.file, question.logic, question.domains, work.reader(), work.check)
        job.tell({"kind": "rest", **exercise.rest(steps, text)})


def exercise(job: Job, question: Question, steps: list[str], asked: Event | None) -> None:
    with Work(job, question, question.problem()) as work:
        ended = work.program("check", text="-")
        if ended.status != 8:
            work.refuse(ended)
        state = Exercise(work.file, question.logic, question.domains, work.reader(), work.check).state(steps, asked)
        if state["done"]:
            state["page"] = work.drawn(state["text"])
        job.tell({"kind": "state", **state})


def export(job: Job, question: Question, form: str, text: str) -> None:
    """Another form of an answer: of a derivation or a structure that the page has, which the program judges again."""
    problem = question.problem()
    with Work(job, question, problem) as work:
        if form == "tableau":
            made = work.program("tableau", "--steps=1099511627776", seconds=question.seconds).out.decode("latin-1")
            if not made.startswith("leancop tableau "):
                raise Refused("No tableau was found in this time.")
            judged = work.said("tcheck", made)
            if judged != "accepted":
                raise Refused(f"The program does not take the tableau: {judged}.")
        elif form == "coq":
            if "leancop-coq" not in work.tools.here:
                raise Refused("leancop-coq is not here.")
            given = work.folder / "d.txt"
            given.write_bytes(text.encode("latin-1", "replace"))
            ended = job.run([work.tools.here["leancop-coq"], str(work.file), str(given), *question.words()], 60, question.megabytes)
            if ended.status != 0:
                raise Refused("leancop-coq says: " + ended.err.decode("utf-8", "replace").strip()[:500])
            made = ended.out.decode("utf-8", "replace")
        elif form == "svg":
            structure = text.startswith("leancop structure ")
            judged = work.said("model" if structure else "check", text)
            if judged != ("false at the root" if structure else "accepted"):
                raise Refused(f"The program does not take the text: {judged}.")
            if not structure:  # without the steps that nothing needs, which the program accepts too
                text = Exercise(work.file, question.logic, question.domains, work.reader(), work.check).rest([], text)["text"]
            made = svg_of(work.file, text, question.logic, work.reader())
        else:
            raise Refused("there is no such form")
        job.tell({"kind": "export", "form": form, "text": made})
