"""play_server.py: the server of leancop-play, by requests as a page and as an attacker sends them. LEANCOP names the program. Prints the
number of looks that came out as wanted, and each that did not; "refutes" too where counter-structures were looked for."""
import http.client
import json
import os
import signal
import subprocess
import sys
import tempfile
import time
from pathlib import Path
from typing import Any

ENDLESS = "∀x ∃y R(x,y), ∀x∀y∀z (R(x,y) ∧ R(y,z) → R(x,z)) ⊢ ∃x R(x,x)"  # no proof, and no finite structure that refutes it
passed, failed = 0, 0


def same(what: str, got: object, wanted: object) -> None:
    global passed, failed
    if got == wanted:
        passed += 1
    else:
        failed += 1
        print(f"play_server.py: {what}: {got!r:.300} is not {wanted!r:.300}")


class Played:
    """A server of its own, with a temporary folder of its own."""

    def __init__(self) -> None:
        self.folder = tempfile.mkdtemp()
        self.process = subprocess.Popen(["tools/leancop-play", "--no-browser", "--port=0"], stdout=subprocess.PIPE, text=True,
                                        env={**os.environ, "TMPDIR": self.folder})
        assert self.process.stdout is not None
        link = self.process.stdout.readline().split()[1]
        self.port, self.token = link.split("/")[2].rpartition(":")[2], link.split("/")[3]
        self.host = f"127.0.0.1:{self.port}"

    def send(self, path: str, body: bytes | None = None, **headers: str | None) -> tuple[int, bytes]:
        sent = {"Host": self.host, "Origin": f"http://{self.host}" if body is not None else None,
                "Content-Type": "application/json" if body is not None else None, "Content-Length": str(len(body)) if body is not None else None}
        sent |= {name.replace("_", "-"): value for name, value in headers.items()}
        connection = http.client.HTTPConnection("127.0.0.1", int(self.port), timeout=20)
        connection.putrequest("POST" if body is not None else "GET", path, skip_host=True)
        for name, value in sent.items():
            if value is not None:
                connection.putheader(name, value)
        connection.endheaders(body or b"")
        answer = connection.getresponse()
        return answer.status, answer.read()

    def post(self, path: str, asked: dict[str, Any]) -> dict[str, Any]:
        return json.loads(self.send(f"/{self.token}/api/{path}", json.dumps(asked).encode())[1])

    def ask(self, what: str, formula: str, **more: Any) -> list[dict[str, Any]]:  # noqa: ANN401
        started = self.post("start", {"what": what, "formula": formula, **more})
        if "refused" in started:
            return [started]
        events: list[dict[str, Any]] = []
        while True:
            state = self.post("state", {"job": started["job"], "seen": len(events)})
            events += state["events"]
            if state["over"]:
                return events

    def children(self) -> list[int]:
        """Processes that have this server's temporary folder in their environment, other than itself."""
        found = []
        for status in Path("/proc").glob("[0-9]*/environ"):
            try:
                if self.folder.encode() in status.read_bytes() and int(status.parent.name) != self.process.pid:
                    found.append(int(status.parent.name))
            except OSError:
                pass
        return found

    def started(self, count: int) -> bool:
        """Whether so many processes are there, soon."""
        return awaited(lambda: len(self.children()) >= count)

    def gone(self) -> bool:
        """Whether all processes and the temporary folder are gone, soon."""
        return awaited(lambda: not self.children() and not list(Path(self.folder).iterdir()))


def awaited(what: Any) -> bool:  # noqa: ANN401
    until = time.monotonic() + 8
    while time.monotonic() < until:
        if what():
            return True
        time.sleep(0.05)
    return False


def who_asks(s: Played) -> None:
    page = f"/{s.token}/"
    same("the page", s.send(page)[0], 200)
    same("its parts", [s.send(page + name)[0] for name in ("page.js", "page.css", "exercise.js", "examples.json")], [200] * 4)
    same("by its other name", s.send(page, Host=f"localhost:{s.port}")[0], 200)
    same("without a token", [s.send(p)[0] for p in ("/", "/page.js", "/x/", f"/{s.token[:-1]}/", "//", "/%C3%A9/")], [403] * 6)
    same("an address that is none", s.send("http://[/")[0], 403)
    same("the door tells no token", s.token.encode() in s.send("/")[1], False)
    for host in ("example.org", f"example.org:{s.port}", "127.0.0.1", f"127.0.0.1:{s.port}.example.org", None):
        same(f"host {host}", s.send(page, Host=host)[0], 403)
    body = json.dumps({"what": "ask", "formula": "p"}).encode()
    for origin in ("http://example.org", "null", f"https://127.0.0.1:{s.port}", f"http://localhost:{s.port}", None):
        same(f"origin {origin}", s.send(page + "api/start", body, Origin=origin)[0], 403)
    same("another site's page", s.send(page, Sec_Fetch_Site="cross-site")[0], 403)
    same("a question without a token", s.send("/api/start", body)[0], 403)
    same("a form", s.send(page + "api/start", body, Content_Type="text/plain")[0], 415)
    same("no length", s.send(page + "api/start", body, Content_Length=None)[0], 411)
    same("a large length", s.send(page + "api/start", b"", Content_Length="5000000")[0], 413)
    same("no question", [s.send(page + "api/start", b)[0] for b in (b"", b"[]", b"{", b"[" * 100_000)], [400] * 4)
    same("files", [s.send(page + p)[0] for p in ("../page.js", "server.py", "/etc/passwd", "..%2f..%2fetc/passwd", "shown/../page.js", "shown/x")], [404] * 6)


def questions(s: Played) -> bool:
    events = s.ask("ask", "∀x (P(x) → Q(x)) → (∀x P(x) → ∀x Q(x))")
    same("a proof", [e["kind"] for e in events], ["read", "proof"])
    proof, problem = events[-1], {"formula": "∀x (P(x) → Q(x)) → (∀x P(x) → ∀x Q(x))"}
    if proof["page"]:
        status, page = s.send(f"/{s.token}/shown/{proof['page']}")
        same("its page", (status, b"use 1\n" in page), (200, True))
    for form, first in (("tableau", "leancop tableau 1"), ("svg", "<svg "), ("coq", "")):
        got = s.ask("export", problem["formula"], form=form, text=proof["text"])[-1]
        same(f"as {form}", (got["kind"], got.get("text", "").startswith(first)), ("export", True))
    wrong = proof["text"].replace("axiom 7 8", "axiom 8 7").replace("use 3", "use 4")
    same("a wrong text is not drawn", s.ask("export", problem["formula"], form="svg", text=wrong)[-1]["kind"], "refused")
    same("premises", [e["kind"] for e in s.ask("ask", "q", premises="p\n\np → q")], ["read", "proof"])
    fault = s.ask("ask", "q", premises="p\n\np → ")[-1]
    same("a place in the premises", (fault["kind"], fault["place"], fault["start"]), ("misread", "premises", 7))
    same("TPTP", [e["kind"] for e in s.ask("ask", "fof(a,axiom,p). fof(c,conjecture,p).")], ["read", "proof"])
    fault = s.ask("ask", "% é\nfof(c,conjecture,p & q | r).")[-1]
    same("a place in TPTP", (fault["kind"], fault["start"]), ("misread", 27))
    for text in ("include('/etc/passwd').", "fof(a,axiom,p).include('/etc/passwd').", "fof(a,axiom,p). /* */ include\n( 'x').", "% x\ninclude('x')."):
        fault = s.ask("ask", text)[-1]
        same(f"an include: {text}", (fault["kind"], "reads no files" in fault["said"]), ("misread", True))
    same("sizes", ["refused" in s.ask("ask", "p" * 300_000)[0], s.ask("ask", "(" * 400)[-1]["kind"], s.ask("ask", "¬" * 400 + "p")[-1]["kind"]],
         [True, "misread", "misread"])
    wrong_ones: list[dict[str, Any]] = [
        {"what": "ask", "formula": "p", "logic": "--root=/"}, {"what": "ask", "formula": "p", "seconds": 10**9}, {"what": "rm", "formula": "p"},
        {"what": "exercise", "formula": "p", "steps": ["use 1\nuse 1"]}]
    same("an unknown logic, time, command", ["refused" in s.post("start", asked) for asked in wrong_ones], [True] * 4)
    began = time.monotonic()
    last = s.ask("ask", ENDLESS, seconds=3)[-1]
    same("the time is kept", (last["kind"], time.monotonic() - began < 6), ("unknown", True))
    same("what is known is told", any("paths of at most" in k for k in last["known"]), True)
    last = s.ask("ask", "p ↔ (" * 19 + "p" + ")" * 19, seconds=15, megabytes=64)[-1]  # a theorem, so there is no structure
    same("the memory is kept", (last["kind"], any("limit of memory" in k for k in last["known"])), ("unknown", True))
    cells = s.ask("table", "□p → p", logic="s4", seconds=5)
    same("a table", sorted((c["logic"], c["domains"]) for c in cells if c["kind"] == "proof"),
         [(m, d) for m in ("s4", "s5", "t") for d in ("constant", "cumulative", "varying") if (m, d) != ("s5", "cumulative")])
    state = s.ask("exercise", "p → p", steps=["use 1"], asked={"rule": "axiom", "entry": 3, "other": 2})[-1]
    same("an exercise", (state["kind"], state["done"], state["steps"]), ("state", True, ["use 1", "axiom 2 3"]))
    rest = s.ask("help", "P(a) → ∃x P(x)", steps=["use 1"])[-1]
    same("a hint", (rest["kind"], rest["steps"], "Take the term a" in rest["hint"]), ("rest", ["use 3 term a", "axiom 2 4"], True))
    refuted = s.ask("ask", "p ∨ ¬p", logic="intuitionistic")[-1]
    if refuted["kind"] == "structure":
        same("a structure", (refuted["worlds"], refuted["text"].startswith("leancop structure 1\nlogic intuitionistic\n")), (2, True))
        return True
    same("without a structure", refuted["kind"], "unknown")
    return False


def ends(s: Played) -> None:
    """A question that is stopped, and servers that end in the midst of one."""
    job = s.post("start", {"what": "ask", "formula": ENDLESS, "seconds": 60})["job"]
    same("processes of a question", s.started(2), True)
    other = s.ask("ask", "p → p")[-1]
    same("another tab meanwhile", other["kind"], "proof")
    s.post("stop", {"job": job})
    began = time.monotonic()
    state: dict[str, Any] = {"over": False, "events": []}
    while not state["over"]:
        state = s.post("state", {"job": job, "seen": 1})
    same("it is stopped", (state["events"][-1]["kind"], time.monotonic() - began < 3), ("stopped", True))
    same("and its processes", awaited(lambda: len(s.children()) == 1), True)  # the keeper is left
    for name in (signal.SIGTERM, signal.SIGKILL):
        s.post("start", {"what": "ask", "formula": ENDLESS, "seconds": 60})
        s.started(2)
        s.process.send_signal(name)
        s.process.wait(10)
        same(f"nothing is left after {name.name}", s.gone(), True)
        if name == signal.SIGTERM:
            s = Played()


def main() -> int:
    s = Played()
    try:
        who_asks(s)
        refutes = questions(s)
        ends(s)
    finally:
        s.process.kill()
    print(f"{passed} as wanted" + (", refutes" if refutes else ""))
    return 1 if failed else 0


sys.exit(main())
