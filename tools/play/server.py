"""The server of leancop-play: one page on the loopback address, and the questions that it asks.

Each request is refused that does not name this server as its Host, that another page sends (Origin, Sec-Fetch-Site), or whose path does not
begin with the token of the link that leancop-play opened. Problems come from the page alone; no path of a request is ever a file's name."""
from __future__ import annotations

import base64
import hashlib
import hmac
import json
import re
import secrets
import signal
import sys
import threading
import webbrowser
from collections.abc import Callable
from functools import partial
from http.server import BaseHTTPRequestHandler, ThreadingHTTPServer
from pathlib import Path
from typing import Any
from urllib.parse import urlsplit

import answers
from answers import Question
from jobs import Bench, Job, Refused, Tools
from runs import Keeper

HERE = Path(__file__).resolve().parent
KINDS = {"page.html": "text/html", "page.css": "text/css", "page.js": "text/javascript", "exercise.js": "text/javascript", "examples.json": "application/json"}
USUAL_PORT, LONGEST_BODY, MOST_AT_ONCE = 8642, 1_000_000, 32
POLICY = ("default-src 'none'; script-src 'self'; style-src 'self'; img-src 'self' data:; connect-src 'self'; frame-src 'self'; "
          "base-uri 'none'; form-action 'none'; frame-ancestors 'none'")
HEADERS = {"X-Content-Type-Options": "nosniff", "Referrer-Policy": "no-referrer", "Cache-Control": "no-store",
           "Cross-Origin-Opener-Policy": "same-origin", "Cross-Origin-Resource-Policy": "same-origin"}


class Server(ThreadingHTTPServer):
    daemon_threads = True
    allow_reuse_address = False

    def __init__(self, port: int, bench: Bench) -> None:
        super().__init__(("127.0.0.1", port), Handler)
        self.bench, self.token = bench, secrets.token_urlsafe(24)
        self.hosts = {f"{name}:{self.server_port}" for name in ("127.0.0.1", "localhost")}
        self.files = {name: (HERE / name).read_bytes() for name in KINDS}
        self.door = (HERE / "door.html").read_text(encoding="utf-8")
        self.at_once = threading.BoundedSemaphore(MOST_AT_ONCE)

    def handle_error(self, request: Any, client_address: Any) -> None:  # noqa: ANN401
        """A page that goes away breaks its requests off, which is no fault."""
        if not isinstance(sys.exc_info()[1], (ConnectionError, TimeoutError)):
            super().handle_error(request, client_address)


class Handler(BaseHTTPRequestHandler):
    server: Server
    timeout = 30
    server_version = "leancop-play"
    sys_version = ""

    def log_message(self, format: str, *words: object) -> None:  # noqa: A002
        """Nothing is written: a request has the token."""

    # ---- who asks

    def refusal(self) -> str | None:
        host = self.headers.get_all("Host") or []
        if len(host) != 1 or host[0] not in self.server.hosts:
            return "this server answers to its own name alone"
        origin = self.headers.get("Origin")
        if (origin is not None or self.command == "POST") and origin != f"http://{host[0]}":
            return "this server answers to its own page alone"
        return None

    def asked_path(self) -> str:
        try:
            return urlsplit(self.path).path
        except ValueError:  # an address with brackets that are none
            return ""

    def inside(self) -> str | None:
        """The path behind the token, or None for one without it."""
        first, _, rest = self.asked_path().removeprefix("/").partition("/")
        return rest if hmac.compare_digest(first.encode(), self.server.token.encode()) else None

    def foreign(self) -> bool:
        return self.headers.get("Sec-Fetch-Site", "none") not in ("none", "same-origin")

    # ---- answers

    def give(self, status: int, kind: str, body: bytes, policy: str = POLICY) -> None:
        self.send_response(status)
        text = kind.startswith("text/") or kind.endswith("json")
        self.send_header("Content-Type", kind + ("; charset=utf-8" if text else ""))
        self.send_header("Content-Length", str(len(body)))
        self.send_header("Content-Security-Policy", policy)
        for name, value in HEADERS.items():
            self.send_header(name, value)
        self.end_headers()
        if self.command != "HEAD":
            self.wfile.write(body)

    def refuse(self, status: int, said: str) -> None:
        self.give(status, "text/plain", f"leancop-play: {said}\n".encode())

    def give_json(self, value: Any) -> None:  # noqa: ANN401
        self.give(200, "application/json", json.dumps(value).encode())

    def give_door(self) -> None:
        """What a link without the token shows: how it is opened. Nothing of this server but the door is told."""
        script = re.search(r"<script>(.*?)</script>", self.server.door, re.S)
        digest = base64.b64encode(hashlib.sha256(script[1].encode() if script else b"").digest()).decode()
        policy = f"default-src 'none'; script-src 'sha256-{digest}'; style-src 'unsafe-inline'; connect-src 'self'; base-uri 'none'; frame-ancestors 'none'"
        self.give(403, "text/html", self.server.door.encode(), policy)

    def do_GET(self) -> None:
        self.answered(self.get)

    do_HEAD = do_GET

    def do_POST(self) -> None:
        self.answered(self.post)

    def answered(self, answer: Callable[[str], None]) -> None:
        said = self.refusal()
        if said:
            return self.refuse(403, said)
        path = self.inside()
        if path is None:
            if self.command == "GET" and self.asked_path() == "/":
                return self.give_door()
            return self.refuse(403, "the link that leancop-play opened has a token, which this address lacks")
        if not self.server.at_once.acquire(blocking=False):
            return self.refuse(503, "too many requests at once")
        try:
            return answer(path)
        finally:
            self.server.at_once.release()

    def get(self, path: str) -> None:
        if self.foreign():
            return self.refuse(403, "this server answers to its own page alone")
        name = path or "page.html"
        if name in self.server.files:
            return self.give(200, KINDS[name], self.server.files[name])
        page = self.server.bench.pages.get(name.removeprefix("shown/")) if name.startswith("shown/") else None
        if page is not None:  # it has a policy of its own within, and gets no origin here
            return self.give(200, "text/html", page, "sandbox allow-scripts allow-modals; frame-ancestors 'self'")
        return self.refuse(404, "there is nothing here")

    def post(self, path: str) -> None:
        if self.foreign():
            return self.refuse(403, "this server answers to its own page alone")
        length = self.headers.get("Content-Length", "")
        if not length.isdecimal() or len(length) > 9 or self.headers.get("Transfer-Encoding"):
            return self.refuse(411, "a length is wanted")
        if int(length) > LONGEST_BODY:
            return self.refuse(413, f"a question has at most {LONGEST_BODY} bytes")
        if self.headers.get("Content-Type") != "application/json":
            return self.refuse(415, "a question is JSON")
        try:
            asked = json.loads(self.rfile.read(int(length)))
            if not isinstance(asked, dict):
                raise ValueError
        except (ValueError, RecursionError):
            return self.refuse(400, "this is no question")
        work = {"api/start": self.start, "api/state": self.state, "api/stop": self.stop, "api/here": self.here}.get(path)
        if work is None:
            return self.refuse(404, "there is nothing here")
        try:
            return self.give_json(work(asked))
        except Refused as refusal:
            return self.give_json({"refused": str(refusal)})

    # ---- questions

    def here(self, _: dict[str, Any]) -> dict[str, Any]:
        return {"remarks": self.server.bench.tools.remarks(), "address": f"http://127.0.0.1:{self.server.server_port}/"}

    def start(self, asked: dict[str, Any]) -> dict[str, Any]:
        question, name = Question.of(asked), secrets.token_urlsafe(9)
        what, steps = asked.get("what"), asked.get("steps", [])
        if not isinstance(steps, list) or len(steps) > 2_000 or not all(isinstance(s, str) and len(s) <= 4_000 and "\n" not in s for s in steps):
            raise Refused("an exercise has at most 2,000 lines of at most 4,000 characters")
        if what == "exercise":
            step = asked.get("asked")
            work: Callable[[Job], None] = partial(answers.exercise, question=question, steps=steps, asked=step if isinstance(step, dict) else None)
        elif what == "help":
            work = partial(answers.help_exercise, question=question, steps=steps)
        elif what == "export":
            form, text = str(asked.get("form", "")), str(asked.get("text", ""))[:LONGEST_BODY]
            work = partial(answers.export, question=question, form=form, text=text)
        elif what in ("ask", "table"):
            work = partial(answers.ask if what == "ask" else answers.table, question=question)
        else:
            raise Refused("there is no such question")
        self.server.bench.start(name, work)
        return {"job": name}

    def job(self, asked: dict[str, Any]) -> Job:
        job = self.server.bench.jobs.get(str(asked.get("job", "")))
        if job is None:
            raise Refused("this question is not being answered any more")
        return job

    def state(self, asked: dict[str, Any]) -> dict[str, Any]:
        seen = asked.get("seen", 0)
        events, over = self.job(asked).since(seen if isinstance(seen, int) and seen >= 0 else 0, 10)
        return {"events": events, "over": over}

    def stop(self, asked: dict[str, Any]) -> dict[str, Any]:
        self.job(asked).stop()
        return {}


def opened(bench: Bench, port: int | None) -> Server:
    """The server at the port asked for; without one at the usual port, or where that is taken at a free one."""
    try:
        return Server(USUAL_PORT if port is None else port, bench)
    except OSError:
        if port is not None:
            raise
        return Server(0, bench)


def serve(tools: Tools, port: int | None, browser: bool, fragment: str) -> int:
    sys.setrecursionlimit(20_000)
    threading.stack_size(64 << 20)  # formulas and long derivations are gone through by recursion; only what is used is taken
    signal.signal(signal.SIGINT, signal.SIG_DFL)
    keeper = Keeper()
    bench = Bench(keeper, tools)
    try:
        server = opened(bench, port)
    except OSError as fault:
        print(f"leancop-play: port {port}: {fault.strerror}", file=sys.stderr)
        keeper.close()
        return 6
    over = threading.Event()
    for name in (signal.SIGINT, signal.SIGTERM, signal.SIGHUP):
        signal.signal(name, lambda *_: over.set())
    threading.Thread(target=server.serve_forever, daemon=True).start()
    link = f"http://127.0.0.1:{server.server_port}/{server.token}/" + (f"#{fragment}" if fragment else "")
    print(f"leancop-play: {link}\nleancop-play: Ctrl-C ends it.", flush=True)
    for remark in tools.remarks():
        print(f"leancop-play: {remark}", flush=True)
    if browser and not webbrowser.open(link):
        print("leancop-play: no browser was found; open the link above.", flush=True)
    over.wait()
    bench.stop_all()
    keeper.close()
    return 0
