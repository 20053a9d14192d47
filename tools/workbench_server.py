"""The server of the workbench: on 127.0.0.1 alone, for who knows its key, and for no page but its own."""
import hmac
import json
import secrets
import socket
import sys
import threading
from http.server import BaseHTTPRequestHandler, ThreadingHTTPServer
from pathlib import Path

import workbench_layout as layout
import workbench_plans as plans
import workbench_texts as texts
from kaba_tools import HERE
from workbench_runs import Fault, has_tool
from workbench_session import Stale, Superseded

PAGE = HERE / "tools" / "workbench-page"
KINDS = {".html": "text/html", ".css": "text/css", ".js": "text/javascript", ".svg": "image/svg+xml"}
MOST_BYTES = 4 << 20
SECONDS = 30

POLICY = (
    "default-src 'none'; script-src 'self'; style-src 'self'; img-src 'self'; connect-src 'self'; "
    "base-uri 'none'; form-action 'none'; frame-ancestors 'none'"
)
HEADERS = {
    "Content-Security-Policy": POLICY,
    "X-Content-Type-Options": "nosniff",
    "Referrer-Policy": "no-referrer",
    "Cross-Origin-Resource-Policy": "same-origin",
    "Cross-Origin-Opener-Policy": "same-origin",
    "X-Frame-Options": "DENY",
    "Cache-Control": "no-store",
}


def page_files():
    """The files of the page by their names, which are all that is served."""
    return {file.name: (KINDS[file.suffix], file.read_bytes()) for file in Path(PAGE).iterdir() if file.suffix in KINDS}


def flags():
    return {name: has_tool(name) for name in ("plan", "propose", "patch", "same")}


GET = {
    "program": lambda session, given: {**session.program.described(), "start": session.start, "tools": flags()},
    "state": lambda session, given: session.state(),
    "tree": lambda session, given: texts.tree(session),
}
POST = {
    "edit": lambda session, given: session.edit(lists(given, "choices"), text(given, "title"), given.get("revision")),
    "mends": lambda session, given: {"mends": session.mends(
        words(given, "edits"), text(given, "title"), given.get("revision"))},
    "undo": lambda session, given: session.undo(number(given, "count"), given.get("revision")),
    "clean": lambda session, given: session.without_refused(given.get("revision")),
    "reread": lambda session, given: session.read_again(),
    "keep": lambda session, given: session.keep_mine(),
    "java": lambda session, given: texts.java_beside(session, form(given)),
    "run": lambda session, given: texts.runs(session, words(given, "words"), number(given, "steps"), form(given)),
    "layout": lambda session, given: layout.asked(given),
    "plan": lambda session, given: {"edits": plans.edits_of_plan(session, text(given, "plan"))},
    "plan-of": lambda session, given: plans.plan_of(session),
    "propose": lambda session, given: {"plan": plans.proposal(session, words(given, "classes"))},
}
DOWNLOADS = {
    "script.edits": lambda session: session.script.text().encode(),
    "written.java": lambda session: texts.java(session, texts.WRITTEN).encode(),
    "patched.java": lambda session: texts.java(session, texts.PATCHED).encode(),
    "patched.diff": lambda session: texts.patched(session)["diff"],
    "plan": lambda session: plans.plan_of(session)["plan"].encode(),
}


def text(given, key):
    found = given.get(key, "")
    if not isinstance(found, str):
        raise Fault(f"{key} is a text")
    return found


def words(given, key):
    found = given.get(key, [])
    if not isinstance(found, list) or not all(isinstance(it, str) for it in found):
        raise Fault(f"{key} is a list of texts")
    return found


def lists(given, key):
    found = given.get(key, [])
    if not isinstance(found, list) or not found:
        raise Fault(f"{key} is a list of lists of texts")
    return [words({key: it}, key) for it in found]


def number(given, key):
    found = given.get(key)
    if not isinstance(found, int) or isinstance(found, bool):
        raise Fault(f"{key} is a number")
    return found


def form(given):
    return texts.PATCHED if given.get("form") == texts.PATCHED else texts.WRITTEN


class Handler(BaseHTTPRequestHandler):
    """Answers one connection."""

    protocol_version, server_version, sys_version = "HTTP/1.1", "kaba-workbench", ""
    timeout = SECONDS

    def log_message(self, format, *words):
        """Nothing is told of a request: its path has the key."""

    def send(self, status, kind, body, more=()):
        self.send_response(status)
        for name, value in [*HEADERS.items(), ("Content-Type", kind), ("Content-Length", str(len(body))), *more]:
            self.send_header(name, value)
        self.end_headers()
        if self.command != "HEAD":
            self.wfile.write(body)

    def send_json(self, status, value):
        self.send(status, "application/json; charset=utf-8",
            json.dumps(value, ensure_ascii=False).encode(errors="replace"))

    def refuse(self, status, why):
        self.close_connection = True
        self.send(status, "text/plain; charset=utf-8", (why + "\n").encode())

    def path_within(self):
        """What stands behind the key of a lawful request; else the request is refused."""
        server = self.server
        if self.headers.get_all("Host", []) not in [[host] for host in server.hosts]:
            return self.refuse(421, "this server is asked by its own address alone")
        origin = self.headers.get("Origin")
        if origin is not None and origin not in server.origins:
            return self.refuse(403, "another page has no business here")
        if self.headers.get("Sec-Fetch-Site", "same-origin") not in ("same-origin", "none"):
            return self.refuse(403, "another page has no business here")
        key, found, rest = self.path.partition("?")[0].lstrip("/").partition("/")
        if not hmac.compare_digest(key.encode(), server.key.encode()) or not found:
            return self.refuse(404, "there is nothing here; the address with its key is what tools/workbench printed")
        return rest

    def do_GET(self):
        rest = self.path_within()
        if rest is None:
            return
        if rest in self.server.files or rest == "":
            kind, body = self.server.files[rest or "index.html"]
            self.send(200, f"{kind}; charset=utf-8", body)
        elif rest in [f"get/{name}" for name in DOWNLOADS]:
            self.answer(lambda session: self.download(rest[4:], session))
        elif rest.startswith("api/") and rest[4:] in GET:
            self.answer(lambda session: self.send_json(200, GET[rest[4:]](session, {})))
        else:
            self.refuse(404, "there is nothing here")

    do_HEAD = do_GET

    def do_POST(self):
        rest = self.path_within()
        if rest is None:
            return
        if not rest.startswith("api/") or rest[4:] not in POST:
            return self.refuse(404, "there is nothing here")
        if self.headers.get("Content-Type", "").split(";")[0] != "application/json":
            return self.refuse(415, "what is asked is JSON")
        length = self.headers.get("Content-Length", "")
        if not length.isascii() or not length.isdigit() or int(length) > MOST_BYTES:
            return self.refuse(413, f"a request has at most {MOST_BYTES} bytes, and says how many")
        body = self.rfile.read(int(length))
        self.answer(lambda session: self.send_json(200, POST[rest[4:]](session, object_in(body))))

    def download(self, name, session):
        body = DOWNLOADS[name](session)
        file = session.program.copy
        own = {"script.edits": Path(session.script.path).name, "patched.diff": file.stem + ".diff",
            "plan": file.stem + ".plan"}.get(name, file.name)
        plain = "".join(c if c.isascii() and (c.isalnum() or c in "._-") else "_" for c in own)
        self.send(200, "application/octet-stream", body, [("Content-Disposition", f'attachment; filename="{plain}"')])

    def answer(self, make):
        """Answers what was asked, or says in words why not."""
        try:
            make(self.server.session)
        except Stale as stale:
            self.send_json(409, {"why": str(stale), "state": self.server.session.state()})
        except Superseded:
            self.send_json(200, {"superseded": True})
        except Fault as fault:
            self.send_json(422, {"why": str(fault)})
        except (KeyError, TypeError, ValueError, RecursionError):
            self.send_json(400, {"why": "this is not what a page of the workbench asks"})

    def handle(self):
        try:
            super().handle()
        except (ConnectionError, socket.timeout):
            pass


def object_in(body):
    found = json.loads(body)
    if not isinstance(found, dict):
        raise ValueError("no object")
    return found


class Server(ThreadingHTTPServer):
    """The server of one session."""

    daemon_threads = True
    allow_reuse_address = True

    def __init__(self, session, port):
        super().__init__(("127.0.0.1", port), Handler)
        self.session, self.key, self.files = session, secrets.token_urlsafe(24), page_files()
        number = self.server_address[1]
        self.hosts = [f"127.0.0.1:{number}", f"localhost:{number}"]
        self.origins = [f"http://{host}" for host in self.hosts]

    @property
    def address(self):
        return f"{self.origins[0]}/{self.key}/"

    def handle_error(self, request, client_address):
        """One line for what went wrong while a request was answered."""
        fault = sys.exc_info()[1]
        if not isinstance(fault, ConnectionError):
            print(f"workbench: a request was not answered: {type(fault).__name__}: {fault}", file=sys.stderr)

    def stop_soon(self):
        threading.Thread(target=self.shutdown, daemon=True).start()
