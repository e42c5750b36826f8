"""The server of the page: files of the folder `static`, and questions with their answers."""

import http.server
import json
import threading
from pathlib import Path

from guards import HEADERS, Fields, Refused, body_length, check_host, check_question, new_token, read_body

ADDRESS = "127.0.0.1"
STATIC = Path(__file__).resolve().parent / "static"
KINDS = {
    ".html": "text/html; charset=utf-8",
    ".css": "text/css; charset=utf-8",
    ".js": "text/javascript; charset=utf-8",
    ".svg": "image/svg+xml",
}
TOKEN_MARK = "TOKEN-OF-THIS-START"
MOST_CONNECTIONS = 96  # a browser keeps up to six for a tab
IDLE_SECONDS = 30  # after which a connection that says nothing is closed


def read_static(token):
    """The files of the page by their paths, each with its kind. Only these are served."""
    files = {}
    for path in sorted(STATIC.rglob("*")):
        if path.suffix in KINDS:
            body = path.read_bytes()
            if path.name == "index.html":
                body = body.replace(TOKEN_MARK.encode(), token.encode())
            files["/" + path.relative_to(STATIC).as_posix()] = (KINDS[path.suffix], body)
    files["/"] = files.pop("/index.html")
    return files


class Handler(http.server.BaseHTTPRequestHandler):
    """Answers one connection."""

    protocol_version = "HTTP/1.1"
    server_version = "sandhi-page"
    sys_version = ""
    timeout = IDLE_SECONDS
    disable_nagle_algorithm = True

    def do_GET(self):
        self._guarded(self._file)

    do_HEAD = do_GET

    def do_POST(self):
        self._guarded(self._question)

    def _guarded(self, answer):
        try:
            check_host(self.headers, self.server.server_port)
            kind, body = answer()
            self._send(200, kind, body)
        except Refused as refused:
            self.close_connection = True  # a body that was not read is not taken for a request
            body = json.dumps({"failed": str(refused)}).encode()
            self._send(refused.status, "application/json", body)

    def _file(self):
        path = self.path.split("?", 1)[0]
        if path not in self.server.files:
            raise Refused(404, "there is no such file")
        return self.server.files[path]

    def _question(self):
        check_question(self.headers, self.server.token)
        name = self.path.removeprefix("/ask/")
        body = self.rfile.read(body_length(self.headers))
        answer = self.server.questions.answer(name, Fields(read_body(body)))
        return "application/json", json.dumps(answer, ensure_ascii=False, separators=(",", ":")).encode("utf-8")

    def _send(self, status, kind, body):
        self.send_response(status)
        self.send_header("Content-Type", kind)
        self.send_header("Content-Length", str(len(body)))
        for name, value in HEADERS.items():
            self.send_header(name, value)
        if self.close_connection:
            self.send_header("Connection", "close")
        self.end_headers()
        if self.command != "HEAD":
            self.wfile.write(body)

    def send_error(self, code, message=None, explain=None):
        """What the library refuses by itself gets the same headers, and nothing of the request is written back."""
        self.close_connection = True
        self._send(code, "application/json", json.dumps({"failed": "the request is not right"}).encode())

    def log_message(self, *_):
        """Nothing is said of requests, since they hold what is read."""


class Server(http.server.ThreadingHTTPServer):
    """Serves the page on the loopback address alone."""

    daemon_threads = True
    allow_reuse_address = True
    request_queue_size = 64

    def __init__(self, port, questions):
        self.token = new_token()
        self.files = read_static(self.token)
        self.questions = questions
        self._places = threading.BoundedSemaphore(MOST_CONNECTIONS)
        super().__init__((ADDRESS, port), Handler)

    def process_request(self, request, client_address):
        if self._places.acquire(blocking=False):
            super().process_request(request, client_address)
        else:
            self.shutdown_request(request)

    def process_request_thread(self, request, client_address):
        try:
            super().process_request_thread(request, client_address)
        finally:
            self._places.release()

    def handle_error(self, request, client_address):
        """A tab that goes away in the middle of an answer is no fault of the server."""
