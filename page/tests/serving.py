"""A server of the page for tests: `sandhi-page` as a reader starts it, and plain requests to it."""

import http.client
import json
import os
import re
import signal
import subprocess
import tempfile
from pathlib import Path

TOP = Path(__file__).resolve().parents[2]
PROGRAM = os.environ.get("SANDHI_PROGRAM", str(TOP / "sandhi"))
LEXICON = os.environ.get("SANDHI_LEXICON", "-")
READINGS = TOP / "lexicons" / "starter" / "readings" / "readings.tsv"

# A shell has what it runs in the background ignore ctrl-C, and the servers would inherit that and never be stopped by it.
signal.signal(signal.SIGINT, signal.default_int_handler)


def readings(path=READINGS):
    """The readings of the starter lexicon: number, source, line in Devanagari, reading."""
    return [line.split("\t") for line in path.read_text(encoding="utf-8").splitlines()]


class PageServer:
    """A running server. It is stopped as ctrl-C stops it."""

    def __init__(self, lexicon=LEXICON, text=None, program=PROGRAM, folder=None, **environment):
        self._room = tempfile.TemporaryDirectory(prefix="page-server-")
        self.folder = Path(folder or self._room.name)
        words = [
            str(TOP / "sandhi-page"),
            str(lexicon),
            *([str(text)] if text else []),
            "--no-browser",
            "--port",
            "0",
        ]
        self.process = subprocess.Popen(
            [*words, "--program", str(program)],
            cwd=self.folder,
            stdout=subprocess.PIPE,
            stderr=subprocess.PIPE,
            text=True,
            env={**os.environ, **environment},
            start_new_session=True,
        )
        found = None
        while not found and (said := self.process.stdout.readline()):
            found = re.search(r"http://127\.0\.0\.1:(\d+)/", said)
        if not found:
            raise RuntimeError(f"the server did not start: {said}{self.process.stderr.read()}")
        self.port = int(found[1])
        self.address = found[0]
        self.token = re.search(rb'name="token" content="([^"]+)"', self.get("/")[2])[1].decode()

    @property
    def origin(self):
        return self.address.rstrip("/")

    def request(self, method, path, body=None, headers=None):
        """The status, the headers and the body of the reply to a plain request."""
        connection = http.client.HTTPConnection("127.0.0.1", self.port, timeout=60)
        try:
            connection.request(method, path, body, headers or {})
            reply = connection.getresponse()
            return reply.status, reply.headers, reply.read()
        finally:
            connection.close()

    def get(self, path, **headers):
        return self.request("GET", path, headers=headers)

    def headers(self, **changes):
        """The headers of a question, with some of them changed, or left out where they are None."""
        headers = {"Origin": self.origin, "X-Page-Token": self.token, "Content-Type": "application/json", **changes}
        return {name: value for name, value in headers.items() if value is not None}

    def ask(self, name, fields):
        """The status and the answer to a question."""
        status, _, body = self.request("POST", f"/ask/{name}", json.dumps(fields), self.headers())
        return status, json.loads(body)

    def programs(self):
        """The numbers of the program's processes that this server runs."""
        listed = subprocess.run(
            ["ps", "-o", "pid=,args=", "--ppid", str(self.process.pid)], capture_output=True, text=True
        )
        return [int(line.split()[0]) for line in listed.stdout.splitlines() if " read " in line]

    def stop(self):
        if self.process.poll() is None:
            self.process.send_signal(signal.SIGINT)
        self.process.wait(timeout=20)
        self.process.stdout.close()
        self.process.stderr.close()
        self._room.cleanup()
