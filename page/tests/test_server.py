"""The server as a whole, by plain requests: what it refuses, and what it does when its program or a reader goes away."""

import json
import os
import signal
import socket
import subprocess
import tempfile
import time
import unittest
from pathlib import Path

from serving import PROGRAM, TOP, PageServer

SMALL = TOP / "samples" / "first.lex"
LINE = {"lexicon": 0, "scheme": "slp1", "text": "rAmo vanaM gacCati", "order": "program", "begin": 0, "most": 20}
READING = {"lexicon": 0, "bookmark": "1;rAmo_vanaM_gacCati;;0;", "order": "program", "begin": 0, "most": 20}


class WithServer(unittest.TestCase):
    @classmethod
    def setUpClass(cls):
        cls.server = PageServer(SMALL)
        cls.addClassCleanup(cls.server.stop)

    def post(self, body=None, path="/ask/line", **changes):
        return self.server.request(
            "POST", path, body if body is not None else json.dumps(LINE), self.server.headers(**changes)
        )[0]


class Guards(WithServer):
    def test_a_question_as_the_page_asks_it_is_answered(self):
        status, answer = self.server.ask("line", LINE)
        self.assertEqual((status, answer["count"], answer["line"]), (200, 1, "rAmo_vanaM_gacCati"))

    def test_only_the_loopback_address_is_served(self):
        listening = (
            subprocess.run(["ss", "-Hltnp"], capture_output=True, text=True).stdout
            if os.path.exists("/usr/bin/ss")
            else ""
        )
        found = [line.split()[3] for line in listening.splitlines() if f"pid={self.server.process.pid}," in line]
        self.assertIn(found, ([], [f"127.0.0.1:{self.server.port}"]))
        with self.assertRaises(OSError):
            socket.create_connection(("127.0.0.2", self.server.port), timeout=2).close()

    def test_host_and_origin(self):
        for host in (
            "evil.example",
            f"evil.example:{self.server.port}",
            "127.0.0.1",
            f"127.0.0.1:{self.server.port + 1}",
            "",
        ):
            self.assertEqual(self.server.get("/", Host=host)[0], 403, host)
            self.assertEqual(self.post(Host=host), 403, host)
        for origin in ("http://evil.example", "null", f"https://127.0.0.1:{self.server.port}", None):
            self.assertEqual(self.post(Origin=origin), 403, origin)
        self.assertEqual(self.server.get("/", Origin="http://evil.example")[0], 403)
        self.assertEqual(self.post(**{"Sec-Fetch-Site": "cross-site"}), 403)
        self.assertEqual(self.server.get(f"http://127.0.0.1:{self.server.port}/")[0], 404)

    def test_token(self):
        for token in (None, "", "x", self.server.token + "x", self.server.token[:-1], "\u00e9"):
            self.assertEqual(self.post(**{"X-Page-Token": token and token.encode("latin-1")}), 403, token)

    def test_bodies(self):
        for body in (
            "",
            "[]",
            "null",
            "{",
            '{"lexicon":0}',
            "[" * 100_000,
            b"\xff{}",
            json.dumps({**LINE, "more": 1}),
        ):
            self.assertEqual(self.post(body), 400, body[:20])
        self.assertEqual(self.post(**{"Content-Type": "text/plain"}), 400)
        self.assertEqual(self.post(json.dumps({**LINE, "text": "a" * 300_000})), 413)
        self.assertEqual(self.post(**{"Transfer-Encoding": "chunked"}), 400)
        self.assertEqual(self.post(**{"Content-Length": "-1"}), 400)
        self.assertEqual(self.post(**{"Content-Length": "99999999999"}), 413)

    def test_fields(self):
        for changes in (
            {"lexicon": 1},
            {"lexicon": -1},
            {"lexicon": True},
            {"lexicon": "0"},
            {"scheme": "latin"},
            {"scheme": []},
            {"text": 1},
            {"text": "a\nquit"},
            {"text": "a\rb"},
            {"text": "a\0b"},
            {"text": "\ud800"},
            {"order": ""},
            {"begin": -1},
            {"begin": 1001},
            {"most": 101},
            {"most": 1.0},
            {"most": None},
        ):
            self.assertEqual(self.post(json.dumps({**LINE, **changes})), 400, changes)
        for segments in (
            1,
            [1],
            [[0, 0, "noun"]],
            [[0, 0, 1, "na"]],
            [[True, 0, "noun", "na"]],
            [[0, 0, "noun", "na"]] * 201,
        ):
            body = {"lexicon": 0, "bookmark": READING["bookmark"], "segments": segments}
            self.assertEqual(
                self.post(json.dumps(body), "/ask/analyses"),
                400,
                segments if isinstance(segments, int) else segments[0],
            )

    def test_paths_and_methods(self):
        for path in (
            "/../server.py",
            "/js/../../server.py",
            "/%2e%2e/server.py",
            "//etc/passwd",
            "/js/",
            "/index.html",
            "/tests/run.py",
        ):
            self.assertEqual(self.server.get(path)[0], 404, path)
        self.assertEqual(self.post("{}", "/ask/nothing"), 404)
        self.assertEqual(self.post("{}", "/ask/__init__"), 404)
        self.assertEqual(self.server.request("PUT", "/", "", {})[0], 501)
        self.assertEqual(self.server.get("/ask/line")[0], 404)

    def test_what_the_program_refuses_is_an_answer(self):
        for text, told in {
            "rAmo!": ("spelling", 4),
            "|": ("no letters", None),
            "a" * 1001: ("too long", None),
        }.items():
            status, answer = self.server.ask("line", {**LINE, "text": text})
            self.assertEqual((status, answer["refused"], answer["at"]), (200, *told))
        for bookmark in ("", "1;rAmo;+0.0.15.rAmaH;0;", "2;a;;0;", "1;rAmo\u00a0;;0;", "quit"):
            status, answer = self.server.ask("reading", {**READING, "bookmark": bookmark})
            self.assertEqual((status, answer["refused"]), (200, "bookmark"), bookmark)

    def test_texts_that_are_not_there(self):
        for name in ("../server.py", "/etc/passwd", "none", ""):
            status, answer = self.server.ask("open", {"lexicon": 0, "text": name})
            self.assertEqual((status, "refused" in answer), (200, True), name)

    def test_headers(self):
        for path in ("/", "/js/main.js", "/css/page.css", "/nothing"):
            headers = self.server.get(path)[1]
            policy = headers["Content-Security-Policy"]
            self.assertIn("default-src 'none'", policy)
            self.assertNotIn("unsafe", policy)
            self.assertEqual(headers["X-Content-Type-Options"], "nosniff")
            self.assertEqual(headers["Referrer-Policy"], "no-referrer")

    def test_what_is_not_http(self):
        for sent in (
            b"\0" * 2000 + b"\r\n\r\n",
            b"GET / HTTP/9.9\r\n\r\n",
            b"A" * 70_000 + b"\r\n\r\n",
            b"POST /ask/line HTTP/1.1\r\nHost: x\r\n\r\n",
        ):
            with socket.create_connection(("127.0.0.1", self.server.port), timeout=10) as connection:
                connection.sendall(sent)
                self.assertNotIn(b" 200 ", connection.recv(100)[:20])
        self.test_a_question_as_the_page_asks_it_is_answered()

    def test_more_connections_than_are_served_are_closed(self):
        opened = []
        try:
            for _ in range(150):
                opened.append(socket.create_connection(("127.0.0.1", self.server.port), timeout=5))
            opened[-1].settimeout(5)
            self.assertEqual(opened[-1].recv(10), b"")
        finally:
            for connection in opened:
                connection.close()
        deadline = time.monotonic() + 10
        while time.monotonic() < deadline:
            try:
                return self.test_a_question_as_the_page_asks_it_is_answered()
            except OSError:
                time.sleep(0.1)
        self.fail("the server does not answer after many connections")


class Programs(unittest.TestCase):
    def test_a_killed_program_is_not_noticed(self):
        server = PageServer(SMALL)
        self.addCleanup(server.stop)
        before = server.ask("reading", READING)
        (number,) = server.programs()
        os.kill(number, signal.SIGKILL)
        self.assertEqual(server.ask("reading", {**READING, "most": 19})[1]["boxes"], before[1]["boxes"])
        self.assertEqual(server.ask("stretch", {"lexicon": 0, "bookmark": READING["bookmark"]})[0], 200)
        self.assertNotEqual(server.programs(), [number])

    def test_ending_the_server_ends_its_programs(self):
        for sign in (signal.SIGINT, signal.SIGTERM):
            server = PageServer(SMALL)
            server.ask("line", LINE)
            (number,) = server.programs()
            server.process.send_signal(sign)
            self.assertEqual(server.process.wait(timeout=20), 0)
            with self.assertRaises(ProcessLookupError):
                os.kill(number, 0)
            server.stop()

    def test_a_start_that_fails_says_why(self):
        for words, why in (
            (["none.lex"], "none.lex"),
            (["--program", "/bin/true"], "is not the program"),
            ([str(SMALL), "none.txt"], "none.txt"),
        ):
            ended = subprocess.run(
                [
                    str(TOP / "sandhi-page"),
                    *words,
                    "--no-browser",
                    "--port",
                    "0",
                    *([] if "--program" in words else ["--program", PROGRAM]),
                ],
                capture_output=True,
                text=True,
                timeout=60,
            )
            self.assertEqual(ended.returncode, 1)
            said = [line for line in ended.stderr.splitlines() if not line.startswith("sandhi: ")]
            self.assertEqual(len(said), 1, ended.stderr)
            self.assertIn(why, said[0])

    def test_a_refused_lexicon_is_named_on_the_page(self):
        with tempfile.TemporaryDirectory() as folder:
            path = Path(folder) / "bad.lex"
            path.write_text(SMALL.read_text(encoding="utf-8").replace("rule aH|v>ov", "rule aH|v>"), encoding="utf-8")
            server = PageServer(path)
            self.addCleanup(server.stop)
            self.assertIn("line 5: Strict", server.ask("line", LINE)[1]["refused"])


if __name__ == "__main__":
    unittest.main()
