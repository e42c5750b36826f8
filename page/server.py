#!/usr/bin/env python3
"""Serves the reader's page: `server.py [LEX] [TEXT]`. It is started by `sandhi-page` at the top of the repository.

LEX is a lexicon file; without it the starter lexicon is made, once, and taken. TEXT is a text to read; without LEX it
can't be given by itself, and `-` stands for the starter lexicon. The server says its address and runs until ctrl-C.
"""

import argparse
import errno
import os
import signal
import subprocess
import sys
import threading
import webbrowser
from pathlib import Path

from lexicons import CannotBuild, own_lexicon, starter_lexicons
from questions import Questions
from texts import Texts
from web import Server

TOP = Path(__file__).resolve().parent.parent
PORT = 8137
OTHER_PORTS = 20  # that are tried where the port is taken
BROWSERS_OF_THE_TERMINAL = {"www-browser", "links", "elinks", "lynx", "w3m"}


def read_words(words):
    parser = argparse.ArgumentParser(prog="sandhi-page", description="Serves the reader's page in a browser.")
    parser.add_argument(
        "lexicon", nargs="?", default="-", help="a lexicon file; without it, or for -, the starter lexicon"
    )
    parser.add_argument("text", nargs="?", help="a text file to read")
    parser.add_argument(
        "--port", type=int, default=None, help=f"the port; without it {PORT}, or the next that is free"
    )
    parser.add_argument("--no-browser", action="store_true", help="open no browser")
    parser.add_argument(
        "--program", default=str(TOP / "sandhi"), help="the program; without it the one of this repository"
    )
    return parser.parse_args(words)


def cache_folder():
    base = os.environ.get("XDG_CACHE_HOME") or Path.home() / ".cache"
    return Path(base) / "yuzudeck"


def tell(words):
    print(words, flush=True)


def pass_on(line):
    """Shows what `sandhi` says while it builds the program. Its list of commands is not shown."""
    if line.startswith("sandhi: "):
        print(line, end="", file=sys.stderr, flush=True)
    return line


def status_of_program(program):
    """Builds the program where it is not built, and says whether it is proved: `proved`, `unproved` or `unknown`."""
    with subprocess.Popen(
        [program, "--"], stdin=subprocess.DEVNULL, stdout=subprocess.PIPE, stderr=subprocess.PIPE, text=True
    ) as asked:
        said = list(map(pass_on, asked.stderr))
        is_program = asked.stdout.read() == "usage\n"
    if not is_program:
        raise CannotBuild(f"{program} is not the program, or could not be built")
    if any("not proved" in line for line in said):
        return "unproved"
    return "proved" if Path(program).resolve() == TOP / "sandhi" else "unknown"


def make_questions(words):
    """What answers the page. The program is built and the lexicon is made here, before anything is served."""
    texts = Texts(Path.cwd(), words.text)
    if words.text:
        texts.lines(texts.given)
    program = str(Path(words.program).resolve())
    status = status_of_program(program)
    if words.lexicon == "-":
        lexicons = starter_lexicons(program, TOP / "lexicons" / "starter", cache_folder(), tell)
    else:
        lexicons = [own_lexicon(program, words.lexicon)]
    lexicons[0].open()
    return Questions(program, lexicons, texts, status)


def make_server(port, questions):
    """The server on this port, or on one of those after it where no port was asked for."""
    ports = [port] if port is not None else [*range(PORT, PORT + OTHER_PORTS), 0]
    for tried in ports:
        try:
            return Server(tried, questions)
        except OSError as fault:
            if fault.errno != errno.EADDRINUSE or tried == ports[-1]:
                raise


def open_browser(address):
    """Opens a browser in a window, where there is one."""
    try:
        browser = webbrowser.get()
    except webbrowser.Error:
        return
    has_window = os.environ.get("DISPLAY") or os.environ.get("WAYLAND_DISPLAY") or sys.platform == "darwin"
    if has_window and getattr(browser, "name", "") not in BROWSERS_OF_THE_TERMINAL:
        threading.Thread(target=browser.open, args=(address,), daemon=True).start()


def stop(*_):
    raise KeyboardInterrupt


def main():
    words = read_words(sys.argv[1:])
    questions = None
    try:
        questions = make_questions(words)
        questions.warm()
        server = make_server(words.port, questions)
        signal.signal(signal.SIGTERM, stop)
        address = f"http://127.0.0.1:{server.server_port}/"
        tell(f"The page is at {address}  (ctrl-C ends it)")
        if not words.no_browser:
            open_browser(address)
        server.serve_forever()
    except KeyboardInterrupt:
        print()
    except Exception as fault:  # whatever stands in the way of a start is said in a line
        print(f"sandhi-page: {fault}", file=sys.stderr)
        return 1
    finally:
        if questions:
            questions.close()
    return 0


if __name__ == "__main__":
    sys.exit(main())
