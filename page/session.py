"""One run of `sandhi read LEX`: a command goes in, its reply comes out, and the clock is watched."""

import contextlib
import os
import resource
import signal
import subprocess
import threading

MOST_COMMAND_BYTES = 65_536  # a longer line of a session is refused by the program
MOST_INPUT_BYTES = 16 * 1024 * 1024  # a session whose input is longer than this is ended by the program
ONE_LINE = {"text", "keep", "reject", "undo", "mark", "resume", "quit"}
LAST_LINES = (b"end\n", b"more\n")
REFUSED_FILE = "bad file "
SECONDS_TO_END = 0.5  # that a program which says nothing more has to end by itself
READ_FAULT = 3  # the exit status where the lexicon could not be read


class Ended(Exception):
    """The program ended before its reply was whole."""


class Full(Exception):
    """The command would bring the input of this run above its bound, so a new run has to answer it."""


class OutOfTime(Exception):
    """The program was stopped, since it took longer than a request may take."""


class BadLexicon(Exception):
    """The program refused the lexicon file, or could not read it. The text says why."""


class BadCommand(ValueError):
    """The command is none that may be sent."""


def as_line(command):
    """The bytes of a command with its line end. A command that would be two lines, or none, is refused."""
    if any(sign in command for sign in "\r\n\0"):
        raise BadCommand("a command has a line end or a NUL in it")
    try:
        line = command.encode("utf-8") + b"\n"
    except UnicodeEncodeError as fault:
        raise BadCommand("a command is not Unicode") from fault
    if len(line) > MOST_COMMAND_BYTES + 1:
        raise BadCommand("a command is too long")
    return line


def limit_memory(process, bytes_):
    """Bounds the address space of a process that was started."""
    with contextlib.suppress(ProcessLookupError):
        resource.prlimit(process, resource.RLIMIT_AS, (bytes_, bytes_))


class Session:
    """A running program. It answers one command after another, in the order in which they are asked."""

    def __init__(self, program, lexicon, address_space, most_input=MOST_INPUT_BYTES):
        self._lexicon = lexicon
        self._process = subprocess.Popen(
            [program, "read", lexicon],
            stdin=subprocess.PIPE,
            stdout=subprocess.PIPE,
            stderr=subprocess.DEVNULL,
            start_new_session=True,  # ctrl-C is for the server, which ends the program with all that it started
        )
        limit_memory(self._process.pid, address_space)
        self._room = most_input
        self._is_late = False

    @property
    def number(self):
        """The number of the process."""
        return self._process.pid

    @property
    def is_running(self):
        return self._process.poll() is None

    def ask(self, command):
        """The lines of the reply to a command, without their line ends."""
        line = as_line(command)
        if len(line) > self._room:
            raise Full
        self._room -= len(line)
        try:
            self._process.stdin.write(line)
            self._process.stdin.flush()
            reply = self._reply(command.split(" ", 1)[0] in ONE_LINE)
        except (OSError, ValueError) as fault:
            raise self._end() from fault
        if reply is None or reply[0].startswith(REFUSED_FILE):
            raise self._end(reply)
        return reply

    def _reply(self, is_one_line):
        lines = []
        while True:
            line = self._process.stdout.readline()
            if not line.endswith(b"\n"):
                return None
            lines.append(line[:-1].decode("utf-8"))
            is_refusal = len(lines) == 1 and line.startswith(b"?")
            if is_one_line or is_refusal or line in LAST_LINES:
                return lines

    def _end(self, reply=None):
        """What to raise where the program says nothing more. Where it refused its lexicon, it has said so."""
        if not self._is_late:
            with contextlib.suppress(subprocess.TimeoutExpired):
                self._process.wait(timeout=SECONDS_TO_END)
        self._kill()
        with contextlib.suppress(OSError, ValueError):
            reply = reply or self._process.stdout.readline().decode("utf-8", "replace").splitlines()
        self.close()
        if reply and reply[0].startswith(REFUSED_FILE):
            return BadLexicon(reply[0])
        if self._process.returncode == READ_FAULT:
            return BadLexicon(f"{self._lexicon} can't be read")
        return OutOfTime() if self._is_late else Ended()

    def _kill(self):
        with contextlib.suppress(ProcessLookupError, PermissionError):
            if self._process.poll() is None:
                os.killpg(self._process.pid, signal.SIGKILL)

    @contextlib.contextmanager
    def within(self, seconds):
        """Stops the program where what is done inside takes longer than this by the clock."""
        timer = threading.Timer(seconds, self._stop_late)
        timer.daemon = True
        timer.start()
        try:
            yield self
        finally:
            timer.cancel()

    def _stop_late(self):
        self._is_late = True
        self._kill()

    def close(self):
        """Ends the program, whatever it is doing."""
        self._kill()
        for stream in (self._process.stdin, self._process.stdout):
            with contextlib.suppress(OSError):
                stream.close()
        self._process.wait()
