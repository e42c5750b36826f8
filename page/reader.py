"""The one session that serves all tabs over a lexicon, and a new one where it ended or its input is full."""

import threading

from session import Ended, Full, OutOfTime, Session

ADDRESS_SPACE = 2 * 1024**3  # bytes that the program may take
MOST_SECONDS = 20  # that one request may take
MOST_COMMANDS = 1_000  # that one request may send
MOST_WAITING = 32  # requests that wait for one lexicon


class Busy(Exception):
    """Too many requests are waiting for this lexicon."""


class TooManyCommands(Exception):
    """A request would send more commands than one may, or more than the input of a program may have."""


class Exchange:
    """What a request may ask of a session: at most MOST_COMMANDS commands."""

    def __init__(self, session):
        self._session = session
        self._left = MOST_COMMANDS

    def ask(self, command):
        if self._left == 0:
            raise TooManyCommands
        self._left -= 1
        return self._session.ask(command)


class Reader:
    """Answers requests over one lexicon, one at a time.

    A request is a function of an `Exchange`. It begins with `text` or `resume`, so that it finds the session as it
    needs it whoever used it before, and so that it can be asked again from its beginning.
    """

    def __init__(self, program, lexicon, seconds=MOST_SECONDS, **limits):
        self._start = lambda: Session(program, lexicon, **{"address_space": ADDRESS_SPACE, **limits})
        self._seconds = seconds
        self._session = None
        self._lock = threading.Lock()
        self._places = threading.BoundedSemaphore(MOST_WAITING)
        self._is_closed = False

    @property
    def process(self):
        """The number of the process that runs now, or None."""
        session = self._session
        return session.number if session else None

    def answer(self, request):
        """What the request gives. A program that ended is started again, once for a request."""
        if not self._places.acquire(blocking=False):
            raise Busy
        try:
            with self._lock:
                return self._answer(request)
        finally:
            self._places.release()

    def _answer(self, request):
        may_fail = may_be_full = True
        while True:
            session = self._running()
            try:
                with session.within(self._seconds):
                    return request(Exchange(session))
            except Full as fault:
                self._drop()
                if not may_be_full:
                    raise TooManyCommands from fault
                may_be_full = False
            except OutOfTime:
                self._drop()
                raise
            except Ended:
                self._drop()
                if not may_fail:
                    raise
                may_fail = False

    def _running(self):
        if self._is_closed:
            raise Ended
        if self._session is None or not self._session.is_running:
            self._drop()
            self._session = self._start()
        return self._session

    def _drop(self):
        session, self._session = self._session, None
        if session:
            session.close()

    def warm(self):
        """Starts the program, so that the first request finds its lexicon read."""
        with self._lock:
            self._running()

    def close(self):
        """Ends the program, in the middle of a request too."""
        self._is_closed = True
        session = self._session
        if session:
            session.close()
