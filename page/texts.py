"""The texts that the page opens: files of the folder in which it was started, and the one that it was given."""

from pathlib import Path

MOST_TEXT_BYTES = 4_000_000
MOST_FILES = 500
ENDINGS = {"", ".txt", ".text", ".md", ".slp1", ".iast", ".wx", ".hk", ".velthuis", ".devanagari"}


class NoText(Exception):
    """A text is not there, or can't be read. Its text says why."""


class Texts:
    """Texts by their names. A name that is not in this list opens nothing, so no request reaches another file."""

    def __init__(self, folder, given=None):
        self._folder = Path(folder)
        self._given = Path(given).resolve() if given else None

    @property
    def given(self):
        """The name of the text that was given, or None."""
        return self._given.name if self._given else None

    def names(self):
        """The names of the texts that may be opened."""
        try:
            found = [path.name for path in sorted(self._folder.iterdir()) if self._is_text(path)][:MOST_FILES]
        except OSError:
            found = []
        return found if self.given in (None, *found) else [self.given, *found]

    @staticmethod
    def _is_text(path):
        is_shown = not path.name.startswith(".") and path.suffix.lower() in ENDINGS
        return is_shown and path.is_file() and 0 < path.stat().st_size <= MOST_TEXT_BYTES

    def path(self, name):
        """The path of a text by its name."""
        if name == self.given:
            return self._given
        if name not in self.names():
            raise NoText("there is no such text in this folder")
        return self._folder / name

    def lines(self, name):
        """The lines of a text, without their line ends."""
        path = self.path(name)
        try:
            if path.stat().st_size > MOST_TEXT_BYTES:
                raise NoText(f"{name} has more than {MOST_TEXT_BYTES:,} bytes")
            text = path.read_bytes().decode("utf-8-sig")
        except OSError as fault:
            raise NoText(f"{name}: {fault.strerror}") from fault
        except UnicodeDecodeError as fault:
            raise NoText(f"{name} is not UTF-8 at byte {fault.start}") from fault
        return [line.rstrip("\r") for line in text.replace("\0", "\ufffd").split("\n")]
