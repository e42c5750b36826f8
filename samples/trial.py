"""What the scripts that try the program share: a folder with the sample files, and a count of what held.

Each script is called as `samples/try_NAME.py PROGRAM`; its last line is `N passed, N failed`, and its status is 1 where something
failed."""
import argparse
import os
import shutil
import subprocess
import sys
import tempfile
from pathlib import Path

SAMPLES = Path(__file__).resolve().parent
LEXICON_TEXT = SAMPLES.parent / "recipes" / "lexicon_text.py"
SOURCES = ("rules.toml", "tables.csv", "stems.csv")
NOBODY = 65534


class Trial:
    """A folder with the sample sources, in which the program runs."""

    def __init__(self, program, folder):
        self.program = program
        self.folder = folder
        self.passed = 0
        self.failed = 0
        for source in SOURCES:
            shutil.copy(SAMPLES / source, folder / source)
        os.chmod(folder, 0o755)

    def run(self, *words, **more):
        """The program's run over these words. What is not told of its streams is caught, and its input is empty."""
        more.setdefault("stdout", subprocess.PIPE)
        more.setdefault("stderr", subprocess.PIPE)
        if "input" not in more:
            more.setdefault("stdin", subprocess.DEVNULL)
        return subprocess.run([self.program, *words], cwd=self.folder, check=False, **more)

    def build(self, stems="stems.csv", out="made.lex", **more):
        return self.run("build", "rules.toml", "tables.csv", stems, str(out), **more)

    def write_first(self, lexicon, name):
        """Writes the text of version 1 of a lexicon that was built, which no command does."""
        with open(self.folder / name, "wb") as file:
            subprocess.run([sys.executable, LEXICON_TEXT, "first", lexicon], cwd=self.folder, stdout=file, check=True)

    def bytes_of(self, name):
        return (self.folder / name).read_bytes()

    def leftovers(self):
        """The new files that did not come to take the place of OUT."""
        return [name for name in os.listdir(self.folder) if name.startswith(".sandhi-")]

    def tell(self, what, holds, more=""):
        if holds:
            self.passed += 1
        else:
            self.failed += 1
        print(f"{'ok' if holds else 'FAILED'}: {what}{more}", flush=True)

    def tell_not_tried(self, what, why):
        print(f"not tried: {what}, since {why}", flush=True)


def become_nobody():
    """Before a run: root may read and write all, so it becomes a user who may not."""
    if os.getuid() == 0:
        os.setuid(NOBODY)


def arguments_of(description):
    """A parser of the words of a script, which begin with the program."""
    arguments = argparse.ArgumentParser(description=description.splitlines()[0])
    arguments.add_argument("program")
    return arguments


def try_all(given, trials, kind=Trial):
    """Makes the trials in one folder, which goes afterwards, and ends the script."""
    with tempfile.TemporaryDirectory() as name:
        trial = kind(os.path.abspath(given.program), Path(name))
        for one in trials:
            one(trial)
    print(f"{trial.passed} passed, {trial.failed} failed")
    sys.exit(1 if trial.failed else 0)
