#!/usr/bin/env python3
"""Tries what the program tells a person on standard error, for each exit status and each cause.

    samples/try_messages.py PROGRAM

Each row of ROWS is a run that ends with a status and says a line. Every line must have one of the forms that the README's table
of messages has, each of these must be said by a row, and so must each cause of the guide's table but those of NOT_TRIED."""
import os
import pty
import re
import resource
import signal
import subprocess
from dataclasses import dataclass, field

from trial import SAMPLES, arguments_of, become_nobody, try_all

TOP = SAMPLES.parent
MOST_INPUT = 16_777_216
SMALL = 40 << 20
BUILD = ("build", "rules.toml", "tables.csv", "stems.csv")
NO_FILE = "there is no such file or folder"
MARK = "1;nadI_gacCati;;0;"

# What can't be had here without another disk, or without waiting for a day.
NOT_TRIED = {"the disk is read-only", "the disk quota is used up", "it blocked for a day"}


@dataclass
class Row:
    """A run, the status with which it ends, and the lines that it says on standard error."""

    words: tuple
    status: int
    said: tuple
    more: dict = field(default_factory=dict)


def limit_memory():
    resource.setrlimit(resource.RLIMIT_AS, (SMALL, SMALL))


def limit_files():
    signal.signal(signal.SIGXFSZ, signal.SIG_IGN)
    resource.setrlimit(resource.RLIMIT_FSIZE, (4096, 4096))


def open_for(trial, name, mode):
    return open(trial.folder / name, mode)


def rows_of(trial):
    """The rows, over a folder in which their files are made."""
    folder = trial.folder
    trial.build()
    trial.write_first("made.lex", "first.lex")
    trial.write_first("made.lex", "old.lex")
    (folder / "bad.lex").write_bytes(trial.bytes_of("made.lex").replace(b"\nroot ", b"\nroot  ", 1))
    os.symlink("two", folder / "one")
    os.symlink("one", folder / "two")
    (folder / "folder").mkdir()
    os.symlink("stems.csv", folder / "link.csv")
    (folder / "secret").write_bytes(b"")
    os.chmod(folder / "secret", 0)
    (folder / "closed").mkdir()
    os.chmod(folder / "closed", 0o555)
    long_name = "a" * 300
    full = open("/dev/full", "wb")
    printed = open_for(trial, "printed.txt", "wb")
    cannot = "sandhi: cannot"
    replaced = "sandhi: OUT is the source '{}' too, which the lexicon will replace"
    return [
        Row(("check", "made.lex"), 0, ()),
        Row(("check", "/dev/zero"), 1, ("sandhi: there was not enough memory",), {"preexec_fn": limit_memory}),
        Row(("check", "nowhere"), 3, (f"{cannot} read 'nowhere': {NO_FILE}",)),
        Row(("check", "folder"), 3, (f"{cannot} read 'folder': it is a folder",)),
        Row(("check", "made.lex/x"), 3, (f"{cannot} read 'made.lex/x': a part of its path is no folder",)),
        Row(("check", "one"), 3, (f"{cannot} read 'one': too many links lead to it",)),
        Row(("check", long_name), 3, (f"{cannot} read '{long_name}': the name is too long",)),
        Row(("check", "secret"), 3, (f"{cannot} read 'secret': permission denied",), {"preexec_fn": become_nobody}),
        Row(("check", "a\n\x1b[1mb\x7f\u0085रामः"), 3, (f"{cannot} read 'a\\n\\u{{1b}}[1mb\\u{{7f}}\\u{{85}}रामः': {NO_FILE}",)),
        Row(("batch", "made.lex", "slp1", "nowhere", "1"), 3, (f"{cannot} read 'nowhere': {NO_FILE}",)),
        Row((*BUILD[:3], "nowhere", "out.lex"), 3, (f"{cannot} read 'nowhere': {NO_FILE}",)),
        Row(("read", "made.lex"), 3, (f"{cannot} read the input: it is a folder",), {"stdin": os.open(folder, os.O_RDONLY)}),
        Row(("segment", "made.lex", "rAmo"), 4, (f"{cannot} write the output: the disk is full",), {"stdout": full}),
        Row((*BUILD, "no/out.lex"), 4, (f"{cannot} write 'no/out.lex': {NO_FILE}",)),
        Row((*BUILD, "folder"), 4, (f"{cannot} write 'folder': it is a folder",)),
        Row((*BUILD, "/dev/full"), 4, (f"{cannot} write '/dev/full': the disk is full",)),
        Row((*BUILD, "out.lex"), 4, (f"{cannot} write 'out.lex': the file would be too large",), {"preexec_fn": limit_files}),
        Row(
            (*BUILD, "closed/out.lex"), 4,
            (f"{cannot} write 'closed/out.lex': no new file can be made beside it: permission denied",),
            {"preexec_fn": become_nobody},
        ),
        Row((*BUILD, "printed.txt"), 4, (f"{cannot} write 'printed.txt': standard output goes to it",), {"stdout": printed}),
        Row(
            (*BUILD, f"/dev/fd/{printed.fileno()}"), 4,
            (f"{cannot} write '/dev/fd/{printed.fileno()}': the name is that of an open file",),
            {"pass_fds": [printed.fileno()]},
        ),
        Row(("check", "rules.toml"), 5, ()),
        Row(("segment", "made.lex", "?"), 6, ()),
        Row(("split", "made.lex", "?", "9", "1"), 6, ()),
        Row(("join", "made.lex", "?"), 9, ()),
        Row(("annotate", "made.lex", MARK, "out.note"), 0, ()),
        Row(("annotate", "nowhere", MARK, "out.note"), 3, (f"{cannot} read 'nowhere': {NO_FILE}",)),
        Row(("annotate", "made.lex", MARK, "no/out.note"), 4, (f"{cannot} write 'no/out.note': {NO_FILE}",)),
        Row(("annotate", "made.lex", MARK, "other.note"), 4, (f"{cannot} write the output: the disk is full",), {"stdout": full}),
        Row(("annotate", "made.lex", "1;rAm;;0;", "out.note"), 10, ()),
        Row(("annotate", "made.lex", "1;senAgacCati;;0;", "out.note"), 11, ()),
        Row(("annotate", "made.lex", "?", "out.note"), 12, ()),
        Row(("reread", "made.lex", "out.note"), 0, ()),
        Row(("reread", "made.lex", "nowhere"), 3, (f"{cannot} read 'nowhere': {NO_FILE}",)),
        Row(("reread", "made.lex", "stems.csv"), 5, ()),
        Row(("migrate", "first.lex", "new.lex"), 0, ()),
        Row(("migrate", "old.lex", "old.lex"), 0, ()),
        Row(("migrate", "nowhere", "new.lex"), 3, (f"{cannot} read 'nowhere': {NO_FILE}",)),
        Row(("migrate", "first.lex", "no/new.lex"), 4, (f"{cannot} write 'no/new.lex': {NO_FILE}",)),
        Row(
            ("migrate", "first.lex", "new.lex"), 4,
            (f"{cannot} write 'new.lex': the file would be too large",),
            {"preexec_fn": limit_files},
        ),
        Row(("migrate", "first.lex", "new.lex"), 4, (f"{cannot} write the output: the disk is full",), {"stdout": full}),
        Row(("migrate", "bad.lex", "new.lex"), 5, ()),
        Row(("read", "made.lex"), 7, (f"sandhi: the input has more than {MOST_INPUT} bytes",), {"input": b"\n" * (MOST_INPUT + 1)}),
        Row((*BUILD, "link.csv"), 0, (replaced.format("stems.csv"),)),
    ]


def lines_of(said):
    return tuple(said.decode("utf-8").splitlines())


def try_rows(trial, said):
    for row in rows_of(trial):
        ended = trial.run(*row.words, **row.more)
        lines = lines_of(ended.stderr)
        said.update(lines)
        words = " ".join(word if len(word) < 40 else word[:10] + ".." for word in row.words)
        trial.tell(f"{words!r} says {row.said!r:.120}", (ended.returncode, lines) == (row.status, row.said), _but(ended, row, lines))


def _but(ended, row, lines):
    return "" if (ended.returncode, lines) == (row.status, row.said) else f", but ended with {ended.returncode}: {lines!r:.300}"


def try_closed_pipes(trial):
    """Whoever closed a pipe has what was wanted: status 4, and nothing is said."""
    for words in (("segment", "made.lex", "rAmo"), ("check", "made.lex"), ("batch", "made.lex", "slp1", "stems.csv", "9"), ("read", "made.lex")):
        reading, writing = os.pipe()
        os.close(reading)
        ended = trial.run(*words, stdout=writing, input=b"page 1\n")
        os.close(writing)
        trial.tell(f"{words[0]} into a closed pipe", (ended.returncode, ended.stderr) == (4, b""), f" {ended}" if ended.stderr else "")


def try_usage(trial):
    """The commands in one order, but that of the first word comes first; no similar word is guessed."""
    all_lines = lines_of(trial.run().stderr)
    names = [line.split()[1] for line in all_lines[1:-1]]
    readme = (TOP / "README.md").read_text(encoding="utf-8")
    trial.tell("usage lists the commands of the README", names == re.findall(r"^### `([a-z]+)[ `]", readme, re.MULTILINE))
    for name in names:
        lines = lines_of(trial.run(name).stderr)
        wanted = sorted(all_lines[1:-1], key=lambda line: line.split()[1] != name)
        trial.tell(f"usage of {name}", lines == ("usage:", *wanted, all_lines[-1]))
    for words in (("bild", "x"), ("--help",), ("",), ("--", "build")):
        ended = trial.run(*words)
        trial.tell(f"usage of {words!r}", (ended.returncode, ended.stdout, lines_of(ended.stderr)) == (2, b"usage\n", all_lines))


def try_terminal(trial, said):
    """At a terminal `read` says that it is loading, and once it waits for a line that it is ready."""
    ours, theirs = pty.openpty()
    running = subprocess.Popen([trial.program, "read", "made.lex"], cwd=trial.folder, stdin=theirs, stdout=subprocess.PIPE, stderr=theirs)
    os.close(theirs)
    told = b""
    while told.count(b"\n") < 2:
        told += os.read(ours, 1024)
    os.write(ours, b"quit\n")
    output = running.communicate()[0]
    os.close(ours)
    lines = lines_of(told)
    said.update(lines)
    trial.tell("read at a terminal", (running.returncode, output) == (0, b"bye\n") and lines == (
        "sandhi: loading 'made.lex'", "sandhi: ready for the lines of a session; quit ends it"
    ), f" {lines!r}")


def forms_of(page, mark, column):
    """What stands in backticks in this column of the table that follows a mark, row by row."""
    text = (TOP / page).read_text(encoding="utf-8").split(mark, 1)[1].split("\n#", 1)[0]
    rows = [row.split(" | ") for row in re.findall(r"^\| (.*) \|$", text, re.MULTILINE)]
    return [form for row in rows if len(row) > column for form in re.findall(r"`([^`]+)`", row[column])]


def try_documents(trial, said):
    """The README has the form of each line, and each form was said; the guide has each cause."""
    forms = [form for form in forms_of("README.md", "<!-- what is said on standard error -->", 1) if form.startswith("sandhi: ")]
    patterns = {form: re.compile(re.escape(form).replace("NAME", ".*").replace("CAUSE", "(.+)")) for form in forms}
    for line in sorted(said):
        trial.tell(f"the README has {line!r:.100}", any(pattern.fullmatch(line) for pattern in patterns.values()))
    for form, pattern in patterns.items():
        trial.tell(f"some run says {form!r}", any(pattern.fullmatch(line) for line in said))
    causes = forms_of("docs/GUIDE.md", "<!-- causes on standard error -->", 0)
    for cause in causes:
        trial.tell(f"the cause {cause!r}", cause in NOT_TRIED or any(line.endswith(f": {cause}") for line in said))
    for line in said:
        if "cannot" in line:
            trial.tell(f"the guide has the cause of {line!r:.100}", any(line.endswith(f": {cause}") for cause in causes))


def main():
    said = set()
    given = arguments_of(__doc__).parse_args()
    try_all(given, [
        lambda trial: try_rows(trial, said),
        try_closed_pipes,
        try_usage,
        lambda trial: try_terminal(trial, said),
        lambda trial: try_documents(trial, said),
    ])


if __name__ == "__main__":
    main()
