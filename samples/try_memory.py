#!/usr/bin/env python3
"""Tries that a run in which one request for memory is refused ends as it should.

    samples/try_memory.py PROGRAM [--requests N]

Each row of ROWS is run once with all the memory that it asks for, and then again and again with one request refused: the first
ones, the last ones, and some between, N in all, which are the same in each run of this script. Such a run ends with status 1, or
as the whole run did where it could do without; what it wrote is a beginning of the whole output; and OUT is not there or whole.
The allocator that refuses is `refusing.c` here, which is compiled with gcc. A new command gets a row here."""
import os
import shutil
import struct
import subprocess
from dataclasses import dataclass, field

from trial import SAMPLES, arguments_of, try_all

NO_MEMORY = 1
LINE = "rAmo vanaM gacCati ca senAM"
CHAIN = "rAmaH[noun] (aH|v>ov) vanam[noun] (m|g>Mg) gacCati[verb]"
MARK = "1;senAgacCati;+4.1.2.A;1;0.3.4,2.0.0,1.7.0"
SESSION = f"text slp1 {LINE}\npage 1\nsummary\nkeep 1\nmark\ntags 1\nundo\npage 9\nquit\n"


@dataclass
class Row:
    """A run: its words, its input, and the file that it makes."""

    words: tuple
    input: bytes = b""
    out: str = ""
    made: bytes = field(default=b"", init=False)


ROWS = (
    Row(("segment", "made.lex", LINE)),
    Row(("check", "made.lex")),
    Row(("read", "made.lex"), input=SESSION.encode()),
    Row(("batch", "made.lex", "slp1", "text", "9")),
    Row(("build", "rules.toml", "tables.csv", "stems.csv", "out.lex"), out="out.lex"),
    Row(("migrate", "first.lex", "new.lex"), out="new.lex"),
    Row(("check", "first.lex")),
    Row(("demo", "0")),
    Row(("convert", "slp1", "iast", "verses", "out.text"), out="out.text"),
    Row(("join", "made.lex", CHAIN)),
    Row(("split", "made.lex", LINE, "9", "2")),
    Row(("annotate", "made.lex", MARK, "out.note"), out="out.note"),
    Row(("reread", "made.lex", "made.note")),
)


def sample(count, wanted):
    """Numbers from 1 to count: half of those that are wanted from both ends, and the others at equal steps between."""
    ends = wanted // 4
    step = max(1, count // max(1, wanted - 2 * ends))
    return sorted({*range(1, min(ends, count) + 1), *range(max(1, count - ends + 1), count + 1), *range(1, count + 1, step)})


class Refusing:
    """The allocator, and runs under it."""

    def __init__(self, trial):
        self.trial = trial
        self.library = trial.folder / "refusing.so"
        self.count = trial.folder / "count"

    def compile(self):
        words = ["gcc", "-O1", "-shared", "-fPIC", "-o", str(self.library), str(SAMPLES / "refusing.c")]
        return subprocess.run(words, check=False).returncode == 0

    def run(self, row, refused):
        """The run of a row, how many requests it made, and what OUT has then."""
        out = self.trial.folder / row.out if row.out else None
        if out and out.exists():
            out.unlink()
        self.count.write_bytes(bytes(8))
        refusing = {"LD_PRELOAD": str(self.library), "REFUSE_AT": str(refused), "REFUSE_COUNT": str(self.count)}
        ended = self.trial.run(*row.words, input=row.input, env={**os.environ, **refusing})
        made = out.read_bytes() if out and out.exists() else b""
        return ended, struct.unpack("Q", self.count.read_bytes())[0], made


def wrong(row, whole, ended, made, leftovers):
    """What is wrong with a run in which a request was refused, or nothing."""
    if ended.returncode not in (NO_MEMORY, whole.returncode):
        return f"status {ended.returncode}"
    if ended.returncode == whole.returncode and ended.stdout != whole.stdout:
        return "another output"
    if not whole.stdout.startswith(ended.stdout):
        return "what was written is no beginning of the output"
    if made not in (b"", row.made) or ended.returncode == whole.returncode and made != row.made:
        return "another OUT"
    if leftovers:
        return "a new file is left"
    return ""


def try_row(refusing, row, wanted):
    whole, count, row.made = refusing.run(row, 0)
    found = []
    numbers = sample(count, wanted)
    ends = {}
    for number in numbers:
        ended, _, made = refusing.run(row, number)
        ends[ended.returncode] = ends.get(ended.returncode, 0) + 1
        what = wrong(row, whole, ended, made, refusing.trial.leftovers())
        if what:
            found.append(f"request {number}: {what}")
    statuses = ", ".join(f"{times} ended with {status}" for status, times in sorted(ends.items()))
    holds = whole.returncode == 0 and count > 0 and not found and NO_MEMORY in ends
    refusing.trial.tell(
        f"{row.words[0]} {row.words[1]}: {len(numbers)} of {count} requests refused", holds, f" ({statuses}) {'; '.join(found[:5])}".rstrip()
    )


def main():
    arguments = arguments_of(__doc__)
    arguments.add_argument("--requests", type=int, default=40)
    given = arguments.parse_args()

    def try_memory(trial):
        if not shutil.which("gcc"):
            trial.tell_not_tried("refused memory", "there is no gcc to compile the allocator")
            return
        refusing = Refusing(trial)
        if not refusing.compile():
            trial.tell("the allocator is compiled", False)
            return
        trial.build()
        trial.write_first("made.lex", "first.lex")
        (trial.folder / "text").write_text(f"{LINE}\nrAmo\n?\n" * 30, encoding="utf-8")
        (trial.folder / "verses").write_text(f"{LINE} | 12 ||\n" * 30, encoding="utf-8")
        trial.run("annotate", "made.lex", MARK, "made.note")
        for row in ROWS:
            try_row(refusing, row, given.requests)

    try_all(given, [try_memory])


if __name__ == "__main__":
    main()
