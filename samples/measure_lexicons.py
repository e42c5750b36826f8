#!/usr/bin/env python3
"""Measures how long lexicon files take to be read, and how much memory.

    samples/measure_lexicons.py PROGRAM [OLD] [--runs N]

The starter lexicon is built, and its rules are made unlimited, so that it has a text of version 1. A line is cut over this text and over
its newest; over parts of its forms in both; and the files of `worst_lexicons.py` are read. OLD is another program, which reads the files
of version 1 too. Each row has the bytes of the
file, and the least of N runs: the time that passed, that of the processors, and the most memory. docs/PERFORMANCE.md has such figures."""
import subprocess
import sys
import tempfile
from pathlib import Path

import worst_lexicons
from trial import SAMPLES, arguments_of

sys.path.insert(0, str(SAMPLES.parent / "recipes"))
from lexicon_file import read
from lexicon_text import first_text

STARTER = SAMPLES.parent / "lexicons" / "starter"
PARTS = (10_000, 30_000, 100_000, 300_000)
WORST = (worst_lexicons.few_nodes, worst_lexicons.many_deltas, worst_lexicons.one_node, worst_lexicons.most_nodes)


# Runs a command in a process of its own, since a process counts the memory of the one that began it. It has about 10 MiB itself.
MEASURE = """import os, subprocess, sys, time
begun = time.monotonic()
running = subprocess.Popen(sys.argv[1:], stdout=subprocess.DEVNULL)
_, status, used = os.wait4(running.pid, 0)
print(status, time.monotonic() - begun, used.ru_utime + used.ru_stime, used.ru_maxrss / 1024)"""


def measured(words):
    """The seconds that a run takes, those of the processors, and its most memory in MiB."""
    ran = subprocess.run([sys.executable, "-S", "-c", MEASURE, *words], capture_output=True, text=True, check=True)
    status, *figures = map(float, ran.stdout.split())
    if status:
        raise SystemExit(f"{words} did not end well: {ran.stderr}")
    return figures


class Measuring:
    """A folder with lexicon files, and rows of figures."""

    def __init__(self, given, folder):
        self.given = given
        self.folder = folder

    def row(self, what, program, *words):
        runs = [measured([program, *map(str, words)]) for _ in range(self.given.runs)]
        passed, used, memory = map(min, zip(*runs))
        size = max(Path(word).stat().st_size for word in words if Path(word).is_file())
        print(f"| {what} | {size / 1e6:.2f} MB | {passed:.3f} s | {used:.3f} s | {memory:.1f} MiB |", flush=True)

    def rows(self, what, first):
        """A line over a file of version 1, over its newest text, and with the other program."""
        newest = self.folder / "newest.lex"
        subprocess.run([self.given.program, "migrate", first, newest], stdout=subprocess.DEVNULL, check=True)
        self.row(f"{what}, version 1", self.given.program, "segment", first, "na")
        self.row(f"{what}, newest text", self.given.program, "segment", newest, "na")
        if self.given.old:
            self.row(f"{what}, version 1, the other program", self.given.old, "segment", first, "na")


def with_unlimited_rules(lexicon):
    every = lexicon.every_phase()
    lexicon.rules = [(u, v, w, every, every if v else frozenset()) for u, v, w, *_ in lexicon.rules]
    return lexicon


def part_of(lines, count):
    """The lines of a text of version 1 with so many of its form lines, at equal steps."""
    forms = [line for line in lines if line.startswith(b"form ")]
    chosen = [forms[len(forms) * place // count] for place in range(count)]
    return b"".join([*(line for line in lines[:-1] if not line.startswith(b"form ")), *chosen, lines[-1]])


def main():
    arguments = arguments_of(__doc__)
    arguments.add_argument("old", nargs="?")
    arguments.add_argument("--runs", type=int, default=5)
    given = arguments.parse_args()
    with tempfile.TemporaryDirectory() as name:
        measuring = Measuring(given, Path(name))
        built, first = Path(name, "built.lex"), Path(name, "first.lex")
        sources = [STARTER / source for source in ("rules.toml", "tables.csv", "stems.csv")]
        print("| What was run | File | Time | Time of the processors | Memory |\n|---|---|---|---|---|")
        measuring.row("`build` of the starter lexicon", given.program, "build", *sources, built)
        first.write_bytes(first_text(with_unlimited_rules(read(built.read_bytes()))))
        measuring.rows("starter lexicon", first)
        measuring.row("`migrate` of the starter lexicon", given.program, "migrate", first, Path(name, "migrated.lex"))
        lines = first.read_bytes().splitlines(keepends=True)
        for count in PARTS:
            part = Path(name, "part.lex")
            part.write_bytes(part_of(lines, count))
            measuring.rows(f"{count:,} of its forms", part)
        for make in WORST:
            worst = Path(name, "worst.lex")
            worst.write_text(make(), encoding="utf-8")
            measuring.row(f"`{make.__name__}`", given.program, "segment", worst, "kk")


if __name__ == "__main__":
    main()
