#!/usr/bin/env python3
"""Tries the program with little stack and little memory.

    samples/try_limits.py PROGRAM

With 512 KiB of stack it cuts a line of as many letters as a line may have, and reads brackets, tables and tries that are nested as deep as
they may be or deeper. In 256 MiB of address space it builds the starter lexicon, on one processor and on all. A lexicon file whose newest
text would have more bytes than a file may have is not migrated, and one of just so many is."""
import os
import random
import resource
from itertools import islice, product

from trial import SAMPLES, arguments_of, try_all

STARTER = SAMPLES.parent / "lexicons" / "starter"
STACK = 512 << 10
ROOM = 256 << 20
HEAD = "slx 1\nphase word\n"
LETTERS = "aAiIuUfFxeEoOM~HkKgGNcCjJYwWqQRtTdDnpPbBmyrlvSzsh'"
MOST_BYTES = 33_554_432
FORMS = "plain a a\nform word a a ind\nform word aa aa ind\nend\n"
RULES = 'phases = ["noun"]\ngrammar = "noun+"\nplain = []\nrules = []\n'


def little_stack():
    resource.setrlimit(resource.RLIMIT_STACK, (STACK, STACK))


def little_room(processors):
    def prepare():
        os.sched_setaffinity(0, processors)
        resource.setrlimit(resource.RLIMIT_AS, (ROOM, ROOM))
    return prepare


def grammar(text):
    return f"{HEAD}grammar {text}\n{FORMS}"


def nested(opening, inside, closing, depth):
    return f"{RULES}more = {opening * depth}{inside}{closing * depth}\n"


def chain(height):
    """A file of version 2 whose one form has as many letters as the trie is high."""
    nodes = ["node 0::ind -", *(f"node - a={node}" for node in range(height))]
    return "\n".join(["slx 2", "phase word", "grammar word+", *nodes, f"root word {height}", "end", ""])


def wide(height):
    """A file of version 2 in which few nodes stand for more forms than there may be."""
    nodes = ["node 0::ind -", *("node - " + ",".join(f"{letter}={node}" for letter in LETTERS) for node in range(height))]
    return "\n".join(["slx 2", "phase word", "grammar word+", *nodes, f"root word {height}", "end", ""])


def try_stack(trial):
    """Each run ends as its row says, and not by a signal."""
    dotted = ".".join(["a"] * 80)
    for what, words, text, status in (
        ("a line of 1,000 letters", ("segment", "file", "a" * 1000), grammar("word+"), 0),
        ("1,024 brackets", ("check", "file"), grammar("(" * 1024), 5),
        ("509 brackets in one another", ("check", "file"), grammar("(" * 509 + "word" + ")" * 509), 0),
        ("509 repetitions in one another", ("check", "file"), grammar("(" * 340 + "word" + ")+" * 340), 0),
        ("a trie of height 64", ("check", "file"), chain(64), 0),
        ("a trie of height 1,000", ("check", "file"), chain(1000), 5),
        ("a trie with 50 to the power of 64 forms", ("check", "file"), wide(64), 5),
        ("80 nested lists", ("build", "file", "tables.csv", "stems.csv", "out"), nested("[", "1", "]", 79), 5),
        ("1,000 nested lists", ("build", "file", "tables.csv", "stems.csv", "out"), nested("[", "1", "]", 1000), 5),
        ("80 nested tables", ("build", "file", "tables.csv", "stems.csv", "out"), nested("{a=", "1", "}", 79), 5),
        ("1,000 nested tables", ("build", "file", "tables.csv", "stems.csv", "out"), nested("{a=", "1", "}", 1000), 5),
        ("a table with 80 names", ("build", "file", "tables.csv", "stems.csv", "out"), f"{RULES}[{dotted}]\nx = 1\n", 5),
    ):
        (trial.folder / "file").write_text(text, encoding="utf-8")
        ended = trial.run(*words, preexec_fn=little_stack)
        trial.tell(f"{what} with 512 KiB of stack", ended.returncode == status, f" {ended.returncode} {ended.stdout[:60]}")


def try_room(trial):
    words = ("build", *(str(STARTER / name) for name in ("rules.toml", "tables.csv", "stems.csv")), "starter.lex")
    whole = trial.run(*words).stdout
    every = os.sched_getaffinity(0)
    for processors in ({min(every)}, every):
        ended = trial.run(*words, preexec_fn=little_room(processors))
        trial.tell(f"the starter lexicon in 256 MiB on {len(processors)} processors", (ended.returncode, ended.stdout) == (0, whole), f" {ended.returncode}")


def drawn_forms(count):
    """Lines of so many forms of 64 letters, which have few ends in common, rising."""
    chance = random.Random(5)
    words = sorted([chance.randrange(50) for _ in range(64)] for _ in range(count))
    forms = ("".join(LETTERS[code] for code in word) for word in words)
    return [f"form word {form} {form[0]} ind\n" for form in forms]


def migrate_drawn(trial, forms, more):
    """Migrates a lexicon of these forms, with plain pairs and blanks of the grammar that have so many bytes more: what is said, and how
    many bytes are written."""
    pairs = [f"plain {x} {y}\n" for x, y in islice(product(LETTERS, repeat=2), more // len("plain a a\n"))]
    blanks = " " * (more % len("plain a a\n"))
    (trial.folder / "drawn.lex").write_text("".join([HEAD, f"grammar word{blanks}\n", *pairs, *forms, "end\n"]), encoding="utf-8")
    made = trial.folder / "drawn.new"
    made.unlink(missing_ok=True)
    return trial.run("migrate", "drawn.lex", made.name), made.stat().st_size if made.exists() else 0


def try_largest(trial):
    """As many forms as there may be, and then what makes the text greater byte by byte."""
    forms = drawn_forms(34_380)
    left = MOST_BYTES - migrate_drawn(trial, forms, 0)[1]
    ended, size = migrate_drawn(trial, forms, left)
    trial.tell(f"migrate to a text of {MOST_BYTES:,} bytes", (ended.returncode, size) == (0, MOST_BYTES), f" {ended.returncode} {size}")
    ended, size = migrate_drawn(trial, forms, left + 1)
    refused = (ended.returncode, ended.stdout, size) == (5, b"bad file drawn.lex line 0: Limit\n", 0)
    trial.tell("migrate to a text of one byte more", refused, f" {ended.returncode} {ended.stdout[:60]} {size}")


if __name__ == "__main__":
    try_all(arguments_of(__doc__).parse_args(), [try_stack, try_room, try_largest])
