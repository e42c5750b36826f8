#!/usr/bin/env python3
"""Tries lexicon files of all versions that are whole, cut off or damaged.

    samples/try_lexicons.py PROGRAM [--random N]

Four lexicons of `worked/files` are cut off after each of their bytes, and each of their bytes is replaced by each of REPLACING. Besides
N files are made of these and of others by exchanging, leaving out and repeating lines, fields and bytes, which are the same in each run of
this script. What `check` says of each file, its counts or its first fault, must be what `recipes/lexicon_file.py` reads in it, which asks
no program and goes by docs/FORMATS.md. A file that is read is migrated too, and must become its newest text."""
import itertools
import random
import sys
from collections import Counter
from concurrent.futures import ThreadPoolExecutor

from trial import SAMPLES, arguments_of, try_all

sys.path.insert(0, str(SAMPLES.parent / "recipes"))
from lexicon_file import Fault, read
from lexicon_text import entries_of, first_text, newest_text

FILES = SAMPLES.parent / "worked" / "files"
TABLE = ("ceti.lex", "ceti_trie.lex", "inflected_trie.lex", "limited.lex")
REPLACING = b"\xff\n \x0009:a"
PIECES = (
    b"0", b"1", b"9", b"00", b"64", b"65", b"-", b",", b":", b"=", b" ", b"\n", b"\r", b"a", b"A", b"i", b"p", b"q", b"*", b"|", b">",
    b"ind", b"0::ind", b"1:a:ind", b"a=0", b"a=0,i=0", b"node - -", b"node ", b"root ", b"rule ", b"end", "ā".encode(), b"\xff",
)


def told_of(name, text):
    """What `check` should print of a file, without overlaps, and its newest text where it has one."""
    try:
        lexicon = read(text)
    except Fault as fault:
        return f"bad file {name} {fault}\n".encode(), None
    counts = len(lexicon.phases), len(lexicon.rules), len(entries_of(lexicon))
    return b"phases %d\nrules %d\nforms %d\n" % counts, newest_text(lexicon)


class Files:
    """Runs over files, each of which has a name of its own."""

    def __init__(self, trial):
        self.trial = trial
        self.reasons = Counter()

    def try_file(self, number, text):
        """What is wrong with the runs over a file, or nothing; and the reason for which it is refused, or `read`."""
        name, out = f"{number}.lex", f"{number}.new"
        (self.trial.folder / name).write_bytes(text)
        told, newest = told_of(name, text)
        try:
            ended = self.trial.run("check", name)
            if not ended.stdout.startswith(told) or newest is None and ended.stdout != told:
                return f"{text!r}: {ended.stdout!r:.100} in place of {told!r}", "wrong"
            if newest is None:
                return "", told.rsplit(b" ", 1)[1].decode().strip()
            ended = self.trial.run("migrate", name, out)
            if ended.stdout != b"nodes %d\n" % newest.count(b"\nnode ") or self.trial.bytes_of(out) != newest:
                return f"{text!r}: migrated otherwise, {ended.stdout!r:.100}", "wrong"
            return "", "read"
        finally:
            (self.trial.folder / name).unlink()
            (self.trial.folder / out).unlink(missing_ok=True)

    def try_files(self, what, texts):
        with ThreadPoolExecutor() as workers:
            found = list(workers.map(self.try_file, itertools.count(), texts))
        wrong = [said for said, _ in found if said]
        counts = Counter(reason for _, reason in found)
        self.reasons += counts
        self.trial.tell(f"{len(found)} files, {what}", not wrong, f" {dict(sorted(counts.items()))} {'; '.join(wrong[:3])}".rstrip())


def cut_off(texts):
    return [text[:count] for text in texts for count in range(len(text))]


def replaced(texts):
    return [
        text[:place] + bytes((byte,)) + text[place + 1 :]
        for text in texts for place in range(len(text)) for byte in REPLACING if byte != text[place]
    ]


def damaged(texts, count):
    """Files of which one to three things are not as they were."""
    chance = random.Random(1)
    for _ in range(count):
        text = chance.choice(texts)
        for _ in range(chance.choice((1, 1, 1, 2, 3))):
            text = chance.choice((with_piece, with_lines, with_field))(chance, text) or b"\n"
        yield text


def with_piece(chance, text):
    place = chance.randrange(len(text))
    return text[:place] + chance.choice((b"", *PIECES)) + text[place + chance.choice((0, 1)) :]


def with_lines(chance, text):
    lines = text.split(b"\n")
    one, other = chance.randrange(len(lines)), chance.randrange(len(lines))
    what = chance.choice(("repeat", "exchange", "leave out"))
    if what == "repeat":
        lines.insert(one, lines[other])
    elif what == "exchange":
        lines[one], lines[other] = lines[other], lines[one]
    else:
        del lines[one]
    return b"\n".join(lines)


def with_field(chance, text):
    lines = text.split(b"\n")
    line = chance.randrange(len(lines))
    fields = lines[line].split(b" ")
    fields[chance.randrange(len(fields))] = chance.choice(chance.choice(lines).split(b" "))
    lines[line] = b" ".join(fields)
    return b"\n".join(lines)


def made_lexicons(count):
    """Small lexicons of version 1 with forms, stems and tags that are drawn, and their newest texts."""
    chance = random.Random(2)
    tags = ("ind", "pv", "iic", "m.sg.nom", "pr.ac.3.sg")
    for _ in range(count):
        phases = chance.sample(("a", "b_9", "noun", "verb"), chance.randrange(1, 4))
        lines = {
            (phases.index(phase), draw(chance, 1), draw(chance, 1), chance.choice(tags))
            for phase in chance.choices(phases, k=chance.randrange(12))
        }
        forms = [f"form {phases[phase]} {form} {stem} {tag}" for phase, form, stem, tag in sorted(lines)]
        rules = dict.fromkeys(f"rule {draw(chance, 1)}|{draw(chance, 0)}>{draw(chance, 1)}" for _ in range(chance.randrange(4)))
        front = ["slx 1", *(f"phase {phase}" for phase in phases), f"grammar ({' | '.join(phases)})+", *rules]
        yield "".join(line + "\n" for line in (*front, *forms, "end")).encode()


def with_limits(texts):
    """Texts of version 3: each rule is limited to phases that are drawn, where a rule and a second phase are there."""
    chance = random.Random(3)
    for lexicon in map(read, texts):
        if lexicon.rules and len(lexicon.phases) > 1:
            lexicon.rules = [(u, v, w, *drawn_sets(chance, len(lexicon.phases), v)) for u, v, w, *_ in lexicon.rules]
            yield newest_text(lexicon)


def drawn_sets(chance, count, v):
    """The phases before a rule, and those after it, which a final one has not."""
    before, after = (frozenset(chance.sample(range(count), chance.randrange(count) + 1)) for _ in range(2))
    return before, after if v else frozenset()


def draw(chance, least):
    """A word of letters whose order is that of their bytes."""
    return "".join(chance.choices("aegms", k=chance.randrange(least, 5)))


def try_table(trial):
    """A byte FF is never UTF-8, and the last line is then not ended where it stands for its line end."""
    for name in TABLE:
        text = (FILES / name).read_bytes()
        wrong = []
        for place in range(len(text)):
            (trial.folder / "table.lex").write_bytes(text[:place] + b"\xff" + text[place + 1 :])
            line = text.count(b"\n", 0, place) + 1
            why = "NoEnd" if place + 1 == len(text) else "NotUtf8"
            ended = trial.run("check", "table.lex")
            if (ended.returncode, ended.stdout) != (5, f"bad file table.lex line {line}: {why}\n".encode()):
                wrong.append(f"{place}: {ended.stdout!r}")
        trial.tell(f"{name} with each of its bytes replaced by FF", not wrong, f" {'; '.join(wrong[:3])}".rstrip())


def try_lexicons(trial, count):
    files = Files(trial)
    first = [path.read_bytes() for path in sorted(FILES.glob("*.lex"))]
    table = [(FILES / name).read_bytes() for name in TABLE]
    files.try_files("cut off", cut_off(table))
    files.try_files("with a byte replaced", replaced(table))
    made = list(made_lexicons(60))
    whole = [*first, *made, *(newest_text(read(text)) for text in (*first, *made)), *with_limits(made)]
    files.try_files("whole", whole)
    files.try_files("read as another version", [b"slx %d" % version + text[5:] for text in whole for version in (1, 2, 3)])
    files.try_files("damaged", list(damaged(whole, count)))
    again = [first_text(read(newest_text(read(text)))) for text in made]
    trial.tell("version 1 of the newest text is the text", again == made)
    wanted = {
        "Trailing", "NoEnd", "NotUtf8", "Head", "Order", "Field", "Spelling", "Strict", "Grammar", "Child", "Twice", "Falling", "Unused",
        "Delta", "Unlimited", "read",
    }
    trial.tell("each reason comes", wanted <= files.reasons.keys(), f" {sorted(wanted - files.reasons.keys())}")


def main():
    arguments = arguments_of(__doc__)
    arguments.add_argument("--random", type=int, default=6000)
    given = arguments.parse_args()
    try_all(given, [try_table, lambda trial: try_lexicons(trial, given.random)])


if __name__ == "__main__":
    main()
