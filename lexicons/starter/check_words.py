#!/usr/bin/env python3
"""Check roots.csv and glosses.csv against stems.csv, tables.csv and the readings.

    python3 check_words.py [--missing]

Nothing but the files beside this script is read: the words of roots.csv are those of the table in README.md, and which
stems the readings have is found by inflecting stems.csv with tables.csv.

Each fault is printed with its file and line. A fault is a line that has not its fields, is not above the line before
it, or has a stem, with its class, that is not in stems.csv; a word that the table does not have, or that no form of the
stem fits; a meaning that is empty or has more than five words; and a stem of the readings that has no meaning, or a
tense and no root. It ends with status 1 where there is a fault. `--missing` prints each stem of stems.csv that has no
meaning, or a tense and no root; this is no fault.
"""

import csv
import re
import sys
from collections import defaultdict
from pathlib import Path

HERE = Path(__file__).resolve().parent
MEMBER = re.compile(r"([^-\[\]]+)(?:\[([a-z0-9_]+)\])?")
WORD = re.compile(r"^\| ([a-z ]+) \|[^|]+\| ([^|]+) \|$")
SECTION = "\n## Roots and meanings\n"
TENSES = ("pr", "impf", "imp", "opt", "fut", "perf", "aor")
CONJUGATIONS = "first word"
MOST_WORDS = 5

VOWELS = "aAiIuUfFxXeEoO"
TURNS_S = set(VOWELS) - set("aA") | set("kr")
LETS_N_TURN = set(VOWELS + "M~H" + "kKgGN" + "pPbBm" + "hyv")
FOLLOWS_N = set(VOWELS + "nmyv")
UNTURNED = str.maketrans("zRwW", "sntT")


def turns_s(word, i):
    """Whether the s at a place becomes z: it is not last, and the letters around it let it."""
    if i + 1 == len(word) or word[i + 1] in "rfF" or i == 0:
        return False
    return word[i - 1] in TURNS_S or (i > 1 and word[i - 1] in "MH" and word[i - 2] in TURNS_S)


def reached(word, i):
    """Whether a letter that turns n stands before the place, with none between that stops it."""
    for letter in reversed(word[:i]):
        if letter in "zrfF":
            return True
        if letter not in LETS_N_TURN:
            return False
    return False


def join(front, ending):
    """The word that internal sandhi makes of a front and an ending."""
    word, start = front + ending, len(front)
    turned = [i for i in range(start, len(word)) if word[i] == "s" and turns_s(word, i)]
    letters = ["z" if i in turned else letter for i, letter in enumerate(word)]
    for i in range(max(start, 1), len(word)):
        if letters[i] in "tT" and letters[i - 1] == "z":
            letters[i] = "w" if letters[i] == "t" else "W"
    for i in range(start, len(word)):
        after_turned = i > start and letters[i - 1] == "R" and word[i - 1] == "n"
        before_follower = i + 1 < len(word) and letters[i + 1] in FOLLOWS_N
        if letters[i] == "n" and (after_turned or (before_follower and reached(letters, i))):
            letters[i] = "R"
    return "".join(letters)


def read_tables():
    """The rows of each class: tag, phase, prefix, cut, ending."""
    tables = defaultdict(list)
    with open(HERE / "tables.csv", encoding="utf-8", newline="") as file:
        for name, tag, phase, prefix, cut, ending in filter(None, csv.reader(file)):
            tables[name].append((tag, phase, prefix, int(cut), ending))
    return tables


def read_stems():
    """The records of stems.csv, in their order."""
    with open(HERE / "stems.csv", encoding="utf-8", newline="") as file:
        return [tuple(record) for record in csv.reader(file) if record]


def read_words():
    """The words of the table in README.md, each with the tags that it fits, and the words that may come first."""
    section = (HERE / "README.md").read_text(encoding="utf-8").partition(SECTION)[2].partition("\n## ")[0]
    words = {}
    for line in section.splitlines():
        if row := WORD.match(line):
            words[row[1]] = row[2].replace("`", "").split()
    first = [word for word, tags in words.items() if tags == CONJUGATIONS.split()]
    return {word: tags for word, tags in words.items() if word not in first}, first


def parts_of_readings():
    """The forms of all readings, each with its phase, or with None where the reading tells no phase."""
    parts = set()
    for path in (HERE / "readings").glob("*.tsv"):
        for line in path.read_text(encoding="utf-8").splitlines():
            for form, phase in MEMBER.findall(line.split("\t")[3].replace(" ", "-")):
                parts.add((form, phase or None))
    return parts


def stems_of_readings(tables, stems):
    """The stems, with their classes, of which a form is a word or a member in a reading, each with such a form."""
    parts = parts_of_readings()
    unturned = {form.translate(UNTURNED) for form, _ in parts}
    found = {}
    for stem, name in stems:
        for _, phase, prefix, cut, ending in tables[name]:
            front = prefix + stem[: len(stem) - cut]
            if (front + ending).translate(UNTURNED) in unturned:
                form = join(front, ending)
                if (form, phase) in parts or (form, None) in parts:
                    found[stem, name] = form
    return found


def read_rows(name, sizes, faults):
    """The lines of a file as lists of fields, each with its number. Faults are other sizes, and lines not rising."""
    rows, before = [], ""
    for number, line in enumerate((HERE / name).read_text(encoding="utf-8").splitlines(), 1):
        fields = line.split(",")
        if len(fields) not in sizes or '"' in line or line != line.strip():
            faults.append(f"{name} {number}: not the fields of a line: {line}")
        elif line <= before:
            faults.append(f"{name} {number}: {line} is not above {before}")
        else:
            rows.append((number, fields))
        before = line
    return rows


def fits(tag, kinds):
    """Whether a tag is of one of the kinds: `pr.ac` and the like, `ind`, or `noun`."""
    parts = tag.split(".")
    return (".".join(parts[:2]) if parts[0] in TENSES else "noun" if len(parts) == 3 else tag) in kinds


def check_roots(tables, classes, faults):
    """The stems of roots.csv. Faults are what its lines have wrong."""
    words, first = read_words()
    if not words or not first:
        faults.append("README.md: no table of words")
    rooted = set()
    for number, (stem, root, word, *only) in read_rows("roots.csv", (3, 4), faults):
        head, _, rest = word.partition(" ")
        kinds = words.get(rest if head in first else word)
        here = [name for name in classes[stem] if not only or name in only]
        fitting = [name for name in here if any(fits(tag, kinds or ()) for tag, *_ in tables[name])]
        if not here:
            faults.append(f"roots.csv {number}: {stem} {' '.join(only)} is not in stems.csv")
        elif not root.isalpha() or kinds is None:
            faults.append(f"roots.csv {number}: {root} is no root, or {word} no word of the table")
        elif not fitting:
            faults.append(f"roots.csv {number}: no form of {stem} fits {word}")
        rooted.update((stem, name) for name in fitting)
    return rooted


def check_glosses(classes, faults):
    """The stems of glosses.csv with their classes. Faults are what its lines have wrong."""
    told = set()
    for number, (stem, name, meaning) in read_rows("glosses.csv", (3,), faults):
        words = meaning.replace(";", " ").split()
        if name not in classes[stem]:
            faults.append(f"glosses.csv {number}: {stem},{name} is not in stems.csv")
        elif (stem, name) in told:
            faults.append(f"glosses.csv {number}: {stem},{name} has a line before")
        elif not 1 <= len(words) <= MOST_WORDS or stem == meaning:
            faults.append(f"glosses.csv {number}: no meaning of one to {MOST_WORDS} words: {meaning}")
        told.add((stem, name))
    return told


def main():
    if sys.argv[1:] not in ([], ["--missing"]):
        raise SystemExit(__doc__)
    tables, stems, faults = read_tables(), read_stems(), []
    classes = defaultdict(list)
    for stem, name in stems:
        classes[stem].append(name)
    rooted, told = check_roots(tables, classes, faults), check_glosses(classes, faults)
    tensed = {name for name, rows in tables.items() if any(tag.split(".")[0] in TENSES for tag, *_ in rows)}
    no_meaning = [record for record in stems if record not in told]
    no_root = [record for record in stems if record[1] in tensed and record not in rooted]
    read = stems_of_readings(tables, stems)
    for without, what in ((no_meaning, "meaning"), (no_root, "root")):
        for stem, name in without:
            if (stem, name) in read:
                faults.append(f"readings: {stem},{name} of {read[stem, name]} has no {what}")
            elif sys.argv[1:]:
                print(f"{stem},{name} has no {what}")
    print("\n".join(faults + [f"{len(rooted)} stems with a root, {len(no_root)} of a tense without"]))
    print(f"{len(told)} stems with a meaning, {len(no_meaning)} without; {len(read)} stems in the readings")
    print(f"{len(faults)} faults")
    raise SystemExit(1 if faults else 0)


if __name__ == "__main__":
    main()
