#!/usr/bin/env python3
"""Build the starter lexicon and look for the traditional reading of each line among its answers.

    python3 check_readings.py PROGRAM [--only] [--readings FILE]

PROGRAM is the path of the command. The files of readings are three in the folder readings beside this script:
readings.tsv and gaps.tsv, all of which must be read, and fresh.tsv, lines of works as they stand, which are counted.
With --readings FILE the lines of FILE are read in their place, and all must be read.

Each line of such a file has four fields, separated by tabs: a number, the source, the line in Devanagari, and the
reading. A reading is words in SLP1, separated by blanks. A word is FORM or FORM[PHASE], or members of a compound or
of a verb with preverbs with - between: Darma-kzetre, sam-ava-itAH. A form without a phase may have any. Members that
are joined by - may be one form of the lexicon too, where sandhi makes this form of them (retroflex letters apart):
a lexicon that has durlaBa reads duH-laBam. Likewise a form may be a member and last members of phase `ifc`, which
are suffixes mostly: kArya and taH for kAryataH.

The script builds the lexicon into a temporary folder, checks it, and opens one session on it. It lists the answers of
each line page by page, up to 10,000, and prints how many there are, and which is the first that is the reading: its
number in the program's order, and its number where those with fewest forms come first. Totals come for each file, and
for fresh.tsv for each work too.

Then it counts the answers of readings.tsv again with one thing changed at a time, and prints a row for each change,
which tells what keeps the number down; `--only` leaves this out. It ends with status 1 where a reading is missing that
must be there, and where the lexicon cannot be built or has an overlap.
"""

import argparse
import itertools
import re
import statistics
import subprocess
import sys
import tempfile
import time
import tomllib
from pathlib import Path

HERE = Path(__file__).resolve().parent
MOST = 10_000
PART = re.compile(r"([^ \[\]()]+)\[([a-z0-9_]+)\]")
MEMBER = re.compile(r"([^\[]+)(?:\[([a-z0-9_]+)\])?")
LETTERS = "aAiIuUfeEoOkKgGNcCjJYwWqQRtTdDnpPbBmyrlvSzshH"
DENTALS = str.maketrans("RzwWqQ", "nstTdD")


class Session:
    """One run of `read LEX`. Each command waits for its reply."""

    def __init__(self, program, lexicon):
        self.process = subprocess.Popen(
            [program, "read", lexicon], stdin=subprocess.PIPE, stdout=subprocess.PIPE, text=True, encoding="utf-8"
        )

    def ask(self, command):
        """The reply to a command, as a list of lines without the closing `ok` or `end`."""
        self.process.stdin.write(command + "\n")
        self.process.stdin.flush()
        lines = []
        while True:
            line = self.process.stdout.readline()
            if not line:
                raise SystemExit(f"the session ended after: {command}")
            line = line.rstrip("\n")
            if line.startswith("?"):
                raise SystemExit(f"{line} was the reply to: {command}")
            if line in ("ok", "end", "bye"):
                return lines
            lines.append(line)
            if line == "more":
                return lines

    def answers(self, text):
        """The answers of a text, page by page, up to MOST."""
        self.ask(f"text devanagari {text}")
        for _ in range(MOST // 1000):
            page = self.ask("page 1000")
            yield from (line for line in page if line != "more")
            if page[-1:] != ["more"]:
                return

    def count(self, text):
        """How many answers a text has, up to MOST."""
        return sum(1 for _ in self.answers(text))


class Sandhi:
    """The rules and the plain pairs of a rule file, which join the members of a word."""

    def __init__(self, rules):
        document = tomllib.loads(rules)
        self.classes = document.get("classes", {})
        self.plain = {pair for entry in document["plain"] for pair in self.pairs(entry)}
        self.by_lead = {}
        for entry in document["rules"]:
            for end, lead, written in self.rules(entry):
                self.by_lead.setdefault(lead[:1], []).append((end, lead, written))

    def letters(self, name):
        """The letters of a letter or of a <class>."""
        return self.classes[name[1:-1]] if name.startswith("<") else name

    def pairs(self, entry):
        """The pairs of letters of an entry of `plain`."""
        first, second = entry.split(" ")
        return [one + other for one in self.letters(first) for other in self.letters(second)]

    def rules(self, entry):
        """The rules u|v>w of an entry of `rules`, whatever phases limit them."""
        parts = re.fullmatch(r"(?:\[(\w*)\])?([^|]*)\|((?:[^<>]|<\w+>)*)>(.*)", entry.split(" ")[0])
        before, end, lead, written = parts[1] or "", parts[2], parts[3], parts[4]
        name = re.search(r"<\w+>", lead)
        for letter in self.letters(name[0]) if name else [""]:
            here, there = (re.sub(r"<\w+>", letter, part) for part in (lead, written))
            yield before + end, here, before + there

    def joined(self, members):
        """What sandhi makes of the members, with dentals for retroflex letters."""
        wholes = {members[0]}
        for form in members[1:]:
            found = {whole + form for whole in wholes}
            for end, lead, written in self.by_lead.get(form[:1], []):
                if form.startswith(lead):
                    found.update(
                        whole[: len(whole) - len(end)] + written + form[len(lead) :]
                        for whole in wholes
                        if whole.endswith(end)
                    )
            wholes = found
        return {whole.translate(DENTALS) for whole in wholes}


class Reading:
    """A traditional reading, which an answer is or is not."""

    def __init__(self, text, sandhi):
        self.sandhi = sandhi
        self.members = []  # a form, its phase or None, and whether it ends a word
        for word in text.split(" "):
            forms = [MEMBER.fullmatch(member).groups() for member in word.split("-")]
            self.members += [(form, phase, False) for form, phase in forms[:-1]] + [(*forms[-1], True)]
        self.wholes = {}

    def is_whole(self, form, begin, end):
        """Whether sandhi makes the form of the members from `begin` up to `end`."""
        if (begin, end) not in self.wholes:
            self.wholes[begin, end] = self.sandhi.joined([member[0] for member in self.members[begin:end]])
        return form.translate(DENTALS) in self.wholes[begin, end]

    def ends(self, answer, first, place):
        """The pairs (forms, members) that agree from a form of an answer and a member of the reading on."""
        form, phase = answer[first]
        name, wanted, last = self.members[place]
        if form == name and wanted in (None, phase):
            yield first + 1, place + 1
        end = place + 1
        while not last and end < len(self.members):
            last = self.members[end][2]
            end += 1
            if self.is_whole(form, place, end):
                yield first + 1, end
        after = first + 1
        while after < len(answer) and answer[after][1] == "ifc":
            after += 1
            if name.translate(DENTALS) in self.sandhi.joined([part for part, _ in answer[first:after]]):
                yield after, place + 1

    def is_answer(self, answer):
        """Whether the parts of an answer are this reading."""
        reached = {(0, 0)}
        for first in range(len(answer)):
            for place in range(len(self.members)):
                if (first, place) in reached:
                    reached.update(self.ends(answer, first, place))
        return (len(answer), len(self.members)) in reached


class Found:
    """What was found for one line: the number of answers, and the places of the reading from 1, or None."""

    def __init__(self, answers, reading):
        self.count = len(answers)
        right = [place for place, answer in enumerate(answers, 1) if reading.is_answer(answer)]
        self.place = right[0] if right else None
        by_forms = sorted(range(1, len(answers) + 1), key=lambda place: len(answers[place - 1]))
        self.place_by_forms = by_forms.index(min(right, key=by_forms.index)) + 1 if right else None


def build(program, folder, rules, tables, stems):
    """Builds the lexicon of three texts in a folder. Returns its path, what was printed, and the seconds it took."""
    paths = [Path(folder) / name for name in ("rules.toml", "tables.csv", "stems.csv", "starter.slx")]
    for path, text in zip(paths, (rules, tables, stems)):
        path.write_text(text, encoding="utf-8")
    start = time.monotonic()
    built = subprocess.run([program, "build", *map(str, paths)], capture_output=True, text=True)
    if built.returncode != 0:
        raise SystemExit(f"build ended with status {built.returncode}: {built.stdout.strip()}")
    return str(paths[3]), built.stdout.strip(), time.monotonic() - start


def any_order(rules):
    """The rules with a grammar in which any phase may follow any other."""
    phases = re.findall(r'"(\w+)"', re.search(r"^phases = \[(.*)\]$", rules, re.M)[1])
    return re.sub(r'^grammar = ".*"$', f'grammar = "({" | ".join(phases)})+"', rules, flags=re.M)


def all_plain(rules):
    """The rules with all pairs of letters plain."""
    rules = re.sub(r"^plain = \[\n.*?^\]$", 'plain = ["<all> <all>"]', rules, flags=re.M | re.S)
    return rules.replace("[classes]\n", f'[classes]\nall = "{LETTERS}"\n')


def words_of_things(tables):
    """The tables with the bare stems of things where those of persons are, so that they are words of their own too."""
    return re.sub(r"^([^,]*,[^,]*),thing,", r"\1,stem,", tables, flags=re.M)


def loose_ends(rules):
    """The rules with a grammar in which the last members of compounds stand alone too."""
    return rules.replace("(ind | pron ", "(ind | ifc | pron ")


def without_blanks(text):
    """The text without its blanks."""
    return text.replace(" ", "")


def share(most, places):
    """The percentage of places up to `most`, where None is no place."""
    return 100 * sum(place is not None and place <= most for place in places) / len(places)


def totals(name, counts):
    """One row of numbers of answers."""
    numbers = [statistics.median(counts), statistics.mean(counts), max(counts)]
    row = f"{name:44} {numbers[0]:>6g} {numbers[1]:>8.1f} {numbers[2]:>6}"
    return row + "".join(f" {share(most, counts):>5.1f}%" for most in (10, 100, 1000))


def shares(name, founds):
    """One row of where the reading is."""
    lists = [found.place for found in founds], [found.place_by_forms for found in founds]
    row = f"{name:44} {len(founds):>5} {sum(found.count > 0 for found in founds):>6}"
    row += f" {sum(found.place is not None for found in founds):>7}"
    return row + "".join(f" {share(most, places):>5.1f}%" for places in lists for most in (1, 3, 10))


def rows_of(path):
    """The rows of a file of readings."""
    return [row.split("\t") for row in path.read_text(encoding="utf-8").splitlines()]


def work_of(source):
    """The work of a source, which is what comes before its first digit or comma."""
    return re.split(r"[\d,]", source)[0].strip()


def passages(rows, founds):
    """What was found for the lines of one work that come one after another, with the source of the first of them."""
    runs = itertools.groupby(zip(rows, founds), lambda pair: work_of(pair[0][1]))
    parts = [list(run) for _, run in runs]
    return [(part[0][0][1], [found for _, found in part]) for part in parts]


def read_lines(session, rows, sandhi):
    """Prints a row for each line. Returns what was found for each, and the numbers of those whose reading is missing."""
    founds, missing = [], []
    print(" line  answers  seconds  place  by forms  source")
    for number, source, text, reading in rows:
        start = time.monotonic()
        answers = [PART.findall(line.split(": ", 1)[1]) for line in session.answers(text)]
        seconds = time.monotonic() - start
        found = Found(answers, Reading(reading, sandhi))
        founds.append(found)
        if found.place is None:
            missing.append(number)
        places = [place or ("MISSING" if answers else "none") for place in (found.place, found.place_by_forms)]
        print(f"{number:>5} {found.count:>8} {seconds:>8.3f} {places[0]:>8} {places[1]:>8}  {source}")
    return founds, missing


def read_files(session, files, sandhi):
    """Reads the files, and prints their totals. Returns how many readings are missing that must be there."""
    wanting, wholes = 0, []
    for path, must in files:
        rows = rows_of(path)
        print(f"{path.name}:")
        founds, missing = read_lines(session, rows, sandhi)
        if must:
            wanting += len(missing)
            print(f"{path.name}: {len(founds)} lines, {len(missing)} readings missing {' '.join(missing)}".rstrip())
        wholes.append((path.name, founds, [] if must else passages(rows, founds)))
    print(f"{'':44} lines answer reading  first   <=3   <=10 fewest forms: first, <=3, <=10")
    for name, founds, groups in wholes:
        for source, part in groups:
            print(shares(f"  from {source} on", part))
        print(shares(name, founds))
    print(f"{'answers a line':44} median     mean   most   <=10  <=100 <=1000")
    for name, founds, _ in wholes:
        print(totals(name, [found.count for found in founds]), flush=True)
    if len(wholes) > 1:
        print(totals("all lines", [found.count for _, founds, _ in wholes for found in founds]), flush=True)
    return wanting


def compare(program, folder, sources, rows):
    """Prints the numbers of answers with one thing changed at a time."""
    rules, tables, stems = sources
    texts = [row[2] for row in rows]
    changes = [
        ("any phase after any other", (any_order(rules), tables, stems), texts),
        ("last members of compounds alone too", (loose_ends(rules), tables, stems), texts),
        ("bare stems of things as words too", (rules, words_of_things(tables), stems), texts),
        ("all pairs of letters plain", (all_plain(rules), tables, stems), texts),
        ("texts without blanks", sources, [without_blanks(text) for text in texts]),
    ]
    for name, changed, lines in changes:
        if changed == sources and lines == texts:
            raise SystemExit(f"nothing was changed for: {name}")
        lexicon, _, _ = build(program, folder, *changed)
        session = Session(program, lexicon)
        print(totals(name, [session.count(text) for text in lines]), flush=True)
        session.ask("quit")


def arguments():
    """The words of the command line."""
    parser = argparse.ArgumentParser(description=__doc__, formatter_class=argparse.RawDescriptionHelpFormatter)
    parser.add_argument("program", metavar="PROGRAM")
    parser.add_argument("--only", action="store_true", help="leave out the comparisons")
    parser.add_argument("--readings", metavar="FILE", type=Path, help="read the lines of FILE only")
    return parser.parse_args()


def main():
    words = arguments()
    begun = time.monotonic()
    own = [HERE / "readings" / name for name in ("readings.tsv", "gaps.tsv", "fresh.tsv")]
    files = [(path, path.name != "fresh.tsv") for path in own if path.exists()]
    if words.readings:
        files = [(words.readings, True)]
    sources = [(HERE / name).read_text(encoding="utf-8") for name in ("rules.toml", "tables.csv", "stems.csv")]
    with tempfile.TemporaryDirectory() as folder:
        lexicon, printed, seconds = build(words.program, folder, *sources)
        print(f"{printed}, built in {seconds:.1f} s")
        checked = subprocess.run([words.program, "check", lexicon], capture_output=True, text=True).stdout.split("\n")
        print(", ".join(checked).rstrip(", "))
        session = Session(words.program, lexicon)
        session.count("अ")  # the lexicon is read before the first line is timed
        wanting = read_files(session, files, Sandhi(sources[0]))
        session.ask("quit")
        if not words.only:
            compare(words.program, folder, sources, rows_of(files[0][0]))
    print(f"{time.monotonic() - begun:.1f} s in all")
    overlaps = [line for line in checked if line.startswith("overlap")]
    sys.exit(1 if wanting or overlaps or "end" not in checked else 0)


if __name__ == "__main__":
    main()
