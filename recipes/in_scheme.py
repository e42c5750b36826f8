#!/usr/bin/env python3
"""Writes what `segment`, `batch` or `read` prints with its words in another scheme than SLP1.

    ./sandhi segment LEX TEXT | recipes/in_scheme.py devanagari
    recipes/in_scheme.py iast <answers.txt

SCHEME is devanagari, iast, hk, velthuis or wx. The forms and the parts of rules in pages of answers and in summaries are taken out,
converted by one run of `convert`, a line each, and put back; every other line stays as it is. Nothing is written where a line of a page
or of a summary can't be read, or where the words that come back are not as many as were sent: the status is then 1. It is 2 where the
words of the command line are others. SANDHI may name another program than ./sandhi of this folder."""

import os
import re
import subprocess
import sys
import tempfile
from pathlib import Path

SCHEMES = ("devanagari", "iast", "hk", "velthuis", "wx")
WORD = r"[A-Za-z~']"
FORM = rf"{WORD}+\[[a-z][a-z0-9_]*\]"
RULE = rf"\({WORD}+\|{WORD}*>{WORD}+\)"
ANSWER = re.compile(rf"[0-9]+: {FORM}(?: (?:\+|{RULE}) {FORM})*(?: {RULE})?")
ITEM = re.compile(rf"[0-9]+: [0-9]+ [0-9]+ {FORM}")
NUMBERED = re.compile(r"[0-9]+: ")
PARTS = re.compile(rf"({WORD}+)(?=\[)|(?<=[(|>])({WORD}+)")


class Refusal(Exception):
    """Why nothing is written."""


def words_of(line):
    """Where the words of a line of a page or of a summary stand; none stand in other lines."""
    if ANSWER.fullmatch(line) or ITEM.fullmatch(line):
        return [found.span() for found in PARTS.finditer(line)]
    if NUMBERED.match(line):
        raise Refusal(f"this line is no answer and no segment of a summary: {line}")
    return []


def converted(program, scheme, words):
    """The words in the scheme, in the same order."""
    with tempfile.TemporaryDirectory() as folder:
        source, result = Path(folder, "slp1"), Path(folder, "converted")
        source.write_bytes("".join(word + "\n" for word in words).encode("utf-8"))
        ran = subprocess.run([program, "convert", "slp1", scheme, str(source), str(result)], stdout=subprocess.PIPE, check=False)
        if ran.returncode != 0:
            raise Refusal(f"convert ended with status {ran.returncode}: {ran.stdout.decode('utf-8', 'replace').strip()}")
        lines = result.read_bytes().decode("utf-8").split("\n")
        if lines.pop() != "" or ran.stdout != b"lines %d\n" % len(words) or len(lines) != len(words):
            raise Refusal(f"{len(words)} words were sent to be converted, and {len(lines)} came back")
        return lines


def put_back(line, spans, words):
    """The line with these words in place of those that stand there."""
    pieces, end = [], 0
    for (start, stop), word in zip(spans, words):
        pieces += [line[end:start], word]
        end = stop
    return "".join(pieces) + line[end:]


def in_scheme(program, scheme, text):
    """The text with the words of its pages and summaries in the scheme."""
    lines = text.split("\n")
    spans = [words_of(line) for line in lines]
    sent = [line[start:stop] for line, found in zip(lines, spans) for start, stop in found]
    words = iter(converted(program, scheme, sent))
    written = "\n".join(put_back(line, found, [next(words) for _ in found]) for line, found in zip(lines, spans))
    if next(words, None) is not None:
        raise Refusal("more words came back than were sent")
    return written


def main(words):
    if len(words) != 1 or words[0] not in SCHEMES:
        sys.stderr.write(__doc__ + "\n")
        return 2
    program = os.environ.get("SANDHI", str(Path(__file__).resolve().parent.parent / "sandhi"))
    try:
        text = sys.stdin.buffer.read().decode("utf-8")
        written = in_scheme(program, words[0], text)
    except (Refusal, OSError, UnicodeDecodeError) as refusal:
        sys.stderr.write(f"in_scheme: {refusal}\n")
        return 1
    sys.stdout.buffer.write(written.encode("utf-8"))
    sys.stdout.flush()
    return 0


if __name__ == "__main__":
    sys.exit(main(sys.argv[1:]))
