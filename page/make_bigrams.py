#!/usr/bin/env python3
"""Makes `static/js/bigrams.js`: how often each letter follows another, counted over readings of the starter lexicon.

    page/make_bigrams.py

Only the lines with odd numbers are counted, so that the others can test the guess of schemes that rests on it.
"""

import math
import sys
from pathlib import Path

HERE = Path(__file__).resolve().parent
sys.path.insert(0, str(HERE / "tests"))

from slp1 import slp1_of_devanagari  # noqa: E402

READINGS = HERE.parent / "lexicons" / "starter" / "readings" / "readings.tsv"
ORDER = " aAiIuUfFxeEoOM~HkKgGNcCjJYwWqQRtTdDnpPbBmyrlvSzsh'"
MOST_COST = 35  # the greatest digit of base 36
COUNT_OF_UNSEEN = 0.05


def counts(texts):
    table = {before: dict.fromkeys(ORDER, COUNT_OF_UNSEEN) for before in ORDER}
    for text in texts:
        signs = f" {text} "
        for before, letter in zip(signs, signs[1:]):
            table[before][letter] += 1
    return table


def row_of_costs(row):
    """The costs of a row, which are three times the negative logarithm of the share."""
    total = sum(row.values())
    costs = [min(MOST_COST, round(-3 * math.log(row[letter] / total))) for letter in ORDER]
    return "".join("0123456789abcdefghijklmnopqrstuvwxyz"[cost] for cost in costs)


def main():
    rows = [line.split("\t") for line in READINGS.read_text(encoding="utf-8").splitlines()]
    table = counts(slp1_of_devanagari(row[2]) for row in rows if int(row[0]) % 2)
    lines = [
        "// Made by make_bigrams.py: what it costs that a letter follows another. A row is the letter before, and a digit of",
        "// base 36 in it the letter after, both in this order. A blank is the end of a word.",
        "",
        f'export const ORDER = "{ORDER}";',
        "",
        "export const COSTS = [",
        *[f'  "{row_of_costs(table[before])}",' for before in ORDER],
        "];",
    ]
    (HERE / "static" / "js" / "bigrams.js").write_text("\n".join(lines) + "\n", encoding="utf-8")


if __name__ == "__main__":
    main()
