#!/usr/bin/env python3
"""Tests the page: its server by itself, and the page in a real browser.

    page/tests/run.py [--program PROGRAM] [--lexicon LEX] [--must-have-browser] [TEST..]

PROGRAM is the program; without it, `sandhi` at the top. LEX is a built starter lexicon; without it, it is made where
`sandhi-page` makes its own. TEST is a name as `test_modules` or `test_browser.Clicks`. Where chromium and its driver are
not there, or only the server is tested, a line says that the page was not tried; with `--must-have-browser` this is a failure.
"""

import argparse
import os
import sys
import unittest
from pathlib import Path

sys.dont_write_bytecode = True
HERE = Path(__file__).resolve().parent
sys.path[:0] = [str(HERE), str(HERE.parent)]

WITHOUT_BROWSER = ["test_modules", "test_server"]
WITH_BROWSER = ["test_schemes", "test_browser", "test_texts"]


def main():
    parser = argparse.ArgumentParser(description=__doc__.splitlines()[0])
    parser.add_argument("--program", default=str(HERE.parents[1] / "sandhi"))
    parser.add_argument("--lexicon", default="-")
    parser.add_argument("--must-have-browser", action="store_true")
    parser.add_argument("tests", nargs="*")
    words = parser.parse_args()
    os.environ["SANDHI_PROGRAM"] = str(Path(words.program).resolve())
    os.environ["SANDHI_LEXICON"] = words.lexicon if words.lexicon == "-" else str(Path(words.lexicon).resolve())
    from browser import find_browser

    is_there = bool(find_browser())
    names = words.tests or WITHOUT_BROWSER + (WITH_BROWSER if is_there else [])
    result = unittest.TextTestRunner(verbosity=1).run(unittest.defaultTestLoader.loadTestsFromNames(names))
    is_tried = is_there and any(name.split(".")[0] in WITH_BROWSER for name in names)
    if not is_tried:
        why = "." if is_there else ": chromium and chromedriver are not there."
        print(f"The page was not tried in a browser{why}")
    return 0 if result.wasSuccessful() and (is_tried or not words.must_have_browser) else 1


if __name__ == "__main__":
    sys.exit(main())
