#!/usr/bin/env python3
"""Takes the picture of the page that the documents show: a line with a segment kept and the analysis of a form.

    page/tests/picture.py OUT [--program PROGRAM]
"""

import argparse
import os
import sys
from pathlib import Path

sys.dont_write_bytecode = True
HERE = Path(__file__).resolve().parent
sys.path[:0] = [str(HERE), str(HERE.parent)]

LINE = "आसीद्राजा नलो नाम वीरसेनसुतो बली"
KEPT, LOOKED_AT = "vIrasena", "rājā"


def main():
    parser = argparse.ArgumentParser(description=__doc__.splitlines()[0])
    parser.add_argument("out")
    parser.add_argument("--program", default=str(HERE.parents[1] / "sandhi"))
    words = parser.parse_args()
    os.environ["SANDHI_PROGRAM"] = str(Path(words.program).resolve())
    from browser import Browser
    from serving import PageServer
    from test_browser import Page

    server = PageServer("-")
    browser = Browser(1400, 1120)
    try:
        page = Page(browser, server.address).open().setting(output="iast", theme="light").open()
        kept = next(box for box in page.type(LINE)["boxes"] if box["form"] == KEPT)
        seen = page.keep(kept["number"])
        place = [form for _, form in seen["answers"][0]].index(LOOKED_AT) + 1
        page.click(f"#answers li:first-child .words .unit:nth-of-type({place}) .form")
        browser.wait("return document.querySelector('#answers .analyses')")
        browser.run("document.activeElement.blur(); scrollTo(0, 0)")
        browser.picture(words.out)
    finally:
        browser.close()
        server.stop()


if __name__ == "__main__":
    main()
