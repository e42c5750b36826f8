#!/usr/bin/env python3
"""Measures the page over the starter lexicon: clicks, the first line, the memory of the server.

    page/tests/measure.py [--program PROGRAM] [--lexicon LEX]

Lines with 150 to 250 answers are readings, lines of `fresh.tsv` beside them, and pairs of these that are read as one
line. On each line every box is rejected and kept once, each time on the line without choices, and the choice is taken
back. The time goes from a click that chooses to the end of the first frame in which the page is drawn anew. The processor time is that of the browser with
all its processes, the server and the program, for each click, those that take back counted too: it tells what a click
costs where other work keeps the processors busy. The first line is timed from the start of `sandhi-page`, and from Enter.
"""

import argparse
import itertools
import os
import statistics
import sys
import time
from pathlib import Path

sys.dont_write_bytecode = True
HERE = Path(__file__).resolve().parent
sys.path[:0] = [str(HERE), str(HERE.parent)]

LEAST, MOST, LINES = 150, 250, 3

CLICKS = """
const done = arguments[arguments.length - 1];
const grid = document.getElementById('grid');
const painted = () => new Promise((end) => requestAnimationFrame(() => {
  const { port1, port2 } = new MessageChannel();
  port1.onmessage = end;
  port2.postMessage(null);
}));
const drawnAfter = (button) => new Promise((end) => {
  const begun = performance.now();
  const observer = new MutationObserver(async () => {
    observer.disconnect();
    await painted();
    end(performance.now() - begun);
  });
  observer.observe(grid, { childList: true });
  button.click();
});
(async () => {
  const times = [];
  const count = grid.querySelectorAll('.box').length;
  for (let number = 0; number < count; number += 1) {
    for (const control of ['reject', 'keep']) {
      const button = grid.querySelector(`.box[data-number='${number}'] .${control}`);
      if (control === 'keep' && button.ariaLabel.includes('ways')) continue;
      times.push(await drawnAfter(button));
      const takeBack = document.querySelectorAll('#choices .choices > button, #choices li button');
      await drawnAfter(takeBack[takeBack.length - 1]);
    }
  }
  done(times);
})();
"""


def lines_with_answers(session, texts):
    """Texts with LEAST to MOST answers: single ones of these first, then pairs."""
    counts = {}
    for text in texts:
        session.ask(f"text devanagari {text}")
        counts[text] = len(session.ask("page 1000")) - 1
    found = [text for text, count in counts.items() if LEAST <= count <= MOST]
    pairs = (
        (one, other)
        for one, other in itertools.permutations(counts, 2)
        if LEAST <= counts[one] * counts[other] <= MOST
    )
    for one, other in itertools.islice(pairs, 0, None, 97):
        if len(found) == LINES:
            break
        session.ask(f"text devanagari {one} {other}")
        if LEAST <= len(session.ask("page 1000")) - 1 <= MOST:
            found.append(f"{one} {other}")
    return found


def memory_of(process):
    """The most memory that a process has taken, and takes now, in MiB."""
    lines = Path(f"/proc/{process}/status").read_text(encoding="ascii").splitlines()
    told = {line.split(":")[0]: int(line.split()[1]) / 1024 for line in lines if line.startswith(("VmHWM", "VmRSS"))}
    return told["VmHWM"], told["VmRSS"]


def processor_time(roots):
    """The seconds that processes and all below them have taken so far."""
    times, parents = {}, {}
    for path in Path("/proc").glob("[0-9]*/stat"):
        try:
            fields = path.read_text(encoding="utf-8", errors="replace").rsplit(") ", 1)[1].split()
        except OSError:
            continue
        parents[int(path.parent.name)] = int(fields[1])
        times[int(path.parent.name)] = (int(fields[11]) + int(fields[12])) / os.sysconf("SC_CLK_TCK")

    def is_below(process):
        while process not in roots and process in parents:
            process = parents[process]
        return process in roots

    return sum(time for process, time in times.items() if is_below(process))


def click_times(browser, page, text, roots):
    """The milliseconds of clicks on a line, and the processor time of all of them, with those that take back."""
    page.type(text)
    before = processor_time(roots)
    times = browser.call("POST", "/execute/async", {"script": CLICKS, "args": []})
    return times, processor_time(roots) - before


def first_line(start, browser, text):
    """Seconds from the start of the server to the first line that is drawn, and from the reader's Enter."""
    from test_browser import Page

    begun = time.monotonic()
    server = start()
    try:
        page = Page(browser, server.address).open()
        entered = time.monotonic()
        page.type(text)
        browser.wait("return document.querySelectorAll('#grid .box').length > 0")
        ended = time.monotonic()
        return ended - begun, ended - entered
    finally:
        server.stop()


def main():
    parser = argparse.ArgumentParser(description=__doc__.splitlines()[0])
    parser.add_argument("--program", default=str(HERE.parents[1] / "sandhi"))
    parser.add_argument("--lexicon", default="-")
    words = parser.parse_args()
    os.environ["SANDHI_PROGRAM"] = str(Path(words.program).resolve())
    os.environ["SANDHI_LEXICON"] = words.lexicon if words.lexicon == "-" else str(Path(words.lexicon).resolve())
    from browser import Browser
    from serving import PROGRAM, READINGS, PageServer, readings
    from session import Session
    from test_browser import Page, count_of, starter_path

    lexicon = starter_path()
    session = Session(PROGRAM, lexicon, 2 * 1024**3)
    rows = readings() + readings(READINGS.with_name("fresh.tsv"))
    texts = lines_with_answers(session, [text for _, _, text, *_ in rows])
    session.close()
    browser = Browser()
    try:
        begun = [first_line(lambda: PageServer(lexicon), browser, texts[0]) for _ in range(3)]
        server = PageServer(lexicon)
        page = Page(browser, server.address).open()
        browser.call("POST", "/timeouts", {"script": 600_000})
        counts = [count_of(page.type(text)["count"]) for text in texts]
        lines = [click_times(browser, page, text, {browser.process, server.process.pid}) for text in texts]
        most, now = memory_of(server.process.pid)
        server.stop()
    finally:
        browser.close()
    print(f"load {os.getloadavg()[0]:.1f} on {os.cpu_count()} processors")
    for count, text, (times, spent) in zip(counts, texts, lines):
        times.sort()
        print(
            f"line of {len(text)} signs with {count} answers, {len(times)} clicks: median {statistics.median(times):.0f} ms, "
            f"95th of 100 {times[int(0.95 * len(times))]:.0f} ms, processor time {500 * spent / len(times):.0f} ms a click"
        )
    print(
        f"first line: {statistics.median(all_ for all_, _ in begun):.2f} s from the start of the server, "
        f"{statistics.median(entered for _, entered in begun):.2f} s from Enter"
    )
    print(f"server: at most {most:.0f} MiB, at the end {now:.0f} MiB")


if __name__ == "__main__":
    main()
