#!/usr/bin/env python3
"""Lawful lexicons and lines that cost much, and what they cost.

usage: hard_lines.py PROGRAM [FAMILY ..]

Makes the lexicons and lines in a folder of its own, runs the program on them, and prints for each family wall seconds, seconds of
the processors, those that a line of one letter takes over the same lexicon, so that the rest is what the line itself takes, and the peak of
memory. A run is ended after a minute of a processor, those of some families sooner, and at 12 GB. A peak below that of this script, some
12 MiB, is not told. All lexicons are within the limits; the letters of a line are all `a`. The status is 1 where a run was ended, or ended
with another status than 0.
"""
import multiprocessing, os, random, resource, subprocess, sys, tempfile, time

MOST_SECONDS = 60
# Where one walk serves all phases that do the same, the first of these takes 0.4 to 1.9 seconds, and else 12 to 18 or more; where the rules of a part
# are gone over once for all nodes that have it, the second takes 1 to 2, and else twelve times as long; where the living ways of places that have many are
# kept, the third takes 0.2 to 0.5, and else 6 to 11; where a choice leaves the memo of rules in use, the fourth takes 0.9 to 1.7, and else some
# eight times as long; and where the fronts of all phases are gone over together, and of the rules after a letter those of parts that may be
# entered, the fifth takes 0.4 to 2.5, and else, with each rule tested, 11 to 32.
MOST_SECONDS_OF = {
    "leads: 62 leads, 16 phases": 7,
    "lists: a list of rules for each node": 12,
    "lists: 1,000 answers of 100 letters": 3,
    "choices: 12 letters, one segment rejected": 10,
    "own forms: 62 leads in 16 phases": 12,
}
MOST_BYTES = 12 << 30


def phases_of(count):
    return ["p%d" % k for k in range(count)]


def every_length(count, most=64):
    """The forms a to a^most, each in every phase."""
    return [(name, "a" * n) for name in phases_of(count) for n in range(1, most + 1)]


def powers(us, vs, ws):
    """Rules over powers of one letter."""
    return [("a" * u, "a" * v, "a" * w) for u in us for v in vs for w in ws]


# Letters in their order.
LETTERS = "aAiIuUfFxXeEoOMHkKgGNcCjJYwWqQRtTdDnpPbBmyrlLvSzsh"


def lexicon(count, rules, forms):
    """The text of a lexicon file of version 1."""
    names = phases_of(count)

    def rank(form):
        return names.index(form[0]), [LETTERS.index(letter) for letter in form[1]]

    lines = ["slx 1", *["phase " + name for name in names], "grammar (%s)+" % "|".join(names)]
    lines += ["rule %s|%s>%s" % rule for rule in rules]
    lines += ["form %s %s %s ind" % (name, form, form) for name, form in sorted(forms, key=rank)]
    return "\n".join(lines + ["end"]) + "\n"


UPTO8 = range(1, 9)
MANY = powers(UPTO8, UPTO8, UPTO8)


def family_rules():
    return lexicon(1, MANY, every_length(1)), "a" * 1000


def family_rules_summary():
    return lexicon(1, MANY, every_length(1)), "a" * 300


def family_phases():
    return lexicon(16, MANY, every_length(16)), "a" * 1000


def family_dead():
    """Forms that end in b stand in no line of a's: no answer, and every place is reached."""
    forms = [(name, "a" * n + "b") for name in phases_of(16) for n in range(8, 60)]
    rules = [(u + "b", v, w) for u, v, w in powers(range(0, 8), UPTO8, UPTO8)]
    return lexicon(16, rules, forms), "a" * 41


def family_dead_long():
    return family_dead()[0], "a" * 1000


def words(letters, most):
    """All words over the letters, of one letter to so many."""
    found, last = [], [""]
    for _ in range(most):
        last = [word + letter for word in last for letter in letters]
        found += last
    return found


def family_leads(count=1, more=()):
    """62 leads, each of which begins forms that go on in a's."""
    leads = words("ab", 5)
    rules = [("a" * u, v, "a" * w) for u in UPTO8 for v in leads for w in UPTO8]
    forms = {(name, v + "a" * n) for name in phases_of(count) for v in leads + [""] for n in range(60) if v + "a" * n}
    return lexicon(count, rules, forms.union(more)), "a" * 1000


def family_leads_phases():
    return family_leads(16)


def family_leads_own_forms():
    """The same, where each phase has forms of its own after each lead, which go on with another letter than the line."""
    own = [(name, v + "c" * (k + 1)) for k, name in enumerate(phases_of(16)) for v in words("ab", 5) + [""]]
    return family_leads(16, own)


def family_refused():
    """From each place two ways lead on; after each of its fronts in 16 phases stand rules by the thousand whose w begins as the line does and
    goes on in another way."""
    leads, ends = words("ab", 5), words("de", 5)
    rules = [(end, leads[(2 * k + more) % len(leads)], "a" * (1 + more)) for k, end in enumerate(ends) for more in (0, 1)]
    rules += [(u, v, "a" * n + "b" * m) for u in ("c", "cc") for v in leads for n in UPTO8 for m in UPTO8 if n + m <= 8]
    forms = {(name, v + "a" * n + u) for name in phases_of(16) for v in leads for n in range(58) for u in ("c", "cc")}
    forms |= {("p0", v + "a" + end) for v, end in zip(leads, ends)} | {("p0", "a" + end) for end in ends}
    return lexicon(16, rules, forms), "a" * 1000


def family_rejected():
    """Twelve letters over the same lexicon; of the segments one is rejected."""
    return family_leads_own_forms()[0], "a" * 12


def family_nodes():
    """250 leads, each with nodes of its own: after how many a's forms end is another matter for each."""
    leads = words("abcd", 4)[:250]
    rules = [("a", v, "a") for v in leads]
    forms = {(name, v + "a" * n) for name in phases_of(16) for k, v in enumerate(leads + [""]) for n in range(1, 60) if n % 8 == 7 or k >> (n % 8) & 1}
    return lexicon(16, rules, forms), "a" * 1000


def family_lists_short():
    """The same lexicon, where from most places near the line's end few of many thousand keys live."""
    return family_lists()[0], "a" * 100


def family_lists():
    """62 leads; at each of their nodes forms end by some of twelve letters, which are drawn, so that nearly each node has a list of rules of its own."""
    leads, ends, draw = words("aA", 5), "bcdefgijklmn", random.Random(1)
    rules = [(end, v, "a" * n) for end in ends for v in leads for n in range(1, 6)]
    forms = {("p0", v + "a" * n + end) for v in leads + [""] for n in range(59) for end in ends if draw.random() < 0.5}
    forms |= {("p0", v + "a" * 59) for v in leads + [""]}
    return lexicon(1, rules, forms), "a" * 1000


FAMILIES = {
    "rules: first answers of 1,000 letters": (family_rules, "segment"),
    "rules: summary of 300 letters": (family_rules_summary, "summary"),
    "phases: first answers of 1,000 letters": (family_phases, "segment"),
    "leads: 62 leads, one phase": (family_leads, "segment"),
    "leads: 62 leads, 16 phases": (family_leads_phases, "segment"),
    "own forms: 62 leads in 16 phases": (family_leads_own_forms, "segment"),
    "refused: rules that fail, 16 phases": (family_refused, "segment"),
    "nodes: 250 leads with nodes of their own": (family_nodes, "segment"),
    "lists: a list of rules for each node": (family_lists, "first"),
    "lists: 1,000 answers of 100 letters": (family_lists_short, "page"),
    "choices: 12 letters, one segment rejected": (family_rejected, "rejected"),
    "dead: 41 letters without an answer": (family_dead, "segment"),
    "dead: 1,000 letters without an answer": (family_dead_long, "segment"),
}


def set_limits(seconds):
    resource.setrlimit(resource.RLIMIT_AS, (MOST_BYTES, MOST_BYTES))
    resource.setrlimit(resource.RLIMIT_CPU, (seconds, seconds))


def run(program, words, stdin, seconds):
    """Wall seconds, seconds of the processors, the peak in KiB, the exit status (of a run that was ended, less than 0), and how many bytes it wrote."""
    began = time.perf_counter()
    with open(stdin or os.devnull) as source, tempfile.TemporaryFile() as out:
        child = subprocess.Popen([program, *words], stdin=source, stdout=out, stderr=subprocess.DEVNULL, preexec_fn=lambda: set_limits(seconds))
        _, status, usage = os.wait4(child.pid, 0)
        ended = os.waitstatus_to_exitcode(status)
        size = out.seek(0, 2)
    return time.perf_counter() - began, usage.ru_utime + usage.ru_stime, usage.ru_maxrss, ended, size


def write_family(make, task, folder):
    """Writes a family's lexicon, its line, a line of one letter, and a session that asks for the line's summary, and then may reject a segment and ask for a page."""
    text, line = make()
    asked = "reject 1\npage 1\n" if task == "rejected" else ""
    for name, content in (("lexicon", text), ("line", line), ("letter", "a"), ("session", "text slp1 %s\nsummary\n%s" % (line, asked))):
        with open(os.path.join(folder, name), "w") as file:
            file.write(content)


def main():
    program = os.path.abspath(sys.argv[1])
    wanted = sys.argv[2:]
    all_ended_well = True
    with tempfile.TemporaryDirectory() as folder:
        lexicon_path, line_path, letter_path, session_path = (os.path.join(folder, name) for name in ("lexicon", "line", "letter", "session"))
        for name, (make, task) in FAMILIES.items():
            if wanted and not any(word in name for word in wanted):
                continue
            # In a process of its own, since no run's peak is told that is below this script's memory as the run begins.
            writer = multiprocessing.Process(target=write_family, args=(make, task, folder))
            writer.start()
            writer.join()
            seconds = MOST_SECONDS_OF.get(name, MOST_SECONDS)
            if task in ("summary", "rejected"):
                result = run(program, ["read", lexicon_path], session_path, seconds)
            elif task in ("first", "page"):
                count = "1" if task == "first" else "1000"
                result = run(program, ["batch", lexicon_path, "slp1", line_path, count], None, seconds)
            else:
                with open(line_path) as file:
                    result = run(program, ["segment", lexicon_path, file.read()], None, seconds)
            wall, used, peak, ended, size = result
            _, of_lexicon, *_ = run(program, ["batch", lexicon_path, "slp1", letter_path, "1"], None, seconds)
            all_ended_well &= ended == 0
            told = "%-42s %7.2f s  %7.2f s of the processors, with one letter %5.2f s  %9.1f MiB  exit %s, %d bytes"
            print(told % (name, wall, used, of_lexicon, peak / 1024, ended, size), flush=True)
    return 0 if all_ended_well else 1


if __name__ == "__main__":
    sys.exit(main())
