#!/usr/bin/env python3
"""Splits a module into parts that are compiled side by side: `split_module.py MODULE PARTS` writes part0.ll, part1.ll and so on.

MODULE is a module of LLVM as text, in which all functions but `main` are internal. What `main` does not reach is left out. A large function
stands in one part, and the other parts declare it; where one other function alone calls it, it stands in the same part as that one. A small
function stands in each part that calls it. So most functions can still be put in place where they are called.
"""

import re
import sys
from collections import defaultdict

# A function whose text is longer stands in one part alone.
SMALL = 3_000
NAME = re.compile(r'@("[^"]*"|[\w.$-]+)')
VARIABLE = re.compile(r"(@\S+ = )private (global (?:\[[^]]*\]|\S+)) ")


def cut(lines):
    """The lines outside functions, and the text of each function by its name."""
    outside, functions = [], {}
    lines = iter(lines)
    for line in lines:
        if not line.startswith("define "):
            outside.append(line)
            continue
        text = [line]
        while line != "}\n":
            line = next(lines)
            text.append(line)
        functions[NAME.search(text[0])[1]] = "".join(text)
    return outside, functions


def reached(calls, first):
    """Of the functions that `calls` has, these and all that they call."""
    found, left = set(), list(first)
    while left:
        name = left.pop()
        if name not in found and name in calls:
            found.add(name)
            left.extend(calls[name])
    return found


def first_of_chain(name, callers):
    """The first function of a chain, each of which is the only caller of the next, down to this one."""
    passed = {name}
    while len(callers[name]) == 1 and not passed.issuperset(callers[name]):
        (name,) = callers[name]
        passed.add(name)
    return name


def shared_out(large, functions, callers, parts):
    """The large functions of each part: a chain stays together, and each part gets about as much text."""
    chains = defaultdict(list)
    for name in large:
        chains[first_of_chain(name, callers)].append(name)
    total = sum(len(functions[name]) for name in large)
    of_parts, before = [[] for _ in range(parts)], 0
    for chain in chains.values():
        of_parts[min(before * parts // total, parts - 1)].extend(chain)
        before += sum(len(functions[name]) for name in chain)
    return of_parts


def shown(text):
    """The text of a function that other parts may name."""
    return text.replace("define internal ", "define hidden ", 1)


def declared(text):
    """The declaration of a function that stands in another part."""
    return text[: text.index(" {\n")].replace("define internal ", "declare hidden ", 1) + "\n"


def variable(line, is_first):
    """A line outside functions, in the first part or another: a variable stands in the first alone, and what never changes in each."""
    found = VARIABLE.match(line)
    if not found:
        if line.startswith("@") and " constant " not in line:
            sys.exit(f"split_module.py: a variable of another form: {line[:200]}")
        return line
    return line.replace(" private ", " hidden ", 1) if is_first else f"{found[1]}external hidden {found[2]}\n"


def main():
    module, parts = sys.argv[1], int(sys.argv[2])
    with open(module, encoding="utf-8", errors="surrogateescape") as source:
        outside, functions = cut(source)

    def named(text):
        return {name for name in NAME.findall(text) if name in functions}

    calls = {name: named(text) - {name} for name, text in functions.items()}
    # What `main` may come to without a call that names it, and so without a caller that is known.
    of_tables = set().union(*(named(line) for line in outside if line.startswith("@")))
    live = reached(calls, {"main"} | of_tables)
    callers = defaultdict(set)
    for name in live:
        for other in calls[name] - of_tables:
            callers[other].add(name)
    large = [name for name in functions if name in live and (name in {"main"} | of_tables or len(functions[name]) > SMALL)]
    small = {name: calls[name] for name in live.difference(large)}
    of_parts = shared_out(large, functions, callers, parts)
    copies = [reached(small, set().union(*(calls[name] for name in own))) for own in of_parts]
    asked_for = [of_tables.union(*(calls[name] for name in [*own, *copied])) for own, copied in zip(of_parts, copies)]
    for number, own in enumerate(map(set, of_parts)):
        elsewhere = set().union(*(names for other, names in enumerate(asked_for) if other != number))
        with open(f"part{number}.ll", "w", encoding="utf-8", errors="surrogateescape") as part:
            part.writelines(variable(line, number == 0) for line in outside)
            for name, text in functions.items():
                if name in own:
                    part.write(shown(text) if name in elsewhere else text)
                elif name in copies[number]:
                    part.write(text)
                elif name in asked_for[number]:
                    part.write(declared(text))


main()
