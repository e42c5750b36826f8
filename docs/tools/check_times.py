#!/usr/bin/env python3
"""Where a check of a crate spent its time.

usage: check_times.py DIR [N]    DIR: what `rattle check .. --jobs 1 --incremental DIR` wrote into a folder that was empty

With one job the check writes a file for each module as it ends, so the times of the files tell the seconds of each. Prints the
seconds of each kind of module, and then for the N functions (40 where no N is given) that took most: all seconds, those of the
typing derivation (`Lts`) and its size, of the search for goals without an answer (`Proof`), of tying both together (`Tie`) and of
the answers that stand.
"""
import collections
import os
import re
import sys
from pathlib import Path

KINDS = {"Lts", "Proof", "Tie", "Answers", "Named", "Mir", "Code", "Invariants"}


def modules_in(folder):
    """The modules that were checked, as each ended: when, its bytes and its name."""
    found = []
    for at, _, names in os.walk(folder):
        for name in names:
            if name.endswith(".oantt"):
                stat = os.lstat(Path(at) / name)
                found.append((stat.st_mtime, stat.st_size, name.removesuffix(".oantt")))
    return sorted(found)


def split_name(name):
    """The function or file that a module belongs to, and its kind."""
    parts = re.sub(r"^Rattle-\w+[-.]?", "", name).split(".")
    kinds = [it for it in parts if it in KINDS]
    return ".".join(it for it in parts if it not in KINDS and it != "decls"), kinds[0] if kinds else "other"


def main():
    modules = modules_in(sys.argv[1])
    if not modules:
        sys.exit(f"check_times: nothing was checked into {sys.argv[1]}")
    most = int(sys.argv[2]) if len(sys.argv) > 2 else 40
    seconds, sizes, before = collections.defaultdict(collections.Counter), {}, modules[0][0]
    for ended, size, name in modules:
        owner, kind = split_name(name)
        seconds[owner][kind] += ended - before
        if name.endswith(".Lts"):
            sizes[owner] = size / 1e6
        before = ended
    kinds = sum(seconds.values(), collections.Counter())
    print(f"all {sum(kinds.values()):.0f} s:", ", ".join(f"{kind} {spent:.0f}" for kind, spent in kinds.most_common()))
    print("   all    Lts     MB  Proof    Tie  Answers")
    for owner, spent in sorted(seconds.items(), key=lambda it: -it[1].total())[:most]:
        row = [spent.total(), spent["Lts"], sizes.get(owner, 0), spent["Proof"], spent["Tie"], spent["Answers"]]
        print(" ".join(f"{it:6.1f}" for it in row), "", owner)


if __name__ == "__main__":
    main()
