"""Examples: each `$` of a block of code is run, and prints what stands below it.

A command runs as at the top of the repository, with `./sandhi` being the program that was given. All commands of a document run
one after another in one folder, so that a later one may use what an earlier one made. Output is compared line by line; a line `..`
stands for any lines. Where a block shows no output at all, its commands are only to end well. The lines that are typed in a session
stand among its replies, each beginning with a word of a session; a session goes on in later blocks of code, up to `quit`."""

import os
import shlex
import subprocess
import tempfile
from pathlib import Path

SECONDS = 120


class Example:
    """One command with the lines that it is given and those that it prints. `shows` says whether output is shown."""

    def __init__(self, line, command, shows):
        self.line = line
        self.command = command
        self.shows = shows
        self.typed = []
        self.printed = []


def examples_of(tree, document):
    """The examples of a document, in their order."""
    words = set(tree.session_words())
    session = None
    for block in document.code:
        shows = any(line and not line.startswith("$ ") for line in block.lines)
        begins = block.lines and block.lines[0].partition(" ")[0]
        example = session if begins in words else None
        for line, text in enumerate(block.lines, block.line):
            if text.startswith("$ "):
                example = Example(line, text[2:], shows)
                session = example if " read " in text else None
                yield example
            elif example and example is session and text.partition(" ")[0] in words:
                example.typed.append(text)
                session = None if text == "quit" else session
            elif example:
                example.printed.append(text)


def check_examples(tree, documents, program):
    for document in documents:
        examples = list(examples_of(tree, document))
        with tempfile.TemporaryDirectory() as folder:
            lay_out(tree.root, Path(folder), program)
            for example in examples:
                wrong = fault_of_example(example, folder)
                if wrong:
                    yield document.name, example.line, wrong


def lay_out(root, folder, program):
    """Makes the folder look like the top of the repository, with the given program as ./sandhi."""
    for path in root.iterdir():
        if path.is_dir() and not path.name.startswith("."):
            (folder / path.name).symlink_to(path)
    script = folder / "sandhi"
    script.write_text(f'#!/bin/sh\nexec {shlex.quote(program)} "$@"\n')
    script.chmod(0o755)


def fault_of_example(example, folder):
    """What is wrong with what the example's command does, or None."""
    typed = "".join(line + "\n" for line in example.typed)
    environment = {**os.environ, "SANDHI": f"{folder}/sandhi"}
    try:
        ran = subprocess.run(
            ["bash", "-c", example.command], input=typed, capture_output=True, text=True, cwd=folder, timeout=SECONDS, env=environment
        )
    except subprocess.TimeoutExpired:
        return f"`{example.command}` does not end within {SECONDS} seconds"
    if not example.shows:
        return f"`{example.command}` ends with {ran.returncode}" if ran.returncode else None
    printed = (ran.stdout + ran.stderr).splitlines() if not ran.stdout else ran.stdout.splitlines()
    return None if agrees(example.printed, printed) else f"`{example.command}` prints other lines: {difference(example.printed, printed)}"


def agrees(shown, printed):
    """Whether the shown lines are the printed ones, where `..` stands for any."""
    if not shown:
        return not printed
    if shown[0] == "..":
        return any(agrees(shown[1:], printed[place:]) for place in range(len(printed) + 1))
    return bool(printed) and shown[0] == printed[0] and agrees(shown[1:], printed[1:])


def difference(shown, printed):
    for old, new in zip(shown, printed):
        if old != new:
            return f"`{new}` in place of `{old}`"
    return f"{len(printed)} lines in place of {len(shown)}"
