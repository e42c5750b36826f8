#!/usr/bin/env python3
"""Tries streams that do not block and calls that signals interrupt: the program writes what it writes without them.

    samples/try_streams.py PROGRAM

A session reads a pipe that does not block, into which its lines come with pauses, and a batch writes to one that is read slowly and
is small. The program is stopped and goes on again and again. With `interrupting.c` here, which is compiled with gcc, every other read
and write fails as if it were interrupted."""
import fcntl
import os
import shutil
import signal
import subprocess
import threading
import time

from trial import SAMPLES, arguments_of, try_all

F_SETPIPE_SZ = 1031
SESSION = [b"text slp1 rAmo vanaM gacCati\n", b"page 1\n", b"summary\n", b"quit\n"]
BATCH = ("batch", "made.lex", "slp1", "text", "9")
BUILD = ("build", "rules.toml", "tables.csv", "stems.csv", "out.lex")
MIGRATE = ("migrate", "first.lex", "out.lex")


def make_files(trial):
    trial.build()
    trial.write_first("made.lex", "first.lex")
    (trial.folder / "text").write_text("rAmo vanaM gacCati\nrAmo\n" * 1000, encoding="utf-8")


def pipe_that_does_not_block(end):
    """A small pipe of which one end, the first or the second, does not block."""
    pipe = os.pipe()
    fcntl.fcntl(pipe[1], F_SETPIPE_SZ, 4096)
    os.set_blocking(pipe[end], False)
    return pipe


def try_input(trial):
    whole = trial.run("read", "made.lex", input=b"".join(SESSION))
    reading, writing = pipe_that_does_not_block(0)
    running = subprocess.Popen([trial.program, "read", "made.lex"], cwd=trial.folder, stdin=reading, stdout=subprocess.PIPE, stderr=subprocess.PIPE)
    os.close(reading)
    for line in SESSION:
        time.sleep(0.3)
        os.write(writing, line)
    output, said = running.communicate()
    os.close(writing)
    trial.tell("an input that does not block", (running.returncode, output, said) == (0, whole.stdout, b""), f" {said}" if said else "")


def try_output(trial):
    whole = trial.run(*BATCH)
    reading, writing = pipe_that_does_not_block(1)
    running = subprocess.Popen([trial.program, *BATCH], cwd=trial.folder, stdin=subprocess.DEVNULL, stdout=writing, stderr=subprocess.PIPE)
    os.close(writing)
    output = b""
    while part := os.read(reading, 1 << 16):
        output += part
        time.sleep(0.001)
    os.close(reading)
    said = running.communicate()[1]
    holds = (running.returncode, output, said) == (0, whole.stdout, b"") and len(output) > 1 << 16
    trial.tell("an output that does not block", holds, f" {said}" if said else "")


def stop_and_go_on(running, times):
    """Stops a process and lets it go on so often. Nothing is sent to one that has ended."""
    for _ in range(times):
        for number in (signal.SIGSTOP, signal.SIGCONT, signal.SIGWINCH):
            running.send_signal(number)
            time.sleep(0.002)


def try_stops(trial):
    for words in (BATCH, BUILD):
        whole = trial.run(*words)
        running = subprocess.Popen([trial.program, *words], cwd=trial.folder, stdin=subprocess.DEVNULL, stdout=subprocess.PIPE, stderr=subprocess.PIPE)
        stopping = threading.Thread(target=stop_and_go_on, args=(running, 200))
        stopping.start()
        output, said = running.communicate()
        stopping.join()
        trial.tell(f"{words[0]} that is stopped again and again", (running.returncode, output, said) == (0, whole.stdout, b""))


def try_interrupted(trial):
    if not shutil.which("gcc"):
        trial.tell_not_tried("interrupted calls", "there is no gcc to compile the library that interrupts them")
        return
    library = trial.folder / "interrupting.so"
    subprocess.run(["gcc", "-O1", "-shared", "-fPIC", "-o", str(library), str(SAMPLES / "interrupting.c")], check=True)
    for words, given in ((BATCH, b""), (BUILD, b""), (MIGRATE, b""), (("read", "made.lex"), b"".join(SESSION))):
        whole = trial.run(*words, input=given)
        made = trial.bytes_of("out.lex")
        ended = trial.run(*words, input=given, env={**os.environ, "LD_PRELOAD": str(library)})
        holds = (ended.returncode, ended.stdout, ended.stderr) == (0, whole.stdout, b"") and trial.bytes_of("out.lex") == made
        trial.tell(f"{words[0]} with every other call interrupted", holds, f" {ended.stderr}" if ended.stderr else "")


if __name__ == "__main__":
    try_all(arguments_of(__doc__).parse_args(), [make_files, try_input, try_output, try_stops, try_interrupted])
