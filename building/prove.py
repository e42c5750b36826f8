#!/usr/bin/env python3
"""Prove the crates that the program needs, and build the program of them.

    python3 prove.py "CRATE: USED USED .."..

Each word is a crate with what it uses, as crates.txt has it, and stands after those of the crates that it uses; the last is
the program's. A crate is begun once all that it uses is built, and first the one with the longest chain of others above it,
counted in the seconds that `crate_seconds` has for them. The crate of all that are not built with the longest chain above it gets
four jobs, since this chain decides how long all takes; but on two processors and on one the sum decides, and jobs of one check do some
work each for itself, so there it gets no more than another. Another gets one, or where fewer wait than there are processors those that
are left, at most four. A check with more jobs keeps fewer processors busy than it has jobs, since a part of it is the work of one:
crates are begun as long as half a processor is left, and there are no more of them at once than 3 GB of free memory are there for each.

Each crate is checked whole, and from nothing, by `rattle build`, over the statements of the crates below it; the check takes
nothing that earlier checks kept. Its last line must say that the crate is proved, and have no word of trust but those that the
toolchain's gate takes. What was proved of a crate is kept in its folder out/proved, under a sum of all that it was made
from, so that after a change only the crates that changed and those above them are proved again. A line on standard error
tells each crate that is begun; with the variable SANDHI_TIMES it tells at the end of each crate its seconds by the clock
and of the processors. Where a crate is refused, what was said of it follows, and the status is 1.
"""

import fcntl
import hashlib
import os
import re
import resource
import shutil
import signal
import subprocess
import sys
import tempfile
import time
from concurrent.futures import FIRST_COMPLETED, ThreadPoolExecutor, wait
from pathlib import Path

HERE = Path(__file__).resolve().parent
CRATES = HERE.parent / "crates"
MEMORY = 3_000_000_000
MOST_JOBS = 4
SECONDS_OF_OTHERS = 100
# What is said of a crate as its check goes, which nobody wants where it is refused.
PROGRESS = re.compile(r": proved$|modules loaded|^checked |^so far")


def say(text):
    print(f"sandhi: {text}", file=sys.stderr, flush=True)


def seconds_of(crates):
    """For each crate, how long its check takes with one job, as far as it is known: only the order of the checks rests on it."""
    words = [it.split() for it in (HERE / "crate_seconds").read_text().splitlines() if it and not it.startswith("#")]
    known = {name: int(seconds) for name, seconds in words}
    return {it: known.get(it, SECONDS_OF_OTHERS) for it in crates}


def processors_of(jobs):
    """How many processors a check with so many jobs keeps busy on the average, where three tenths of it are the work of one."""
    return 1 / (0.3 + 0.7 / jobs)


def work_from(uses, own):
    """For each crate, the seconds of it and of those above it on the longest way to the program."""
    above = dict(own)
    for crate in reversed(uses):
        for below in uses[crate]:
            above[below] = max(above[below], own[below] + above[crate])
    return above


def count_lanes():
    """How many checks may run side by side."""
    free = re.search(r"MemAvailable:\s+(\d+) kB", Path("/proc/meminfo").read_text())
    lanes = len(os.sched_getaffinity(0))
    return max(1, min(lanes, 1024 * int(free[1]) // MEMORY if free else lanes))


# The last line of a check that proved a crate, as the toolchain's gate takes it.
PROVED = re.compile(
    r"^logic=proved( (functions|axioms|target|cpu|threads|main|sum)=\S+)+ native=nat,char,string"
    r" logic-built=trusted libraries-built=trusted statements=trusted\n\Z",
    re.M,
)


class Builder:
    """The crates that are being built, each by process groups of its own."""

    def __init__(self, uses, of_kit, kit):
        self.uses, self.of_kit, self.kit = uses, of_kit, kit
        self.program, self.running, self.stopped = list(uses)[-1], set(), False
        self.sums = {}
        for crate in uses:
            self.sums[crate] = self.sum_of(crate)

    def sum_of(self, crate):
        """A sum of all that the crate is made from: its files, the crates and libraries that it uses, and the toolchain."""
        files = [it for part in ("src", "specs", "proofs") for it in (CRATES / crate / part).rglob("*") if it.is_file()]
        made = hashlib.sha256(repr((crate, self.of_kit[crate], (self.kit / "WHAT").read_bytes())).encode())
        for file in sorted(files):
            made.update(repr((str(file.relative_to(CRATES)), file.read_bytes())).encode())
        made.update(repr([self.sums[it] for it in self.uses[crate]]).encode())
        return made.hexdigest()

    def below(self, crate):
        """The crates below this one, each after those that it uses."""
        found = []
        for it in self.uses[crate]:
            found += [one for one in [*self.below(it), it] if one not in found]
        return found

    def room(self, crate):
        return CRATES / crate / "out" / "proved"

    def library(self, crate):
        return self.room(crate) / f"{crate}.rlib"

    def words(self, crate, jobs):
        is_program = crate == self.program
        words = ["--crate-name", crate, "src/main.rt" if is_program else "src/lib.rt"]
        for name in ["std", *self.of_kit[crate]]:
            words += ["--extern", f"{name}={self.kit}/rlibs/{name}.rlib"]
        words += ["-L", f"dependency={self.kit}/rlibs"]
        for name in self.uses[crate]:
            words += ["--extern", f"{name}={self.library(name)}"]
        for name in self.below(crate):
            words += ["-L", f"dependency={self.room(name)}"]
        words += ["--antt-project", f"{self.kit}/rattle/logic/antt-project.json", "--logic-built", f"{self.kit}/logic_built"]
        words += ["--jobs", str(jobs), "--links", f"{crate}="]
        if is_program:
            return [*words, "--toolchain", f"{self.kit}/toolchain", "--backend", "llvm", "-o", f"{self.room(crate)}/program.o"]
        return [*words, "--statements", "-o", str(self.library(crate))]

    def run(self, words, crate, log):
        """The status of a command in the crate's folder, whose output goes to the log."""
        log.seek(0)
        log.truncate()
        with subprocess.Popen(
            words, cwd=CRATES / crate, start_new_session=True, stdin=subprocess.DEVNULL, stdout=log, stderr=log
        ) as process:
            self.running.add(process)
            if self.stopped:
                self.stop()
            try:
                status = process.wait()
            finally:
                self.running.discard(process)
        log.seek(0)
        return status

    def check(self, crate, jobs, log):
        """Whether the crate is proved. Where its check was killed, most likely for memory, it is tried once more with one job."""
        for number in (jobs, 1):
            status = self.run([f"{self.kit}/bin/rattle", "build", *self.words(crate, number)], crate, log)
            if status != -signal.SIGKILL or self.stopped:
                break
        return status == 0 and PROVED.search(log.read()) is not None

    def link(self, log):
        """Whether the program is linked of the object file that was made of it."""
        room = self.room(self.program)
        words = [f"{self.kit}/bin/rattle-link", "--target", "x86_64-unknown-linux-gnu", "--toolchain", f"{self.kit}/toolchain"]
        words += ["-o", f"{room}/program", f"{room}/program.o", f"{self.kit}/c/libos_c.a", f"{self.kit}/c/liblibc_c.a"]
        return self.run(words, self.program, log) == 0

    def build(self, crate, jobs, log):
        """Whether the crate is proved and what it makes is built."""
        is_program, kept = crate == self.program, self.room(crate) / "sum"
        made = self.room(crate) / "program" if is_program else self.library(crate)
        if made.exists() and kept.is_file() and kept.read_text() == self.sums[crate]:
            return True
        shutil.rmtree(self.room(crate), ignore_errors=True)
        self.room(crate).mkdir(parents=True)
        if not self.check(crate, jobs, log) or is_program and not self.link(log):
            return False
        if self.sum_of(crate) != self.sums[crate]:
            log.write("a file of this crate was changed while it was proved\n")
            return False
        kept.write_text(self.sums[crate])
        return True

    def stop(self):
        self.stopped = True
        for process in list(self.running):
            try:
                os.killpg(process.pid, signal.SIGTERM)
            except OSError:
                pass


def lock(crates):
    """Waits until no command of the toolchain works in these crates' folders, and keeps others out as it does."""
    held = [os.open(CRATES / it, os.O_RDONLY) for it in sorted(crates)]
    for it in held:
        try:
            fcntl.flock(it, fcntl.LOCK_EX | fcntl.LOCK_NB)
        except BlockingIOError:
            say("waiting for another command that works in this repository")
            fcntl.flock(it, fcntl.LOCK_EX)


def stop_at_signal(*_):
    raise KeyboardInterrupt


def prove(uses, builder):
    """Builds all crates, and returns whether each is. Where one is refused or this is broken off, the others are ended."""
    lanes = count_lanes()
    least_on_chain = MOST_JOBS if lanes > 2 else 1
    above = work_from(uses, seconds_of(uses))
    left, running, built, busy = sorted(uses, key=lambda it: -above[it]), {}, set(), 0

    def jobs_for(crate, waiting):
        """The jobs of a crate that is begun while so many wait, with it, for the processors that are free."""
        jobs = min(MOST_JOBS, max(1, int(lanes - busy) // waiting))
        if above[crate] == max(above[it] for it in uses if it not in built):
            return max(jobs, least_on_chain)
        return jobs

    def one(crate, jobs, log):
        began = time.monotonic()
        return builder.build(crate, jobs, log), time.monotonic() - began

    for it in (signal.SIGTERM, signal.SIGHUP):
        signal.signal(it, stop_at_signal)
    with ThreadPoolExecutor(lanes) as pool:
        try:
            while left or running:
                ready = [it for it in left if built.issuperset(uses[it])]
                for at, crate in enumerate(ready):
                    if busy > lanes - 0.5:
                        break
                    jobs = jobs_for(crate, len(ready) - at)
                    left.remove(crate)
                    busy += processors_of(jobs)
                    say(f"crate {len(uses) - len(left)} of {len(uses)}, {crate}")
                    log = tempfile.TemporaryFile("w+", errors="replace")
                    running[pool.submit(one, crate, jobs, log)] = crate, jobs, log
                for ended in wait(running, return_when=FIRST_COMPLETED).done:
                    crate, jobs, log = running.pop(ended)
                    is_built, seconds = ended.result()
                    busy -= processors_of(jobs)
                    if not is_built:
                        log.seek(0)
                        sys.stderr.writelines(it for it in log if not PROGRESS.search(it))
                        say(f"the program could not be proved: crate {crate} was refused")
                        builder.stop()
                        return False
                    if os.environ.get("SANDHI_TIMES"):
                        say(f"{crate} took {seconds:.0f} seconds with {jobs} jobs")
                    built.add(crate)
        except BaseException:
            builder.stop()
            raise
    if os.environ.get("SANDHI_TIMES"):
        used = resource.getrusage(resource.RUSAGE_CHILDREN)
        say(f"all crates took {used.ru_utime + used.ru_stime:.0f} seconds of processor time")
    return True


def main(words):
    began = time.time()
    pairs = [word.partition(":")[::2] for word in words]
    names = [name for name, _ in pairs]
    uses = {name: [it for it in used.split() if it in names] for name, used in pairs}
    of_kit = {name: [it for it in used.split() if it not in names] for name, used in pairs}
    kit = Path(subprocess.run(["rt", "doc"], capture_output=True, text=True, check=True).stdout.strip()).parent
    lock(uses)
    builder = Builder(uses, of_kit, kit)
    if not prove(uses, builder):
        return 1
    # A source that was changed in the meantime is newer.
    program, made = CRATES / names[-1] / "out" / names[-1], builder.room(names[-1])
    shutil.copy(made / "program", made / "copy")
    os.utime(made / "copy", (began, began))
    os.replace(made / "copy", program)
    say("the program is proved")
    return 0


if __name__ == "__main__":
    try:
        sys.exit(main(sys.argv[1:]))
    except KeyboardInterrupt:
        say("broken off")
        sys.exit(1)
