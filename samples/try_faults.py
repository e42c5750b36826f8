#!/usr/bin/env python3
"""Tries that a file which the program writes is the old one or the whole new one, whatever happens.

    samples/try_faults.py PROGRAM [--kills N] [--reads N]

`build` writes two lexicons in turn under one name. Meanwhile it is killed at random moments, other processes read the file,
files may not grow past a limit, and the disk is full (where this user may mount one; else it is said that this was not tried).
After each of these the file must be one of the two whole texts. The files that `convert`, `annotate` and `migrate` write are tried in the
same way, with fewer kills, and so is a lexicon that `migrate` puts in its own place. The last line is `N passed, N failed`.
"""
import os
import random
import resource
import shutil
import signal
import stat
import subprocess
import threading
import time

from trial import Trial, arguments_of, become_nobody, try_all

WROTE_NOT = 4


class Writing(Trial):
    """A folder with sources of two lexicons, and what the program makes of them."""

    def __init__(self, program, folder):
        super().__init__(program, folder)
        whole = (folder / "stems.csv").read_text(encoding="utf-8").splitlines(keepends=True)
        (folder / "fewer.csv").write_text("".join(whole[:-1]), encoding="utf-8")
        self.texts = {}
        for stems in ("stems.csv", "fewer.csv"):
            self.build(stems)
            self.texts[stems] = self.bytes_of("made.lex")
        begun = time.monotonic()
        self.build("stems.csv", "timed.lex")
        self.seconds = time.monotonic() - begun

    def words(self, stems, out):
        return [self.program, "build", "rules.toml", "tables.csv", stems, str(out)]

    def is_whole(self, out):
        return self.bytes_of(out) in self.texts.values()

    def clear(self):
        for name in self.leftovers():
            os.remove(self.folder / name)


def try_kills(trial, count):
    """Kills the program at a random moment, mostly while it works."""
    lost = 0
    left = 0
    trial.build("stems.csv", "out.lex")
    for number in range(count):
        stems = ("stems.csv", "fewer.csv")[number % 2]
        running = subprocess.Popen(trial.words(stems, "out.lex"), cwd=trial.folder, stdout=subprocess.DEVNULL,
                                   stderr=subprocess.DEVNULL)
        time.sleep(random.uniform(0, 1.2 * trial.seconds))
        running.kill()
        running.wait()
        lost += not trial.is_whole("out.lex")
        left += len(trial.leftovers())
        trial.clear()
    trial.tell(f"{count} kills", lost == 0, f": {lost} files lost, {left} new files left behind")


def try_readers(trial, count):
    """Reads the file from three threads of this process, a build beside each twenty reads at least."""
    torn = 0
    reads = 0
    builds = 0
    lock = threading.Lock()

    def read():
        nonlocal torn, reads
        while True:
            with lock:
                if reads >= count and builds * 20 >= count:
                    return
                reads += 1
            if not trial.is_whole("out.lex"):
                with lock:
                    torn += 1

    readers = [threading.Thread(target=read) for _ in range(3)]
    for reader in readers:
        reader.start()
    while any(reader.is_alive() for reader in readers):
        trial.build(("stems.csv", "fewer.csv")[builds % 2], "out.lex")
        builds += 1
    for reader in readers:
        reader.join()
    trial.tell(f"{reads} reads beside {builds} builds", torn == 0, f": {torn} were neither text")


def limited(action):
    def prepare():
        signal.signal(signal.SIGXFSZ, action)
        resource.setrlimit(resource.RLIMIT_FSIZE, (4096, 4096))
    return prepare


def try_limit(trial):
    """Files may have 4,096 bytes: the write fails, or the signal ends the program."""
    trial.build("stems.csv", "out.lex")
    ended = trial.build("fewer.csv", "out.lex", preexec_fn=limited(signal.SIG_IGN))
    trial.tell("a file that may not grow", ended.returncode == WROTE_NOT and trial.is_whole("out.lex") and not trial.leftovers())
    ended = trial.build("fewer.csv", "out.lex", preexec_fn=limited(signal.SIG_DFL))
    trial.tell("a file that may not grow, with the signal", ended.returncode == -signal.SIGXFSZ and trial.is_whole("out.lex"))
    trial.clear()


def try_full_disk(trial):
    """A disk of 32 KiB holds one of the texts and not both."""
    disk = trial.folder / "disk"
    disk.mkdir()
    mounted = subprocess.run(["mount", "-t", "tmpfs", "-o", "size=32k", "tmpfs", str(disk)], capture_output=True)
    if mounted.returncode != 0:
        trial.tell_not_tried("a full disk", "no disk may be mounted here")
        return
    try:
        first = trial.build("stems.csv", "disk/out.lex")
        second = trial.build("fewer.csv", "disk/out.lex")
        whole = (disk / "out.lex").read_bytes() == trial.texts["stems.csv"]
        trial.tell("a full disk", first.returncode == 0 and second.returncode == WROTE_NOT and whole and len(os.listdir(disk)) == 1)
    finally:
        subprocess.run(["umount", str(disk)], check=True)


def try_names(trial):
    """Links, permissions, descriptors, devices and folders."""
    folder = trial.folder
    trial.build("stems.csv", "out.lex")
    os.chmod(folder / "out.lex", 0o604)
    os.symlink("out.lex", folder / "link.lex")
    trial.build("fewer.csv", "link.lex")
    trial.tell("a link leads to the new file, which has the old permissions",
               (folder / "link.lex").is_symlink() and stat.S_IMODE((folder / "out.lex").stat().st_mode) == 0o604
               and (folder / "out.lex").read_bytes() == trial.texts["fewer.csv"])
    os.symlink("absent.lex", folder / "dangling.lex")
    trial.build("stems.csv", "dangling.lex")
    trial.tell("a link that leads nowhere makes its file", (folder / "absent.lex").read_bytes() == trial.texts["stems.csv"])
    for name in ("/dev/stdout", "printed.txt"):
        with open(folder / "printed.txt", "wb") as printed:
            ended = subprocess.run(trial.words("stems.csv", name), cwd=folder, stdout=printed, stderr=subprocess.DEVNULL)
        trial.tell(f"standard output under the name {name}", ended.returncode == WROTE_NOT and (folder / "printed.txt").read_bytes() == b"")
    with open(folder / "held.txt", "wb") as held:
        ended = subprocess.run(trial.words("stems.csv", f"/dev/fd/{held.fileno()}"), cwd=folder, capture_output=True,
                               pass_fds=[held.fileno()])
    trial.tell("a descriptor of a file", ended.returncode == WROTE_NOT and (folder / "held.txt").read_bytes() == b"")
    piped = trial.build("stems.csv", "/dev/stdout")
    trial.tell("standard output that is a pipe", piped.stdout.startswith(trial.texts["stems.csv"]))
    trial.tell("a device", trial.build("stems.csv", "/dev/null").returncode == 0)
    (folder / "folder").mkdir()
    trial.tell("a folder", trial.build("stems.csv", "folder").returncode == WROTE_NOT)
    trial.tell("no new file is left behind", not trial.leftovers())


def try_permissions(trial):
    """A user who may not write the file, or may not make one beside it. Root may write all, and becomes nobody for this."""
    closed = trial.folder / "closed"
    closed.mkdir()
    shutil.copy(trial.folder / "out.lex", closed / "out.lex")
    before = (closed / "out.lex").read_bytes()
    os.chmod(closed / "out.lex", 0o666)
    os.chmod(closed, 0o555)
    ended = trial.build("stems.csv", "closed/out.lex", preexec_fn=become_nobody)
    trial.tell("a folder that may not be written", ended.returncode == WROTE_NOT and (closed / "out.lex").read_bytes() == before)
    os.chmod(closed, 0o777)
    os.chmod(closed / "out.lex", 0o444)
    ended = trial.build("stems.csv", "closed/out.lex", preexec_fn=become_nobody)
    trial.tell("a file that may not be written", ended.returncode == WROTE_NOT and (closed / "out.lex").read_bytes() == before)


def try_other_commands(trial, count):
    """The other commands that write a file: it may not grow, and the program is killed; each time it is the old one or the whole new one."""
    old = b"the old file\n"
    out = trial.folder / "other.out"
    (trial.folder / "text.slp1").write_text("rAmo vanaM gacCati\n" * 1000, encoding="utf-8")
    trial.write_first("made.lex", "first.lex")
    line = "_".join(["nadI_gacCati"] * 30)
    for words, before in (
        (("convert", "slp1", "iast", "text.slp1", out.name), old),
        (("annotate", "made.lex", f"1;{line};;0;", out.name), old),
        (("migrate", "first.lex", out.name), old),
        (("migrate", out.name, out.name), trial.bytes_of("first.lex")),
    ):
        try_command(trial, words, out, before, count)
    whole = trial.bytes_of("first.lex"), trial.bytes_of("made.lex")
    trial.tell("the migrated lexicon is the one that was built", out.read_bytes() in whole)


def try_command(trial, words, out, before, count):
    out.write_bytes(before)
    begun = time.monotonic()
    ended = trial.run(*words)
    seconds = time.monotonic() - begun
    texts = (before, out.read_bytes())
    out.write_bytes(before)
    failed = trial.run(*words, preexec_fn=limited(signal.SIG_IGN))
    what = f"{words[0]} in its own place" if words[1] == out.name else words[0]
    stays = (ended.returncode, failed.returncode, out.read_bytes()) == (0, WROTE_NOT, before) and not trial.leftovers()
    trial.tell(f"a file of {what} that may not grow", stays and len(texts[1]) > 4096)
    lost = 0
    for _ in range(count):
        out.write_bytes(before)
        running = subprocess.Popen([trial.program, *words], cwd=trial.folder, stdout=subprocess.DEVNULL, stderr=subprocess.DEVNULL)
        time.sleep(random.uniform(0, 1.2 * seconds))
        running.kill()
        running.wait()
        lost += out.read_bytes() not in texts
        trial.clear()
    trial.tell(f"{count} kills of {what}", lost == 0, f": {lost} files lost")


def main():
    arguments = arguments_of(__doc__)
    arguments.add_argument("--kills", type=int, default=40)
    arguments.add_argument("--reads", type=int, default=400)
    given = arguments.parse_args()
    try_all(given, [
        lambda trial: try_kills(trial, given.kills),
        lambda trial: try_readers(trial, given.reads),
        try_limit,
        try_full_disk,
        try_names,
        try_permissions,
        lambda trial: try_other_commands(trial, given.kills // 4),
    ], Writing)


if __name__ == "__main__":
    main()
