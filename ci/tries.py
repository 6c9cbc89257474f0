"""Runs tests and programs by `rt try`: without proofs, over copies of the repository's crates."""

import os
import re
import shutil
import subprocess
import threading
import time
from typing import NamedTuple

from command import ROOT, Outcome

SECONDS_A_TEST = 40
SECONDS_A_RUN = 1200
SECONDS_IDLE = 1
PASSED = "ok"
FAILED = "failed"
STOPPED = "stopped at its time limit"
# What a run doesn't need of a crate.
UNUSED = shutil.ignore_patterns("out", "must-fail", "refused", "proved", "test-fail", "proofs", "cases")


class NotRun(Exception):
    """Why tests or a program did not run."""


class Test(NamedTuple):
    """What became of a test, and what is said of it."""
    end: str
    text: str


def dependencies():
    """Each crate of crates.txt with those that its line names, in the order of the file."""
    found = {}
    with open(f"{ROOT}/crates.txt", encoding="utf-8") as lines:
        for line in lines.read().splitlines():
            head, colon, tail = line.partition("#")[0].partition(":")
            if colon:
                found[head.split()[0]] = tail.split()
    return found


DEPENDENCIES = dependencies()


def below(crate):
    """The repository's crates that a crate stands on."""
    direct = {it for it in DEPENDENCIES[crate] if it in DEPENDENCIES}
    return direct.union(*map(below, direct))


def is_program(crate):
    return os.path.isfile(f"{ROOT}/crates/{crate}/src/main.rt")


def copy_crates(room, crates):
    """Copies crates, and what else a repository has."""
    os.makedirs(f"{room}/crates", exist_ok=True)
    shutil.copyfile(f"{ROOT}/HANDLES", f"{room}/HANDLES")
    for crate in crates:
        shutil.copytree(f"{ROOT}/crates/{crate}", f"{room}/crates/{crate}", ignore=UNUSED)
    list_crates(room, {it: DEPENDENCIES[it] for it in crates})


def list_crates(room, lines):
    with open(f"{room}/crates.txt", "a", encoding="utf-8") as it:
        it.writelines(f"{crate}: {' '.join(named)}\n" for crate, named in lines.items())


def environment(room):
    """That of `rt try`, but that a crate may call C (ci/wrong_bodies/batches.py), and that the check for reserved names, a third of its
    time, ends at once: rt starts it by `sh`, and no word or variable of rt leaves it out."""
    os.mkdir(f"{room}/bin")
    with open(f"{room}/bin/sh", "w", encoding="utf-8") as it:
        it.write('#!/bin/sh\ncase "$*" in *"/rattle check "*) exit 0 ;; esac\nexec /bin/sh "$@"\n')
    os.chmod(f"{room}/bin/sh", 0o755)
    return {**os.environ, "PATH": f"{room}/bin:{os.environ['PATH']}", "RT_ALLOW_C": "1"}


def run(room, crate, words, stderr, given=b""):
    """What `rt try` answers in a crate of the copy."""
    command = ["rt", "try", "--seconds", str(SECONDS_A_TEST), *words]
    how = {"stdout": subprocess.PIPE, "stderr": stderr, "input": given, "env": environment(room)}
    try:
        return subprocess.run(command, cwd=f"{room}/crates/{crate}", timeout=SECONDS_A_RUN, **how)
    except (subprocess.TimeoutExpired, OSError) as error:
        raise NotRun(f"rt try did not end: {error}") from error


def tests_of(room, crate, words=()):
    """What became of each test of a crate of the copy, by its path."""
    said = run(room, crate, ["--test", *words], subprocess.STDOUT).stdout.decode(errors="replace")
    became = {}
    for path, end, text in re.findall(r"^test (\S+) \.\.\. (ok|FAILED)\n((?:    .*\n)*)", said, re.M):
        is_stopped = "no-answer" in text.split("races:")[0]
        became[path] = Test(PASSED if end == "ok" else STOPPED if is_stopped else FAILED, text)
    if not became:
        raise NotRun("the tests did not run: " + " / ".join(said.strip().splitlines()[:3]))
    return became


def program_of(room, crate, words=(), given=b"", arguments=()):
    """How the program of a crate of the copy ended, and what it wrote; round its standard error `rt try` says what its runs
    did."""
    words = [*words, "--", *arguments] if arguments else words
    ran = run(room, crate, words, subprocess.PIPE, given)
    said = rb"(?:allocations: \d+\n)?(.*?)(?:(?:interpreter|checked|races): .*\n)+run=ended status=(\d+) .*\n"
    ended = re.fullmatch(said, ran.stderr, re.S)
    if not ended:
        raise NotRun("the program did not run to its end: " + ran.stderr.decode(errors="replace")[-300:])
    return Outcome(int(ended[2]), ran.stdout, ended[1])


def cases_of(room, crate, folder):
    """How the program of a crate of the copy ended on each case of a folder, and what it wrote, as it is built once: `rt try` says a
    line before the output of each, and one behind what it wrote to standard error."""
    ran = run(room, crate, ["--cases", folder], subprocess.PIPE)
    became, name, wrote = {}, None, {}
    for line in ran.stdout.splitlines(keepends=True):
        if line.startswith(b"== "):
            name = line[3:].decode().rstrip("\n")
        wrote[name] = wrote.get(name, b"") + (b"" if line.startswith(b"== ") else line)
    said = b""
    for line in ran.stderr.splitlines(keepends=True):
        words = line.decode(errors="replace").split()
        if words and words[0].startswith("case=") and "run=ended" in words:
            name, status = words[0][5:], next(it[7:] for it in words if it.startswith("status="))
            became[name], said = Outcome(int(status), wrote.get(name, b""), said), b""
        else:
            said += line
    if not became:
        raise NotRun("no case was run to its end: " + " / ".join(ran.stderr.decode(errors="replace").strip().splitlines()[:3]))
    return became


def free_memory():
    """How many bytes of memory are free, as far as the kernel tells."""
    with open("/proc/meminfo", encoding="ascii") as it:
        found = re.search(r"^MemAvailable:\s+(\d+) kB", it.read(), re.M)
    return 1024 * int(found[1]) if found else 0


class Processors:
    """Lets a run begin at once, or only where a processor is idle; none once it is told to end."""

    def __init__(self):
        self.beginning, self.are_shared, self.is_over = threading.Lock(), False, False

    @staticmethod
    def there():
        """How many there are: those that the process may run on, or fewer by the quota of its control group."""
        found = len(os.sched_getaffinity(0))
        try:
            with open("/sys/fs/cgroup/cpu.max", encoding="ascii") as it:
                quota, period = it.read().split()
            return min(found, max(int(quota) // int(period), 1))
        except (OSError, ValueError):
            return found

    @staticmethod
    def seconds_used():
        """How many seconds those that the process may run on have been at work, together, be it for this process or others."""
        used, own = 0, {f"cpu{number}" for number in os.sched_getaffinity(0)}
        with open("/proc/stat", encoding="ascii") as lines:
            for name, user, nice, system, _, _, *rest in (it.split() for it in lines if it.split()[0] in own):
                used += sum(map(int, (user, nice, system, *rest[:3])))
        return used / os.sysconf("SC_CLK_TCK")

    def wait_for_one(self):
        # one run at a time, since what has just begun isn't at work yet
        with self.beginning:
            idle = 0
            while self.are_shared and not self.is_over and idle < 0.8 * SECONDS_IDLE:
                began, before = time.monotonic(), self.seconds_used()
                time.sleep(SECONDS_IDLE)
                idle = self.there() * (time.monotonic() - began) - (self.seconds_used() - before)
        if self.is_over:
            raise NotRun("it was ended from outside")

    def end(self, *_):
        self.is_over = True
        raise SystemExit(1)
