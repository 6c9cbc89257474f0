"""Checks of copies of a crate, a number of them beside each other.

A copy of a crate is checked over the libraries below it as `rt check` or `rt ci` has built them, and begins with what a check of
the crate as it stands has kept. So the prover of the kit is called with the words that `rt` gives it.
"""

import os
import re
import shutil
import subprocess
import threading
import time
from contextlib import ExitStack, contextmanager

import tries
from command import ROOT, text_of, write
from verdicts import PARTS, lines_of

SAID = re.compile(r"^fn ([\w:+]+): (.*)$", re.M)
KEPT = "out/incremental"
# What a check takes at most, with a little room.
MEMORY = 2_500_000_000


class Ended(Exception):
    """Why a command did not run to its end: this one was told to end."""


class Turns:
    """Lets one in at a time: of those who wait the one with the most left to do."""

    def __init__(self):
        self.changed, self.waiting, self.is_taken = threading.Condition(), [], False

    @contextmanager
    def turn(self, left):
        with self.changed:
            self.waiting.append(left)
            self.changed.wait_for(lambda: not self.is_taken and left == max(self.waiting))
            self.waiting.remove(left)
            self.is_taken = True
        try:
            yield
        finally:
            with self.changed:
                self.is_taken = False
                self.changed.notify_all()


class Lanes:
    """Runs checks, as many at once as there are processors and memory, and where they are shared each once a processor is idle; none
    once it is told to end. Of those that wait the one begins behind which the most is left to do."""

    def __init__(self):
        self.processors, self.turns = tries.Processors(), Turns()
        self.free = threading.Semaphore(max(1, min(self.processors.there(), tries.free_memory() // MEMORY)))
        self.changing, self.running, self.is_over, self.took = threading.Lock(), set(), False, {}

    def run(self, words, folder, what, left):
        """What a command says in a folder, and whether it is content; its time is counted for what it does."""
        with ExitStack() as held:
            with self.turns.turn(left):
                held.enter_context(self.free)
                self.processors.wait_for_one()
            return self.run_now(words, folder, what)

    def run_now(self, words, folder, what):
        """As `run`, whatever else runs."""
        how = {"stdin": subprocess.DEVNULL, "stdout": subprocess.PIPE, "stderr": subprocess.STDOUT, "text": True, "errors": "replace"}
        with self.changing:
            if self.is_over:
                raise Ended
            process = subprocess.Popen(words, cwd=folder, **how)
            self.running.add(process)
        said = process.stdout.read()
        _, status, used = os.wait4(process.pid, 0)
        process.returncode = os.waitstatus_to_exitcode(status)
        with self.changing:
            self.running.discard(process)
            if self.is_over:
                raise Ended
            self.took.setdefault(what, []).append(used.ru_utime + used.ru_stime)
        return said, process.returncode == 0

    def lines(self):
        """How many commands ran for each thing that was done, and the minutes of processor that they took, the most first."""
        for what, took in sorted(self.took.items(), key=lambda it: -sum(it[1])):
            yield f"{what}: {len(took)} checks, {sum(took) / 60:.1f} minutes of processor"

    def end(self, *_):
        """Ends all that runs."""
        self.is_over = self.processors.is_over = True
        for it in [*self.running]:
            it.kill()
        raise SystemExit(1)


LANES = Lanes()


def copy_parts(crate, folder):
    """Copies what a check reads of a crate."""
    for part in PARTS:
        if os.path.isdir(f"{ROOT}/crates/{crate}/{part}"):
            shutil.copytree(f"{ROOT}/crates/{crate}/{part}", f"{folder}/{part}")


def link_or_copy(one, other):
    """A second name for a file of kept work, since a check replaces such a file and writes into none."""
    if one.endswith(".oantt"):
        os.link(one, other)
    else:
        shutil.copy2(one, other)


def copy_kept(one, other):
    """Has checks in one folder begin with what those in another have kept, if they have."""
    if os.path.isdir(f"{one}/{KEPT}"):
        try:
            shutil.copytree(f"{one}/{KEPT}", f"{other}/{KEPT}", copy_function=link_or_copy)
        except (OSError, shutil.Error):
            # on another disk, say: then it begins from nothing
            shutil.rmtree(f"{other}/{KEPT}", ignore_errors=True)
    os.makedirs(f"{other}/{KEPT}", exist_ok=True)


def are_told(libraries, told):
    """Waits until a file has a line for each of these crates, as far as `rt ci` has proved them."""
    while not LANES.is_over and not libraries <= set(text_of(told).split()):
        time.sleep(1)


def libraries_of_ci(room, crate, told):
    """Lays the libraries below a crate as `rt ci` has them, once a file tells that it has proved each: what it said, and whether
    they are there. Where there is no such file it proves those that it hasn't proved yet."""
    libraries = set(tries.below(crate))
    if not libraries:
        return "", True
    if told:
        are_told(libraries, told)
    os.makedirs(f"{room}/crates")
    shutil.copy(f"{ROOT}/HANDLES", room)
    write(f"{room}/crates.txt", "".join(lines_of(libraries)))
    for it in libraries:
        copy_parts(it, f"{room}/crates/{it}")
    return LANES.run_now(["rt", "ci"], room, "libraries")


def words_of(crate, top):
    """The words by which the prover reads a crate, over the libraries that are built below a folder."""
    kit = os.path.dirname(os.path.dirname(os.path.realpath(shutil.which("rt"))))
    below = tries.below(crate)
    library = lambda it: f"{top}/crates/{it}/out/rlib/{it}.rlib" if it in below else f"{kit}/rlibs/{it}.rlib"
    words = [f"{kit}/bin/rattle", "check", "--crate-name", crate, f"src/{'main' if tries.is_program(crate) else 'lib'}.rt"]
    for it in ["std", *tries.DEPENDENCIES[crate]]:
        words += ["--extern", f"{it}={library(it)}"]
    for it in [f"{kit}/rlibs", *(os.path.dirname(library(it)) for it in sorted(below))]:
        words += ["-L", f"dependency={it}"]
    words += ["--antt-project", f"{kit}/rattle/logic/antt-project.json", "--logic-built", f"{kit}/logic_built"]
    return [*words, "--jobs", "1", "--links", f"{crate}=", "--incremental", KEPT]


class Copy:
    """A copy of a crate, in which bodies are changed, over the libraries that are built below a folder."""

    def __init__(self, folder, crate, top):
        self.folder, self.crate, self.words = folder, crate, words_of(crate, top)
        copy_parts(crate, folder)

    def lay(self, edit):
        """Changes what an edit changes."""
        edit.apply(self.folder)

    def check(self, functions, what, left, *words):
        """What a check of these functions says, or of all where there is none, and whether it is content."""
        words = [*self.words, *words, *(word for it in sorted(functions) for word in ("--only", it))]
        return LANES.run(words, self.folder, f"{self.crate}, {what}", left)
