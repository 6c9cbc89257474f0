"""Verdicts that stay: an edit that was refused, or failed its test, does so again, and what passed passes again, as long as
nothing has changed that the verdict stands on.

That is the edit, what the prover or `rt try` reads of the crate that shows it and of those below, their lines of crates.txt,
HANDLES, the toolchain, and the tools. Each verdict is a file outside the repository, whose name is the checksum of all that.
"""

import functools
import hashlib
import os
import subprocess
import tempfile

import cases
import tries
from command import ROOT, read

FOLDER = os.path.join(os.environ.get("XDG_CACHE_HOME") or os.path.expanduser("~/.cache"), "wrong-bodies")
# What the prover reads of a crate.
PARTS = ("src", "specs", "proofs")
# What `rt try` reads, and what a program must write.
PARTS_TRIED = ("src", "specs", "cases", "args", "stdin", "stdout", "status")
TOOLS = ("cases.py", "command.py", "tries.py", "verdicts.py")


def files_of(path):
    """A file, or the files below a folder, in an order of their own."""
    return [path] if os.path.isfile(path) else sorted(f"{at}/{it}" for at, _, files in os.walk(path) for it in files)


def lines_of(crates):
    """Their lines of crates.txt, as they stand: the prover knows a crate by its line, too."""
    with open(f"{ROOT}/crates.txt", encoding="utf-8") as it:
        lines = it.readlines()
    return [it for it in lines if it.partition("#")[0].partition(":")[0].split()[:1] in [[crate] for crate in crates]]


@functools.lru_cache(maxsize=None)
def toolchain():
    return subprocess.run(["rt", "version"], capture_output=True, check=True).stdout


class Verdicts:
    """Those that stand on these parts of one crate and of those below, and on the tools, with these more."""

    def __init__(self, crate, parts, is_anew, *more_tools):
        self.is_anew = is_anew
        crates = sorted({*tries.below(crate), crate})
        tools = [f"{ROOT}/ci/{it}" for it in (*TOOLS, *more_tools)]
        stands_on = [f"{ROOT}/crates/{it}/{part}" for it in crates for part in parts] + [f"{ROOT}/HANDLES", *tools, cases.PICTURES]
        files = [it for path in stands_on for it in files_of(path) if "__pycache__" not in it]
        texts = [(os.path.relpath(it, ROOT), read(it)) for it in files]
        self.stands_on = hashlib.sha256(repr((toolchain(), lines_of(crates), texts)).encode()).hexdigest()

    def file(self, name, text):
        return f"{FOLDER}/{hashlib.sha256(repr((self.stands_on, name, text)).encode()).hexdigest()}"

    def kept(self, name, text=""):
        """What was said when that of this name and text did as it must; None where it isn't known to."""
        file = self.file(name, text)
        if self.is_anew or not os.path.isfile(file):
            return None
        return read(file).decode()

    def keep(self, name, said, text=""):
        """Keeps that it did, and what was said; where that can't be written, it is tried again."""
        try:
            os.makedirs(FOLDER, exist_ok=True)
            with tempfile.NamedTemporaryFile("w", dir=FOLDER, delete=False, encoding="utf-8") as it:
                it.write(f"{said}\n")
            os.replace(it.name, self.file(name, text))
        except OSError:
            pass
