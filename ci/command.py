"""What the commands of this folder share."""

import os
import sys
from typing import NamedTuple

ROOT = os.path.dirname(os.path.dirname(os.path.abspath(__file__)))


class Outcome(NamedTuple):
    """How a program ended, and what it wrote."""
    status: int = 0
    stdout: bytes = b""
    stderr: bytes = b""

    def differs(self, wanted):
        """What is not as wanted, in words; nothing where all is."""
        fields = zip(self._fields, self, wanted)
        return "; ".join(f"{name} is {got!r:.300} and not {want!r:.300}" for name, got, want in fields if got != want)


def read(path, otherwise=b""):
    try:
        with open(path, "rb") as it:
            return it.read()
    except FileNotFoundError:
        return otherwise


def text_of(path):
    with open(path, encoding="utf-8") as it:
        return it.read()


def write(path, text):
    with open(path, "w", encoding="utf-8") as it:
        it.write(text)


def stored(crate):
    """What the program of a crate must write and how it must end, on its stored input."""
    folder = f"{ROOT}/crates/{crate}"
    return Outcome(int(read(f"{folder}/status", b"0")), read(f"{folder}/stdout"))


def begin(main, text):
    """Runs a command on its words and ends with its status; `--help` prints its text."""
    words = sys.argv[1:]
    if "--help" in words or "-h" in words:
        print(text.strip())
        sys.exit(0)
    sys.exit(main(words))
