"""The cases of programs, as files of crates/CRATE/cases; those of evloop where no crate is named.

NAME is a standard input; NAME.stdout and NAME.stderr are what the program must write on it (no such file: nothing), and
NAME.status is how it must end (no such file: 0). NAME.args has its arguments, one a line. What a program writes whose case has
the name of a picture, docs/pictures/NAME.svg, is that picture. Where there is NAME.refused its number says which allocation is
refused, counted from 1: only `rt try` can do that.
"""

import os

from command import ROOT, Outcome, read

EVLOOP = "evloop"
FOLDER = f"{ROOT}/crates/{EVLOOP}/cases"
PICTURES = f"{ROOT}/docs/pictures"


def folder(crate):
    return f"{ROOT}/crates/{crate}/cases"


def names(crate=EVLOOP):
    """The cases that any build of the program can be run on."""
    files = os.listdir(folder(crate)) if os.path.isdir(folder(crate)) else []
    return sorted(it for it in files if "." not in it and f"{it}.refused" not in files)


def refused_names():
    """The cases of evloop in which an allocation is refused."""
    return sorted(it.removesuffix(".refused") for it in os.listdir(FOLDER) if it.endswith(".refused"))


def wanted(name, crate=EVLOOP):
    path, picture = f"{folder(crate)}/{name}", read(f"{PICTURES}/{name}.svg")
    return Outcome(int(read(f"{path}.status", b"0")), read(f"{path}.stdout", picture), read(f"{path}.stderr"))


def arguments(name, crate=EVLOOP):
    """What a case's program is given."""
    return read(f"{folder(crate)}/{name}.args").decode().split()


def refused(name, crate=EVLOOP):
    """The words by which `rt try` refuses the case's allocation."""
    number = read(f"{folder(crate)}/{name}.refused").decode().split()
    return ["--fail-alloc", *number] if number else []
