"""A copy of a crate in which a few functions have bodies. The others have their contracts alone: a body that never ends, and a hole
for its proof. So a check of the few proves nothing of what they call.
"""

import os

from command import text_of, write
from functions import parts_of, path_at

BODY = "{ loop {} }"
HOLE = """use Rattle.{module}.Statement.{{statement}}

pub {name}_spec : {{M : Type 1}} → statement M
{name}_spec = ?
"""
ANSWERS = ("Answers.antt", "Invariants.antt")


def files_of(folder):
    """The files of a crate's sources, by their paths in it."""
    for at, _, files in os.walk(f"{folder}/src"):
        yield from (os.path.relpath(f"{at}/{it}", folder) for it in files)


def lay_hole(folder, path):
    """Has a hole for the proof of a function."""
    crate, *parts = path.split("::")
    proofs = "/".join([folder, "proofs", *parts])
    os.makedirs(proofs, exist_ok=True)
    for it in ANSWERS:
        if os.path.exists(f"{proofs}/{it}"):
            os.remove(f"{proofs}/{it}")
    write(f"{proofs}/Proof.antt", HOLE.format(module=".".join([crate, "proofs", *parts]), name=parts[-1]))


def leave_bodies_of(folder, crate, functions):
    """Takes the bodies of all other functions away."""
    for file in files_of(folder):
        text = left = text_of(f"{folder}/{file}")
        for head, body, end in reversed([*parts_of(text)]):
            path = path_at(crate, file, text, head)
            if path and path not in functions:
                left = left[:body] + BODY + left[end:]
                lay_hole(folder, path)
        write(f"{folder}/{file}", left)
