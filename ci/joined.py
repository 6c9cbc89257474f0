"""Crates as modules of one crate, so that one run of `rt try` builds what they share once."""

import os
import re
import shutil

import tries
from command import ROOT, text_of, write

JOINED = "joined"
# What only the prover reads: lemmas, by paths that such a module doesn't have.
TACTIC = re.compile(r"^ *#\[tactic\(.*\)\]\n", re.M)
# A macro that stands at the root of its crate, wherever it is written.
MACRO = re.compile(r"^#\[macro_export\]\nmacro_rules! (\w+)", re.M)


def module_of(crate):
    """The module that a crate becomes."""
    return f"of_{crate}"


def rewrite(folder, change):
    """Changes the text of each file below a folder."""
    for at, _, files in os.walk(folder):
        for file in files:
            write(f"{at}/{file}", change(text_of(f"{at}/{file}")))


def unchanged(it):
    return it


def within(module, folder):
    """What makes a text of a crate in this folder one of a module: its paths go on from there, but for those of macros."""
    macros = [name for at, _, files in os.walk(folder) for file in files for name in MACRO.findall(text_of(f"{at}/{file}"))]
    stays = "".join(rf"(?!{{?{name}\b)" for name in macros)
    return lambda text: re.sub(rf"\bcrate::{stays}", f"crate::{module}::", TACTIC.sub("", text))


def lay_module(room, crate, module, change=unchanged, change_text=unchanged):
    """Lays a crate as a module of the joined one: `change` is made of its folder first, and `change_text` of each file."""
    source, folder = f"{room}/crates/{JOINED}/src/{module}", f"{room}/{module}"
    shutil.copytree(f"{ROOT}/crates/{crate}/src", f"{folder}/src")
    change(folder)
    shutil.move(f"{folder}/src", source)
    change_paths = within(module, source)
    rewrite(source, lambda text: change_paths(change_text(text)))
    root = f"{source}/{'main' if tries.is_program(crate) else 'lib'}.rt"
    lines = [line for line in text_of(root).splitlines() if not line.startswith("#![")]
    os.remove(root)
    write(f"{source}.rt", "\n".join(lines) + "\n")


def lay_below(room, crates):
    """Begins a repository with what these crates stand on, and with the joined one, still empty."""
    below = set().union(*map(tries.below, crates))
    tries.copy_crates(room, sorted(below))
    os.makedirs(f"{room}/crates/{JOINED}/src")
    return below


def list_joined(room, needed):
    """Says on which crates the joined one stands."""
    tries.list_crates(room, {JOINED: dict.fromkeys(needed)})


def write_tests(room, modules):
    """Writes the root of the joined crate, all whose modules are tests."""
    lines = [f"#[cfg(test)]\nmod {module};\n" for module in modules]
    write(f"{room}/crates/{JOINED}/src/lib.rt", "//! Tests of several crates.\n#![tactic(auto)]\n\n" + "".join(lines))


def tests_of(room, crates):
    """What became of each test of these crates, by crate and path, as all are built at once in an empty folder."""
    lay_below(room, crates)
    modules = {crate: module_of(crate) for crate in crates}
    for crate, module in modules.items():
        lay_module(room, crate, module)
    list_joined(room, [needed for crate in crates for needed in tries.DEPENDENCIES[crate]])
    write_tests(room, modules.values())
    became = tries.tests_of(room, JOINED)
    begins = {crate: f"{module}::" for crate, module in modules.items()}
    return {
        crate: {path.removeprefix(head): it for path, it in became.items() if path.startswith(head)} for crate, head in begins.items()
    }
