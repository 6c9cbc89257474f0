"""Repositories of a user's own, made of the crates that stand here."""

import os
import re
import shutil

from command import ROOT

LIBRARIES = ["vmm_sys", "job_tickets", "dispatch_tables", "event_loop", "event_manager", "recorded_runs", "poller_records", "channels", "inboxes", "timerfd", "closing"]
BESIDE = f"{ROOT}/beside_the_kernel"
# Which file has the lines of a folder's crates. `rt ci` takes one crates.txt, and no .rt outside its crates: there they end in .rs.
LINES = {ROOT: "crates.txt", BESIDE: "crate_lines.txt"}
# What a user's own repository over Linux's epoll has, the programs behind the library.
LINUX = ["linux", "first", "console", "recorded"]
UNUSED = shutil.ignore_patterns("out", "must-fail", "refused", "proved", "test-fail")


def rows(home):
    """The line of crates.txt of each crate of a folder."""
    with open(f"{home}/{LINES[home]}", encoding="utf-8") as it:
        return {line.split(":")[0].split()[0]: line for line in it if line.strip() and not line.startswith("#")}


def append(path, text):
    """Writes a text behind what the file has; it and its folder are made where they aren't there."""
    os.makedirs(os.path.dirname(path), exist_ok=True)
    with open(path, "a", encoding="utf-8") as it:
        it.write(text)


def copy_named(given, made):
    """Copies a file; one that ends in .rs becomes an .rt."""
    return shutil.copy2(given, re.sub(r"\.rs$", ".rt", made))


def copy(folder, crates, home=ROOT):
    """Copies crates of this repository, or of a folder of it, with their proofs, and lists them."""
    lines = rows(home)
    for crate in crates:
        shutil.copytree(f"{home}/crates/{crate}", f"{folder}/crates/{crate}", ignore=UNUSED, copy_function=copy_named)
        append(f"{folder}/crates.txt", lines[crate])


def make(folder, crates):
    """Makes a repository of these crates, with the handles that they are allowed."""
    os.makedirs(folder)
    for file in ("HANDLES", ".gitignore"):
        shutil.copyfile(f"{ROOT}/{file}", f"{folder}/{file}")
    copy(folder, crates)
