"""Wrong bodies, as files: crates/CRATE/KIND/NAME.edit, where KIND is `must-fail`, `refused` or `test-fail`.

An edit has a line 'file: src/lib.rt', and pairs of lines 'old: TEXT' and 'new: TEXT', each old text standing once in that file as
the pairs before it leave it; then perhaps another file. A line that begins with '#' says why. An edit of `test-fail` may have lines
'more: TEXT' for what is added at the end of the file, as what the new texts call.
"""

import os

from command import ROOT, text_of, write

CHANGES = ("file", "old", "new")


class BadEdit(Exception):
    """Why an edit can't be tried."""


class Edit:
    """A wrong body: what it changes, and the lines of it that begin with other words."""

    def __init__(self, path, words=()):
        self.crate, _, file = os.path.relpath(path, f"{ROOT}/crates").split("/")
        self.name = f"{self.crate}/{file.removesuffix('.edit')}"
        self.text, self.changes, self.more, self.said = text_of(path), [], [], {}
        path_in_crate = old = None
        for line in self.text.splitlines():
            word, colon, text = line.partition(":")
            text = text.removeprefix(" ")
            if not line.strip() or line.startswith("#"):
                continue
            if not colon or word not in (*CHANGES, *words):
                raise BadEdit(f"{self.name}: the line '{line}' is none of an edit")
            if word == "more":
                self.more.append((path_in_crate, text))
            elif word in words:
                self.said[word] = text.strip()
            elif word == "file":
                path_in_crate = text.strip()
            elif word == "old":
                old = text
            else:
                self.changes.append((path_in_crate, old, text))
                old = None

    def changed(self, folder):
        """The texts of the files that it changes, in a copy of its crate, with the changes made, but without what it adds."""
        texts = {}
        for file, old, new in self.changes:
            if not file or not old or not os.path.isfile(f"{folder}/{file}"):
                raise BadEdit(f"no file {file}, or no old text")
            text = texts[file] if file in texts else text_of(f"{folder}/{file}")
            if text.count(old) != 1:
                raise BadEdit(f"an old text is in {file} {text.count(old)} times, and not once")
            texts[file] = text.replace(old, new)
        return texts

    def applied(self, folder):
        """The texts of the files that it changes, in a copy of its crate, with what it adds."""
        texts = self.changed(folder)
        for file, more in self.more:
            texts[file] = f"{texts.get(file) or text_of(f'{folder}/{file}')}{more}\n"
        return texts

    def apply(self, folder):
        """Changes a copy of its crate."""
        for file, text in self.applied(folder).items():
            write(f"{folder}/{file}", text)


def edits_of(crate, kind):
    """The paths of a crate's edits of a kind."""
    folder = f"{ROOT}/crates/{crate}/{kind}"
    files = sorted(os.listdir(folder)) if os.path.isdir(folder) else []
    return [f"{folder}/{it}" for it in files if it.endswith(".edit")]

