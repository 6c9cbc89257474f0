"""What the minutes of processor of `rt ci` are spent on, by crate.

rt doesn't tell. So the prover's processes below it are looked at each second: a process that ends between two looks loses less
than that.
"""

import os
import re
import threading

SECONDS_BETWEEN_LOOKS = 1
KINDS = ("proof", "tests", "edits")
# In the name of each folder in which rt has the must-fail edits tried.
OF_EDITS = "/rt-edit"
PROVED = re.compile(r"^rt: (\w+)(?:: its tests are)? (?:proved$|is kept: )")
TICKS = os.sysconf("SC_CLK_TCK")


def words_of(process):
    """The words by which a process was started, and the folder that it runs in."""
    with open(f"/proc/{process}/cmdline", "rb") as it:
        return it.read().decode(errors="replace").split("\0"), os.readlink(f"/proc/{process}/cwd")


def parent_and_seconds(process):
    """The parent of a process, and the seconds of processor that it has taken, with those of its ended children."""
    with open(f"/proc/{process}/stat", encoding="utf-8", errors="replace") as it:
        fields = it.read().rpartition(")")[2].split()
    return int(fields[1]), sum(map(int, fields[11:15])) / TICKS


def subject(words, folder):
    """The crate and the kind of work that a command of the prover is for."""
    if "--crate-name" not in words or os.path.basename(words[0]) != "rattle":
        return None
    is_of_edits = any(OF_EDITS in it for it in (folder, *words))
    return words[words.index("--crate-name") + 1], "edits" if is_of_edits else "tests" if "--test" in words else "proof"


class ByCrate:
    """Looks at the processes below one."""

    def __init__(self, process):
        self.process, self.seconds, self.proved_at = process, {}, {}
        self.is_over, self.looking = threading.Event(), threading.Thread(target=self.look_on)

    def __enter__(self):
        self.looking.start()
        return self

    def __exit__(self, *_):
        self.is_over.set()
        self.looking.join()

    def look_on(self):
        while not self.is_over.wait(SECONDS_BETWEEN_LOOKS):
            parents, found = {}, []
            for it in filter(str.isdigit, os.listdir("/proc")):
                try:
                    parents[int(it)], seconds = parent_and_seconds(it)
                    of = subject(*words_of(it))
                except (OSError, ValueError, IndexError):
                    # it has just ended
                    continue
                if of:
                    found.append((int(it), of, seconds))
            self.seconds.update({(it, *of): seconds for it, of, seconds in found if self.is_below(it, parents)})

    def is_below(self, process, parents):
        while process in parents and process != self.process:
            process = parents[process]
        return process == self.process

    def hear(self, line, minute):
        """Hears a line of rt's; answers the crate that it tells to be proved, if it does."""
        found = PROVED.match(line)
        if not found:
            return None
        self.proved_at[found[1]] = minute
        return found[1]

    def lines(self):
        """A line for each crate, with the minutes of each kind of work."""
        minutes = {}
        for (_, crate, kind), seconds in self.seconds.items():
            minutes.setdefault(crate, dict.fromkeys(KINDS, 0.0))[kind] += seconds / 60
        heading = f"{'minutes of processor of rt ci, by crate':40} {'  '.join(f'{it:>6}' for it in KINDS)}  done at minute"
        rows = [
            f"{crate:40} {'  '.join(f'{of[it]:6.1f}' for it in KINDS)}  {self.proved_at.get(crate, 0):6.1f}"
            for crate, of in sorted(minutes.items(), key=lambda it: -sum(it[1].values()))
        ]
        return [heading, *rows] if rows else []
