"""What `evloop` must write on a script, worked out by the rules and not by the program.

`answers(script, seen)` gives the lines. Where memory was refused the program says so in one of its lines, in place of the
answer that was due: a join or an `add` may be answered so. Which one was, is taken from the lines that were seen; all that
follows from it is worked out. `is_known(script)` tells whether the rules for a script are here: those of bad lines aren't, nor
what becomes of a program whose endpoint is refused.
"""

import re
from typing import NamedTuple

ENDPOINT = 9
HIGHEST_PRIORITY = 3
# How many events of a report a run takes.
MOST = 256
OUT_OF_MEMORY = "event_manager: out of memory"
REGISTERED = "event_manager: file descriptor has already been registered"
UNKNOWN = "event_manager: invalid subscriber Id"
# How many words each request has.
LENGTHS = {"add": 4, "addp": 5, "modify": 4, "remove": 2}
CALLS = ("sub", "ask", "drop", "run")
# By their bits, the lowest first, as the program prints them.
KINDS = "IN PRIORITY OUT ERROR HANG_UP READ_HANG_UP EXCLUSIVE WAKE_UP ONE_SHOT EDGE_TRIGGERED".split()


def os_error(number):
    return f"event_manager: failed to manage epoll file descriptor: os error {number}"


class Loop:
    def __init__(self, seen):
        self.seen, self.lines = seen, []
        # each owned descriptor with its owner and its priority
        self.owners, self.ids, self.names, self.next = {}, {}, {}, 1
        self.waits, self.reactions, self.refusals = [], {}, {}
        self.cancelled = set()

    def is_seen(self, line):
        return len(self.lines) < len(self.seen) and self.seen[len(self.lines)] == line

    def refusal(self, operation, fd):
        """The poller's answer: its first refusal of the operation and descriptor, once."""
        kept = self.refusals.get((operation, fd))
        return os_error(kept.pop(0)) if kept else "ok"

    def owner(self, fd):
        return self.owners.get(fd, (None, 0))[0]

    def add(self, number, name, request):
        fd = request.fd
        if fd in self.owners:
            return REGISTERED
        if fd == ENDPOINT:
            return os_error(17)
        if self.is_seen(f"reply {name} {request.operation} {fd}: {OUT_OF_MEMORY}"):
            return OUT_OF_MEMORY
        answer = self.refusal("add", fd)
        if answer == "ok":
            self.owners[fd] = number, request.priority
        return answer

    def request(self, number, name, request):
        operation, fd = request.operation, request.fd
        if operation in ("add", "addp"):
            answer = self.add(number, name, request)
        elif self.owner(fd) != number:
            answer = os_error(2)
        else:
            answer = self.refusal("delete" if operation == "remove" else operation, fd)
            if operation == "remove" and answer == "ok":
                del self.owners[fd]
                self.cancelled.add(fd)
        self.lines.append(f"reply {name} {operation} {fd}: {answer}")

    def request_all(self, number, name, requests):
        for it in requests:
            self.request(number, name, it)

    def join(self, name, requests):
        if self.is_seen(f"sub {name}: {OUT_OF_MEMORY}"):
            self.lines.append(f"sub {name}: {OUT_OF_MEMORY}")
            return
        number, self.next = self.next, self.next + 1
        self.ids[name], self.names[number] = number, name
        self.request_all(number, name, requests)
        self.lines.append(f"sub {name}: {number}")

    def ask(self, name, requests):
        if name in self.ids:
            self.request_all(self.ids[name], name, requests)
        else:
            self.lines.append(f"ask {name}: {UNKNOWN}")

    def leave(self, name):
        number = self.ids.pop(name, None)
        for fd in sorted(fd for fd in self.owners if self.owner(fd) == number):
            self.refusal("delete", fd)
            del self.owners[fd]
        self.lines.append(f"drop {name}: {'ok' if number else UNKNOWN}")

    def run(self):
        report = self.waits.pop(0) if self.waits else []
        report, rest = report[:MOST], report[MOST:]
        if rest:
            self.waits.insert(0, rest)
        self.cancelled = set()
        # (of one priority they stay in the order of the report)
        for fd, events, data in sorted(report, key=lambda it: -self.owners.get(it[0], (None, 0))[1]):
            number = self.owner(fd)
            if number and fd not in self.cancelled:
                name = self.names[number]
                self.lines.append(f"deliver {name} {fd} {events} {data}")
                lists = self.reactions.get((name, fd))
                self.request_all(number, name, lists.pop(0) if lists else [])
        self.lines.append(f"run: {len(report)}")


class Request(NamedTuple):
    operation: str
    fd: int
    priority: int = 0


def requests(words):
    """The requests of a line: `add FD SET DATA`, `addp FD SET DATA PRIORITY`, `modify FD SET DATA`, `remove FD`."""
    found = []
    while words:
        of_one, words = words[: LENGTHS[words[0]]], words[LENGTHS[words[0]] :]
        if of_one[0] == "addp" and int(of_one[4]) > HIGHEST_PRIORITY:
            raise ValueError(f"no priority is {of_one[4]}")
        found.append(Request(of_one[0], int(of_one[1]), int(of_one[4]) if of_one[0] == "addp" else 0))
    return found


def entry(word):
    fd, events, data = word.split(":")
    names = sorted(set(events.split("+")), key=KINDS.index) if events != "-" else ["-"]
    return int(fd), "+".join(names), int(data)


def words_by_line(script):
    """The words of each line that has any and is no comment."""
    lines = (re.split("[ \t\r]+", line.strip(" \t\r")) for line in script.split("\n"))
    return [words for words in lines if words[0] and not words[0].startswith("#")]


def is_known(script):
    """Whether all that the script needs is here: each line is as it must be, and the endpoint is agreed to."""
    try:
        answers(script, [])
    except (ValueError, IndexError, KeyError):
        return False
    return not re.search(r"^[ \t\r]*refuse[ \t\r]+add[ \t\r]+0*9[ \t\r]", script, re.M)


def answers(script, seen):
    loop, calls = Loop(seen), []
    for word, *rest in words_by_line(script):
        if word == "batch":
            loop.waits.append([entry(it) for it in rest])
        elif word == "intr":
            loop.waits.append([])
        elif word == "refuse":
            loop.refusals.setdefault((rest[0], int(rest[1])), []).append(int(rest[2]))
        elif word == "on":
            loop.reactions.setdefault((rest[0], int(rest[1])), []).append(requests(rest[2:]))
        elif word in CALLS and not (word == "run" and rest):
            calls.append((word, rest))
        else:
            raise ValueError(f"no line is {word} with {len(rest)} words")
    for word, rest in calls:
        if word == "run":
            loop.run()
        elif word == "drop":
            loop.leave(rest[0])
        else:
            (loop.join if word == "sub" else loop.ask)(rest[0], requests(rest[1:]))
    return loop.lines
