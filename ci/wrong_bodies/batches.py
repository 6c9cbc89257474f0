"""Wrong bodies of tests and of programs, many in one run of `rt try`.

A batch is a repository of the crates as they are, but that a function which edits change has its own body and theirs, and begins
with a choice. What shows the edits stands in one crate (ci/joined.py), with a module for each crate of tests or program. Of tests
there are the named ones, and for each edit one more, which picks the edit and then does the same; of programs the first argument
picks. Rattle has no variable of a whole process: one of the C library's serves, the mask of its log, which nothing else here
touches. So each test and each run of a program, which are processes of their own, may pick one edit.
"""

import os
import re

import joined
import tries
from command import ROOT
from edits import BadEdit, Edit
from functions import parts_of
from joined import JOINED, module_of, rewrite, text_of, write

# How many edits a run has. A run's tests are made in turn, and some of them wait.
MOST_EDITS = 80
PICKED = "picked_edit"
# The mask that a process begins with is less than this.
FIRST = 1000
PICKS = """//! Which wrong body runs.
#![tactic(auto)]

unsafe extern "C" {
    safe fn setlogmask(mask: i32) -> i32;
}

pub fn pick(edit: i32) {
    let _before = setlogmask(edit);
}

pub fn is_picked(edit: i32) -> bool {
    setlogmask(0) == edit
}
"""
# What a program answers.
ANSWER = re.compile(r"^fn main\(.*\) -> (?:\w+::)*(\w+)", re.M)
ANSWERS = {"Result": "anyhow::Result<()>", "ExitCode": "std::process::ExitCode"}
ARGUMENTS = re.compile(r"\benv::args\((\w+)\)\?")
HEAD = re.compile(r"^fn main\(rt: HostRuntime\)", re.M)
# Only the `main` of a program itself has all that the runtime offers by the type `HostRuntime`; elsewhere that has the standard
# streams alone.
PICKED_HEAD = (
    "pub fn main<R: std::rt::Runtime + AllocGlobal + std::sync::Wait + std::thread::Threads + Copy + Send + Sync + 'static>"
    "(rt: R, host: HostRuntime)"
)
STREAM = re.compile(r"\brt(?=\.std(?:in|out|err)\(\))")
# A test with its name and what is said above it, as `rt fmt` lays it out.
TEST = re.compile(r"^( *)(?://.*\n\1)*#\[test\]\n(?:\1#.*\n)*\1fn (\w+)(?:.*\n)*?\1}\n", re.M)
# A function that the compiler runs can't ask what is picked.
CONSTANT = re.compile(r"\bconst (?:unsafe )?$")


class TestedEdit(Edit):
    """A wrong body, and what must show it."""

    def __init__(self, path):
        super().__init__(path, ("test", "request", "case", "output", "crate", "more"))
        self.target, self.case = self.said.get("crate", self.crate), self.said.get("case")
        self.is_of_a_program = "case" in self.said or "output" in self.said
        # the words by which `rt try` refuses a request of the test's
        self.refusing = ["--fail-alloc", self.said["request"]] if "request" in self.said else []
        self.test = self.said.get("test") or self.case or ("the stored output" if self.said.get("output") == "stored" else None)
        if not self.test or not self.changes:
            raise BadEdit(f"{self.name}: it names no test, case or output, or changes nothing")

    @property
    def test_name(self):
        return self.test.rpartition("::")[2]

    def names(self, path):
        """Whether this is the path of its test."""
        return path == self.test or path.endswith(f"::{self.test}")

    def bodies(self, folder):
        """By file and number the bodies that it gives functions of its crate, in a copy as it stands; none where it changes more."""
        found = {}
        for file, text in self.changed(folder).items():
            (own, around), (wrong, around_wrong) = parted(text_of(f"{folder}/{file}")), parted(text)
            if around != around_wrong:
                return {}
            found |= {(file, number): body for number, body in enumerate(wrong) if body != own[number]}
        return found

    def is_of_bodies(self):
        """Whether it changes bodies alone, so that others may stand beside it."""
        return bool(self.bodies(f"{ROOT}/crates/{self.crate}"))


def parted(text):
    """The bodies of the functions of a text, and what stands before, between and behind them."""
    bodies, around, end = [], [], 0
    for head, body, its_end in parts_of(text):
        # (one within another is a part of it)
        if head >= end and not CONSTANT.search(text[:head]):
            around.append(text[end:body])
            bodies.append(text[body:its_end])
            end = its_end
    return bodies, [*around, text[end:]]


def choice(own, wrong):
    """A body that is the one of the edit that is picked, by their numbers, or else its own."""
    picks = "".join(f"if {PICKED}::is_picked({number}) {body.rstrip()} else " for number, body in wrong)
    return f"{{\n{picks}{own.rstrip()}\n}}\n" if wrong else own


def lay_choices(folder, edits):
    """Gives the functions of a copy of a crate the bodies of these edits, by their numbers, and the crate what these add."""
    wrong = {}
    for number, edit in edits.items():
        for (file, place), body in edit.bodies(folder).items():
            wrong.setdefault(file, {}).setdefault(place, []).append((number, body))
    for file, of_file in wrong.items():
        own, around = parted(text_of(f"{folder}/{file}"))
        bodies = [choice(body, of_file.get(place, [])) for place, body in enumerate(own)]
        write(f"{folder}/{file}", "".join(it for pair in zip(around, [*bodies, ""]) for it in pair))
    for file, more in dict.fromkeys(it for edit in edits.values() for it in edit.more):
        write(f"{folder}/{file}", f"{text_of(f'{folder}/{file}')}{more}\n")


def answer_of(crate):
    """What the program of a crate answers."""
    return ANSWER.search(text_of(f"{ROOT}/crates/{crate}/src/main.rt"))[1]


def batches_of(edits):
    """The edits in groups for a run each: those that tests must show, or programs that answer alike; by the crates that show them."""
    groups = {}
    for it in edits:
        groups.setdefault(it.is_of_a_program and answer_of(it.target), []).append(it)
    for group in groups.values():
        group.sort(key=lambda it: it.target)
        runs = -(-len(group) // MOST_EDITS)
        yield from (group[it * len(group) // runs : (it + 1) * len(group) // runs] for it in range(runs))


def with_pick(test, number):
    """A test that picks an edit first."""
    _, body, _ = next(parts_of(test))
    head = re.sub(r"\bfn \w+", lambda name: f"{name[0]}{tail_of(number)}", test[:body], count=1)
    return f"{head}{{\n{PICKED}::pick({number});\n{test[body + 1 :]}"


def tail_of(number):
    """The end of the name of a test that picks the edit of this number."""
    return f"_with_edit_{number}"


def with_tests(edits):
    """Of the text of a crate of tests: the tests that these edits name, by their numbers, and behind each one those that pick."""
    def change(found):
        picking = [with_pick(found[0], number) for number, it in edits.items() if it.test_name == found[2]]
        return "".join([found[0], *picking]) if picking else ""
    return lambda text: TEST.sub(change, text)


def as_picked(text):
    """The text of a program whose first argument picked it."""
    text = ARGUMENTS.sub(r"env::args(\1)?.skip(1)", text)
    return HEAD.sub(PICKED_HEAD, STREAM.sub("host", text)).replace("<HostRuntime>", "<R>") if HEAD.search(text) else text


def numbered(edits):
    """The edits of a batch by their numbers."""
    return dict(enumerate(edits, FIRST))


def lay_crates(room, edits, targets):
    """Lays what these crates stand on, with the bodies of these edits, by their numbers."""
    below = joined.lay_below(room, targets)
    os.makedirs(f"{room}/crates/{PICKED}/src")
    write(f"{room}/crates/{PICKED}/src/lib.rt", PICKS)
    for crate in below:
        lay_choices(f"{room}/crates/{crate}", {number: it for number, it in edits.items() if it.crate == crate})
    os.remove(f"{room}/crates.txt")
    tries.list_crates(room, {PICKED: []} | {it: [*tries.DEPENDENCIES[it], PICKED] for it in tries.DEPENDENCIES if it in below})
    return below


def lay_batch(room, edits):
    """Lays a repository in which what shows each of these edits can be run over it."""
    edits, needed = numbered(edits), [PICKED]
    targets = {}
    for number, it in edits.items():
        targets.setdefault(it.target, {})[number] = it
    are_programs = edits[FIRST].is_of_a_program
    below = lay_crates(room, edits, targets)
    for target, shown in targets.items():
        own = {number: it for number, it in shown.items() if it.crate == target}
        change_text = as_picked if are_programs else with_tests(shown)
        joined.lay_module(room, target, module_of(target), lambda folder: lay_choices(folder, own), change_text)
        needed += tries.DEPENDENCIES[target]
    if are_programs:
        for crate in below:
            rewrite(f"{room}/crates/{crate}/src", as_picked)
        write(f"{room}/crates/{JOINED}/src/main.rt", picking(targets))
        needed.append("anyhow")
    else:
        joined.write_tests(room, map(module_of, targets))
    joined.list_joined(room, needed)


def picking(targets):
    """A program that is one of these, by its first argument: the number of an edit, or the module of a program as it is."""
    modules = [module_of(it) for it in targets]
    return "\n".join([
        "//! Programs, as they are and with wrong bodies.",
        "#![tactic(auto)]",
        *(f"mod {module};" for module in modules),
        f"fn main(rt: HostRuntime) -> {ANSWERS[answer_of(next(iter(targets)))]} {{",
        "    let picked = match std::env::args(&rt) { Ok(mut words) => words.nth(1), Err(_) => None };",
        "    match picked.as_ref().map(|it| it.as_str()) {",
        *(
            f'        Some("{number}") => {{ {PICKED}::pick({number}); {module_of(target)}::main(rt, rt) }}'
            for target, shown in targets.items()
            for number in shown
        ),
        *(f'        Some("{module}") => {module}::main(rt, rt),' for module in modules),
        f"        _ => {modules[-1]}::main(rt, rt),",
        "    }",
        "}\n",
    ])


def ends_with(became, edits):
    """What became of each edit's test without it and with it, of what became of the tests of the batch."""
    for number, edit in numbered(edits).items():
        head = f"{module_of(edit.target)}::"
        of_target = {path.removeprefix(head): test.end for path, test in became.items() if path.startswith(head)}
        picking = {path.removesuffix(tail_of(number)): end for path, end in of_target.items() if path.endswith(tail_of(number))}
        yield end_of(edit, of_target), end_of(edit, picking)


def end_of(edit, ends):
    """What became of the edit's test, of the ends of tests by their paths."""
    found = [end for path, end in ends.items() if edit.names(path)]
    if len(found) != 1:
        raise BadEdit(f"{len(found)} tests are named {edit.test}")
    return found[0]


def lay_edit(room, edit, with_it=True, with_others=True):
    """Lays the repository's crates as they are, with the edit or without; with other tests beside its own or without."""
    tries.copy_crates(room, [*tries.below(edit.target), edit.target])
    if with_it:
        edit.apply(f"{room}/crates/{edit.crate}")
    if not with_others:
        leave = lambda found: found[0] if found[2] == edit.test_name else ""
        rewrite(f"{room}/crates/{edit.target}/src", lambda text: TEST.sub(leave, text))
