"""The functions of a crate, by the paths that the prover gives them, and which of them a place in a file belongs to."""

import re

FUNCTION = re.compile(r"^( *)(?:pub(?:\([^)]*\))? )?fn (\w+)\b", re.M)
BLOCK = re.compile(r"^(?:pub )?(impl|trait)\b([^{]*)\{", re.M)


def last_name(text):
    """The name of a type or trait, without its path and what stands in angle brackets."""
    return re.sub(r"<.*", "", text.strip().lstrip("&")).strip().split("::")[-1]


def parted(head):
    """The parameters that stand first in angle brackets in the head of a block, and what stands behind them."""
    depth = 0
    for number, letter in enumerate(head if head.startswith("<") else ""):
        depth += (letter == "<") - (letter == ">" and head[number - 1] != "-")
        if not depth:
            return head[1:number], head[number + 1 :].strip()
    return "", head


def names_in(trait, parameters):
    """The names of the types that a trait is given, but for parameters."""
    words = re.findall(r"\(\)|(?<!')\b\w+\b(?!::)", trait.partition("<")[2])
    own = re.findall(r"(?:^|, )(\w+)", parameters)
    return "".join("Unit" if it == "()" else it[0].upper() + it[1:] for it in words if it not in own)


def block_at(text, at):
    """As the prover names it, the type whose block a position stands in, or type and trait: `EpollPoller`; of a trait for any type,
    `AnyEventPoller`; of one with a type, `RecordFaultFromAllocError`. None of a trait for references."""
    blocks = [it for it in BLOCK.finditer(text, 0, at)]
    if not blocks:
        return None
    kind, head = blocks[-1].groups()
    parameters, head = parted(re.sub(r"\s+", " ", head).strip())
    head = re.split(r"\bwhere\b", head)[0]
    if kind == "trait":
        return last_name(head.partition(":")[0])
    trait, found, of = head.partition(" for ")
    if not found or last_name(trait) == "Drop":
        return last_name(of if found else trait)
    if of.startswith("&"):
        return None
    is_any = re.search(rf"(?:^|, ){last_name(of)}\b", parameters)
    return ("Any" if is_any else last_name(of)) + last_name(trait) + names_in(trait, parameters)


def path_at(crate, file, text, at):
    """The path of the function that a position of a file stands in; none between functions."""
    heads = [it for it in FUNCTION.finditer(text) if it.start() <= at]
    if not heads or re.search(rf"^{heads[-1][1]}\}}", text[heads[-1].start() : at], re.M):
        return None
    indent, name = heads[-1].groups()
    block = block_at(text, heads[-1].start()) if indent else ""
    if block is None:
        return None
    above = [crate, *(it for it in file.removeprefix("src/").removesuffix(".rt").split("/") if it not in ("lib", "main", "mod"))]
    return "::".join(it for it in [*above, block, name] if it)


def parts_of(text):
    """Where the head, the body and the end of each function are that has a body of its own lines."""
    heads = [it.start() for it in FUNCTION.finditer(text)]
    for it, after in zip(FUNCTION.finditer(text), [*heads[1:], len(text)]):
        opens = re.compile(rf"^{it[1]}(?:\{{|\S.* \{{|\S*.*\{{\}}|.*;)$", re.M).search(text, it.start(), after)
        if opens and opens[0].endswith("{"):
            yield it.start(2), opens.end() - 1, text.index(f"\n{it[1]}}}\n", opens.end()) + len(it[1]) + 2


def lines_of(text, name):
    """The first and the last line of each function of a name."""
    for it in FUNCTION.finditer(text):
        if it[2] == name:
            end = re.compile(rf"^{it[1]}\}}", re.M).search(text, it.start())
            yield text.count("\n", 0, it.start()) + 1, text.count("\n", 0, end.start() if end else len(text)) + 1
