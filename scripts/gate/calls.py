#!/usr/bin/env python3
"""Counts the calls from the run of a tool to the loops that do its work.

usage: calls.py [-p | -l]

It reads the code of the crates, not that of tests, and follows each call to the functions that its name may mean: a
path to the functions of that type or module; a method to those of the receiver's type, or of each type that the file
names, and to those of the traits that it names. It prints the length of the shortest chain of calls from `run_tool` to
each loop, and with -p the chain. It ends with status 1 where a chain is longer than its limit below.

It also finds functions that add nothing to a call, and prints those that `PASSED` does not have. It ends with status 1
if there is one, and where `PASSED` has one in vain. With -l it lists them all, and does nothing else. One of them

- only forwards: its body is one call with its own parameters, in their order;
- binds and returns: it has `let x = e?; Ok(x)`;
- discards: it has `let _ = x.f();`.

It also finds parameters that the code never reads, which serve contracts alone, and ends with status 1 if there is one.
The name of a parameter that a trait asks for in vain begins with `_`, and does not count.
"""
import collections
import dataclasses
import pathlib
import re
import sys

sys.path.insert(0, str(pathlib.Path(__file__).resolve().parents[1]))  # scripts/, for what groups share
from crates import below, in_order

TOP = pathlib.Path(__file__).resolve().parents[2]
# Where a run begins, and the loops that it comes to: the crate and the function,
START = ("toolrun", "run_tool")
# and the most calls from the start to the loop.
LOOPS = {"abnfi": ("lazydfa", "run", 12), "pegi": ("packrat", "evaluate", 12)}
# The functions that may add nothing to a call, each with its reason.
PASSED = {
    # The contract of `len` says that a window has at most `capacity` bytes.
    "feed: Feed.find: discards", "feed: Feed.rfind: discards",
    "linejudge: answer_lines: discards", "linejudge: next_line: discards",
    # Nothing is left to do if the error output fails.
    "toolrun: flush_err: discards",
    # The contract of `into_reader` says what was taken from the reader.
    "pegrun: run_units: discards",
    # Its clause follows from two clauses of the call on one result.
    "rulelines: is_included: binds and returns",
}
HEAD = re.compile(r"^( *)(?:pub(?:\(crate\))? )?(?:const )?fn (\w+)", re.M)
OWNER = re.compile(r"^(impl|pub trait|trait)(?:<.*?>)? (?:(?:\w+::)*(\w+)(?:<.*>)? for )?&?(?:'\w+ )?(?:mut )?(\w+)")
CALL = re.compile(r"(?:(\w+)(?:::<[^()]*?>)?::)?((?:\b[\w.]+)?\.)?\b([a-z_]\w*)(?:::<[^()]*?>)?\(")
GHOST = re.compile(
    r"\bghost use [^;]*;|\b(?:requires|ensures)\b\*?(?: \*)?(?: \w+)? (?={)"
    r"|\bghost \w+(?:: owns|: lends)?(?: \w+)? ?[:=] (?={)"
)
BOUND = re.compile(r"let (?:mut )?(\w+) = [^;]*\?;\s*(?:return )?Ok\(\1\)")
DISCARDED = re.compile(r"let _\w* = [\w.]+\.\w+\(\);")


def closing(text, start):
    """Returns the place after the bracket that closes the one at the start."""
    depth = 0
    for place in range(start, len(text)):
        depth += (text[place] in "([{") - (text[place] in ")]}")
        if depth == 0:
            return place + 1
    return len(text)


def plain(text):
    """Returns the code without comments, texts in quotes, contracts and what else only proofs read."""
    text = re.sub(r"//[^\n]*", "", text)
    text = re.sub(r'b?"(?:[^"\\]|\\.)*"' r"|b?'(?:[^'\\\n]|\\[^\n])'", '""', text)
    kept, at = [], 0
    while found := GHOST.search(text, at):
        kept.append(text[at:found.start()])
        at = closing(text, found.end()) if text[found.end():found.end() + 1] == "{" else found.end()
    return "".join([*kept, text[at:]])


@dataclasses.dataclass(frozen=True)
class Function:
    """A function: its crate, its file's words, the type and the trait of its impl if any, and its parameters."""
    crate: str
    file: pathlib.Path
    owner: str | None
    trait: str | None
    name: str
    parameters: tuple
    types: tuple
    body: str

    def __str__(self):
        return f"{self.crate}: {self.owner + '.' if self.owner else ''}{self.name}"


def parameters_of(head):
    """Returns the names of the parameters in a head, `self` among them, and the words of their types."""
    open_at = head.index("(")
    inside = head[open_at + 1:closing(head, open_at) - 1]
    parts, depth, last = [], 0, 0
    for place, letter in enumerate(inside):
        depth += (letter in "([{<") - (letter in ")]}" or letter == ">" and inside[place - 1] != "-")
        if letter == "," and depth == 0:
            parts.append(inside[last:place])
            last = place + 1
    parts.append(inside[last:])
    pairs = [it.strip().partition(":") for it in parts if it.strip()]
    names = tuple(re.findall(r"\w+", it)[-1] for it, _, _ in pairs)
    return names, tuple(frozenset(re.findall(r"\w+", it)) for _, _, it in pairs)


def functions_in(crate, file, text):
    """Returns the functions of a file's plain code."""
    for found in HEAD.finditer(text):
        owner = trait = None
        for row in text[:found.start()].split("\n"):
            if row.startswith("}"):
                owner = trait = None
            if heading := OWNER.match(row):
                owner, trait = heading.group(3), heading.group(2)
                trait = heading.group(3) if "trait" in heading.group(1) else trait
        if not found.group(1):
            owner = trait = None
        start = re.compile(r"[{;]").search(text, closing(text, text.index("(", found.end())))
        head = text[found.end():start.start()]
        body = text[start.start():closing(text, start.start())] if start.group() == "{" else ""
        yield Function(crate, file, owner, trait, found.group(2), *parameters_of(head), body)


def unread(functions):
    """Returns the parameters that the code of their function never reads."""
    for it in functions:
        words = set(re.findall(r"\w+", it.body))
        for name in it.parameters:
            if it.body and name != "self" and not name.startswith("_") and name not in words:
                yield f"{it}.{name}"


class Code:
    """The functions of all crates but those of tests, and which of them a call may mean."""

    def __init__(self):
        self.functions, self.words = [], {}
        for crate in in_order(TOP):
            if crate.startswith("test") or crate == "uses":
                continue
            for file in sorted((TOP / "crates" / crate / "src").rglob("*.rt")):
                text = plain(file.read_text())
                self.words[file] = set(re.findall(r"\w+", text))
                self.functions += functions_in(crate, file, text)
        self.named = collections.defaultdict(list)
        for it in self.functions:
            self.named[it.name].append(it)
        self.below = {it: {it, *below(TOP, it)} for it in {f.crate for f in self.functions}}

    def types_of(self, caller, receiver):
        """Returns the words among which the type of a method's receiver is: those of a parameter's type, or all of the
        file where the receiver is something else or the type is a parameter."""
        if receiver == "self":
            return {caller.owner, caller.trait}
        types = dict(zip(caller.parameters, caller.types)).get(receiver)
        if not types or any(it.isupper() for it in types):
            return self.words[caller.file]
        return types

    def meant(self, caller, path, dot, name):
        """Returns the functions that a call may mean: after a path, after a dot, or by the name alone."""
        known = self.types_of(caller, dot[:-1]) if dot else self.words[caller.file]
        for it in self.named.get(name, ()):
            near = it.crate in self.below[caller.crate]
            if path == "Self":
                fits = it.owner == caller.owner and it.file == caller.file
            elif path and re.fullmatch("[A-Z][A-Z0-9]*", path):
                fits = it.trait is not None and it.trait in known
            elif path and path[0].isupper():
                fits = near and it.owner == path
            elif dot:
                fits = it.owner and (near and it.owner in known or it.trait and it.trait in known)
            else:
                fits = near and it.owner is None and (it.crate == caller.crate or it.name in known)
            if fits and it.body:
                yield it

    def called(self, caller):
        """Returns the functions that a function may call."""
        for path, dot, name in CALL.findall(caller.body):
            yield from self.meant(caller, path, dot, name)

    def chain(self, start, end):
        """Returns the shortest chain of calls from one function to another."""
        first = next(it for it in self.functions if (it.crate, it.name) == start)
        chains = {first: [first]}
        queue = collections.deque([first])
        while queue:
            here = queue.popleft()
            if (here.crate, here.name) == end:
                return chains[here]
            for it in self.called(here):
                if it not in chains:
                    chains[it] = [*chains[here], it]
                    queue.append(it)
        sys.exit(f"calls.py: no chain of calls leads from {start} to {end}")


def is_forwarded(it):
    """Returns whether the body is one call with the function's own parameters, in their order."""
    if it.trait or not it.parameters:
        return False
    found = re.fullmatch(r"\{\s*(self(?:\.\w+)*\.)?(?:\w+::)*(\w+)\(([^()]*)\)\s*\}", it.body)
    if not found:
        return False
    given = tuple(re.sub(r"^&(mut )?", "", part.strip()) for part in found.group(3).split(",") if part.strip())
    own = tuple(name for name in it.parameters if name != "self")
    return bool(own) and given == own


def idle(functions):
    """Returns which functions add nothing to a call, and what they do."""
    for it in functions:
        faults = {
            "only forwards": is_forwarded(it), "binds and returns": BOUND.search(it.body),
            "discards": DISCARDED.search(it.body),
        }
        yield from (f"{it}: {what}" for what, found in faults.items() if found)


def main(*words):
    code, status = Code(), 0
    found = [*idle(code.functions)]
    vain = [*unread(code.functions)]
    if words == ("-l",):
        print(*found, *(f"{it}: only a contract reads it" for it in vain), sep="\n")
        return 0
    wrong = [it for it in found if it not in PASSED] + [f"{it}, not so: PASSED has it" for it in PASSED - {*found}]
    wrong += [f"{it}: only a contract reads it" for it in vain]
    for it in sorted(wrong):
        print(f"calls.py: {it}")
    for tool, (crate, loop, most) in LOOPS.items():
        chain = code.chain(START, (crate, loop))
        print(f"{tool}: {len(chain) - 1} calls from {START[1]} to {loop}, at most {most}")
        if words == ("-p",):
            print(*(f"    {it}" for it in chain), sep="\n")
        status = status or len(chain) - 1 > most
    return int(status or bool(wrong))


if __name__ == "__main__":
    sys.exit(main(*sys.argv[1:]))
