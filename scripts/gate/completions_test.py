#!/usr/bin/env python3
"""Tests completions/: that their description is what the programs print for -h, and that each shell that is installed
offers what it should.

usage: completions_test.py [--terminals]

It needs the programs in bin/. A shell that is not installed is skipped, and the script says so. bash runs the function
that it would run at the tab key, and fish prints what it would offer. With --terminals bash and zsh run on a terminal
of their own too, where the tab key is pressed; a busy machine may then answer too late.
"""
import os
import pathlib
import pty
import re
import select
import shlex
import shutil
import subprocess
import sys
import tempfile
import time

sys.path.insert(0, str(pathlib.Path(__file__).resolve().parents[1]))  # scripts/, for what groups share
from build.completions import FOLDER, PROGRAMS, TOP

# Each grammar has three rules, of which the last is used by none.
GRAMMARS = {
    "g.peg": "line <- word ' ' word\nword <- [a-z]+\nother_1 <- 'x'\n",
    "g.abnf": "line = word SP word\nword = 1*ALPHA\nother-1 = %x41\n",
}
# For each program the words after its name, the last of which is to be completed, and what is to be offered. bash cuts
# a word at its `=`, so a row does.
ROWS = (
    ("pegi", "-m ", {"run", "check", "print"}),
    ("pegi", "-m c", {"check"}),
    ("pegi", "-s  g.peg", {"line", "word", "other_1"}),
    ("pegi", "-l 70 g.peg -s o", {"other_1"}),
    ("pegi", "g.p", {"g.peg"}),
    ("pegi", "--mode ", {"run", "check", "print"}),
    ("pegi", "--mode = c", {"check"}),
    ("pegi", "--limit 70 g.peg --rule o", {"other_1"}),
    ("pegi", "--r", {"--rule", "--raw"}),
    ("pegi", "--e", {"--escapes", "--explain"}),
    ("abnfi", "-m p", {"print"}),
    ("abnfi", "-u ", {"bytes", "utf8"}),
    ("abnfi", "-w g.abnf -s ", {"line", "word", "other-1"}),
    ("abnfi", "-u utf8 g.abnf -s w", {"word"}),
    ("abnfi", "g.a", {"g.abnf"}),
    ("abnfi", "--letters u", {"utf8"}),
    ("abnfi", "--letters = utf8 g.abnf --rule = w", {"word"}),
    ("abnfi", "--v", {"--viable", "--version"}),
    ("abnfi", "--li", {"--limit", "--line-number", "--line-buffered"}),
    ("abnfx", "-c g.p", {"g.peg"}),
    ("abnfx", "g.peg g.a", {"g.abnf"}),
    ("abnfx", "-c --", {"--list", "--explain", "--expand", "--expand-send", "--help", "--version"}),
    ("abnfd", "g.abnf g.abnf -t w", {"word"}),
    ("abnfd", "-u u", {"utf8"}),
    ("abnfg", "g.abnf -s w", {"word"}),
    ("abnfg", "-m a", {"all"}),
)
# The last of these words may be offered only where a row says so.
EVERY = {it for _, _, wanted in ROWS for it in wanted}


def environment(folder):
    """Returns the variables of a shell that finds the programs of bin/."""
    path = f"{TOP / 'bin'}:{os.environ['PATH']}"
    return {**os.environ, "PATH": path, "HOME": str(folder), "TERM": "dumb", "LC_ALL": "C"}


def shown(program):
    """Returns what -h says of the options: for each its letter, its long name, the word for its value, the text and the
    values; and what it says of the grammar."""
    text = subprocess.run([TOP / "bin" / program.name, "-h"], check=True, capture_output=True, text=True).stdout
    found = set()
    for letter, name, value, said in re.findall(r"(?m)^  (?:-(\w), |    )--([\w-]+)(?: <(\w+)>)? +(.*)$", text):
        values = re.search(r" \[possible values: (.*)\]", said)
        said = re.sub(r" \[(possible values|default: (run|bytes|text|answers|all|\d+)\]).*", "", said)
        found.add((letter, name, value, said, tuple(values[1].split(", ")) if values else ()))
    return found, re.search(r"(?m)^  <(?:GRAMMAR|TEXT|OLD)>(?:\.\.\.)? +(.*)$", text)[1]


def faults_of_help(program):
    """Returns in what -h and the description differ."""
    options, file = shown(program)
    described = {(it.letter, it.name, it.value, it.text, it.values) for it in program.options}
    faults = [f"{program.name} -h and scripts/build/completions.py differ in {it}" for it in options ^ described]
    return faults + ([] if file == program.file else [f"{program.name} -h says of its file: {file}"])


def words_of(typed):
    """Returns the words of a line and the place of that to be completed, which two spaces or the end show."""
    before, gap, after = typed.partition("  ")
    words = shlex.split(before) + ([""] if gap or typed.endswith(" ") else [])
    return words + shlex.split(after), len(words) - 1


def by_bash(program, typed, folder):
    """Returns the words that bash would offer."""
    words, at = words_of(typed)
    line = shlex.join([program, *words])
    command = (
        f"source {FOLDER}/bash/{program}; COMP_WORDS=({line}); COMP_CWORD={at + 1}; _{program} {program}; "
        "printf '%s\\n' \"${COMPREPLY[@]}\""
    )
    ran = subprocess.run(["bash", "--norc", "-c", command], cwd=folder, env=environment(folder), check=True,
                         capture_output=True, text=True)
    return set(ran.stdout.split())


def by_fish(program, typed, folder):
    """Returns the words that fish would offer. It completes the end of a line, so the words after go to the front."""
    words, at = words_of(typed)
    line = f"{shlex.join([program, *words[at + 1:], *words[:at]])} {words[at]}".replace(" = ", "=")
    command = f"source {FOLDER}/fish/{program}.fish; complete -C {shlex.quote(line)}"
    ran = subprocess.run(["fish", "--no-config", "-c", command], cwd=folder, env=environment(folder), check=True,
                         capture_output=True, text=True)
    return {line.partition("\t")[0].rpartition("=")[2] for line in ran.stdout.splitlines()}


def at_tab(shell, setup, line, wanted, folder):
    """Returns the expected words that a shell shows on a terminal of its own at the tab key, after the line."""
    child, end = pty.fork()
    if child == 0:
        os.chdir(folder)
        os.execvpe(shell[0], shell, {**environment(folder), "PS1": "> "})
    os.write(end, f"{setup}; echo READY-$((1 + 1))\n".encode())
    text, is_typed, until = "", False, time.monotonic() + 30
    while time.monotonic() < until:
        if select.select([end], [], [], 0.2)[0]:
            text += os.read(end, 65536).decode(errors="replace")
        if not is_typed and "READY-2" in text:
            text, is_typed = "", True
            os.write(end, f"{line}\t\t".encode())
        if is_typed and wanted <= set(re.findall(r"[\w.-]+", text)):
            break
    os.kill(child, 9)
    os.waitpid(child, 0)
    os.close(end)
    return wanted & set(re.findall(r"[\w.-]+", text))


def on_terminal_of_bash(program, typed, wanted, folder):
    setup = (
        "bind 'set show-all-if-ambiguous on'; bind 'set enable-bracketed-paste off'; "
        f"source {FOLDER}/bash/{program}"
    )
    return at_tab(["bash", "--norc", "--noprofile", "-i"], setup, f"{program} {typed}", wanted, folder)


def on_terminal_of_zsh(program, typed, wanted, folder):
    setup = f"fpath=({FOLDER}/zsh $fpath); autoload -U compinit; compinit -u -D; setopt nobeep"
    return at_tab(["zsh", "-f", "-i"], setup, f"{program} {typed}", wanted, folder)


def faults_of_shell(shell, offer, folder):
    """Returns where a shell does not offer exactly what it should, of the words of the rows."""
    faults = []
    for program, typed, wanted in ROWS:
        offered = offer(program, typed, folder) & EVERY
        if offered != wanted:
            faults.append(f"{shell}: {program} {typed}: offers {sorted(offered)}, and should {sorted(wanted)}")
    return faults


def faults_of_terminal(shell, press, folder):
    """Returns where a shell on a terminal does not show all that it should."""
    found = ((it, press(*it, folder)) for it in ROWS if "  " not in it[1])
    return [f"{shell} on a terminal: {row}: shows {sorted(seen)}" for row, seen in found if seen != row[2]]


def main(words):
    faults, said = [fault for it in PROGRAMS for fault in faults_of_help(it)], ["-h"]
    tests = [("bash", faults_of_shell, by_bash), ("fish", faults_of_shell, by_fish)]
    if "--terminals" in words:
        tests += [("bash", faults_of_terminal, on_terminal_of_bash), ("zsh", faults_of_terminal, on_terminal_of_zsh)]
    with tempfile.TemporaryDirectory() as folder:
        for name, text in GRAMMARS.items():
            (pathlib.Path(folder) / name).write_text(text)
        for shell, test, how in tests:
            if shutil.which(shell):
                faults += test(shell, how, pathlib.Path(folder))
            said.append(shell if shutil.which(shell) else f"{shell} (not installed: skipped)")
    for it in faults:
        print(it)
    print(f"completions: {', '.join(said)}; {len(faults)} wrong")
    return 1 if faults else 0


sys.exit(main(sys.argv[1:]))
