#!/usr/bin/env python3
"""Writes completions/: for bash, zsh and fish what may stand next in a command line of pegi, abnfi, abnfx,
abnfd and abnfg.

usage: completions.py [--check]

With --check it compares the files with what it would write, and writes nothing. The description of the options is here,
once for all shells; completions_test.py compares it with what the programs print for -h. As the value of --rule the
rules of the grammar are offered if it stands on the line already: they come from `-m print`, for abnfd and abnfg of
abnfi.
"""
import dataclasses
import pathlib
import sys

TOP = pathlib.Path(__file__).resolve().parents[2]
FOLDER = TOP / "completions"


@dataclasses.dataclass(frozen=True)
class Option:
    """An option: its letter, if it has one, its long name, the word for its value, the values that it may have, and
    what the help says."""

    letter: str
    name: str
    value: str
    values: tuple
    text: str

    def typed(self):
        """Returns its names, as they are typed."""
        return [*([f"-{self.letter}"] if self.letter else []), f"--{self.name}"]


@dataclasses.dataclass(frozen=True)
class Program:
    """A program: its options, what stands after a rule's name where the grammar is printed, what the help says of its
    file, the program that prints grammars, and its operands. A program without that sign takes any number of texts, and
    others any number of inputs."""

    name: str
    options: tuple
    sign: str
    file: str
    printer: str = ""
    operands: tuple = ("grammar", "input")

    def valued(self):
        """Returns the options that take a value, as they are typed."""
        return [name for it in self.options if it.value for name in it.typed()]

    def typed_for(self, value):
        """Returns the options whose value has that word, as they are typed."""
        return [name for it in self.options if it.value == value for name in it.typed()]

    def printing(self, word):
        """Returns how a shell names the program that prints grammars, where that word is how this one was called."""
        return f"${{{word}%{self.name}}}{self.printer}" if self.printer else f"${word}"


GRAMMAR = "The file of the grammar, at most 1048576 bytes"
MODE = Option("m", "mode", "MODE", ("run", "check", "print"), "Choose what to do with the grammar")
EXPLAIN = Option("x", "explain", "", (), "Explain messages in more lines")
FORMAT = Option("f", "format", "FORM", ("text", "gcc", "json"), "Choose the form of messages")
HELP = Option("h", "help", "", (), "Print this help")
VERSION = Option("", "version", "", (), "Print the version")
PROGRAMS = (
    Program("pegi", (
        MODE,
        Option("s", "rule", "RULE", (), "Start from this rule [default: the first rule]"),
        Option("l", "limit", "N", (), "Look at no more than N bytes, or Nk, NM, in a unit, from 1 to 16777216"),
        Option("b", "budget", "N", (),
               "Print no more than N bytes in a unit, from 1 to 4294967295 [default: 4294967295, any number]"),
        Option("1", "whole", "", (), "Take the input as one unit, up to its end"),
        Option("", "line-buffered", "", (), "Run units at line feeds, before more input is read"),
        Option("r", "raw", "", (), "Print actions verbatim"),
        Option("", "escapes", "", (), "Replace escapes in actions by their bytes"),
        EXPLAIN,
        FORMAT,
        HELP,
        VERSION,
    ), "<-", GRAMMAR),
    Program("abnfi", (
        MODE,
        Option("s", "rule", "RULE", (), "Judge by this rule [default: the first rule]"),
        Option("l", "limit", "N", (), "Take lines of at most N bytes, or Nk, NM, from 1 to 16777216"),
        Option("u", "letters", "MODE", ("bytes", "utf8"), "Take bytes or code points of UTF-8 as letters"),
        Option("z", "null-data", "", (), "Cut the input at NUL bytes in place of line feeds"),
        Option("k", "keep-ends", "", (), "Judge each line with its line feed, or its NUL byte"),
        Option("b", "budget", "N", (), "Keep at most N items for a line, from 1 to 4294967295, which is no limit"),
        Option("p", "print", "WHAT", ("answers", "derived", "refused", "count", "none"),
               "Choose what to print"),
        Option("H", "with-filename", "", (), "Print the name of the input before each line"),
        Option("n", "line-number", "", (), "Print the number of each line before it"),
        Option("q", "quiet", "", (), "Print nothing, and end at the first refused line"),
        Option("", "line-buffered", "", (), "Answer each line before more input is read"),
        Option("w", "viable", "", (), "Write how far a refused line goes: no N"),
        EXPLAIN,
        FORMAT,
        HELP,
        VERSION,
    ), "=", GRAMMAR),
    Program("abnfx", (
        Option("c", "canonical", "", (), "Write the canonical text of the grammar"),
        Option("l", "list", "", (), "List the rules, and what becomes of each"),
        Option("x", "explain", "", (), "Explain why rules are no ABNF"),
        Option("", "expand", "", (), "Write lists out as recipients accept them"),
        Option("", "expand-send", "", (), "Write lists out as senders write them"),
        HELP,
        VERSION,
    ), "", "The texts of RFCs, each at most 16777216 bytes"),
    Program("abnfd", (
        Option("s", "rule", "RULE", (), "Compare this rule of both grammars [default: the first rule]"),
        Option("t", "new-rule", "RULE", (), "Compare this rule of NEW [default: that of -s]"),
        Option("a", "all", "", (), "Compare all rules that both grammars define, by name"),
        Option("u", "letters", "MODE", ("bytes", "utf8"), "Take bytes or code points of UTF-8 as letters"),
        Option("b", "budget", "N", (), "Search at most N pairs of states, from 1 to 4294967295"),
        Option("x", "explain", "", (), "Explain why the other rule rejects a line"),
        HELP,
        VERSION,
    ), "=", "The file of the old grammar, at most 1048576 bytes", "abnfi", ("old", "new")),
    Program("abnfg", (
        Option("s", "rule", "RULE", (), "List lines of this rule [default: the first rule]"),
        Option("m", "mode", "MODE", ("all", "cover", "miss", "random"), "Choose which lines to list"),
        Option("l", "limit", "N", (), "List lines of at most N symbols, from 1 to 16777216"),
        Option("c", "count", "N", (), "List at most N lines, from 1 to 4294967295"),
        Option("a", "alike", "", (),
               "List lines of mode `all` with the first alone of symbols that no set distinguishes"),
        Option("e", "edges", "", (), "Also list lines of mode `miss` by wrong symbols next to those that can follow"),
        Option("g", "seed", "SEED", (), "Draw lines of mode `random` by this number, from 0 to 18446744073709551615"),
        Option("u", "letters", "MODE", ("bytes", "utf8"), "Take bytes or code points of UTF-8 as symbols"),
        Option("x", "explain", "", (),
               "Explain why lines of mode `miss` are rejected, or report the goals of mode `cover`"),
        Option("z", "null-data", "", (), "End lines with NUL bytes in place of line feeds"),
        HELP,
        VERSION,
    ), "=", GRAMMAR, "abnfi", ("grammar",)),
)

BASH = r"""# Completes the command line of @NAME@ in bash. scripts/build/completions.py wrote this file.

# Prints the names of the rules of the grammar on the line, if it is there.
_@NAME@_rules() {
    local program=@PROGRAM@ at word
    for ((at = 1; at < ${#COMP_WORDS[@]}; at++)); do
        word=${COMP_WORDS[at]}
        case $word in
            @VALUED@)
                ((++at))
                [[ ${COMP_WORDS[at]} != = ]] || ((++at))
                ;;
            -*) ;;
            *)
                word=${word//\\/}
                word=${word/#\~\//$HOME/}
                [ ! -f "$word" ] || "$program" -m print "$word" 2> /dev/null |
                    sed -n 's/^\([A-Za-z_][A-Za-z0-9_-]*\) @SIGN@ .*/\1/p'
                ;;
        esac
    done
}

_@NAME@() {
    local current=${COMP_WORDS[COMP_CWORD]} before=${COMP_WORDS[COMP_CWORD - 1]} option words
    COMPREPLY=()
    # bash cuts --mode=check into three words
    if [[ $current == = ]]; then
        current=
    elif [[ $before == = ]]; then
        before=${COMP_WORDS[COMP_CWORD - 2]}
    fi
    case $before in
@VALUES@
        @RULES@)
            mapfile -t COMPREPLY < <(compgen -W "$(_@NAME@_rules "${1/#\~\//$HOME/}")" -- "$current")
            return
            ;;
        @NUMBERS@) return ;;
    esac
    if [[ $current == -* ]]; then
        # each option may stand once
        for option in @OPTIONS@; do
            [[ ,$option, == *",$current,"* || " ${COMP_WORDS[*]} " != *" ${option%,*} "* &&
                " ${COMP_WORDS[*]} " != *" ${option#*,} "* ]] && words+=" ${option/,/ }"
        done
        mapfile -t COMPREPLY < <(compgen -W "$words" -- "$current")
    else
        compopt -o filenames 2> /dev/null
        mapfile -t COMPREPLY < <(compgen -f -- "$current")
    fi
}
complete -F _@NAME@ @NAME@
"""

BASH_TEXTS = r"""# Completes the command line of @NAME@ in bash. scripts/build/completions.py wrote this file.

_@NAME@() {
    local current=${COMP_WORDS[COMP_CWORD]} option words
    COMPREPLY=()
    if [[ $current == -* ]]; then
        # each option may stand once
        for option in @OPTIONS@; do
            [[ ,$option, == *",$current,"* || " ${COMP_WORDS[*]} " != *" ${option%,*} "* &&
                " ${COMP_WORDS[*]} " != *" ${option#*,} "* ]] && words+=" ${option/,/ }"
        done
        mapfile -t COMPREPLY < <(compgen -W "$words" -- "$current")
    else
        compopt -o filenames 2> /dev/null
        mapfile -t COMPREPLY < <(compgen -f -- "$current")
    fi
}
complete -F _@NAME@ @NAME@
"""

ZSH_TEXTS = r"""#compdef @NAME@
# Completes the command line of @NAME@ in zsh. scripts/build/completions.py wrote this file.

_arguments -s \
@OPTIONS@
    '*:text:_files'
"""

FISH_TEXTS = r"""# Completes the command line of @NAME@ in fish. scripts/build/completions.py wrote this file.

@OPTIONS@
"""

BASH_VALUES = """        @NAMES@)
            mapfile -t COMPREPLY < <(compgen -W '@VALUES@' -- "$current")
            return
            ;;"""

ZSH = r"""#compdef @NAME@
# Completes the command line of @NAME@ in zsh. scripts/build/completions.py wrote this file.

# Offers the names of the rules of the grammar on the line, if it is there.
_@NAME@_rules() {
    local -a rules
    local at word
    for ((at = 2; at <= $#words; at++)); do
        word=$words[at]
        case $word in
            (@VALUED@) ((++at)) ;;
            (-*) ;;
            (*)
                word=${~${(Q)word}}
                [[ ! -f $word ]] || rules+=(${(f)"$(@PROGRAM@ -m print $word 2> /dev/null |
                    sed -n 's/^\([A-Za-z_][A-Za-z0-9_-]*\) @SIGN@ .*/\1/p')"})
                ;;
        esac
    done
    (($#rules)) && compadd -a rules
}

_arguments -s \
@OPTIONS@
    @FILES@
"""

FISH = r"""# Completes the command line of @NAME@ in fish. scripts/build/completions.py wrote this file.

# Prints the names of the rules of the grammar on the line, if it is there.
function __@NAME@_rules
    set -l words (commandline -op)
    set -l at 2
    while test $at -le (count $words)
        switch $words[$at]
            case @VALUED@
                set at (math $at + 1)
            case '-*'
            case '*'
                set -l file (string replace -r '^~/' "$HOME/" -- $words[$at])
                if test -f "$file"
                    set -l program @PROGRAM@
                    set -l text (command $program -m print "$file" 2> /dev/null)
                    string match -rg '^([A-Za-z_][A-Za-z0-9_-]*) @SIGN@ ' -- $text
                end
        end
        set at (math $at + 1)
    end
end

@OPTIONS@
"""


def filled(template, **words):
    """Returns the template with each @WORD@ replaced."""
    for word, text in words.items():
        template = template.replace(f"@{word}@", text)
    return template


def for_bash(program):
    """Returns the file for bash."""
    values = [
        filled(BASH_VALUES, NAMES=" | ".join(it.typed()), VALUES=" ".join(it.values))
        for it in program.options if it.values
    ]
    options = " ".join(",".join(it.typed()) for it in program.options)
    return filled(BASH if program.sign else BASH_TEXTS, NAME=program.name, SIGN=program.sign,
                  VALUED=" | ".join(program.valued()), VALUES="\n".join(values), OPTIONS=options,
                  PROGRAM=program.printing("1"), RULES=" | ".join(program.typed_for("RULE")),
                  NUMBERS=" | ".join(program.typed_for("N")))


def for_zsh(program):
    """Returns the file for zsh."""
    def spec(it):
        text = it.text.replace("[", "(").replace("]", ")").replace(":", "\\:")
        if it is VERSION:
            return f"    '(- 1)--version[{text}]' \\"
        names = it.typed()
        others = "- 1" if it is HELP else " ".join(names)
        typed = ",".join(names) + ("=" if it.value else "")
        action = f"({' '.join(it.values)})" if it.values else f"_{program.name}_rules" if it.value == "RULE" else " "
        return f"    '({others})'{{{typed}}}'[{text}]" + (f":{it.value.lower()}:{action}' \\" if it.value else "' \\")
    return filled(ZSH if program.sign else ZSH_TEXTS, NAME=program.name, SIGN=program.sign,
                  VALUED="|".join(program.valued()), OPTIONS="\n".join(map(spec, program.options)),
                  PROGRAM=program.printing("words[1]"),
                  FILES=" ".join(f"'{'*' if it == 'input' else n}:{it}:_files'"
                                 for n, it in enumerate(program.operands, 1)))


def for_fish(program):
    """Returns the file for fish."""
    def line(it):
        offered = " ".join(it.values) or (f"(__{program.name}_rules)" if it.value == "RULE" else "")
        values = (" -x" if it.value else "") + (f" -a '{offered}'" if offered else "")
        name = (f"-s {it.letter} " if it.letter else "") + f"-l {it.name}" + (" -f" if it in (HELP, VERSION) else "")
        return f"complete -c {program.name} {name}{values} -d '{it.text}'"
    return filled(FISH if program.sign else FISH_TEXTS, NAME=program.name, SIGN=program.sign,
                  VALUED=" ".join(program.valued()), OPTIONS="\n".join(map(line, program.options)),
                  PROGRAM=f"(string replace -r '{program.name}$' {program.printer} -- $words[1])"
                  if program.printer else "$words[1]")


def files():
    """Returns the text of each file of completions/, by its path there."""
    found = {}
    for it in PROGRAMS:
        found[f"bash/{it.name}"] = for_bash(it)
        found[f"zsh/_{it.name}"] = for_zsh(it)
        found[f"fish/{it.name}.fish"] = for_fish(it)
    return found


def main(words):
    wrong = 0
    for path, text in files().items():
        file = FOLDER / path
        if "--check" in words:
            if not file.is_file() or file.read_text() != text:
                print(f"completions/{path}: not what scripts/build/completions.py writes")
                wrong += 1
        else:
            file.parent.mkdir(parents=True, exist_ok=True)
            file.write_text(text)
    return 1 if wrong else 0


if __name__ == "__main__":
    sys.exit(main(sys.argv[1:]))
