#!/usr/bin/env python3
"""Prints the must-fail edits crate by crate: the function, what the edit changes, and the clause that rejects it.

The edits of the gate stand in crates/NAME/must-fail/, the others in must-fail/NAME/; the list marks the others by `-`.
The script ends with status 1 where an edit's name or first line lacks its form, where the text that it changes does not
stand once in its file, or where a public function that needs an edit has none in either folder (CONTRIBUTING.md). A
function needs one if a clause is not an equation. The script judges that by the form of the clauses. It also ends with
status 1 where a crate has too few edits in the gate, where the gate has too many, where a program or a static library
has some, and where a name below is exempt without need. With -q it prints only what is wrong.
"""
import dataclasses
import pathlib
import re
import sys

sys.path.insert(0, str(pathlib.Path(__file__).resolve().parents[1]))  # scripts/, for what groups share
from crates import in_order, is_static

TOP = pathlib.Path(__file__).resolve().parents[2]
# The most edits that the gate has, and the fewest of a crate that has some: its first costs a proof of the crate.
MOST_EDITS = 16
FEWEST_EDITS = 4
# What a first line names where no clause of the function rejects the edit.
OTHERS = r"ensures|invariant|loop|safe|ends|requires of [\w.]+"
# Traits whose methods need no edit of their own. A method of a `Language` hands on what one function of a crate below
# says, where that function has its edit. A method of a `Node` equates what it makes with a term.
PLAIN_TRAITS = ("From", "Model", "Display", "Drop", "Language", "Node")
# Crates that show how to call the others, or that tests alone call: they need no edits.
EXAMPLES = ("uses",)
# Words that equate what they speak of.
# Writes: the bytes that a writer took; at an error, a prefix of them. Keeps: a stream's bytes are those of before.
# Flags: a stream's flag is the one of before; at an error, it is set. Defines: the new table and the id of a rule.
# SameLoan, SameFeed: a feed's reader, or all of the feed, is that of before. LendsBody, LendsWindow: what stands after
# a loan when it ends.
EXACT = r"(Writes|Keeps|Flags|Defines|SameLoan|SameFeed|sem 𝓛 \(Lends(Body|Window)) "
# Functions that need no edit for a reason that the form of their clauses does not show.
EXEMPT = (
    # It lends a field of a type of which no other value is at hand.
    "flatgrammar: Flat.share",
    # Its equation stands after a premise, and `requires` says that something meets the premise.
    "pegmatch: writing.write_event", "matchfailure: TextPosition.after",
    # It passes on what the reader inside gives.
    "cli: Input.read",
    # It passes on what `KeyLog::get` finds.
    "packrat: Packrat.found",
    # It passes on what `diagnostics::explain_note` returns, whose clause equates, and adds the line that `first_loop`
    # finds, which has an edit, or those of `push_steps`, whose clause equates.
    "pegexplain: notes.explain_peg_note",
    # It passes on what its helpers return, whose clauses equate.
    "pegexplain: reported.peg_hints",
    # It reports what its helpers find, of which `is_barren` has an edit.
    "abnfhints: hints.abnf_hints",
    # It passes on what `nullable` marks, and `need` has an edit.
    "gramcheck: nullable.nullable_rules",
    # It passes on what `note_redefined` adds, which has an edit.
    "gramcheck: notes.redefinitions",
    # It passes on what `analysed` marks for `check_peg`, which has an edit.
    "gramcheck: analysis.left_recursive_rules",
    # It passes on what `Chains::way_back` returns, which has an edit.
    "pegexplain: ways.left_way",
    # It passes on what `fixpoint::chains_from` returns, which has its edit.
    "abnfcheck: reached_names.name_chains",
    # It passes on what `conclude` does, which has its edit.
    "toolrun: finish.finish",
    # Another function of the crate has such a body, and its edit shows the same mistake.
    "fixpoint: needs.are_needs_within", "abnfcheck: table_marks.productive_rules",
    "fixpoint: used_names.add_use", "pegmatch: leaves.match_any", "feed: Feed.front",
    "pegnodes: cut.cut_grammar", "pegnodes: byte_tables.find_tables", "pegnodes: template.cut_templates",
    "capi: calls.abnf", "capi: runner_calls.peg_open", "memoryrun: whole_run.abnf_in_memory",
    "memoryrun: whole_run.peg_in_memory",
    # A crate above has such an edit.
    "abnfrun: AbnfJudge.judge", "memoryrun: buffer_run.abnf_into_buffers", "memoryrun: buffer_run.peg_into_buffers",
    "memoryrun: buffer_run.run_opened_into", "earleyitems: ItemChart.dots", "toolrun: plan.plan_of",
    "toolrun: tool.act", "diagnostics: explained.positions_of",
)


@dataclasses.dataclass
class Function:
    """A function as its lines show it. The owner is the type of its impl, or else its file. Each clause has a name and
    a text."""

    owner: str
    name: str
    clauses: list
    needs_edit: bool

    def is_called(self, called):
        return called in (self.name, f"{self.owner}.{self.name}")

    def has_clause(self, name):
        return name in [it for it, _ in self.clauses]


def equates(text):
    """Returns whether a clause equates something with a term: by one `≡`, at each byte perhaps, or by a word. `IfOk`
    and the like speak of one outcome. Every other outcome is allowed, so an edit of it shows nothing."""
    text = re.sub(r"^\(\w : ℕ\) → (\w < 256 → )?", "", text)
    outcome = re.fullmatch(r"(?:IfOk|IfSome|OnOk|OnErr) \w+ \((?:λ \w+\. )?(.*)\)", text)
    if outcome:
        return equates(outcome[1])
    is_plain = text.count(" ≡ ") == 1 and not re.search(r"^[A-Z]\w* | [→↔×⊎≤<] ", text)
    return is_plain or bool(re.match(EXACT, text))


def are_equations(texts):
    """Returns whether all clauses on what a function returns or changes equate it with terms. A clause on neither says
    nothing of the body. A clause on a length fixes no value, and needs no edit beside those that do. Whether something
    changes of which no clause speaks is not asked: no edit of it can be rejected."""
    if any(re.match(r"result(\.now)? ≡ ", it) for it in texts):
        texts = [it for it in texts if ".new" in it or equates(it)]
    said = [it for it in texts if re.search(r"\bresult\b|\.new\b|self\.entry", it) and not it.startswith("length ")]
    return bool(said) and all(map(equates, said))


def type_and_trait(line):
    """Returns the type of a line that begins an impl, and its trait, if it has one."""
    text = line[len("impl"):]
    while "<" in text:
        text = re.sub(r"<[^<>]*>", "", text)
    trait, _, owner = text.rpartition(" for ")
    return owner.split()[0].strip("{"), trait.strip().rpartition("::")[2]


def heads_at(lines, at):
    """Returns the signature of the function that begins at a line, its clauses, and whether it has a body."""
    indent, heads, has_body = re.match(" *", lines[at])[0], [], False
    for line in lines[at:]:
        has_body = bool(re.fullmatch(indent + r"(\{|\{\}|\S.* \{|\S.* \{\})", line))
        if not heads or re.match(r" +(ensures|requires)\b|" + indent + "where$", line):
            heads.append([])
        heads[-1].append(line.strip())
        said = [" ".join(it) for it in heads]
        if has_body or line.endswith(";") and all(it.count("{") == it.count("}") for it in said):
            break
    promised = [re.match(r"ensures\*? ?(\w*) ?\{ (.*) \}", it) for it in said]
    return said[0], [(it[1] or "ensures", it[2]) for it in promised if it], has_body


def promises_of_traits(folders):
    """Returns the clauses of each method of the repository's traits."""
    found, trait = {}, ""
    for file in (it for folder in folders for it in sorted(folder.glob("src/**/*.rt"))):
        lines = file.read_text().splitlines()
        for at, line in enumerate(lines):
            begun = re.match(r"pub trait (\w+)|\}", line)
            trait = begun[1] or "" if begun else trait
            said = re.match(r"    fn (\w+)", line)
            if trait and said:
                found[trait, said[1]] = heads_at(lines, at)[1]
    return found


def functions_in(file, public, promises):
    """Returns the functions of a source file; `public` are the names that the crate gives out."""
    lines, found, owner, trait = file.read_text().splitlines(), [], "", ""
    for at, line in enumerate(lines):
        if line.startswith("impl"):
            owner, trait = type_and_trait(line)
        elif line.startswith("}"):
            owner, trait = "", ""
        said = re.match(r"(    )?(pub )?(?:pub\(\w+\) )?(?:const )?(?:unsafe )?(?:extern \"C\" )?fn (\w+)", line)
        if not said or (said[1] and not owner):
            continue
        signature, clauses, has_body = heads_at(lines, at)
        if has_body:
            promised = trait and trait not in PLAIN_TRAITS
            clauses = clauses + promises.get((trait, said[3]), [])
            is_public = (owner or said[3]) in public and (said[2] or promised)
            is_law = "->" not in signature and "&mut" not in signature
            is_weak = (clauses or promised) and not are_equations([text for _, text in clauses])
            found.append(Function(owner or file.stem, said[3], clauses, bool(is_public and is_weak and not is_law)))
    return found


def functions_of(folder, promises):
    """Returns the functions of a crate, but for those of its tests."""
    files = sorted(folder.glob("src/**/*.rt"))
    tests = {it for file in files for it in re.findall(r"#\[cfg\(test\)\]\n\s*mod (\w+)", file.read_text())}
    uses = [it for file in folder.glob("src/lib.rt") for it in re.findall(r"(?s)pub use (.*?);", file.read_text())]
    public = {it for text in uses for it in re.findall(r"\w+", text)}
    files = [it for it in files if not tests.intersection((*it.relative_to(folder).parts, it.stem))]
    return [it for file in files for it in functions_in(file, public, promises)]


def applies(file, folder):
    """Returns whether each text that an edit changes stands once in the crate's file that it names, as `rt` asks."""
    text = file.read_text()
    named = re.search(r"^file: (.+)$", text, re.M)
    source = folder / named[1] if named else None
    changes = re.findall(r"(?m)^old: (.*)\nnew: ?(.*)$", text)
    if not (source and source.is_file() and changes):
        return False
    left = source.read_text()
    for old, new in changes:
        if left.count(old) != 1:
            return False
        left = left.replace(old, new)
    return True


def faults_of(file, folder, functions, covered):
    """Returns what is wrong with an edit of a crate, and adds the functions that it names to those that have one."""
    called, _, change = file.stem.rpartition(".")
    by = re.match(r"refused by: ([\w.]+), (.+)\n", file.read_text())
    if not by or not called or not re.fullmatch(r"\w+", change):
        return ["not of the form FUNCTION.CHANGE.edit with a first line 'refused by: FUNCTION, CLAUSE'"]
    faults = [] if applies(file, folder) else ["the text that it changes does not stand once in the file that it names"]
    for name in {called, by[1]}:
        fit = [it for it in functions if it.is_called(name)]
        covered += fit
        if len(fit) != 1:
            faults.append(f"{len(fit)} functions are called '{name}'")
        elif name == by[1] and fit[0].clauses and not fit[0].has_clause(by[2]) and not re.fullmatch(OTHERS, by[2]):
            faults.append(f"'{name}' has no clause '{by[2]}'")
    return faults


def faults_of_count(crate, edits):
    """Returns what is wrong with how many edits of a crate the gate has."""
    if edits and ((TOP / "crates" / crate / "src/main.rt").is_file() or is_static(TOP, crate)):
        return [f"{crate}: edits of a program or of a static library stand in must-fail/{crate}/"]
    if 0 < len(edits) < FEWEST_EDITS:
        return [f"{crate}: a crate with fewer than {FEWEST_EDITS} edits has them in must-fail/{crate}/"]
    return []


def check(crate, promises, exempt, is_quiet):
    """Prints the index of a crate, and returns what is wrong with it. Adds the exempt functions that need to be so."""
    folder, covered = TOP / "crates" / crate, []
    functions = functions_of(folder, promises)
    in_gate, others = [sorted(it.glob("*.edit")) for it in (folder / "must-fail", TOP / "must-fail" / crate)]
    faults = faults_of_count(crate, in_gate)
    twice = {it.name for it in in_gate} & {it.name for it in others}
    faults += [f"{crate}/{it}: crates/{crate}/must-fail/ and must-fail/{crate}/ both have it" for it in sorted(twice)]
    if not is_quiet:
        print(crate)
    for file in in_gate + others:
        faults += [f"{crate}/{file.name}: {it}" for it in faults_of(file, folder, functions, covered)]
        if not is_quiet:
            called, _, change = file.stem.rpartition(".")
            mark, by = "-" if file in others else " ", file.read_text().partition("\n")[0]
            print(f"{mark} {called:24} {change.replace('_', ' '):34} {by}")
    bare = [f"{crate}: {it.owner}.{it.name}" for it in functions if it.needs_edit and it not in covered]
    exempt.update(it for it in bare if it in EXEMPT)
    return faults + [
        f"{it}: the public function has no edit, and not all of its clauses are equations"
        for it in bare
        if it not in EXEMPT
    ]


def faults_of_folders(crates, exempt):
    """Returns what is wrong beside the crates: files that no one tries, too many edits, and names that are exempt
    without need."""
    strange = [it for it in sorted((TOP / "must-fail").rglob("*")) if it.is_file() and it.suffix != ".edit"]
    strange += [it for it in sorted((TOP / "must-fail").glob("*")) if it.name not in crates]
    count = len([*TOP.glob("crates/*/must-fail/*.edit")])
    faults = [f"{it.relative_to(TOP)}: must-fail/ holds nothing but edits, in folders of crates" for it in strange]
    if count > MOST_EDITS:
        faults.append(f"the gate has {count} edits, and at most {MOST_EDITS}: move one to must-fail/, or drop one")
    return faults + [f"edit_index.py: '{it}' is exempt without need" for it in EXEMPT if it not in exempt]


def main(words):
    crates, exempt = [it for it in in_order(TOP) if it not in EXAMPLES], set()
    promises = promises_of_traits(TOP / "crates" / it for it in crates)
    faults = [it for crate in crates for it in check(crate, promises, exempt, "-q" in words)]
    faults += faults_of_folders(crates, exempt)
    for it in faults:
        print(it, file=sys.stderr)
    return 1 if faults else 0


sys.exit(main(sys.argv[1:]))
