"""`compare`: over scripts that stand in for abnfd(1), and over the program itself where it is. And `Abnf.lines`. Wanted
texts are those of the manual pages, of the gate's rows and of examples/."""
import itertools
import os
import pathlib
import pickle
import stat
import threading

import pytest

from fanquber import (
    Abnf,
    Alone,
    Comparison,
    GrammarError,
    Letters,
    OutOfMemory,
    ProgramFailed,
    ProgramMissing,
    TooManyStacks,
    _programs,
    compare,
)
from fanquber.comparisons import quoted, read_comparison

TOP = pathlib.Path(__file__).resolve().parents[2]
EXAMPLES = TOP / "examples"
OLD, NEW = 'date = 4DIGIT "-" 2DIGIT\n', 'date = year "-" 1*2DIGIT\nyear = 4DIGIT\n'
NONE = Alone(is_none=True)


def printed(out, err="", status=0):
    """Returns the lines of a script that prints texts, in which `\\` begins an escape of printf, and ends."""
    return f"printf '{out}'\nprintf '{err}' >&2\nexit {status}"


# Answers of abnfd(1), with what is known of the lines that each rule alone derives.
ANSWERS = [
    ("same", NONE, NONE, True),
    ('differ\n< none\n> "0000-0"', NONE, Alone(b"0000-0"), False),
    ('differ\n< ""\n> "\\x22\\x5C ~\\x7F\\x00\\xFF\\x09"', Alone(b""), Alone(b'"\\ ~\x7f\0\xff\t'), False),
    ('differ\n< not known\n> "x"', Alone(), Alone(b"x"), False),
    ("not known\n< not known\n> not known", Alone(), Alone(), None),
    ("not known\n< none\n> none of at most 17 letters", NONE, Alone(none_up_to=17), None),
]


@pytest.mark.parametrize("text, old_alone, new_alone, same", ANSWERS)
def test_answers_are_read(text, old_alone, new_alone, same):
    found = read_comparison(text.encode() + b"\n")
    assert (found.old_alone, found.new_alone, found.same, str(found)) == (old_alone, new_alone, same, text)
    assert pickle.loads(pickle.dumps(found)) == found


@pytest.mark.parametrize(
    "text",
    [
        b"",
        b"same",
        b"differ\n",
        b"differ\n< none\n> none",
        b'differ\n< "x\n> none\n',
        b'differ\n< "\\x"\n> none\n',
    ],
)
def test_other_answers_are_rejected(text):
    assert read_comparison(text) is None


def test_lines_are_quoted():
    every = bytes(range(256))
    assert read_comparison(f'differ\n< "{quoted(every)}"\n> none\n'.encode()).old_alone.line == every
    assert quoted(b'a "\\') == "a \\x22\\x5C"


def test_results_do_not_change():
    found = read_comparison(b"same\n")
    for it, field in ((found, "notes"), (found.old_alone, "line")):
        with pytest.raises(AttributeError):
            setattr(it, field, b"")


def test_what_abnfd_gets(stand_in):
    """The words of the command stand in its answer, and both grammars."""
    answers = "printf 'differ\\n< \"%s\"\\n> none\\n'"
    stand_in("abnfd", f'test "$(cat "$5"; cat "$6")" = "old new" && test $# = 6 && {answers} "$*"')
    found = compare("old ", "new", rule="a", new_rule="-h", letters=Letters.UTF8, budget=7)
    assert found.old_alone.line.startswith(b"--budget=7 --letters=utf8 --rule=a --new-rule=-h /proc/self/fd/")
    stand_in("abnfd", f"{answers} $#")
    assert compare("old", "new").old_alone.line == b"3"


def test_notes_of_both(stand_in):
    stand_in("abnfd", printed("same\\n", "old: rule %s defined but not used\\n"))
    assert compare(OLD, NEW) == Comparison(NONE, NONE, ("old: rule  defined but not used",))


def test_faults_of_abnfd(stand_in):
    for script, error, text in (
        (printed("", "error: of words\\n\\nUsage: abnfd\\n", 2), ProgramFailed, "abnfd: error: of words"),
        (printed("", "old: cannot read the grammar\\n", 4), ProgramFailed, "abnfd: old: cannot read the grammar"),
        (printed("", "out of memory\\n", 5), OutOfMemory, "out of memory"),
        (printed("equal\\n"), ProgramFailed, "abnfd writes an answer that this package does not know"),
        ("kill -9 $$", ProgramFailed, "abnfd was ended by signal 9"),
    ):
        stand_in("abnfd", script)
        with pytest.raises(error) as raised:
            compare(OLD, NEW)
        assert str(raised.value) == text


def test_numbers_out_of_range(stand_in):
    stand_in("abnfd", printed("same\\n"))
    for budget in (0, -1, 1 << 32):
        with pytest.raises(ValueError):
            compare(OLD, NEW, budget=budget)
    for wrong in ({"count": 0}, {"count": 1 << 32}, {"limit": 0}, {"limit": 16777217}):
        with pytest.raises(ValueError):
            Abnf(OLD).lines(**wrong)
    with pytest.raises(ValueError):
        Abnf(OLD).compare(Abnf(NEW, letters=Letters.UTF8))


def test_missing_programs_are_named(tmp_path, monkeypatch):
    monkeypatch.delenv("FANQUBER_PROGRAMS", raising=False)
    monkeypatch.setenv("PATH", str(tmp_path))
    monkeypatch.setattr(_programs, "loaded_path", lambda: "libfanquber.so.2")
    with pytest.raises(ProgramMissing) as missing:
        compare(OLD, NEW)
    assert missing.value.program == "abnfd"
    assert str(missing.value).startswith("abnfd is not in FANQUBER_PROGRAMS, beside the shared object or on PATH")
    copy = pickle.loads(pickle.dumps(missing.value))
    assert (copy.program, str(copy)) == ("abnfd", str(missing.value))


def test_where_programs_are_found(tmp_path, monkeypatch):
    """In the folder of FANQUBER_PROGRAMS, else in that of the shared object, else on PATH."""
    for folder in ("own", "beside", "path"):
        (tmp_path / folder).mkdir()
        (tmp_path / folder / "abnfd").write_text("#!/bin/sh\n")
        (tmp_path / folder / "abnfd").chmod(0o755)
    monkeypatch.setenv("FANQUBER_PROGRAMS", str(tmp_path / "own"))
    monkeypatch.setattr(_programs, "loaded_path", lambda: str(tmp_path / "beside/libfanquber.so.2"))
    monkeypatch.setenv("PATH", str(tmp_path / "path"))
    for folder in ("own", "beside", "path"):
        assert _programs.program_path("abnfd") == str(tmp_path / folder / "abnfd")
        (tmp_path / folder / "abnfd").chmod(stat.S_IRUSR)


@pytest.mark.usefixtures("programs")
def test_comparisons():
    found = compare(OLD, NEW)
    assert (found.same, found.old_alone, found.new_alone) == (False, NONE, Alone(b"0000-0"))
    assert str(found) == 'differ\n< none\n> "0000-0"'
    assert Abnf(OLD).compare(Abnf(NEW)) == found
    assert compare('a = 1*"x"', 'a = "x" [a]').same is True
    assert compare('a = *2[DIGIT]', "a = *2DIGIT").same is None
    assert compare('a = 1*"x"', 'a = 2*"x"', budget=1) == Comparison(Alone(), Alone())
    long = compare('a = 70000"x"', 'a = 70000%x78', budget=4294967295)
    assert long.old_alone.line == b"X" * 70000


@pytest.mark.usefixtures("programs")
def test_comparisons_of_rules_and_letters():
    two = 'a = "no"\nb = %s"yes"\n'
    found = compare('a = "yes"', two, new_rule="b")
    assert (found.old_alone.line, found.new_alone) == (b"YES", NONE)
    assert found.notes == ("new: rule 'a' defined but not used",)
    assert Abnf('a = "yes"').compare(Abnf(two, "B")).old_alone.line == b"YES"
    assert Abnf(two, "b").compare(Abnf('a = "yes"')).new_alone.line == b"YES"
    assert compare("t = %xE9", "t = %xC3.A9").new_alone.line == b"\xc3\xa9"
    assert compare("t = %xE9", "t = %xC3.A9", letters=Letters.UTF8).old_alone.line == "\u00e9".encode()
    assert Abnf("t = %xE9", letters=Letters.UTF8).compare(Abnf("t = %xE9-EA", letters=Letters.UTF8)).same is False


@pytest.mark.usefixtures("programs")
def test_comparisons_of_rejected_grammars():
    with pytest.raises(GrammarError) as rejected:
        compare("a = b", 'a = "x"\nc = <prose>\n')
    assert rejected.value.notes == [
        "old: rule 'b' used but not defined",
        "new: prose in rule 'c'",
        "new: rule 'c' defined but not used",
    ]
    assert [str(it) for it in rejected.value.findings] == [
        "old:1:1: error: rule 'b' used but not defined, reached by 'a' > 'b' [undefined]",
        "new:2:1: warning: prose in rule 'c' [prose]",
        "new:2:1: warning: rule 'c' defined but not used [unused]",
    ]
    for rule in ("none", "", "-h", "a b", "\u00fc"):
        with pytest.raises(GrammarError) as rejected:
            compare(OLD, NEW, rule=rule)
        assert {it.code for it in rejected.value.findings} >= {"undefined"}
    with pytest.raises(GrammarError) as rejected:
        compare("a : b", NEW)
    assert [(it.file, it.code) for it in rejected.value.findings][0] == ("old", "syntax")


def test_lines():
    bits = Abnf('bits = 1*2("0" / "1")')
    assert list(bits.lines()) == [b"0", b"1", b"00", b"01", b"10", b"11"]
    assert list(bits.lines(count=3)) == [b"0", b"1", b"00"]
    assert list(bits.lines(limit=1)) == [b"0", b"1"]
    assert list(Abnf('a = "x" a').lines()) == []
    assert list(Abnf('a = "x" CRLF').lines()) == [b"X\r\n", b"x\r\n"]
    assert list(Abnf("a = %x00-02").lines()) == [b"\1", b"\2"]
    assert list(Abnf("a = %xE9", letters=Letters.UTF8).lines()) == ["\u00e9".encode()]
    assert list(Abnf('a = b\nb = "x"\n', "B").lines(count=1)) == [b"X"]
    many = Abnf('a = *"x"').lines(limit=16777216, count=4294967295)
    assert list(itertools.islice(many, 4)) == [b"", b"X", b"x", b"XX"]
    with pytest.raises(GrammarError) as rejected:
        next(Abnf("a = <prose>").lines())
    assert rejected.value.notes == ["prose in rule 'a'"]


def test_lines_stay_on_their_thread():
    lines, raised = Abnf('a = *"x"').lines(), []
    assert next(lines) == b""

    def goes_on():
        try:
            next(lines)
        except RuntimeError as fault:
            raised.append(str(fault))

    other = threading.Thread(target=goes_on)
    other.start()
    other.join()
    assert raised == ["the lines were opened on another thread"]


def test_too_many_stacks():
    for text, wanted in (('a = a "b" / "c"', []), ("a = *2[DIGIT]", [])):
        lines = Abnf(text).lines()
        with pytest.raises(TooManyStacks):
            wanted.append(next(lines))
        assert wanted == []


def test_lines_of_examples_are_derived():
    offset = Abnf.from_file(EXAMPLES / "timezones/offset.abnf")
    wanted = (EXAMPLES / "timezones/printed.txt").read_bytes().split(b"\n")[:-1]
    assert list(offset.lines(count=8)) == wanted
    for name, rule in (("rfc3339/rfc3339.abnf", "date-time"), ("rfc3986/rfc3986.abnf", "URI-reference")):
        grammar = Abnf.from_file(EXAMPLES / name, rule)
        lines = list(grammar.lines(count=300))
        assert len(set(lines)) == 300 and grammar.judge(lines) == [True] * 300
        assert [len(it) for it in lines] == sorted(len(it) for it in lines)


@pytest.mark.usefixtures("programs")
@pytest.mark.parametrize(
    "folder, old, new, rule",
    [
        ("fieldvalues", "rfc7230.abnf", "rfc9110.abnf", None),
        ("langtags", "rfc3066.abnf", "rfc5646.abnf", "Language-Tag"),
    ],
)
def test_comparisons_of_examples(folder, old, new, rule):
    grammars = [Abnf.from_file(EXAMPLES / folder / it, rule) for it in (old, new)]
    found = grammars[0].compare(grammars[1])
    assert f"{found}\n" == (EXAMPLES / folder / "printed.txt").read_text()
    # Each line alone is derived by its own rule alone
    for at, alone in enumerate((found.old_alone, found.new_alone)):
        if alone.line is not None:
            assert [it.derives(alone.line) for it in grammars] == [at == 0, at == 1]
