"""Rules as trees, findings, refusals, files and closing. Wanted texts are those of the manual pages' examples."""
import pathlib
import pickle
import subprocess
import sys
import threading

import pytest

from fanquber import Abnf, Finding, GrammarError, Letters, Overlong, Peg, Refusal
from fanquber._grammars import canonical_text, check
from fanquber.findings import read_findings
from fanquber.names import places
from fanquber.refusals import read_refusal
from fanquber.trees import read_rules

DAY = 'day = 4DIGIT "-" 2DIGIT "-" 2DIGIT\n'
HOST = 'uri  = "//" Host [ path ]\nHost = 1*( ALPHA / "." ) <a name>\nport =/ 1*DIGIT\nhost = 1*DIGIT\n'


def test_trees_of_abnf():
    text = 'a = 4DIGIT "-" *2B / [ %x41.42 ] / %s"Z"\nB = %d48-57 / *%b1 / ""\nb =/ 1*<by \\ "hand">\nc = *0a'
    assert read_rules("abnf", canonical_text("abnf", text)) == {
        "a": (
            "or",
            ("cat", ("rep", 4, 4, ("name", "DIGIT")), ("text", "-"), ("rep", 0, 2, ("name", "B"))),
            ("opt", ("values", 0x41, 0x42)),
            ("exact", "Z"),
        ),
        "B": (
            "or",
            ("range", 48, 57),
            ("rep", 0, None, ("values", 1)),
            ("text", ""),
            ("rep", 1, None, ("prose", 'by \\ "hand"')),
        ),
        "c": ("rep", 0, 0, ("name", "a")),
    }


def test_trees_of_peg():
    text = "S <- A { x\\n 'y' \"z\" {b} }\nA <- 'a\\n\"' / [^a-z\\]] / !. &. < ('x' )+ > /\nB <- A?\nC <- B 'c'*\n"
    assert Peg(text).rules == {
        "S": ("cat", ("name", "A"), ("act", " x\\n 'y' \"z\" {b} ")),
        "A": (
            "or",
            ("bytes", 'a\\n\\"'),
            ("set", "^\\]a-z"),
            ("cat", ("not", ("any",)), ("and", ("any",)), ("open",), ("plus", ("bytes", "x")), ("close",)),
            ("cat",),
        ),
        "B": ("opt", ("name", "A")),
        "C": ("cat", ("name", "B"), ("star", ("bytes", "c"))),
    }


def test_templates_hold_any_byte():
    template = bytes(it for it in range(1, 256) if it not in b"{}")
    assert Peg(b"S <- 'x' {" + template + b"}").rules["S"][2] == ("act", template.decode("latin-1"))


def test_many_rules():
    assert len(Abnf("".join(f'r{at} = "x"\n' for at in range(5000))).rules) == 5000


def test_findings_on_a_grammar():
    with pytest.raises(GrammarError) as refused:
        Abnf(HOST, file="host.abnf")
    assert [str(it) for it in refused.value.findings] == [
        "host.abnf:2:1: error: rule 'Host' redefined [redefined]",
        "host.abnf:3:1: warning: rule 'port' extended before it is defined [extended]",
        "host.abnf:1:1: error: rule 'path' used but not defined, reached by 'uri' > 'path' [undefined]",
        "host.abnf:2:1: error: prose in rule 'Host', reached by 'uri' > 'Host' [prose]",
        "host.abnf:3:1: warning: rule 'port' defined but not used [unused]",
    ]
    first = refused.value.findings[0]
    assert (first.file, first.line, first.column, first.rule) == ("host.abnf", 2, None, "Host")
    assert [tuple(it) for it in first.notes] == [(2, "'Host' is defined"), (4, "'host' is defined again")]
    assert refused.value.notes[0] == "rule 'Host' redefined"


def test_findings_on_a_fault():
    with pytest.raises(GrammarError) as refused:
        Abnf('time = 2DIGIT ":" ( 2DIGIT\n/ "xx" )\n')
    (found,) = refused.value.findings
    assert found[:6] == ("", 2, 1, "error", "syntax", 'syntax error: expected white space and an element, "/" or ")"')


@pytest.mark.parametrize(
    "text, severity",
    [
        ("a = b\nb = <x>", "error"),
        ("a = <x>", "error"),
        ('a = "x"\nb = <x>\n', "warning"),
        ('a = "x"\nb = c\n', "warning"),
    ],
)
def test_severities(text, severity):
    try:
        found = Abnf(text).findings
    except GrammarError as fault:
        found = fault.findings
    assert next(it.severity for it in found if it.code in ("prose", "undefined")) == severity


def test_findings_of_peg():
    with pytest.raises(GrammarError) as refused:
        Peg("S <- A 'x'\nA <- S / 'y' b\n")
    assert [(it.line, it.severity, it.code, it.rule) for it in refused.value.findings] == [
        (2, "error", "undefined", "b"),
        (1, "error", "left-recursion", "S"),
        (2, "error", "left-recursion", "A"),
    ]
    assert [it.code for it in Peg("S <- 'a' / 'ab'\nT <- 'x'\n").findings] == ["unused", "never-taken"]


def test_hints():
    grammar = Abnf('day = 2DIGIT "-" ( 2DIGIT / month )\nmonth = 3( %x7A-61 )\n')
    assert [str(it) for it in grammar.findings] == [
        "grammar:2:1: warning: rule 'month' derives nothing [derives-nothing]",
        "grammar:2:1: warning: reversed numbers in rule 'month': %x7A-61 derives nothing [reversed]",
    ]
    assert grammar.notes == []


def test_lines_may_hold_any_byte():
    assert Abnf('m = "a" CRLF').findings == []
    assert [it.code for it in check("abnf", 'm = "a" CRLF')] == ["no-line"]
    assert check("abnf", 'm = "a" CRLF', nul=True) == []


def test_findings_on_an_input():
    err = b'line 1, letter 3: expected "-" in d\n  12x3\n    ^\n'
    err += b"line 3 ends too early: expected DIGIT in d\n  12-\n     ^\n"
    assert [it[:7] for it in read_findings(err)] == [
        ("", 1, 3, "error", "refused", 'expected "-" in d', "input"),
        ("", 3, None, "error", "refused", "expected DIGIT in d", "input"),
    ]
    err = b"no match at byte 10\n  byte 12, line 2, column 8, in the unit at byte 10\n  z=;\n    ^\n"
    (found,) = read_findings(err + b"  expected [0-9] in N\n")
    assert found[1:6] == (2, 8, "error", "no-match", "no match at byte 10: expected [0-9] in N")


def test_unknown_messages_are_kept():
    (found,) = read_findings(b"something new\n  with a line\n")
    assert (found.code, found.message, found.more) == ("other", "something new", ("with a line",))


def test_refusals():
    day = Abnf(DAY)
    assert day.refusal("1985-04-12") is None
    found = day.refusal("1985")
    assert (found.at, found.can_end, found.picture) == (4, False, "1985\n    ^")
    assert len(found.expected) == 1 and found.expected[0].startswith('"-"')
    assert day.refusal("1985-04-12 ") == Refusal(10, (), True, "1985-04-12 \n          ^")
    assert str(day.refusal("1985x")).startswith('refused after 4 letters: expected "-" in day')
    assert day.refusal("1985x").parts == ('"-" in day',)
    assert str(day.refusal("1985x")).endswith("\n1985x\n    ^")
    assert str(Refusal(2, ("%x41", '"b"'), True, "")) == 'refused after 2 letters: expected %x41 / "b" or the end'
    for line, at in (("1985-4-12", 6), ("", 0), (b"\xff", 0)):
        found = day.refusal(line)
        assert (found.at, found.can_end, day.viable(line)) == (at, False, at)
        assert len(found.expected) == 1


def test_refusals_of_all_kinds():
    either = Abnf('s = "/" / %s"q" / %x22 / %x0A-0B [LF]')
    found = either.refusal("x")
    assert (found.at, found.can_end) == (0, False)
    assert len(found.expected) >= 4
    assert {it.split(" ")[0] for it in found.expected} >= {'"/"', '%s"q"'}
    lines = Abnf('lines = 1*("a" LF)')
    assert (lines.refusal("a\nb").at, lines.refusal("a\nb").can_end) == (2, True)
    assert lines.refusal("a\n\0") == Refusal(2, (), False, "")
    assert Abnf("e = %xE9", letters=Letters.UTF8).refusal(b"\xe9").at == 0
    nothing = Abnf("a = %x7A-61").refusal("x")
    assert (nothing.at, nothing.expected, nothing.can_end) == (0, (), False)
    with pytest.raises(Overlong):
        Abnf(DAY, limit=3).refusal("1985")


def test_parts_of_refusals():
    text = b'line 1 ends too early: expected %s"e" of %x66.65 in f or the end of the line\n  f\n   ^\n'
    found = read_refusal(1, text)
    assert found == Refusal(1, ('%s"e"',), True, "f\n ^", 0, ('%s"e" of %x66.65 in f',))
    assert str(found) == 'refused after 1 letters: expected %s"e" of %x66.65 in f or the end\nf\n ^'
    text = 'line 1, letter 1: expected DIGIT / "\xe9" (%xE9) and 2 more or the end of the line\n  x\n  ^\n  a in b\n'
    found = read_refusal(0, (text + '  "\xe9" (%xE9) in b\n  and 3 more\n').encode())
    assert found == Refusal(0, ("DIGIT", '"\xe9" (%xE9)'), True, "x\n^", 2, ("a in b", '"\xe9" (%xE9) in b'), 3)
    said = 'refused after 0 letters: expected DIGIT / "\xe9" (%xE9) and 2 more or the end\nx\n^\na in b\n'
    assert str(found) == said + '"\xe9" (%xE9) in b\nand 3 more'
    found = read_refusal(0, b'line 1 ends too early: expected "A" / "B"\n  "A" in r\n  "B" in r\n')
    assert (found.expected, found.picture, found.parts) == (('"A"', '"B"'), "", ('"A" in r', '"B" in r'))


def test_files(tmp_path):
    (tmp_path / "day.abnf").write_text(DAY + "x = y\n")
    day = Abnf.from_file(tmp_path / "day.abnf", "DAY")
    assert day.derives("1985-04-12")
    assert {it.file for it in day.findings} == {str(tmp_path / "day.abnf")}
    (tmp_path / "s.peg").write_bytes(b"S <- 'x' { y }\nT <- 'z'\n")
    runner = Peg.from_file(str(tmp_path / "s.peg"))
    assert runner.run("x").out == b"y\n"
    assert runner.findings[0].file == str(tmp_path / "s.peg")
    for kind in (Abnf, Peg):
        with pytest.raises(OSError):
            kind.from_file(tmp_path / "none")


def test_names():
    text = 'Ab = <c d> "e" %xAB ab ; f\n  / 2g [h]\nAB =/ %s"i"\n'
    seen = [(it.key, it.at, it.defines) for it in places("abnf", text)]
    at = [text.index(it) for it in ("Ab", "ab ;", "g [", "h]", "AB =/")]
    assert seen == list(zip(("ab", "ab", "g", "h", "ab"), at, (True, False, False, False, True)))
    text = 'S <- \'a\' [b] { c {d} } e # f\nT\n<- "g\\"h" S\n'
    assert [(it.key, it.defines) for it in places("peg", text)] == [
        ("S", True),
        ("e", False),
        ("T", True),
        ("S", False),
    ]


def test_close():
    with Abnf(DAY) as day:
        assert day.viable("1985") == 4
    with pytest.raises(ValueError):
        day.derives("1985-04-12")
    day.close()
    assert list(day.rules) == ["day"]
    kept, reported = Peg("S <- 'x'"), []
    kept.close()

    def ask():
        try:
            kept.run("x")
        except ValueError as fault:
            reported.append(str(fault))

    thread = threading.Thread(target=ask)
    thread.start()
    thread.join()
    assert reported == ["the grammar is closed"]


def test_every_message_of_the_rows_is_read():
    """Each message that the gate's rows want under -x is read with a code of its own."""
    rows = pathlib.Path(__file__).resolve().parents[2] / "scripts/gate/runs"
    if not rows.is_dir():
        pytest.skip("no rows of the gate here")
    for path in rows.glob("explained*.txt"):
        lines = [
            it[10:].replace("\\x20", " ").replace("\\x0A", "\n")
            for it in path.read_text().splitlines()
            if it.startswith("  err ") and "\\{" not in it
        ]
        found = read_findings("\n".join(lines).encode())
        assert found and all(isinstance(it, Finding) for it in found)
        assert {it.message for it in found if it.code == "other"} == set(), path.name


@pytest.mark.parametrize("module, package", [("testing", "hypothesis"), ("dask", "distributed")])
def test_what_a_module_lacks_is_said_in_one_line(module, package):
    script = f"import sys; sys.modules[{package!r}] = None; import fanquber.{module}"
    ran = subprocess.run([sys.executable, "-c", script], capture_output=True, text=True)
    said = f"ImportError: fanquber.{module} needs {package} (Debian: python3-{package})"
    assert (ran.returncode, ran.stderr.splitlines()[-1]) == (1, said)


def test_many_lines_get_the_answers_of_each():
    day, lines = Abnf(DAY, limit=10), [b"1985-04-12", b"1985-4-12", b"", b"2020-01-01", b"\r"] * 2001
    assert day.judge(iter(lines)) == [True, False, False, True, False] * 2001
    assert day.judge([*lines, b"x\ny"])[-2:] == [False, False]
    for count in (2000, 20000):
        with pytest.raises(Overlong) as refused:
            day.judge([*lines[:count], b"1985-04-123", b"x"])
        at = min(count, len(lines))
        assert str(refused.value) == f"line {at + 1} longer than 10 bytes"
        assert refused.value.out.count(b"\n") == at and refused.value.out.startswith(b"yes\nno\nno\nyes\n")


def test_errors_go_from_process_to_process():
    fault = pickle.loads(pickle.dumps(Overlong("line 2 longer than 2 bytes", b"yes\n")))
    assert (str(fault), fault.out) == ("line 2 longer than 2 bytes", b"yes\n")
    with pytest.raises(GrammarError) as rejected:
        Abnf("a = b")
    fault = pickle.loads(pickle.dumps(rejected.value))
    assert (fault.notes, fault.findings) == (rejected.value.notes, rejected.value.findings)
    assert fault.findings[0].code == "undefined"
