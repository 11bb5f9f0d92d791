"""Lines for Hypothesis, and the recipe of a protocol's test suite on a parser that is wrong in three ways."""
import pathlib
import re

import pytest

pytest.importorskip("hypothesis", reason="needs python3-hypothesis")

from hypothesis import HealthCheck, given, settings

from fanquber import Letters
from fanquber.testing import Lines

EXAMPLES = pathlib.Path(__file__).resolve().parents[2] / "examples"
STAMP = Lines.from_file(EXAMPLES / "rfc3339/rfc3339.abnf", "date-time")
GRAMMARS = {
    "stamp": STAMP,
    "uri": Lines.from_file(EXAMPLES / "rfc3986/rfc3986.abnf", "URI"),
    "left": Lines('s = s s / "a" / "b" [s]\n'),
    "json": Lines.from_file(EXAMPLES / "rfc8259/rfc8259.abnf"),
    "iri": Lines.from_file(EXAMPLES / "rfc3987/rfc3987.abnf", "IRI", letters=Letters.UTF8),
}
SOME = settings(max_examples=60, deadline=None, database=None, suppress_health_check=list(HealthCheck))
MANY = settings(SOME, max_examples=600)


def takes(line):
    """A parser of RFC 3339 as one writes it by hand: no small letters, `$` lets a line feed through, no long
    fractions."""
    return re.match(rb"\d{4}-\d\d-\d\dT\d\d:\d\d:\d\d(\.\d{1,6})?(Z|[+-]\d\d:\d\d)$", line) is not None


@pytest.mark.parametrize("name", GRAMMARS)
def test_lines_are_derived(name):
    lines, seen = GRAMMARS[name], set()

    @SOME
    @given(lines.derived())
    def check(line):
        seen.add(line)
        assert lines.grammar.derives(line)

    check()
    assert len(seen) > 20


@pytest.mark.parametrize("name", GRAMMARS)
def test_lines_are_refused(name):
    lines = GRAMMARS[name]

    @SOME
    @given(lines.refused())
    def check(line):
        assert not lines.grammar.derives(line)

    check()


def test_near_has_both():
    seen = set()

    @SOME
    @given(STAMP.near())
    def check(line):
        seen.add(STAMP.grammar.derives(line))

    check()
    assert seen == {True, False}


def faults_of(strategy, wanted):
    """Returns the line on which the parser goes wrong, as Hypothesis shrinks it; None if there is none."""
    found = []

    @MANY
    @given(strategy)
    def check(line):
        if takes(line) != wanted:
            found.append(line)
            raise AssertionError

    try:
        check()
    except AssertionError:
        return found[-1]
    return None


def test_the_recipe_finds_real_faults():
    # A small letter, or a fraction of more digits than the parser takes
    missed = faults_of(STAMP.derived(), wanted=True)
    assert re.search(rb"[tz]|\.\d{7}", missed)
    # The line feed that `$` lets through
    let_through = faults_of(STAMP.refused(), wanted=False)
    assert let_through.endswith(b"\n")
