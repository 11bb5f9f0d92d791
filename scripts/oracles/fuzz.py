#!/usr/bin/env python3
"""Runs libFuzzer on the library for C: grammars, settings and inputs from bytes, by c/fuzz/calls.c, which says what a
call must not do. The first texts are those of examples/ and random ones; the address sanitizer watches the calls of
memory, and pages that may not be touched the ends of all buffers.

usage: fuzz.py [-t SECONDS] [-s SEED] [--programs] [FILE ..]

It runs for 20 seconds if no number is given, with at most 25 seconds and 2 GB a case. It needs clang with libFuzzer
(Debian: clang, libclang-rt-dev) and bin/libfanquber.a; it skips all, and says so, where they are not there. With
--programs c/fuzz/programs.c stands for the library, by runs of bin/pegi and bin/abnfi. With FILES it runs these
alone. What a call fails on is kept in bin/fuzz/, and then the status is 1.
"""
import argparse
import os
import pathlib
import random
import shlex
import shutil
import subprocess
import sys
import tempfile

sys.path.insert(0, str(pathlib.Path(__file__).resolve().parent))
import random_abnf
import random_peg

TOP = pathlib.Path(__file__).resolve().parents[2]
LIBRARY, KEPT = TOP / "bin/libfanquber.a", TOP / "bin/fuzz"
CLANG = os.environ.get("CLANG", "clang").split()
WRAPPED = [f"-Wl,--wrap={it}" for it in ("malloc", "realloc", "free")]
FLAGS = ["-O1", "-g", "-Wall", "-Wextra", "-Wno-unused-parameter", f"-I{TOP / 'c'}", *WRAPPED]
LONGEST, RANDOM = 2000, 200
WORDS = (
    '<-', '=', '=/', ' / ', ' ( ', ' ) ', '[', ']', '{', '}', '<', '>', '!', '&', '?', '*', '+', '.', '"a"', "'a'",
    '%x41', '%x41-5A', '%x41.42', '%d65', '%b1', '%s"a"', '%i"a"', '1*2', '2*1', '0*', '65536', '4294967296',
    'ALPHA', 'CRLF', 'LWSP', 'yytext', 'yyleng', '[a-z]', '[^a]', '\\n', '\\377', '\\xff', '# c\n', '; c\n', '\r\n',
    '\n  ', '\n', 's = s s / "a"\n', 'S <- S "a" / "b"\n', '\xff', '\0', '\xc3\xa9', '\xef\xbb\xbf', '\xe2\x80\x98',
)


def why_skipped(clang, library):
    """Returns what is missing, if anything is."""
    if not shutil.which(clang[0]):
        return f"no {clang[0]}"
    missing = [it for it in library if not it.is_file()]
    if missing:
        return f"{missing[0].relative_to(TOP)} is not built"
    source = "int LLVMFuzzerTestOneInput(const char *data, unsigned long size) { return !data && size; }"
    words = [*clang, "-fsanitize=fuzzer", "-x", "c", "-", "-o", os.devnull]
    found = subprocess.run(words, input=source, stderr=subprocess.DEVNULL, text=True, check=False)
    return "no libFuzzer (Debian: libclang-rt-dev)" if found.returncode else ""


def case_of(r, is_abnf, grammar, given, name=b""):
    """Returns a case, as calls.c reads it, with random settings."""
    first = r.choice((0, 16, 16, r.randrange(256))) & ~1 | bool(name)
    second = is_abnf | r.choice((0, 0, r.randrange(128))) << 1
    settings = (first, second, r.choice((7, r.randrange(256))), r.randrange(256))
    return (bytes(settings) + grammar + b"\xff" + name + b"\xff" + given)[:LONGEST]


def cases(r):
    """Yields the first cases."""
    for folder in sorted((TOP / "examples").iterdir()):
        words = shlex.split((folder / "run.sh").read_text().splitlines()[-1].replace("<", " < "))
        if "<" not in words:
            continue
        rule = words[words.index("-s") + 1].encode() if "-s" in words else b""
        given = (folder / words[words.index("<") + 1]).read_bytes()
        grammar = (folder / words[words.index("<") - 1]).read_bytes()
        for part in (given[:200], given[:20]):
            yield case_of(r, words[0] == "abnfi", grammar[:LONGEST - 300], part, rule)
    for _ in range(RANDOM):
        yield case_of(r, 0, random_peg.grammar_text(r, random_peg.grammar(r)), random_peg.given(r))
        rules = random_abnf.grammar(r)
        given = random_abnf.given(r, rules, None, 9, 10, r.random() < 0.5, r.choice((b"\n", b"\0")))
        yield case_of(r, 1, random_abnf.grammar_text(r, rules), given)


def main():
    words = argparse.ArgumentParser(description="Runs libFuzzer on the library for C.")
    words.add_argument("-t", type=int, default=20, metavar="SECONDS")
    words.add_argument("-s", type=int, default=1, metavar="SEED")
    words.add_argument("--programs", action="store_true", help="runs of bin/pegi and bin/abnfi stand for the library")
    words.add_argument("files", nargs="*", metavar="FILE", help="a case that is run alone")
    asked = words.parse_args()
    library = [TOP / "bin/pegi", TOP / "bin/abnfi"] if asked.programs else [LIBRARY]
    why = why_skipped(CLANG, library)
    if why:
        print(f"fuzz: {why}: skipped")
        return 0
    r = random.Random(asked.s)
    with tempfile.TemporaryDirectory(prefix="fuzz-") as made:
        folder = pathlib.Path(made)
        program, corpus, dictionary = folder / "calls", folder / "corpus", folder / "words"
        by = ["fuzzer", TOP / "c/fuzz/programs.c"] if asked.programs else ["fuzzer,address", LIBRARY]
        lines = ["-DMOST_LINES=3"] if asked.programs else []
        build = [*CLANG, *FLAGS, *lines, f"-fsanitize={by[0]}", TOP / "c/fuzz/calls.c", by[1], "-o", program]
        subprocess.run(build, check=True)
        corpus.mkdir()
        KEPT.mkdir(exist_ok=True)
        for number, it in enumerate(cases(r)):
            (corpus / str(number)).write_bytes(it)
        shown = ("".join(f"\\x{ord(letter):02x}" for letter in it) for it in WORDS)
        dictionary.write_text("".join(f'"{it}"\n' for it in shown ))
        limits = ["-timeout=25", "-rss_limit_mb=2048", f"-max_len={LONGEST}", f"-artifact_prefix={KEPT}/"]
        run = [f"-max_total_time={asked.t}", f"-seed={asked.s}", f"-dict={dictionary}", "-print_final_stats=1", corpus]
        found = subprocess.run([program, *limits, *(asked.files or run)], env={**os.environ, "BIN": str(TOP / "bin")},
                               stderr=subprocess.PIPE, text=True, errors="replace", check=False)
    lines = found.stderr.splitlines()
    if found.returncode:
        print("\n".join(lines[-60:]))
    counts = [it.split()[-1] for it in lines if it.startswith("stat::number_of_executed_units")]
    came = f"one fails: see {KEPT.relative_to(TOP)}/" if found.returncode else "nothing found"
    print(f"fuzz: {counts[0] if counts else len(asked.files)} cases, {came}")
    return 1 if found.returncode else 0


sys.exit(main())
