"""The package on grammars of a few lines, and on each folder of examples/."""
import pathlib
import pickle
import shlex
import threading
import unittest
import unittest.mock

import fanquber
from fanquber import Abnf, Costly, GrammarError, Letters, Listed, Mode, Overlong, Peg, Status

EXAMPLES = pathlib.Path(__file__).resolve().parent.parent.parent / "examples"
DAY = 'day = 4DIGIT "-" 2DIGIT "-" 2DIGIT\n'
LIST = "Line <- Item (',' Item)* '\\n' { end of the line }\nItem <- < [a-z]+ > { item yytext, yyleng bytes }\n"


class AbnfTest(unittest.TestCase):
    def test_lines(self):
        day = Abnf(DAY)
        self.assertEqual(day.notes, [])
        self.assertEqual(day.judge(["1985-04-12", b"1985-4-12", ""]), [True, False, False])
        self.assertEqual(day.judge([]), [])
        self.assertTrue(day.derives("1985-04-12"))
        self.assertEqual(day.first_refused(["1985-04-12", "1985-4-12", ""]), 1)
        self.assertIsNone(day.first_refused(["1985-04-12"]))
        self.assertEqual([day.viable(it) for it in ("1985-04-12", "1985-4-12", "", "1985-04-12 ")], [None, 6, 0, 10])

    def test_line_ends_in_lines(self):
        lines = Abnf('lines = *(*ALPHA LF)')
        self.assertEqual(lines.judge(["a\nb\n", "", "a\nb"]), [True, True, False])
        self.assertTrue(Abnf("zero = %x0").derives(b"\0"))
        self.assertEqual(lines.judge(["\n", "\0", "\n\0"]), [True, False, False])

    def test_letters(self):
        self.assertTrue(Abnf("e = %xE9", letters=Letters.UTF8).derives("\u00e9"))
        self.assertFalse(Abnf("e = %xE9", letters=Letters.UTF8).derives(b"\xe9"))
        self.assertTrue(Abnf("e = %xE9").derives(b"\xe9"))
        self.assertEqual(Abnf('e = "\\" %xE9 "x"', letters=Letters.UTF8).viable("\\\u00e9y"), 2)

    def test_rules_and_notes(self):
        two = 'a = "x"\nb = "y"\n'
        self.assertEqual(Abnf(two).notes, ["rule 'b' defined but not used"])
        self.assertTrue(Abnf(two, rule="B").derives("y"))
        for text, rule in ((two, "no-rule"), ("a = b", None), ("a =", None)):
            with self.assertRaises(GrammarError) as refused:
                Abnf(text, rule)
            self.assertTrue(refused.exception.notes)
        self.assertEqual(Abnf('a  =  ( "x" )').canonical(), b'a = "x"\n')
        many = "".join(f'rule-of-a-long-name-{at} = "x"\n' for at in range(500))
        self.assertEqual(len(Abnf(many).notes), 499)

    def test_limits(self):
        short = Abnf('a = *"x"', limit=2)
        with self.assertRaises(Overlong) as refused:
            short.judge(["x", "xxx"])
        self.assertEqual((str(refused.exception), refused.exception.out), ("line 2 longer than 2 bytes", b"yes\n"))
        with self.assertRaises(Overlong):
            short.viable("xxx")
        for limit in (0, -1, fanquber.MAX_LIMIT + 1, 2**64 + 1):
            with self.assertRaises(ValueError):
                Abnf(DAY, limit=limit)

    def test_budgets(self):
        pairs, long = 's = s s / "a"', "a" * 50
        got = fanquber.abnf(pairs, f"a\n{long}\na\n", budget=100)
        self.assertEqual(got, (b"yes\n", b"line 2 needs more than 100 items\n", Status.OVERLONG))
        self.assertEqual(fanquber.abnf(pairs, f"{long}\n", budget=1000000).out, b"yes\n")
        with self.assertRaises(Costly) as costly:
            Abnf(pairs, budget=100).answers(f"a\n{long}\n".encode())
        self.assertEqual((str(costly.exception), costly.exception.out), ("line 2 needs more than 100 items", b"yes\n"))
        self.assertEqual(pickle.loads(pickle.dumps(costly.exception)).out, b"yes\n")
        with self.assertRaises(Costly) as costly:
            Abnf(pairs, budget=100).judge(["a", "b", long])
        self.assertEqual(str(costly.exception), "line 3 needs more than 100 items")
        self.assertEqual(costly.exception.out, b"yes\nno\n")
        self.assertTrue(Abnf(pairs, budget=1000000).derives(long))
        for budget in (0, -1, 2**64 + 1):
            with self.assertRaises(ValueError):
                fanquber.abnf(DAY, budget=budget)

    def test_listed_lines(self):
        k = Abnf('k = "no" / "yes"')
        missed = [b"", b"!", b"N", b"N!", b"Y", b"Y!", b"NO!", b"YE", b"YE!"]
        self.assertEqual(list(k.lines(which=Listed.MISSED)), missed)
        edges = Abnf("a = %x09 / %x20 / %x22 / %xFF").lines(which=Listed.EDGES, limit=1)
        self.assertEqual(list(edges), [b"", b"!", b"#", b"\x08", b"\n", b"\x1f", b"\xfe"])
        drawn = [list(k.lines(which=Listed.RANDOM, count=50, seed=seed)) for seed in (1, 1, 2**64 - 1)]
        self.assertEqual(drawn[0], drawn[1])
        self.assertEqual([len(it) for it in drawn], [50] * 3)
        self.assertTrue(all(k.judge(drawn[0] + drawn[2])))
        for seed in (-1, 2**64):
            with self.assertRaises(ValueError):
                k.lines(which=Listed.RANDOM, seed=seed)
        self.assertEqual(list(Abnf("a = ALPHA DIGIT").lines(which=Listed.SAMPLES)), [b"A0", b"a0"])
        cover = Abnf('d = 1*2%x30-39 ["," d]').lines(which=Listed.COVER, limit=9)
        self.assertEqual(list(cover), [b"0,0", b"00", b"9"])

    def test_many_lines(self):
        lines = [f"{year:04}-01-01" for year in range(10000)]
        self.assertEqual(Abnf(DAY).judge(lines), [True] * 10000)
        self.assertEqual(fanquber.abnf(DAY, "x\n" * 10000, viable=True).out, b"no 0\n" * 10000)


class PegTest(unittest.TestCase):
    def test_runs(self):
        items = Peg(LIST)
        self.assertEqual(items.notes, [])
        want = b"item tea, 3 bytes\nitem milk, 4 bytes\nend of the line\n"
        self.assertEqual(items.run("tea,milk\n"), (want, True, ""))
        self.assertEqual(items.run("tea,milk\n?"), (want, False, "no match at byte 9"))
        self.assertEqual(items.run(b""), (b"", True, ""))
        noted = Peg("a <- 'x' { 1 }\nb <- 'y'\n")
        self.assertEqual(noted.notes, ["rule 'b' defined but not used"])
        self.assertEqual([noted.run("x?") for _ in range(2)], [(b"1\n", False, "no match at byte 1")] * 2)

    def test_each(self):
        runs = Peg(LIST).run_each(["tea\n", b"", "tea?", "milk,tea\n"])
        self.assertEqual([it.is_whole for it in runs], [True, True, False, True])
        self.assertEqual(runs[0].out, b"item tea, 3 bytes\nend of the line\n")
        self.assertEqual((runs[2].out, runs[2].message), (b"", "no match at byte 0"))
        self.assertEqual(runs[3].out, b"item milk, 4 bytes\nitem tea, 3 bytes\nend of the line\n")
        self.assertEqual(Peg(LIST).run_each([]), [])
        texts = ["x", "y", b"", "xy"]
        for grammar in ("a <- b", "a <- )", "a <- 'x'", "a <- 'x'\nb <- 'y'\n", "a <- 'x' 'y'*\nb <- a\n"):
            for explain in (False, True):
                want = [fanquber.peg(grammar, it, explain=explain) for it in texts]
                self.assertEqual(fanquber.peg_each(grammar, texts, explain=explain), want)
        self.assertEqual(fanquber.peg_each("a <- )", ["x"]), [(b"", b"line 1: syntax error\n", Status.REFUSED)])

    def test_settings(self):
        self.assertEqual(Peg("a <- < . > { (yytext) }", raw=True).run("xy").out, b" (x)  (y) ")
        self.assertEqual(Peg("a <- b 'z'\nb <- 'y' { y }", start="b").run("y").out, b"y\n")
        self.assertEqual(Peg("a<-'x'").canonical(), b'a <- "x"\n')
        with self.assertRaises(Overlong):
            Peg("a <- 'xxx'", limit=2).run("xxx")
        with self.assertRaises(Costly) as costly:
            Peg("S <- < 'a'* > {yytext} 'b'", budget=3).run("aabaaab")
        message, out = "unit at byte 3 prints more than 3 bytes", b"aa\n"
        self.assertEqual((str(costly.exception), costly.exception.out), (message, out))
        self.assertEqual(Peg("S <- < 'a'* > {yytext} 'b'", budget=4).run("aabaaab").out, b"aa\naaa\n")
        for limit in (0, fanquber.MAX_LIMIT + 1):
            with self.assertRaises(ValueError):
                Peg("a <- 'x'", limit=limit)
        with self.assertRaises(GrammarError) as refused:
            Peg("a <- a")
        self.assertEqual(refused.exception.notes, ["possible infinite left recursion in rule 'a'"])

    def test_older_library(self):
        with unittest.mock.patch("ctypes.sizeof", return_value=32):
            for call in (fanquber.peg, Peg, lambda text: fanquber.peg_each(text, ["tea"])):
                with self.assertRaisesRegex(ValueError, "older than this package"):
                    call(LIST)

    def test_long_output(self):
        numbers = Peg("a <- . { 123456789 }")
        for count in (1, 20000, 2):
            self.assertEqual(numbers.run(b"x" * count).out, b"123456789\n" * count)
        self.assertEqual(len(Peg("".join(f"r{at} <- 'x'\n" for at in range(500))).notes), 499)


class ThreadsTest(unittest.TestCase):
    def test_four_at_once(self):
        day, items, answers, runs = Abnf(DAY), Peg(LIST), [], []

        def judge():
            for _ in range(50):
                answers.append(day.judge(["1985-04-12", "1985-4-12"]))
                runs.append(items.run("tea\n").out)

        threads = [threading.Thread(target=judge) for _ in range(4)]
        for it in threads:
            it.start()
        for it in threads:
            it.join()
        self.assertEqual(answers, [[True, False]] * 200)
        self.assertEqual(runs, [b"item tea, 3 bytes\nend of the line\n"] * 200)

    def test_let_go_elsewhere(self):
        kept = []
        thread = threading.Thread(target=lambda: kept.extend([Abnf(DAY), Peg(LIST)]))
        thread.start()
        thread.join()
        self.assertEqual(kept[0].judge(["1985-04-12", "1985-4-12"]), [True, False])
        self.assertEqual(kept[1].run("tea"), (b"", False, "no match at byte 0"))
        kept.clear()

    def test_copies(self):
        day = pickle.loads(pickle.dumps(Abnf(DAY)))
        self.assertEqual((day.notes, day.derives("1985-04-12")), ([], True))
        self.assertEqual(pickle.loads(pickle.dumps(Peg(LIST))).run("tea?").message, "no match at byte 0")


class ExamplesTest(unittest.TestCase):
    """Each folder has a command, `run.sh`, and what it must write on both outputs and end with."""

    def run_folder(self, folder):
        words = shlex.split((folder / "run.sh").read_text().splitlines()[-1].replace("<", " < "))
        given = (folder / words[words.index("<") + 1]).read_bytes()
        words = words[: words.index("<")]
        names = {"-s": "start" if words[0] == "pegi" else "rule", "-u": "letters"}
        flags, settings = {"-r": "raw", "-w": "viable", "-x": "explain", "-z": "nul"}, {}
        at = 1
        while words[at].startswith("-"):
            if words[at] in flags:
                settings[flags[words[at]]] = True
                at += 1
            else:
                settings[names[words[at]]] = {"utf8": Letters.UTF8}.get(words[at + 1], words[at + 1])
                at += 2
        run = fanquber.peg if words[0] == "pegi" else fanquber.abnf
        return run((folder / words[at]).read_bytes(), given, mode=Mode.RUN, **settings)

    def test_examples(self):
        # abnfx has no input, and is not in the library
        folders = [it for it in sorted(EXAMPLES.iterdir()) if it.is_dir() and "<" in (it / "run.sh").read_text()]
        self.assertTrue(folders)
        for folder in folders:
            with self.subTest(folder.name):
                reported, status = folder / "reported.txt", folder / "status"
                want = (
                    (folder / "printed.txt").read_bytes(),
                    reported.read_bytes() if reported.is_file() else b"",
                    Status(int(status.read_text()) if status.is_file() else 0),
                )
                self.assertEqual(self.run_folder(folder), want)


if __name__ == "__main__":
    unittest.main()
