//! `run_each` of fanquber.rs gives what `run` gives for each input, a judge has the notes of `run` on its grammar, and a
//! runner writes what `run` does after them. A comparison has the lines and the notes of both grammars.
#[allow(dead_code)]
mod fanquber;

use fanquber::{
    Alone, Answer, DEFAULT_BUDGET, Error, Judge, Lines, Listed, Opened, OpenedPeg, Runner, Settings, Status, Tool,
    compare, run, run_each,
};

fn each_is_a_run(text: &str, settings: &Settings) -> Result<(), Error> {
    let inputs: [&[u8]; 4] = [b"tea", b"", b"milk2", b"tea"];
    let got = run_each(text.as_bytes(), settings, &inputs)?;
    assert_eq!(got.len(), inputs.len());
    for (is, input) in got.iter().zip(inputs) {
        let want = run(Tool::Peg, text.as_bytes(), settings, input)?;
        assert_eq!((&is.out, &is.err, is.status), (&want.out, &want.err, want.status));
    }
    Ok(())
}

fn runner_is_a_run(text: &str, settings: &Settings) -> Result<(), Error> {
    let OpenedPeg::Runner(mut runner) = Runner::open(text.as_bytes(), settings)? else { panic!("refused") };
    for input in [b"tea".as_slice(), b"", b"milk2"] {
        let (is, want) = (runner.run(input)?, run(Tool::Peg, text.as_bytes(), settings, input)?);
        assert_eq!((&is.out, [&runner.notes[..], &is.err].concat(), is.status), (&want.out, want.err, want.status));
    }
    Ok(())
}

fn comparisons() -> Result<(), Error> {
    let (settings, text) = (Settings::default(), "x".repeat(400));
    let old = format!("a = %s\"{text}\"\nb = %x42\n");
    let found = compare(old.as_bytes(), b"a = %x41\nb = %x42\n", &settings, Some("b"), DEFAULT_BUDGET)?;
    assert_eq!((found.old_alone, found.status), (Alone::First(text.into_bytes()), Status::NoMatch));
    assert_eq!(found.new_alone, Alone::First(b"B".to_vec()));
    assert_eq!(found.old_notes, b"rule 'b' defined but not used\n");
    assert_eq!(found.new_notes, b"rule 'a' defined but not used\n");
    let same = compare(old.as_bytes(), old.as_bytes(), &settings, None, DEFAULT_BUDGET)?;
    assert_eq!((same.old_alone, same.new_alone, same.status), (Alone::Never, Alone::Never, Status::Done));
    Ok(())
}

fn listed_lines() -> Result<(), Error> {
    let settings = Settings { limit: 9, ..Settings::default() };
    let lines = Lines::open(b"d = 1*2%x30-31\n", &settings, Listed::Derived)?.expect("a grammar");
    let listed: Vec<_> = lines.collect::<Result<_, _>>()?;
    assert_eq!(listed, ["0", "1", "00", "01", "10", "11"].map(str::as_bytes));
    let edges = Lines::open(b"a = %x20\n", &Settings { limit: 1, ..settings }, Listed::Edges)?.expect("a grammar");
    assert_eq!(edges.collect::<Result<Vec<_>, _>>()?, ["", "!", "\x1F"].map(str::as_bytes));
    let mut drawn = Lines::open(b"d = %x30\n", &Settings { seed: 7, ..settings }, Listed::Random)?.expect("a grammar");
    assert_eq!((drawn.next(), drawn.next()), (Some(Ok(b"0".to_vec())), Some(Ok(b"0".to_vec()))));
    let samples = Lines::open(b"a = ALPHA DIGIT\n", &settings, Listed::Samples)?.expect("a grammar");
    assert_eq!(samples.collect::<Result<Vec<_>, _>>()?, ["A0", "a0"].map(str::as_bytes));
    let cover = Lines::open(b"d = 1*2%x30-39 [\",\" d]\n", &settings, Listed::Cover)?.expect("a grammar");
    assert_eq!(cover.collect::<Result<Vec<_>, _>>()?, ["0,0", "00", "9"].map(str::as_bytes));
    assert!(Lines::open(b"d = )\n", &settings, Listed::Missed)?.is_err_and(|notes| notes == b"line 1: syntax error\n"));
    Ok(())
}

fn budgets() -> Result<(), Error> {
    let settings = Settings { budget: 3, ..Settings::default() };
    let got = run(Tool::Peg, b"S <- < 'a'* > {yytext} 'b'", &settings, b"aabaaab")?;
    assert_eq!((got.out, got.status), (b"aa\n".to_vec(), Status::Overlong));
    assert_eq!(got.err, b"unit at byte 3 prints more than 3 bytes\n");
    let settings = Settings { budget: 100, ..Settings::default() };
    let Opened::Judge(mut judge) = Judge::open(b"s = s s / \"a\"\n", &settings)? else {
        panic!("the grammar is rejected");
    };
    assert_eq!((judge.judge(&[b'a'; 50])?, judge.judge(b"a")?), (Answer::Costly, Answer::Yes));
    Ok(())
}

fn main() -> Result<(), Error> {
    budgets()?;
    comparisons()?;
    listed_lines()?;
    let words = "S <- < [a-z]+ > { yytext }\n";
    for explain in [false, true] {
        let settings = Settings { explain, ..Settings::default() };
        for text in [words, &format!("{words}T <- 'x'\n"), "S <- T\n", "S <- )\n"] {
            each_is_a_run(text, &settings)?;
        }
        runner_is_a_run(words, &settings)?;
        runner_is_a_run(&format!("{words}T <- 'x'\n"), &settings)?;
        let refused = Runner::open(b"S <- )\n", &Settings::default())?;
        assert!(matches!(refused, OpenedPeg::Refused(notes) if notes == b"line 1: syntax error\n"));
        let two = b"a = \"x\"\nb = \"y\"\n";
        let Opened::Judge(judge) = Judge::open(two, &settings)? else { panic!("refused") };
        assert_eq!(judge.notes, run(Tool::Abnf, two, &settings, b"")?.err);
    }
    assert!(run_each(words.as_bytes(), &Settings::default(), &[])?.is_empty());
    Ok(())
}
