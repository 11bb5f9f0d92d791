//! Judges two lines by a grammar, and prints the answers. Build: rustc --edition 2021 days.rs -L native=FOLDER
#[allow(dead_code)]
mod fanquber;

use fanquber::{Answer, Judge, Opened, Settings, Tool, run};

fn main() -> Result<(), fanquber::Error> {
    let day = b"day = 4DIGIT \"-\" 2DIGIT \"-\" 2DIGIT\n";
    let got = run(Tool::Abnf, day, &Settings::default(), b"1985-04-12\n1985-4-12\n")?;
    print!("{}status {}\n", String::from_utf8_lossy(&got.out), got.status as u8);
    if let Opened::Judge(mut judge) = Judge::open(day, &Settings::default())? {
        // the grammar is read once
        assert_eq!(judge.judge(b"1985-04-12")?, Answer::Yes);
        assert_eq!(judge.judge(b"1985-4-12")?, Answer::No(0));
    }
    Ok(())
}
