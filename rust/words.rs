//! Runs a grammar of peg(1), which is read once, on two inputs, and prints what it writes. Build:
//! rustc --edition 2021 words.rs -L native=FOLDER
#[allow(dead_code)]
mod fanquber;

use fanquber::{OpenedPeg, Runner, Settings};

fn main() -> Result<(), fanquber::Error> {
    let words = b"S <- < [a-z]+ > { yytext }\n";
    if let OpenedPeg::Runner(mut runner) = Runner::open(words, &Settings::default())? {
        for input in ["tea", "milk?"] {
            let got = runner.run(input.as_bytes())?;
            print!("{}status {}\n", String::from_utf8_lossy(&got.out), got.status as u8);
        }
    }
    Ok(())
}
