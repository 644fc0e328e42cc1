//! Reads a lay-up, one line from standard input, and prints its fewest split in edition 1: the size
//! and then the end of each block, a line each; `no split` where there is none. In `rust/`, after
//! `make lib` at the top of the repository:
//!
//! ```sh
//! printf abaabaababaabaabababa | cargo run --release --offline --example fewest
//! ```

use cegridom::{best_split, Choice, Edition, Refusal, LIMIT};
use std::error::Error;
use std::io::{self, BufRead, Write};
use std::process::ExitCode;

fn main() -> ExitCode {
    match run(io::stdin().lock(), io::stdout().lock()) {
        Ok(()) => ExitCode::SUCCESS,
        Err(error) => {
            eprintln!("fewest: {error}");
            ExitCode::FAILURE
        }
    }
}

/// Reads a word and prints its fewest split.
pub fn run(input: impl BufRead, mut output: impl Write) -> Result<(), Box<dyn Error>> {
    match best_split(&read_word(input)?, Edition::One, Choice::Fewest) {
        Ok(ends) => {
            writeln!(output, "{}", ends.len())?;
            for end in ends {
                writeln!(output, "{end}")?;
            }
        }
        Err(Refusal::NoSplit) => writeln!(output, "no split")?,
        Err(refusal) => return Err(refusal.into()),
    }
    Ok(())
}

/// One line without its byte 10. One symbol more than the limit is read, so that the library sees a
/// word that is too long.
fn read_word(input: impl BufRead) -> io::Result<Vec<u8>> {
    let mut word = Vec::new();
    input.take(LIMIT as u64 + 1).read_until(b'\n', &mut word)?;
    if word.last() == Some(&b'\n') {
        word.pop();
    }
    Ok(word)
}
