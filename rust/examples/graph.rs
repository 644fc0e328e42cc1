//! Prints a picture of a word as SVG: its runs, its graph in edition 1, and the paths of its fewest
//! and its most split. In `rust/`, after `make lib` at the top of the repository:
//!
//! ```sh
//! cargo run --release --offline --example graph -- aabaabaa > graph.svg
//! printf 'any\0bytes' | cargo run --release --offline --example graph -- - > graph.svg
//! ```
//!
//! The word is the argument, or, for the argument `-`, all bytes of standard input. A long word
//! makes a wide picture.

mod drawing;

use cegridom::LIMIT;
use std::env;
use std::error::Error;
use std::ffi::OsString;
use std::io::{self, Read, Write};
use std::os::unix::ffi::OsStringExt;
use std::process::ExitCode;

fn main() -> ExitCode {
    match run() {
        Ok(()) => ExitCode::SUCCESS,
        Err(error) => {
            eprintln!("graph: {error}");
            ExitCode::FAILURE
        }
    }
}

fn run() -> Result<(), Box<dyn Error>> {
    let arguments: Vec<OsString> = env::args_os().skip(1).collect();
    let [word] = <[OsString; 1]>::try_from(arguments)
        .map_err(|_| "one argument is wanted: a word, or - for standard input")?;
    let mut word = word.into_vec();
    if word == b"-" {
        word.clear();
        // One symbol more than the limit is enough for the library to see that it is too long.
        io::stdin()
            .lock()
            .take(LIMIT as u64 + 1)
            .read_to_end(&mut word)?;
    }
    let picture = drawing::draw(&word)?;
    io::stdout().lock().write_all(picture.as_bytes())?;
    Ok(())
}
