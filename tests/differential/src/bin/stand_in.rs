//! A stand-in for the program, to test the comparison with: it prints what the
//! reference says. The environment variable STAND_IN names a slip to make, or `Silent`, `Cut`, `Crash` or `Status` to do something worse.

use std::env;
use std::io::{self, Read, Write};
use std::process;

use reference::program_output;
use reference::slips::{slipped_output, Slip};

fn main() -> io::Result<()> {
    let mut input = Vec::new();
    io::stdin().read_to_end(&mut input)?;
    let way = env::var("STAND_IN").unwrap_or_default();
    let mut output = match (Slip::named(&way), way.as_str()) {
        (Some(slip), _) => slipped_output(&input, slip),
        (None, "Silent") => String::new(),
        (None, "Crash") if input.len() > 100 => process::abort(),
        (None, _) => program_output(&input),
    };
    // Only long outputs lose their last newline, so that few records show it.
    if way == "Cut" && output.len() > 1_000 {
        output.pop();
    }
    io::stdout().write_all(output.as_bytes())?;
    // A refusal ends with another status than 0.
    if way == "Status" && output.starts_with("refused") {
        process::exit(1);
    }
    Ok(())
}
