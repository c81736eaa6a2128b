//! A stand-in for the program that moves records, to test the comparison and the
//! front door with: it hands on what the reference says. The environment variable
//! STAND_IN names a slip to make, or `Silent`, `Cut`, `Crash`, `Status`, `Both` or
//! `Unwritten` to do something worse.

use std::env;
use std::io::{self, Read, Write};
use std::process;

use reference::move_slips::{slipped_moved_into, MoveSlip};
use reference::program::MOST_BYTES;
use reference::record::LONGEST_RECORD;
use reference::{moved_into, To};

fn main() -> io::Result<()> {
    let mut input = Vec::new();
    io::stdin().read_to_end(&mut input)?;
    let way = env::var("STAND_IN").unwrap_or_default();
    let to = match input.first() {
        Some(b'1') => To::First,
        _ => To::Second,
    };
    let record = input.get(1..).unwrap_or_default();
    let record = &record[..record.len().min(MOST_BYTES)];
    let mut room = [0; LONGEST_RECORD];
    let moved = match MoveSlip::named(&way) {
        Some(slip) => slipped_moved_into(record, to, &mut room, slip),
        None => moved_into(record, to, &mut room),
    };
    match (moved, way.as_str()) {
        (_, "Silent") => Ok(()),
        (_, "Crash") if record.len() > 100 => process::abort(),
        // Only long records lose their last byte, so that few show it.
        (Ok(length), "Cut") if length > 1_000 => io::stdout().write_all(&room[..length - 1]),
        (Ok(_), "Unwritten") => io::stderr().write_all(b"not written\n"),
        (Ok(length), _) => io::stdout().write_all(&room[..length]),
        (Err(refusal), _) => {
            if way == "Both" {
                io::stdout().write_all(record)?;
            }
            eprintln!("{refusal}");
            process::exit(i32::from(way == "Status"))
        }
    }
}
