//! The program that moves records as subject: run twice per record, once for each
//! form. It gets a byte that says where to and then the record on standard input;
//! a moved record goes to standard output, and the line of a refusal to standard
//! error. It always ends with status 0.

use reference::program::MOST_BYTES;
use reference::{moved, To};

use crate::cases::Case;
use crate::counts::{Counts, Ending};
use crate::program::Program;
use crate::run::{Difference, Subject};

/// The program.
pub struct Mover {
    program: Program,
}

impl Mover {
    /// The program at this path.
    pub fn new(path: &str) -> Self {
        Mover {
            program: Program::new(path),
        }
    }

    /// Compares a move of one record, and hands back what was moved.
    fn compare_move(
        &self,
        record: &[u8],
        to: To,
        counts: &mut Counts,
    ) -> Result<Option<Vec<u8>>, Difference> {
        let way = match to {
            To::Second => b"2",
            To::First => b"1",
        };
        let right = moved(&record[..record.len().min(MOST_BYTES)], to);
        let (bytes, line) = match &right {
            Ok(bytes) => (bytes.clone(), String::new()),
            Err(refusal) => (Vec::new(), format!("{refusal}\n")),
        };
        let expected = format!("exit status: 0, {bytes:?}, {line:?}");
        let got = match self.program.ended(&[&way[..], record].concat()) {
            Ok(ended) => {
                let line = String::from_utf8_lossy(&ended.stderr);
                format!("{}, {:?}, {line:?}", ended.status, ended.stdout)
            }
            Err(error) => error.to_string(),
        };
        if got != expected {
            return Err(Difference::new("mover", expected, got));
        }
        counts.answer(&right);
        counts.moved(to, Ending::of(&right));
        Ok(right.ok())
    }
}

impl Subject for Mover {
    fn name(&self) -> &str {
        self.program.name()
    }

    /// Compares a move into each form and, wherever it can be made, the move home
    /// again, which must give the old bytes.
    fn compare(&self, case: &Case, counts: &mut Counts) -> Result<(), Difference> {
        for to in To::ALL {
            let Some(there) = self.compare_move(&case.record, to, counts)? else {
                continue;
            };
            let home = self.compare_move(&there, to.back(), counts)?;
            if home.as_ref() != Some(&case.record) {
                let home = format!("{home:?}");
                return Err(Difference::new("home again", "the old bytes", home));
            }
            counts.moved(to, Ending::Home);
        }
        Ok(())
    }

    fn refusals(&self) -> &[u32] {
        &[1, 2, 3, 4, 5, 6, 7, 10, 11, 12, 20, 30]
    }

    /// The program has room for every record.
    fn moves(&self) -> &[Ending] {
        &[
            Ending::Moved,
            Ending::Reader,
            Ending::SameForm,
            Ending::OtherRatio,
            Ending::Home,
        ]
    }
}
