//! A program as subject: run once per record, through its standard input and
//! output. It always ends with status 0, refused or not.

use std::io::{self, ErrorKind, Write};
use std::process::{Command, Output, Stdio};

use reference::program::planned;
use reference::program_output;

use crate::cases::Case;
use crate::counts::{Counts, Ending};
use crate::run::{Difference, Subject};

/// The program.
pub struct Program {
    path: String,
}

impl Program {
    /// The program at this path.
    pub fn new(path: &str) -> Self {
        Program { path: path.into() }
    }

    /// Where it is.
    pub fn name(&self) -> &str {
        &self.path
    }

    /// What the program prints for this input, and how it ends.
    pub fn ended(&self, input: &[u8]) -> io::Result<Output> {
        let mut child = Command::new(&self.path)
            .stdin(Stdio::piped())
            .stdout(Stdio::piped())
            .stderr(Stdio::piped())
            .spawn()?;
        // An input fits into the pipe, so writing it doesn't wait for the
        // program, which needn't read all of it.
        let mut stdin = child.stdin.take().expect("piped");
        let written = stdin.write_all(input);
        drop(stdin);
        let output = child.wait_with_output()?;
        match written {
            Err(error) if error.kind() != ErrorKind::BrokenPipe => Err(error),
            _ => Ok(output),
        }
    }
}

impl Subject for Program {
    fn name(&self) -> &str {
        &self.path
    }

    /// Compares what is printed, and the exit status. The trees that are held to
    /// the bounds are the reference's, and the program's are the same then.
    fn compare(&self, case: &Case, counts: &mut Counts) -> Result<(), Difference> {
        let expected = program_output(&case.record);
        let ended = match self.ended(&case.record) {
            Ok(ended) => ended,
            Err(error) => return Err(Difference::new("program", expected, error)),
        };
        if !ended.status.success() {
            return Err(Difference::new("program", "exit status: 0", ended.status));
        }
        if ended.stdout != expected.as_bytes() {
            let got = String::from_utf8_lossy(&ended.stdout);
            return Err(Difference::new("program", expected, got));
        }
        let right = planned(&case.record);
        counts.answer(&right);
        match right {
            Ok((net, trees)) => counts.trees(&net, &trees),
            Err(_) => Ok(()),
        }
    }

    fn refusals(&self) -> &[u32] {
        &[1, 2, 3, 4, 5, 6, 7, 9, 10, 11, 12]
    }

    fn moves(&self) -> &[Ending] {
        &[]
    }
}
