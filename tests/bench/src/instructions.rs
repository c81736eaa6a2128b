//! Instructions counted by valgrind, where that is installed: they don't depend
//! on what else the machine does.
//!
//! A program can't count its own, so this one is run again under valgrind, with
//! one pass over all inputs and with three; half the difference is one pass.

use std::env;
use std::process::Command;

use crate::inputs::Size;
use crate::subjects::{input_count, pass, Subject, Work};

/// The word that makes this program do passes and nothing else.
pub const PASSES: &str = "passes";

/// Whether valgrind is installed.
pub fn can_count() -> bool {
    let version = Command::new("valgrind").arg("--version").output();
    version.is_ok_and(|output| output.status.success())
}

/// Does what is asked with [`PASSES`]: a subject, a work, a size and a number of
/// passes. `None` if that isn't understood.
pub fn do_passes(arguments: &[String]) -> Option<()> {
    let [subject, work, size, passes] = arguments else {
        return None;
    };
    let (subject, work) = (Subject::named(subject)?, Work::named(work)?);
    let mut pass = pass(subject, work, Size::named(size)?);
    for _ in 0..passes.parse::<u32>().ok()? {
        pass(0..input_count(work));
    }
    Some(())
}

/// Instructions of this program from start to end, with so many passes.
fn counted(subject: Subject, work: Work, size: Size, passes: u32) -> Option<u64> {
    let output = Command::new("valgrind")
        .args(["--tool=callgrind", "--callgrind-out-file=/dev/null"])
        .arg(env::current_exe().ok()?)
        .args([PASSES, &format!("{subject:?}"), &format!("{work:?}")])
        .args([size.text(), passes.to_string()])
        .output()
        .ok()?;
    let text = String::from_utf8_lossy(&output.stderr).into_owned();
    let (_, count) = text.split_once("Collected : ")?;
    count.split_whitespace().next()?.parse().ok()
}

/// Instructions of a subject for one input of a work, on the average.
pub fn per_input(subject: Subject, work: Work, size: Size) -> Option<u64> {
    let one = counted(subject, work, size, 1)?;
    let three = counted(subject, work, size, 3)?;
    let inputs = u64::try_from(input_count(work)).ok()?;
    Some(three.checked_sub(one)? / 2 / inputs)
}
