//! Compares a subject with the reference on nets of many shapes and on damaged
//! records, and stops at the first difference.
//!
//! ```text
//! differential PROGRAM [--cases N] [--threads N] [--seed N]
//! differential --mover PROGRAM [--cases N] [--threads N] [--seed N]
//! differential --library [--cases N] [--threads N] [--seed N]
//! differential --served SERVER [--cases N] [--threads N] [--seed N]
//! differential --stand-in [--cases N] [--threads N] [--seed N]
//! ```
//!
//! PROGRAM is run once per record, which it gets on standard input; what it
//! prints must be, byte for byte, what the reference prints, and its exit status
//! must be 0. `--mover` compares a PROGRAM that moves records into the other form.
//! `--library` compares the static library instead, every function of it, if the
//! feature `library` is on. `--served` does so through SERVER, a program that
//! serves these functions as `serve.c` says. `--stand-in` compares functions made
//! from the reference, to test the comparison itself; the environment variable
//! STAND_IN names a slip for them to make.
//!
//! Half of the cases come from a fixed seed and half from the clock; `--seed`
//! takes the clock's place, so that a run can be repeated. The exit status is 0
//! if all was equal, 1 at a difference and 2 if nothing could be compared.

#![forbid(unsafe_code)]

mod cases;
mod counts;
mod functions;
mod lent;
mod library;
mod mover;
mod program;
mod run;
mod served;
mod stand_in;

use std::env;
use std::io::Error;
use std::process::ExitCode;
use std::time::{SystemTime, UNIX_EPOCH};

use library::Library;
use mover::Mover;
use program::Program;
use run::{compare_all, Options, Subject};
use served::Served;
use stand_in::StandIn;

/// What is compared with the reference.
enum Chosen {
    Program(String),
    Mover(String),
    Library,
    Served(String),
    StandIn,
}

const USAGE: &str = "usage: differential PROGRAM | --mover PROGRAM | --library | \
                     --served SERVER | --stand-in [--cases N] [--threads N] [--seed N]";

/// Runs of a program when no number is given: each costs about a millisecond.
const PROGRAM_CASES: u64 = 40_000;
/// Cases of a program that moves records, which is run up to four times for each.
const MOVER_CASES: u64 = 10_000;
/// Cases of a library when no number is given: as many nets as damaged records.
const LIBRARY_CASES: u64 = 40_000;
/// Cases of a library that is served: a call costs a hundred times as much.
const SERVED_CASES: u64 = 4_000;

fn arguments() -> Option<(Chosen, Options)> {
    let mut chosen = None;
    let mut cases = None;
    let mut threads = 2;
    let mut seed = None;
    let mut arguments = env::args().skip(1);
    while let Some(argument) = arguments.next() {
        let mut number = || arguments.next()?.parse::<u64>().ok();
        match argument.as_str() {
            "--cases" => cases = Some(number()?),
            "--threads" => threads = usize::try_from(number()?).ok()?.max(1),
            "--seed" => seed = Some(number()?),
            "--mover" if chosen.is_none() => chosen = Some(Chosen::Mover(arguments.next()?)),
            "--library" if chosen.is_none() => chosen = Some(Chosen::Library),
            "--served" if chosen.is_none() => chosen = Some(Chosen::Served(arguments.next()?)),
            "--stand-in" if chosen.is_none() => chosen = Some(Chosen::StandIn),
            path if chosen.is_none() && !path.starts_with("--") => {
                chosen = Some(Chosen::Program(argument));
            }
            _ => return None,
        }
    }
    let chosen = chosen?;
    let cases = cases.unwrap_or(match chosen {
        Chosen::Program(_) => PROGRAM_CASES,
        Chosen::Mover(_) => MOVER_CASES,
        Chosen::Library | Chosen::StandIn => LIBRARY_CASES,
        Chosen::Served(_) => SERVED_CASES,
    });
    let options = Options {
        cases,
        threads,
        clock_seed: seed.unwrap_or_else(seed_from_the_clock),
    };
    Some((chosen, options))
}

fn seed_from_the_clock() -> u64 {
    SystemTime::now()
        .duration_since(UNIX_EPOCH)
        .map_or(0, |since| since.as_nanos() as u64 >> 10)
}

/// Says that a program couldn't be run. That isn't a difference.
fn not_run(path: &str, error: &Error) -> ExitCode {
    eprintln!("{path}: {error}");
    ExitCode::from(2)
}

/// Compares this subject, the program at this path, if it runs.
fn compare_run(subject: &dyn Subject, path: &str, options: &Options) -> ExitCode {
    match Program::new(path).ended(&[]) {
        Ok(_) => compare_all(subject, options),
        Err(error) => not_run(path, &error),
    }
}

fn compare_served(path: &str, options: &Options) -> ExitCode {
    match Served::by(path) {
        Ok(functions) => compare_all(&Library::dear(functions), options),
        Err(error) => not_run(path, &error),
    }
}

#[cfg(feature = "library")]
fn compare_library(options: &Options) -> ExitCode {
    compare_all(&Library::new(functions::Linked), options)
}

#[cfg(not(feature = "library"))]
fn compare_library(_: &Options) -> ExitCode {
    eprintln!("built without the feature `library`");
    ExitCode::from(2)
}

fn compare_stand_in(options: &Options) -> ExitCode {
    let slip = env::var("STAND_IN").unwrap_or_default();
    compare_all(&Library::new(StandIn::with_slip(&slip)), options)
}

fn main() -> ExitCode {
    match arguments() {
        Some((Chosen::Program(path), options)) => {
            compare_run(&Program::new(&path), &path, &options)
        }
        Some((Chosen::Mover(path), options)) => compare_run(&Mover::new(&path), &path, &options),
        Some((Chosen::Library, options)) => compare_library(&options),
        Some((Chosen::Served(path), options)) => compare_served(&path, &options),
        Some((Chosen::StandIn, options)) => compare_stand_in(&options),
        None => {
            eprintln!("{USAGE}");
            ExitCode::from(2)
        }
    }
}
