//! Prints, as tables, how long the library takes against the tuned Rust and
//! against outside peers, and how many instructions.
//!
//! ```text
//! bench [--quick]
//! ```
//!
//! All answers are compared first; the exit status is 1 if some differ. `--quick`
//! measures hardly anything, to see that all of it runs. No time decides about
//! the exit status.

use std::env;
use std::process::ExitCode;
use std::time::Duration;

use bench::inputs::Size;
use bench::instructions::{can_count, do_passes, per_input, PASSES};
use bench::rounds::{ratios, Effort};
use bench::subjects::{compare, Subject, Work, BOOST_IS_THERE};

const WHOLE: Effort = Effort {
    rounds: 1_001,
    turn: Duration::from_micros(200),
};
const QUICK: Effort = Effort {
    rounds: 3,
    turn: Duration::from_micros(1),
};

/// A work's line of a table begins with its name and size.
fn first_cells(work: Work, size: Size) -> String {
    match work {
        Work::Drawn => format!("| {} | |", work.text()),
        _ => format!("| {} | {} |", work.text(), size.text()),
    }
}

fn print_ratios(effort: Effort) {
    println!(
        "Time of the library against the others: median of {} rounds (quartiles).\n",
        effort.rounds
    );
    println!("| Work | Posts/segments | against tuned Rust | against Boost Graph |");
    println!("|---|---|---|---|");
    for work in Work::ALL {
        for &size in work.sizes() {
            let ratios = ratios(work, size, effort);
            let against = |subject: Subject| {
                let found = ratios.iter().find(|(other, _)| *other == subject);
                found.map_or("-".to_owned(), |(_, ratio)| ratio.text())
            };
            println!(
                "{} {} | {} |",
                first_cells(work, size),
                against(Subject::Tuned),
                against(Subject::Boost)
            );
        }
    }
}

fn print_instructions() {
    println!("\nInstructions for one net or run, on the average, and the library's against the others'.\n");
    println!("| Work | Posts/segments | library | tuned Rust | Boost Graph | against tuned Rust | against Boost Graph |");
    println!("|---|---|---|---|---|---|---|");
    for work in Work::ALL {
        for &size in work.sizes() {
            let counts = Subject::ALL.map(|subject| {
                let does = work.subjects().contains(&subject);
                does.then(|| per_input(subject, work, size)).flatten()
            });
            let [library, tuned, boost] = counts;
            let count =
                |count: Option<u64>| count.map_or("-".to_owned(), |count| count.to_string());
            let against = |other: Option<u64>| match (library, other) {
                (Some(library), Some(other)) => format!("{:.2}", library as f64 / other as f64),
                _ => "-".to_owned(),
            };
            println!(
                "{} {} | {} | {} | {} | {} |",
                first_cells(work, size),
                count(library),
                count(tuned),
                count(boost),
                against(tuned),
                against(boost)
            );
        }
    }
}

fn measure(effort: Effort, instructions: bool) -> ExitCode {
    match compare() {
        Ok(laid) => {
            let laid: Vec<String> = laid
                .iter()
                .map(|(size, laid)| format!("{laid} at {}", size.text()))
                .collect();
            println!("All answers are equal. Laid paths: {}.\n", laid.join(", "));
        }
        Err(what) => {
            println!("Answers differ: {what}.");
            return ExitCode::FAILURE;
        }
    }
    if !BOOST_IS_THERE {
        println!("The Boost Graph Library isn't installed: left out.\n");
    }
    print_ratios(effort);
    if !instructions {
        return ExitCode::SUCCESS;
    }
    if can_count() {
        print_instructions();
    } else {
        println!("\nvalgrind isn't installed: instructions aren't counted.");
    }
    ExitCode::SUCCESS
}

fn main() -> ExitCode {
    let arguments: Vec<String> = env::args().skip(1).collect();
    let words: Vec<&str> = arguments.iter().map(String::as_str).collect();
    match words[..] {
        [] => measure(WHOLE, true),
        ["--quick"] => measure(QUICK, false),
        [PASSES, ..] if do_passes(&arguments[1..]).is_some() => ExitCode::SUCCESS,
        _ => {
            eprintln!("usage: bench [--quick]");
            ExitCode::from(2)
        }
    }
}
