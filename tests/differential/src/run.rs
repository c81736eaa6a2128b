//! Running the comparisons over some threads, and reporting.

use std::process::ExitCode;
use std::sync::atomic::{AtomicBool, AtomicUsize, Ordering};
use std::sync::Mutex;
use std::thread;

use crate::cases::{fixed_cases, random_case, Case};
use crate::counts::{Counts, Ending};

/// The seed that never changes.
pub const FIXED_SEED: u64 = 8_003;

/// How much to compare, and how.
pub struct Options {
    /// How many random cases there are, over both seeds.
    pub cases: u64,
    /// How many threads share them.
    pub threads: usize,
    /// The seed from the clock, or the one given in its place.
    pub clock_seed: u64,
}

/// What the subject answered against what the reference did.
pub struct Difference {
    what: &'static str,
    expected: String,
    got: String,
}

impl Difference {
    /// A difference in what is named.
    pub fn new(what: &'static str, expected: impl ToString, got: impl ToString) -> Self {
        Difference {
            what,
            expected: expected.to_string(),
            got: got.to_string(),
        }
    }
}

/// A difference and the input that shows it.
pub struct Found {
    input: String,
    record: Option<Vec<u8>>,
    difference: Difference,
}

impl Found {
    /// A difference on a record.
    pub fn on_record(input: String, record: Vec<u8>, difference: Difference) -> Self {
        Found {
            input,
            record: Some(record),
            difference,
        }
    }

    /// A difference on what isn't a record; the difference names it.
    pub fn elsewhere(input: &str, difference: Difference) -> Self {
        Found {
            input: input.to_owned(),
            record: None,
            difference,
        }
    }

    fn report(&self) {
        println!("DIFFERENCE ({}) in {}", self.difference.what, self.input);
        if let Some(record) = &self.record {
            println!("record of {} bytes, in decimal:", record.len());
            let bytes: Vec<String> = record.iter().map(u8::to_string).collect();
            println!("{}", bytes.join(" "));
        }
        println!("expected:\n{}", self.difference.expected);
        println!("got:\n{}", self.difference.got);
    }
}

/// Some comparisons, numbered from 0, each made when its turn comes.
pub struct Lot<'l> {
    /// What is compared, in words.
    pub name: String,
    /// How many there are.
    pub count: usize,
    /// Makes the comparison with this number.
    #[allow(clippy::type_complexity)]
    pub compare: Box<dyn Fn(usize, &mut Counts) -> Result<(), Found> + Sync + 'l>,
}

/// What is compared with the reference.
pub trait Subject: Sync {
    /// What it is, in words.
    fn name(&self) -> &str;

    /// Compares one case.
    fn compare(&self, case: &Case, counts: &mut Counts) -> Result<(), Difference>;

    /// What is compared besides the cases.
    fn more_lots(&self) -> Vec<Lot<'_>> {
        Vec::new()
    }

    /// The numbers of the refusals that must be met.
    fn refusals(&self) -> &[u32];

    /// The endings of moves that must be met; none if it moves no records.
    fn moves(&self) -> &[Ending];
}

fn compare_case(subject: &dyn Subject, case: Case, counts: &mut Counts) -> Result<(), Found> {
    match subject.compare(&case, counts) {
        Ok(()) => {
            counts.record(case.kind, &case.record);
            Ok(())
        }
        Err(difference) => Err(Found::on_record(case.name, case.record, difference)),
    }
}

/// The fixed inputs, and half of the random cases for each seed.
fn lots<'l>(subject: &'l dyn Subject, options: &Options, fixed: &'l [Case]) -> Vec<Lot<'l>> {
    let mut lots = vec![Lot {
        name: "fixed inputs".to_owned(),
        count: fixed.len(),
        compare: Box::new(|number, counts| compare_case(subject, fixed[number].clone(), counts)),
    }];
    lots.extend(subject.more_lots());
    let first_half = options.cases.div_ceil(2);
    for (origin, seed, cases) in [
        ("fixed", FIXED_SEED, first_half),
        ("clock", options.clock_seed, options.cases - first_half),
    ] {
        lots.push(Lot {
            name: format!("seed {seed} ({origin})"),
            count: usize::try_from(cases).expect("not that many"),
            compare: Box::new(move |number, counts| {
                compare_case(subject, random_case(seed, number as u64), counts)
            }),
        });
    }
    lots
}

/// Makes all comparisons of a lot. The first difference that is found ends it.
fn compare_lot(lot: &Lot, threads: usize) -> Result<Counts, Box<Found>> {
    let next = AtomicUsize::new(0);
    let stop = AtomicBool::new(false);
    let counts = Mutex::new(Counts::default());
    let different: Mutex<Vec<(usize, Found)>> = Mutex::default();
    let work = || {
        let mut own = Counts::default();
        while !stop.load(Ordering::Relaxed) {
            let number = next.fetch_add(1, Ordering::Relaxed);
            if number >= lot.count {
                break;
            }
            if let Err(found) = (lot.compare)(number, &mut own) {
                stop.store(true, Ordering::Relaxed);
                different.lock().expect("no panics").push((number, found));
            }
        }
        counts.lock().expect("no panics").add(own);
    };
    thread::scope(|scope| {
        for _ in 0..threads {
            scope.spawn(work);
        }
    });
    let different = different.into_inner().expect("no panics");
    match different.into_iter().min_by_key(|&(number, _)| number) {
        None => Ok(counts.into_inner().expect("no panics")),
        Some((_, found)) => Err(Box::new(found)),
    }
}

/// Compares the fixed inputs, the cases of both seeds and whatever else the
/// subject has, and says how many of them were equal, or where the first
/// difference is.
pub fn compare_all(subject: &dyn Subject, options: &Options) -> ExitCode {
    println!(
        "seeds: {FIXED_SEED} (fixed), {} (clock; repeat it with --seed)",
        options.clock_seed
    );
    let fixed = fixed_cases();
    let mut all = Counts::default();
    for lot in lots(subject, options, &fixed) {
        match compare_lot(&lot, options.threads) {
            Ok(counts) => {
                println!("{}: {} equal", lot.name, lot.count);
                all.add(counts);
            }
            Err(found) => {
                found.report();
                return ExitCode::FAILURE;
            }
        }
    }
    if let Some(number) = all.never_met(subject.refusals()) {
        println!("refusal {number} was never met: the inputs say too little");
        return ExitCode::FAILURE;
    }
    if let Some((to, ending)) = all.never_ended(subject.moves()) {
        println!("no move to the form {to:?} ended with {ending:?}: the inputs say too little");
        return ExitCode::FAILURE;
    }
    all.report(subject.name());
    ExitCode::SUCCESS
}
