//! The library, the tuned Rust and the peers, each doing one work on all inputs.

use std::hint::black_box;
use std::ops::Range;

use droverboot::raw;
use reference::Run;

use crate::inputs::{nets, runs, Input, Size, NETS, RUNS};
use crate::tuned::{self, Planner};

/// Who does a work.
#[derive(Clone, Copy, Debug, PartialEq, Eq)]
pub enum Subject {
    /// The proved static library.
    Library,
    /// The plain Rust tuned for speed.
    Tuned,
    /// The Boost Graph Library.
    Boost,
}

impl Subject {
    /// All of them.
    pub const ALL: [Subject; 3] = [Subject::Library, Subject::Tuned, Subject::Boost];

    /// How it is written in tables.
    pub fn text(self) -> &'static str {
        match self {
            Subject::Library => "library",
            Subject::Tuned => "tuned Rust",
            Subject::Boost => "Boost Graph",
        }
    }

    /// The subject with this name, as `Debug` writes it.
    pub fn named(name: &str) -> Option<Subject> {
        Subject::ALL
            .into_iter()
            .find(|subject| format!("{subject:?}") == name)
    }
}

/// Whether the Boost Graph Library was there when the benchmark was built.
pub const BOOST_IS_THERE: bool = cfg!(boost);

/// What is measured.
#[derive(Clone, Copy, Debug, PartialEq, Eq)]
pub enum Work {
    /// From a record to three trees.
    Build,
    /// Reading a record.
    Read,
    /// Reading a record and writing it.
    Write,
    /// Turning a drawn run into a length.
    Drawn,
}

impl Work {
    /// All of them.
    pub const ALL: [Work; 4] = [Work::Build, Work::Read, Work::Write, Work::Drawn];

    /// How it is written in tables.
    pub fn text(self) -> &'static str {
        match self {
            Work::Build => "building",
            Work::Read => "reading",
            Work::Write => "reading and writing",
            Work::Drawn => "drawn runs",
        }
    }

    /// The work with this name, as `Debug` writes it.
    pub fn named(name: &str) -> Option<Work> {
        Work::ALL
            .into_iter()
            .find(|work| format!("{work:?}") == name)
    }

    /// The sizes at which it is measured: drawn runs have none, so they are
    /// measured once.
    pub fn sizes(self) -> &'static [Size] {
        match self {
            Work::Drawn => &Size::ALL[..1],
            _ => &Size::ALL,
        }
    }

    /// Who does this work.
    pub fn subjects(self) -> Vec<Subject> {
        let mut subjects = vec![Subject::Library, Subject::Tuned];
        if self == Work::Build && BOOST_IS_THERE {
            subjects.push(Subject::Boost);
        }
        subjects
    }
}

/// Three lists with an entry for each post, and a summary.
pub struct Lists {
    trees: [[u16; droverboot::MOST_POSTS]; 3],
    summary: [u32; raw::SUMMARY],
}

impl Lists {
    fn new() -> Self {
        Lists {
            trees: [[0; droverboot::MOST_POSTS]; 3],
            summary: [0; raw::SUMMARY],
        }
    }
}

const LONGEST_RECORD: usize = reference::record::LONGEST_RECORD;

fn library_plan(record: &[u8], lists: &mut Lists) -> u64 {
    let [lightest, shortest, between] = &mut lists.trees;
    raw::plan(record, lightest, shortest, between, &mut lists.summary)
}

fn tuned_plan(planner: &mut Planner, record: &[u8], lists: &mut Lists) -> bool {
    let [lightest, shortest, between] = &mut lists.trees;
    let summary = &mut lists.summary;
    planner
        .plan(record, lightest, shortest, between, summary)
        .is_ok()
}

fn library_drawn(run: Run) -> u64 {
    match run {
        Run::Straight(length) => raw::drawn(0, length.to_bits(), 0),
        Run::Corner(first, second) => raw::drawn(1, first.to_bits(), second.to_bits()),
    }
}

#[cfg(boost)]
mod boost {
    use crate::inputs::Input;
    use reference::Segment;

    /// A segment as the peer takes it.
    #[repr(C)]
    pub struct PeerSegment {
        a: u32,
        b: u32,
        length: u32,
    }

    extern "C" {
        fn peer_boost_build(
            posts: u32,
            source: u32,
            segments: *const PeerSegment,
            count: usize,
            lightest_length: *mut u32,
            shortest_radius: *mut u32,
        );
    }

    /// The net's segments as the peer takes them.
    pub fn segments(input: &Input) -> Vec<PeerSegment> {
        let peer = |&Segment { a, b, length }: &Segment| PeerSegment { a, b, length };
        input.net.segments.iter().map(peer).collect()
    }

    /// Length of the lightest tree and radius of the shortest.
    pub fn build(input: &Input, segments: &[PeerSegment]) -> (u32, u32) {
        let (mut length, mut radius) = (0, 0);
        // SAFETY: the pointer comes with the length of the slice it points to,
        // and the net is sound.
        unsafe {
            peer_boost_build(
                input.net.posts,
                input.net.source,
                segments.as_ptr(),
                segments.len(),
                &mut length,
                &mut radius,
            );
        }
        (length, radius)
    }
}

/// One pass of a subject over some inputs of a work, given by their numbers.
pub type Pass = Box<dyn FnMut(Range<usize>)>;

fn pass_over<I: 'static>(inputs: Vec<I>, mut each: impl FnMut(&I) + 'static) -> Pass {
    Box::new(move |numbers| inputs[numbers].iter().for_each(&mut each))
}

fn library_pass(work: Work, size: Size) -> Pass {
    match work {
        Work::Build => {
            let mut lists = Lists::new();
            pass_over(nets(size), move |input| {
                black_box(library_plan(&input.record, &mut lists));
            })
        }
        Work::Read => pass_over(nets(size), |input| {
            black_box(raw::check(&input.record));
        }),
        Work::Write => {
            let mut room = vec![0; LONGEST_RECORD];
            pass_over(nets(size), move |input| {
                black_box(raw::rewrite(&input.record, &mut room));
            })
        }
        Work::Drawn => pass_over(runs(), |&run| {
            black_box(library_drawn(run));
        }),
    }
}

fn tuned_pass(work: Work, size: Size) -> Pass {
    let mut planner = Planner::default();
    match work {
        Work::Build => {
            let mut lists = Lists::new();
            pass_over(nets(size), move |input| {
                black_box(tuned_plan(&mut planner, &input.record, &mut lists));
            })
        }
        Work::Read => pass_over(nets(size), move |input| {
            let _ = black_box(planner.check(&input.record));
        }),
        Work::Write => {
            let mut room = vec![0; LONGEST_RECORD];
            pass_over(nets(size), move |input| {
                let _ = black_box(planner.rewrite(&input.record, &mut room));
            })
        }
        Work::Drawn => pass_over(runs(), |&run| {
            let _ = black_box(tuned::drawn(run));
        }),
    }
}

#[cfg(boost)]
fn boost_pass(size: Size) -> Pass {
    let mut inputs = Vec::new();
    for input in nets(size) {
        let segments = boost::segments(&input);
        inputs.push((input, segments));
    }
    pass_over(inputs, |(input, segments)| {
        black_box(boost::build(input, segments));
    })
}

#[cfg(not(boost))]
fn boost_pass(_: Size) -> Pass {
    unreachable!("not among the subjects of any work")
}

/// The passes of this subject over inputs of this work and size.
pub fn pass(subject: Subject, work: Work, size: Size) -> Pass {
    match subject {
        Subject::Library => library_pass(work, size),
        Subject::Tuned => tuned_pass(work, size),
        Subject::Boost => boost_pass(size),
    }
}

/// How many inputs there are.
pub fn input_count(work: Work) -> usize {
    match work {
        Work::Drawn => RUNS,
        _ => NETS,
    }
}

/// How many inputs are passed over in one turn: few enough that a turn is short.
pub fn inputs_in_turn(work: Work, size: Size) -> usize {
    match work {
        Work::Drawn => RUNS / 4,
        _ => (NETS * 64 / size.segments as usize).max(2),
    }
}

/// Holds the answers of all subjects on a net against one another; what differs,
/// in words. Answers with the count of laid paths.
fn compare_net(input: &Input) -> Result<u32, String> {
    let record = &input.record;
    let (mut library, mut tuned) = (Lists::new(), Lists::new());
    let mut planner = Planner::default();
    if library_plan(record, &mut library) != 0 || !tuned_plan(&mut planner, record, &mut tuned) {
        return Err("a net is refused".to_owned());
    }
    if (library.trees, library.summary) != (tuned.trees, tuned.summary) {
        return Err("trees or summary differ".to_owned());
    }
    if raw::check(record) != 0 || planner.check(record).is_err() {
        return Err("a record is refused".to_owned());
    }
    let (mut first, mut second) = (vec![0; record.len()], vec![0; record.len()]);
    let lengths = (
        raw::rewrite(record, &mut first) as usize,
        planner.rewrite(record, &mut second).unwrap_or(0),
    );
    if lengths != (record.len(), record.len()) || first != *record || second != *record {
        return Err("a record is written otherwise".to_owned());
    }
    #[cfg(boost)]
    {
        let [.., lightest, _, _, radius, _, _, _] = library.summary;
        if boost::build(input, &boost::segments(input)) != (lightest, radius) {
            return Err("the peer's trees have other measures".to_owned());
        }
    }
    Ok(library.summary[raw::SUMMARY - 1])
}

/// Holds the answers of all subjects on every input against one another. Answers
/// with the count of laid paths over the nets of each size, or with what differs,
/// in words.
pub fn compare() -> Result<Vec<(Size, u32)>, String> {
    for run in runs() {
        let library = library_drawn(run);
        let tuned = match tuned::drawn(run) {
            Ok(length) => u64::from(length),
            Err(refusal) => {
                raw::REFUSED | u64::from(refusal.number) << 32 | u64::from(refusal.place)
            }
        };
        if library != tuned {
            return Err(format!("{run:?}: {library}, tuned {tuned}"));
        }
    }
    let mut laid = Vec::new();
    for size in Size::ALL {
        let mut all = 0;
        for input in nets(size) {
            all += compare_net(&input).map_err(|what| format!("{}: {what}", size.text()))?;
        }
        laid.push((size, all));
    }
    Ok(laid)
}
