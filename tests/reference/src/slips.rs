//! The slips that document 01 names, each made on purpose, and those that are
//! feared of own ratios.
//!
//! They are here to test the tests: a comparison that can't tell a slip from
//! the reference proves little. Nothing else uses this module.

use crate::between::children;
use crate::building::{three_trees, Tree, Trees};
use crate::drawn::{drawn_length, Run};
use crate::lent::LentNet;
use crate::net::{check_ratio, posts_but, Form, Net, Ratio, Refusal, Segment, MOST_LENGTH};
use crate::program::{plan_text, refusal_text, MOST_BYTES};
use crate::record::{number_bytes, read, read_into, read_number, Head};
use crate::trees::{least_lengths, parent, SOURCE_ENTRY};

/// A slip in reading a record, in the walk, or in what is reported of it.
#[derive(Clone, Copy, Debug, PartialEq, Eq)]
pub enum Slip {
    /// Notes are reported as path lengths.
    NotesAsPaths,
    /// The try back from child to parent is left out.
    NoTryBack,
    /// The inner test of laying a path is scaled by the ratio too.
    ScaledInnerTest,
    /// A path is laid at equality.
    LaidAtEquality,
    /// A try at equality changes the entry. Document 01 doesn't name this one.
    TriedAtEquality,
    /// The walk goes by the house ratio in the second form.
    HouseWalk,
    /// Own ratios are found by post number minus one, as if the source were
    /// post 0.
    MisplacedRatios,
    /// A record has an own ratio for the source too.
    SourceRatio,
    /// A post's 3 comes after the segments' refusals.
    LateRatio,
    /// A post's 3 has place 0.
    RatioAtZero,
    /// A first number 0 is a post count.
    ZeroPosts,
    /// 14,351 bytes are read.
    FewBytes,
}

impl Slip {
    /// All of them, document 01's first and in its order.
    pub const ALL: [Slip; 12] = [
        Slip::NotesAsPaths,
        Slip::NoTryBack,
        Slip::ScaledInnerTest,
        Slip::LaidAtEquality,
        Slip::TriedAtEquality,
        Slip::HouseWalk,
        Slip::MisplacedRatios,
        Slip::SourceRatio,
        Slip::LateRatio,
        Slip::RatioAtZero,
        Slip::ZeroPosts,
        Slip::FewBytes,
    ];

    /// The slip with this name, as `Debug` writes it.
    pub fn named(name: &str) -> Option<Slip> {
        Slip::ALL
            .into_iter()
            .find(|slip| format!("{slip:?}") == name)
    }
}

struct SlippedWalk<'n> {
    net: &'n Net,
    slip: Slip,
    ratios: Vec<Ratio>,
    least: Vec<u64>,
    shortest: &'n [u16],
    children: Vec<Vec<(u16, u32)>>,
    notes: Vec<u64>,
    tree: Vec<u16>,
    laid: Vec<usize>,
}

/// Larger than any length, and small enough to be multiplied.
const NONE_YET: u64 = 1 << 40;

impl SlippedWalk<'_> {
    fn attempt(&mut self, v: usize, u: usize, number: u16) {
        let sum = self.notes[u] + u64::from(self.net.segments[usize::from(number)].length);
        let at_equality = self.slip == Slip::TriedAtEquality && sum == self.notes[v];
        if sum < self.notes[v] || at_equality {
            self.notes[v] = sum;
            self.tree[v] = number;
        }
    }

    fn scaled(&self, v: usize) -> (u64, u64) {
        let (p, q) = (u64::from(self.ratios[v].p), u64::from(self.ratios[v].q));
        (q * self.notes[v], (p + q) * self.least[v])
    }

    fn lay(&mut self, v: usize) {
        let (note, least) = match self.slip {
            Slip::ScaledInnerTest => self.scaled(v),
            _ => (self.notes[v], self.least[v]),
        };
        if note > least {
            let (above, _) = parent(self.net, self.shortest, v as u32).expect("not the source");
            self.lay(above as usize);
            self.attempt(v, above as usize, self.shortest[v]);
        }
    }

    fn walk(&mut self, v: usize) {
        let (note, limit) = self.scaled(v);
        let source = self.net.source as usize;
        if note > limit || (self.slip == Slip::LaidAtEquality && note == limit && v != source) {
            self.lay(v);
            self.laid.push(v);
        }
        for (number, child) in self.children[v].clone() {
            self.attempt(child as usize, v, number);
            self.walk(child as usize);
            if self.slip != Slip::NoTryBack {
                self.attempt(v, child as usize, number);
            }
        }
    }
}

/// For each post the ratio that rules it in the slipped walk.
fn walked_ratios(net: &Net, slip: Slip) -> Vec<Ratio> {
    let ratios = net.ratios().into_iter();
    let own = ratios.map(|ratio| ratio.unwrap_or(net.house()));
    match slip {
        Slip::HouseWalk => own.map(|_| net.house()).collect(),
        _ => own.collect(),
    }
}

fn slipped_walk<'n>(net: &'n Net, right: &'n Trees, slip: Slip) -> SlippedWalk<'n> {
    let posts = net.posts as usize;
    let mut walk = SlippedWalk {
        net,
        slip,
        ratios: walked_ratios(net, slip),
        least: least_lengths(net),
        shortest: &right.shortest,
        children: children(net, &right.lightest),
        notes: vec![NONE_YET; posts],
        tree: vec![SOURCE_ENTRY; posts],
        laid: Vec::new(),
    };
    walk.notes[net.source as usize] = 0;
    walk.walk(net.source as usize);
    walk
}

/// The trees of a net and the greatest note, with this slip in the walk.
pub fn slipped_trees(net: &Net, right: &Trees, slip: Slip) -> (Trees, u64) {
    let walk = slipped_walk(net, right, slip);
    let greatest = walk.notes.iter().copied().max().expect("a source");
    let trees = Trees {
        between: walk.tree,
        laid: u32::try_from(walk.laid.len()).expect("at most 256"),
        ..right.clone()
    };
    (trees, greatest)
}

/// The program's output with this slip in it.
pub fn slipped_output(input: &[u8], slip: Slip) -> String {
    let looked_at = &input[..input.len().min(MOST_BYTES)];
    let planned = slipped_read(looked_at, slip).and_then(|net| {
        let right = three_trees(&net)?;
        Ok((net, right))
    });
    match planned {
        Err(refusal) => refusal_text(refusal),
        Ok((net, right)) => {
            let (trees, greatest_note) = slipped_trees(&net, &right, slip);
            let mut built = trees.built(&net);
            if slip == Slip::NotesAsPaths {
                built.between.radius = greatest_note;
            }
            plan_text(&net, &trees, &built)
        }
    }
}

/// The bytes that the program read before Req 01.
const FEW_BYTES: usize = 14_351;

/// Reads a record with this slip.
pub fn slipped_read(record: &[u8], slip: Slip) -> Result<Net, Refusal> {
    match slip {
        Slip::MisplacedRatios => read(record).map(misplaced),
        Slip::SourceRatio => read_with_source_ratio(record),
        Slip::LateRatio => read_ratios_late(record),
        Slip::RatioAtZero => read(record).map_err(|refusal| match refusal.number {
            3 => Refusal::new(3, 0),
            _ => refusal,
        }),
        Slip::ZeroPosts => read_zero_posts(record),
        Slip::FewBytes => read(&record[..record.len().min(FEW_BYTES)]),
        _ => read(record),
    }
}

/// The net with the own ratios found by post number minus one.
fn misplaced(net: Net) -> Net {
    let own = net.own.as_ref().map(|own| {
        let wrong = |post: u32| own[(post as usize).saturating_sub(1)];
        posts_but(net.source, net.posts).map(wrong).collect()
    });
    Net { own, ..net }
}

/// The numbers of a record up to the first that can't be read.
fn numbers_of(record: &[u8]) -> Vec<u32> {
    let mut numbers = Vec::new();
    let mut at = 0;
    while let Ok((value, next)) = read_number(record, at) {
        numbers.push(value);
        at = next;
    }
    numbers
}

fn record_of(numbers: Vec<u32>) -> Vec<u8> {
    numbers.into_iter().flat_map(number_bytes).collect()
}

/// Where the own ratios of a record's numbers begin, and for how many posts and
/// which source there are some; `None` in the first form and where the head is
/// refused.
fn own_numbers(numbers: &[u32]) -> Option<(usize, u32, u32)> {
    match numbers {
        [0, posts, source, ..] if numbers.len() > 5 && *posts <= 256 && source < posts => {
            Some((6, *posts, *source))
        }
        _ => None,
    }
}

/// Reads a record as if it had a ratio for the source too.
fn read_with_source_ratio(record: &[u8]) -> Result<Net, Refusal> {
    let mut numbers = numbers_of(record);
    let Some((start, _, source)) = own_numbers(&numbers) else {
        return read(record);
    };
    let at = start + 2 * source as usize;
    if numbers.len() < at + 2 {
        return Err(Refusal::new(10, record.len()));
    }
    numbers.drain(at..at + 2);
    read(&record_of(numbers))
}

/// Reads a record with a post's 3 after all of the segments' refusals.
fn read_ratios_late(record: &[u8]) -> Result<Net, Refusal> {
    let right = read(record);
    let mut numbers = numbers_of(record);
    let (Err(Refusal { number: 3, .. }), Some((start, posts, _))) = (&right, own_numbers(&numbers))
    else {
        return right;
    };
    let own = numbers.iter_mut().skip(start);
    for number in own.take(2 * (posts as usize - 1)) {
        *number = 1;
    }
    match read(&record_of(numbers)) {
        Err(refusal) if (5..=7).contains(&refusal.number) => Err(refusal),
        _ => right,
    }
}

/// Reads a record by the rules before Req 01: the first of five numbers is the
/// post count, which may not be 0.
fn read_zero_posts(record: &[u8]) -> Result<Net, Refusal> {
    if record.first() != Some(&0) {
        return read(record);
    }
    let mut at = 0;
    for _ in 0..5 {
        (_, at) = read_number(record, at)?;
    }
    Err(Refusal::new(1, 0))
}

/// The margin of a post by the house ratio, whatever the form.
pub fn house_margin(net: &Net, trees: &Trees, post: u32, which: Tree) -> Result<i64, Refusal> {
    let house = Net {
        own: None,
        ..net.clone()
    };
    trees.margin(&house, post, which)
}

/// A slip in what is done with lists of ratios that are lent.
#[derive(Clone, Copy, Debug, PartialEq, Eq)]
pub enum LentSlip {
    /// The source's ratio is checked too.
    SourceChecked,
    /// A post's 3 comes after the segments' refusals.
    CheckedLate,
    /// 8 is given for the lists in the second form only.
    SecondFormOnly,
    /// Reading a record of the first form stores the house ratio for each post.
    FirstFormStored,
    /// Reading a record of the second form stores a ratio for the source.
    SourceStored,
    /// A ratio is written for the source too.
    SourceWritten,
}

impl LentSlip {
    /// All of them.
    pub const ALL: [LentSlip; 6] = [
        LentSlip::SourceChecked,
        LentSlip::CheckedLate,
        LentSlip::SecondFormOnly,
        LentSlip::FirstFormStored,
        LentSlip::SourceStored,
        LentSlip::SourceWritten,
    ];
}

/// The net that is lent, if it is sound, with this slip in the checks.
pub fn slipped_sound(lent: &LentNet, slip: LentSlip) -> Result<Net, Refusal> {
    let right = lent.sound();
    let house_only = || Net {
        own: None,
        ..lent.net()
    };
    match (slip, lent.form) {
        (LentSlip::SourceChecked, Form::Second) => {
            house_only().check_head()?;
            let all = (0..lent.posts).zip(lent.p.iter().zip(lent.q));
            for (post, (&p, &q)) in all {
                check_ratio(Ratio::new(p, q), post as usize)?;
            }
            right
        }
        (LentSlip::CheckedLate, Form::Second) => house_only().check_sound().and(right),
        (LentSlip::SecondFormOnly, Form::First) => lent.net().check_sound().map(|()| lent.net()),
        _ => right,
    }
}

/// The numbers of a sound net's record with this slip.
pub fn slipped_record(net: &Net, slip: LentSlip) -> Vec<u8> {
    let mut numbers = crate::record::numbers(net);
    if slip == LentSlip::SourceWritten && net.form() == Form::Second {
        let at = 6 + 2 * net.source as usize;
        numbers.splice(at..at, [net.p, net.q]);
    }
    record_of(numbers)
}

/// Reads a record into lent lists with this slip.
pub fn slipped_read_into(
    record: &[u8],
    p: &mut [u32],
    q: &mut [u32],
    segments: &mut [Segment],
    slip: LentSlip,
) -> Result<Head, Refusal> {
    let head = read_into(record, p, q, segments)?;
    let stored = match (slip, head.form) {
        (LentSlip::FirstFormStored, Form::First) => 0..head.posts,
        (LentSlip::SourceStored, Form::Second) => head.source..head.source + 1,
        _ => 0..0,
    };
    for post in stored {
        (p[post as usize], q[post as usize]) = (head.p, head.q);
    }
    Ok(head)
}

/// A slip in finding the smallest ratio of a net.
#[derive(Clone, Copy, Debug, PartialEq, Eq)]
pub enum SmallestSlip {
    /// The smallest p alone decides.
    ByP,
    /// The house ratio counts too.
    WithHouse,
    /// Only the posts whose paths were laid count.
    LaidOnly,
}

impl SmallestSlip {
    /// All of them.
    pub const ALL: [SmallestSlip; 3] = [
        SmallestSlip::ByP,
        SmallestSlip::WithHouse,
        SmallestSlip::LaidOnly,
    ];
}

/// The smallest ratio of a joined net, found with this slip.
pub fn slipped_smallest(net: &Net, right: &Trees, slip: SmallestSlip) -> Option<Ratio> {
    let smaller = |least: Ratio, next: Ratio| if next.is_below(least) { next } else { least };
    let ratios = net.ratios().into_iter().flatten();
    match slip {
        SmallestSlip::ByP => ratios.min_by_key(|ratio| ratio.p),
        SmallestSlip::WithHouse => ratios.chain([net.house()]).reduce(smaller),
        SmallestSlip::LaidOnly => {
            let laid = slipped_walk(net, right, Slip::NotesAsPaths).laid;
            let all = net.ratios();
            laid.into_iter()
                .filter_map(|post| all[post])
                .reduce(smaller)
        }
    }
}

/// One drawn length by tests for refusal, each a comparison, instead of for
/// acceptance: a not-a-number slips through.
pub fn drawn_by_refusal(length: f64) -> Result<u32, Refusal> {
    let sixteenths = (length * 16.0).ceil();
    let refused = if length.is_infinite() {
        13
    } else if length < 0.0 {
        14
    } else if length == 0.0 {
        15
    } else if sixteenths > f64::from(MOST_LENGTH) {
        17
    } else {
        return Ok(sixteenths as u32);
    };
    Err(Refusal::new(refused, 0))
}

/// A drawn length rounded to the nearest sixteenth instead of up.
pub fn drawn_to_nearest(length: f64) -> Result<u32, Refusal> {
    let up = drawn_length(Run::Straight(length))?;
    let nearest = (length * 16.0).round();
    Ok(up - u32::from(nearest < f64::from(up)))
}

/// A corner's legs added first, and the sum rounded once.
pub fn drawn_rounded_once(first: f64, second: f64) -> Result<u32, Refusal> {
    let up = drawn_length(Run::Corner(first, second))?;
    let dropped = |length: f64| (length * 16.0).ceil() - length * 16.0;
    Ok(up - u32::from(dropped(first) + dropped(second) >= 1.0))
}
