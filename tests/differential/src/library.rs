//! The static library as subject: each of its functions on every case.
//!
//! Lent lists are made longer and shorter than needed and filled with canaries;
//! what the reference leaves as it was must be left as it was, and so must what
//! stands before and after a list. Document 01 doesn't know the summary and the
//! margin's list: a short summary takes as many numbers as it has places, and
//! the margin goes to the first entry if there is one.

use generate::{drawn, encode, lent, special_nets, Random};
use reference::net::MOST_LENGTH;
use reference::record::{LONGEST_FIRST_FORM, LONGEST_RECORD};
use reference::{
    build, drawn_length, moved, moved_into, program_output, read, three_trees, write_into, Form,
    Net, Refusal, Run, To, Tree, Trees,
};

use crate::cases::Case;
use crate::counts::{Counts, Ending};
use crate::functions::{
    name_of_move, nothing_or_refusal, number_or_refusal, summary, Functions, SUMMARY,
};
use crate::lent::Lent;
use crate::run::{Difference, Found, Lot, Subject};

/// Runs drawn for each case, of every kind that the generators know.
const RUNS: u32 = 16;
/// Runs of random bits drawn for each case.
const RUNS_OF_BITS: u32 = 4;
/// Lengths in one comparison of the lot that has every length.
const LENGTHS_AT_ONCE: usize = 1 << 10;

/// Three lent lists and a lent summary.
#[derive(Clone, Debug, PartialEq)]
struct PlanLists {
    trees: [Lent<u16>; 3],
    summary: Lent<u32>,
}

impl PlanLists {
    /// Lists for a net with this many posts: often long enough, at times not.
    fn any(random: &mut Random, posts: usize) -> Self {
        let short = random.chance(1, 4);
        let mut list = || {
            let length = if short {
                lent::any_length(random, posts)
            } else {
                lent::long_enough(random, posts)
            };
            Lent::canaries(random, length)
        };
        let trees = [list(), list(), list()];
        let summary_length = lent::any_length(random, SUMMARY);
        PlanLists {
            trees,
            summary: Lent::canaries(random, summary_length),
        }
    }

    /// Builds the reference's trees into the lists.
    fn build(&mut self, net: &Net) -> Result<(), Refusal> {
        let [lightest, shortest, between] = &mut self.trees;
        let built = build(net, lightest.part(), shortest.part(), between.part())?;
        let numbers = summary(net, &built);
        for (place, number) in self.summary.part().iter_mut().zip(numbers) {
            *place = number;
        }
        Ok(())
    }

    /// The trees of a net in the lists, with the count of laid paths.
    fn trees(&mut self, net: &Net, laid: u32) -> Trees {
        let posts = net.posts as usize;
        let [lightest, shortest, between] = &mut self.trees;
        Trees {
            lightest: lightest.part()[..posts].to_vec(),
            shortest: shortest.part()[..posts].to_vec(),
            between: between.part()[..posts].to_vec(),
            laid,
        }
    }
}

fn equal<T: PartialEq + std::fmt::Debug>(
    what: &'static str,
    expected: T,
    got: T,
) -> Result<(), Difference> {
    if expected == got {
        Ok(())
    } else {
        let [expected, got] = [expected, got].map(|value| format!("{value:?}"));
        Err(Difference::new(what, expected, got))
    }
}

/// A record that is lent, and the reference's answers for it.
struct Right<'r> {
    record: &'r [u8],
    net: Result<Net, Refusal>,
    trees: Result<Trees, Refusal>,
}

impl<'r> Right<'r> {
    fn of(record: &'r [u8]) -> Self {
        let net = read(record);
        let trees = match &net {
            Ok(net) => three_trees(net),
            Err(refusal) => Err(*refusal),
        };
        Right { record, net, trees }
    }

    /// The net, or the reader's refusal.
    fn net(&self) -> Result<&Net, Refusal> {
        self.net.as_ref().map_err(|refusal| *refusal)
    }

    /// The post count as far as it can be known, for lists that are near it.
    fn posts(&self) -> u32 {
        self.net.as_ref().map_or(3, |net| net.posts)
    }

    fn margin(&self, post: u32, tree: u32) -> Result<i64, Refusal> {
        let which = match tree {
            0 => Tree::Lightest,
            1 => Tree::Shortest,
            _ => Tree::Between,
        };
        let trees = self.trees.as_ref().map_err(|refusal| *refusal)?;
        trees.margin(self.net()?, post, which)
    }
}

/// The library as subject.
pub struct Library<F> {
    functions: F,
    every_length: bool,
}

impl<F: Functions> Library<F> {
    /// The library with these functions.
    pub fn new(functions: F) -> Self {
        Library {
            functions,
            every_length: true,
        }
    }

    /// The same where a call is dear: without every whole number of sixteenths, and
    /// with the cuts of the second form's longest record only.
    pub fn dear(functions: F) -> Self {
        Library {
            functions,
            every_length: false,
        }
    }

    fn compare_check(&self, right: &Right, counts: &mut Counts) -> Result<(), Difference> {
        let expected = right.net().map(|_| ());
        let answer = self.functions.check(right.record);
        equal("drover_check", nothing_or_refusal(expected), answer)?;
        counts.answer(&expected);
        Ok(())
    }

    fn compare_plan(
        &self,
        right: &Right,
        random: &mut Random,
        counts: &mut Counts,
    ) -> Result<(), Difference> {
        let mut got = PlanLists::any(random, right.posts() as usize);
        let mut lists = got.clone();
        let expected = right.net().and_then(|net| lists.build(net));
        let [lightest, shortest, between] = &mut got.trees;
        let answer = self.functions.plan(
            right.record,
            lightest.part(),
            shortest.part(),
            between.part(),
            got.summary.part(),
        );
        let answers = (nothing_or_refusal(expected), &lists);
        equal("drover_plan", answers, (answer, &got))?;
        counts.answer(&expected);
        match (expected, &right.net, &right.trees) {
            (Ok(()), Ok(net), Ok(trees)) => counts.trees(net, &got.trees(net, trees.laid)),
            _ => Ok(()),
        }
    }

    fn compare_rewrite(
        &self,
        right: &Right,
        random: &mut Random,
        counts: &mut Counts,
    ) -> Result<(), Difference> {
        let length = lent::any_length(random, right.record.len());
        let mut got: Lent<u8> = Lent::canaries(random, length);
        let mut room = got.clone();
        let written = right.net().and_then(|net| write_into(net, room.part()));
        let expected = written.map(|length| length as u64);
        let answer = self.functions.rewrite(right.record, got.part());
        let answers = (number_or_refusal(expected), room);
        equal("drover_rewrite", answers, (answer, got))?;
        counts.answer(&expected);
        Ok(())
    }

    /// The move into each form, with a room that may be too short; and wherever it
    /// can be made, the move there and home again, which must give the old bytes.
    fn compare_moves(
        &self,
        right: &Right,
        random: &mut Random,
        counts: &mut Counts,
    ) -> Result<(), Difference> {
        for to in To::ALL {
            let there = moved(right.record, to);
            let needed = there.as_ref().map_or(right.record.len(), Vec::len);
            let length = lent::any_length(random, needed);
            self.compare_move(right.record, to, length, random, counts)?;
            if let Ok(there) = there {
                self.compare_move(right.record, to, there.len(), random, counts)?;
                let home = right.record.len();
                let home = self.compare_move(&there, to.back(), home, random, counts)?;
                equal("home again", right.record, &home[..])?;
                counts.moved(to, Ending::Home);
            }
        }
        Ok(())
    }

    /// One move into a room of this length, which it hands back.
    fn compare_move(
        &self,
        record: &[u8],
        to: To,
        length: usize,
        random: &mut Random,
        counts: &mut Counts,
    ) -> Result<Vec<u8>, Difference> {
        let mut got: Lent<u8> = Lent::canaries(random, length);
        let mut room = got.clone();
        let expected = moved_into(record, to, room.part());
        let answer = self.functions.moved(record, to, got.part());
        let right = number_or_refusal(expected.map(|length| length as u64));
        equal(name_of_move(to), (right, &room), (answer, &got))?;
        counts.answer(&expected);
        counts.moved(to, Ending::of(&expected));
        Ok(got.part().to_vec())
    }

    /// The margin of one post in each of the trees, and in the between tree by a
    /// larger number.
    fn compare_margins(
        &self,
        right: &Right,
        random: &mut Random,
        counts: &mut Counts,
    ) -> Result<(), Difference> {
        let post = match random.below(6) {
            0 => right.posts(),
            1 => random.bits() as u32,
            _ => random.below(right.posts() + 1),
        };
        let larger = random.pick(&[3, 4, 256, 1 << 16, u32::MAX]);
        for tree in [0, 1, 2, larger] {
            let length = lent::any_length(random, 1);
            let mut got: Lent<i64> = Lent::canaries(random, length);
            let mut out = got.clone();
            let expected = right.margin(post, tree).map(|margin| {
                if let Some(first) = out.part().first_mut() {
                    *first = margin;
                }
            });
            let answer = self.functions.margin(right.record, tree, post, got.part());
            let answers = (tree, post, nothing_or_refusal(expected), out);
            equal("drover_margin", answers, (tree, post, answer, got))?;
            counts.answer(&expected);
            counts.margins += 1;
        }
        Ok(())
    }

    /// Compares a drawn run. A straight one is given any second length, and a
    /// corner any number but 0.
    fn compare_drawn(&self, run: Run, any: u64, counts: &mut Counts) -> Result<(), Difference> {
        let expected = drawn_length(run).map(u64::from);
        let (corner, first, second) = match run {
            Run::Straight(length) => (0, length.to_bits(), any),
            Run::Corner(first, second) => ((any as u32).max(1), first.to_bits(), second.to_bits()),
        };
        let answer = self.functions.drawn(corner, first, second);
        counts.answer(&expected);
        counts.runs += 1;
        let right = number_or_refusal(expected);
        if right == answer {
            return Ok(());
        }
        let input = format!("{run:?}, given as {corner}, {first:#x}, {second:#x}");
        let right = format!("{right} for {input}");
        Err(Difference::new("drover_drawn", right, answer))
    }

    fn compare_runs(&self, random: &mut Random, counts: &mut Counts) -> Result<(), Difference> {
        for _ in 0..RUNS {
            // A corner is mostly given by 1.
            let any = random.pick(&[1, 1, 2, 1 << 31, u64::MAX]);
            self.compare_drawn(drawn::any_run(random), any, counts)?;
        }
        for _ in 0..RUNS_OF_BITS {
            let [first, second] = [0; 2].map(|_| f64::from_bits(random.bits()));
            self.compare_drawn(Run::Straight(first), random.bits(), counts)?;
            self.compare_drawn(Run::Corner(first, second), random.bits(), counts)?;
        }
        Ok(())
    }

    fn compare_printed(&self, record: &[u8]) -> Result<(), Difference> {
        let printed = self.functions.printed(record);
        equal("bindings", program_output(record), printed)
    }

    /// Lengths at the borders of every refusal, straight and as either leg.
    fn border_lot(&self) -> Lot<'_> {
        let borders = drawn::borders();
        Lot {
            name: "drawn lengths at borders".to_owned(),
            count: borders.len(),
            compare: Box::new(move |number, counts| {
                let length = borders[number];
                let beside = borders[(number + 1) % borders.len()];
                for run in [
                    Run::Straight(length),
                    Run::Corner(length, 1.0),
                    Run::Corner(1.0, length),
                    Run::Corner(length, length),
                    Run::Corner(length, beside),
                ] {
                    self.compare_drawn(run, 1, counts)
                        .map_err(|difference| Found::elsewhere("drawn lengths", difference))?;
                }
                Ok(())
            }),
        }
    }

    /// Every whole number of sixteenths, and what is next to it, some at once.
    fn length_lot(&self) -> Lot<'_> {
        let most = MOST_LENGTH as usize;
        Lot {
            name: format!("every whole number of sixteenths, {LENGTHS_AT_ONCE} at once"),
            count: most / LENGTHS_AT_ONCE + 1,
            compare: Box::new(move |number, counts| {
                let first = number * LENGTHS_AT_ONCE;
                for sixteenths in first..first + LENGTHS_AT_ONCE {
                    let length = sixteenths as f64 / 16.0;
                    for near in [length, length.next_up(), length.next_down()] {
                        self.compare_drawn(Run::Straight(near), 1, counts)
                            .map_err(|difference| Found::elsewhere("drawn lengths", difference))?;
                    }
                }
                Ok(())
            }),
        }
    }

    /// The longest good record of this form cut at each byte, and whole: checked
    /// only.
    fn cut_lot(&self, form: Form, length: usize) -> Lot<'_> {
        let longest = special_nets()
            .iter()
            .filter(|net| net.form() == form)
            .map(encode)
            .max_by_key(Vec::len)
            .expect("there are some");
        assert_eq!(longest.len(), length);
        Lot {
            name: format!("cuts of the longest record of its form ({form:?})"),
            count: longest.len() + 1,
            compare: Box::new(move |number, counts| {
                let record = &longest[..number];
                let expected = read(record).map(|_| ());
                counts.answer(&expected);
                let answer = self.functions.check(record);
                equal("drover_check", nothing_or_refusal(expected), answer).map_err(|difference| {
                    let input = format!("the longest record cut at byte {number}");
                    Found::on_record(input, record.to_vec(), difference)
                })
            }),
        }
    }
}

impl<F: Functions> Subject for Library<F> {
    fn name(&self) -> &str {
        self.functions.name()
    }

    fn compare(&self, case: &Case, counts: &mut Counts) -> Result<(), Difference> {
        let mut random = case.random.clone();
        let mut lent = Lent::holding(&mut random, &case.record);
        let before = lent.clone();
        let record = lent.part();
        let right = Right::of(record);
        self.compare_check(&right, counts)?;
        self.compare_plan(&right, &mut random, counts)?;
        self.compare_rewrite(&right, &mut random, counts)?;
        self.compare_moves(&right, &mut random, counts)?;
        self.compare_margins(&right, &mut random, counts)?;
        self.compare_runs(&mut random, counts)?;
        self.compare_printed(record)?;
        equal("record", before, lent)
    }

    fn more_lots(&self) -> Vec<Lot<'_>> {
        let mut lots = vec![self.border_lot()];
        if self.every_length {
            lots.push(self.length_lot());
            lots.push(self.cut_lot(Form::First, LONGEST_FIRST_FORM));
        }
        lots.push(self.cut_lot(Form::Second, LONGEST_RECORD));
        lots
    }

    fn refusals(&self) -> &[u32] {
        &[
            1, 2, 3, 4, 5, 6, 7, 8, 9, 10, 11, 12, 13, 14, 15, 17, 18, 19, 20, 30,
        ]
    }

    fn moves(&self) -> &[Ending] {
        &Ending::ALL
    }
}
