//! The library's functions made from the reference, to test the comparison of a
//! library without one. They can make a slip on purpose.

use reference::move_slips::{slipped_moved_into, MoveSlip};
use reference::slips::{
    drawn_by_refusal, drawn_rounded_once, drawn_to_nearest, house_margin, slipped_read,
    slipped_record, slipped_trees, LentSlip, Slip,
};
use reference::{
    build, drawn_length, margin, moved_into, program_output, read, three_trees, write_into, Net,
    Refusal, Run, To, Tree,
};

use crate::functions::{nothing_or_refusal, number_or_refusal, summary, Functions};

/// Something for the stand-in to do wrong.
#[derive(Clone, Copy, Debug, PartialEq, Eq)]
enum Fault {
    /// A slip in reading, or in the walk that makes the third tree.
    Slipped(Slip),
    /// A slip in moving a record into the other form.
    Moved(MoveSlip),
    /// Moving changes a byte beyond the record.
    MovedBeyond,
    /// Moving marks a refusal as if it were a length.
    MovedUnmarked,
    /// Checking accepts every record.
    Accepting,
    /// Planning writes an entry beyond the post count.
    Beyond,
    /// Planning writes before it refuses.
    Touched,
    /// Planning refuses with 9 before 8.
    LateLists,
    /// Planning refuses a short summary with 8.
    WholeSummary,
    /// Writing changes a byte beyond the record.
    Spilt,
    /// Writing marks a refusal as if it were a length.
    Unmarked,
    /// Writing has a ratio for the source too.
    SourceWritten,
    /// A margin has the other sign.
    Turned,
    /// A margin goes by the house ratio, whatever the form.
    HouseMargin,
    /// A tree's number above 2 is taken for the lightest tree.
    OtherTree,
    /// A drawn length is one too long.
    Long,
    /// A not-a-number is accepted.
    NotANumber,
    /// A drawn length is rounded to the nearest sixteenth.
    Nearest,
    /// The legs of a corner are added before they are rounded.
    RoundedOnce,
    /// Only 1 makes a corner.
    OneCorner,
    /// The bindings print something else.
    Silent,
}

const FAULTS: [Fault; 19] = [
    Fault::MovedBeyond,
    Fault::MovedUnmarked,
    Fault::Accepting,
    Fault::Beyond,
    Fault::Touched,
    Fault::LateLists,
    Fault::WholeSummary,
    Fault::Spilt,
    Fault::Unmarked,
    Fault::SourceWritten,
    Fault::Turned,
    Fault::HouseMargin,
    Fault::OtherTree,
    Fault::Long,
    Fault::NotANumber,
    Fault::Nearest,
    Fault::RoundedOnce,
    Fault::OneCorner,
    Fault::Silent,
];

/// The stand-in.
pub struct StandIn {
    fault: Option<Fault>,
}

impl StandIn {
    /// The stand-in that does wrong what is named, and nothing if the name is
    /// that of no slip.
    pub fn with_slip(name: &str) -> Self {
        let slipped = Slip::named(name).map(Fault::Slipped);
        let slipped = slipped.or(MoveSlip::named(name).map(Fault::Moved));
        let named = |fault: &Fault| format!("{fault:?}") == name;
        StandIn {
            fault: slipped.or(FAULTS.into_iter().find(named)),
        }
    }

    fn does(&self, fault: Fault) -> bool {
        self.fault == Some(fault)
    }

    fn read(&self, record: &[u8]) -> Result<Net, Refusal> {
        match self.fault {
            Some(Fault::Slipped(slip)) => slipped_read(record, slip),
            _ => read(record),
        }
    }

    fn build(&self, net: &Net, lists: [&mut [u16]; 3], out: &mut [u32]) -> Result<(), Refusal> {
        let [lightest, shortest, between] = lists;
        if self.does(Fault::LateLists) {
            three_trees(net)?;
        }
        let mut built = build(net, lightest, shortest, between)?;
        if self.does(Fault::WholeSummary) && out.len() < 12 {
            return Err(Refusal::new(8, 0));
        }
        if let Some(Fault::Slipped(slip)) = self.fault {
            let (trees, greatest_note) = slipped_trees(net, &three_trees(net)?, slip);
            between[..trees.between.len()].copy_from_slice(&trees.between);
            built = trees.built(net);
            if slip == Slip::NotesAsPaths {
                built.between.radius = greatest_note;
            }
        }
        for (place, number) in out.iter_mut().zip(summary(net, &built)) {
            *place = number;
        }
        if self.does(Fault::Beyond) {
            if let Some(entry) = between.get_mut(net.posts as usize) {
                *entry ^= 1;
            }
        }
        Ok(())
    }

    fn write(&self, net: &Net, room: &mut [u8]) -> Result<usize, Refusal> {
        if !self.does(Fault::SourceWritten) {
            return write_into(net, room);
        }
        let record = slipped_record(net, LentSlip::SourceWritten);
        let part = room.get_mut(..record.len());
        part.ok_or(Refusal::new(18, 0))?.copy_from_slice(&record);
        Ok(record.len())
    }

    fn margin_of(&self, net: &Net, post: u32, which: Tree) -> Result<i64, Refusal> {
        let margin = if self.does(Fault::HouseMargin) {
            house_margin(net, &three_trees(net)?, post, which)?
        } else {
            margin(net, post, which)?
        };
        Ok(if self.does(Fault::Turned) {
            -margin
        } else {
            margin
        })
    }

    fn drawn_length(&self, run: Run) -> Result<u64, Refusal> {
        let length = match run {
            Run::Straight(length) if self.does(Fault::NotANumber) => drawn_by_refusal(length),
            Run::Straight(length) if self.does(Fault::Nearest) => drawn_to_nearest(length),
            Run::Corner(first, second) if self.does(Fault::RoundedOnce) => {
                drawn_rounded_once(first, second)
            }
            _ => drawn_length(run),
        };
        length.map(|length| u64::from(length) + u64::from(self.does(Fault::Long)))
    }
}

impl Functions for StandIn {
    fn name(&self) -> &str {
        "the stand-in"
    }

    fn check(&self, record: &[u8]) -> u64 {
        match self.read(record) {
            Err(_) if self.does(Fault::Accepting) => 0,
            answer => nothing_or_refusal(answer.map(|_| ())),
        }
    }

    fn plan(
        &self,
        record: &[u8],
        lightest: &mut [u16],
        shortest: &mut [u16],
        between: &mut [u16],
        summary: &mut [u32],
    ) -> u64 {
        if self.does(Fault::Touched) {
            if let Some(entry) = shortest.first_mut() {
                *entry ^= 1;
            }
        }
        let lists = [lightest, shortest, between];
        let net = self.read(record);
        nothing_or_refusal(net.and_then(|net| self.build(&net, lists, summary)))
    }

    fn rewrite(&self, record: &[u8], room: &mut [u8]) -> u64 {
        let length = self.read(record).and_then(|net| self.write(&net, room));
        match length {
            Ok(length) if self.does(Fault::Spilt) => {
                if let Some(byte) = room.get_mut(length) {
                    *byte ^= 1;
                }
            }
            Err(refusal) if self.does(Fault::Unmarked) => return nothing_or_refusal(Err(refusal)),
            _ => {}
        }
        number_or_refusal(length.map(|length| length as u64))
    }

    fn moved(&self, record: &[u8], to: To, room: &mut [u8]) -> u64 {
        let length = match self.fault {
            Some(Fault::Moved(slip)) => slipped_moved_into(record, to, room, slip),
            _ => moved_into(record, to, room),
        };
        match length {
            Ok(length) if self.does(Fault::MovedBeyond) => {
                if let Some(byte) = room.get_mut(length) {
                    *byte ^= 1;
                }
            }
            Err(refusal) if self.does(Fault::MovedUnmarked) => {
                return nothing_or_refusal(Err(refusal));
            }
            _ => {}
        }
        number_or_refusal(length.map(|length| length as u64))
    }

    fn margin(&self, record: &[u8], tree: u32, post: u32, out: &mut [i64]) -> u64 {
        let which = match tree {
            0 => Tree::Lightest,
            1 => Tree::Shortest,
            2 => Tree::Between,
            _ if self.does(Fault::OtherTree) => Tree::Lightest,
            _ => Tree::Between,
        };
        let net = self.read(record);
        let margin = net.and_then(|net| self.margin_of(&net, post, which));
        nothing_or_refusal(margin.map(|margin| {
            if let Some(first) = out.first_mut() {
                *first = margin;
            }
        }))
    }

    fn drawn(&self, corner: u32, first_bits: u64, second_bits: u64) -> u64 {
        let [first, second] = [first_bits, second_bits].map(f64::from_bits);
        let straight = corner == 0 || self.does(Fault::OneCorner) && corner != 1;
        let run = if straight {
            Run::Straight(first)
        } else {
            Run::Corner(first, second)
        };
        number_or_refusal(self.drawn_length(run))
    }

    fn printed(&self, record: &[u8]) -> String {
        if self.does(Fault::Silent) {
            String::new()
        } else {
            program_output(record)
        }
    }
}
