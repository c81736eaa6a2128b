//! What was compared, and how often.

use std::collections::BTreeMap;

use reference::{broken_bound, Net, Refusal, To, Trees};

use crate::cases::Kind;
use crate::run::Difference;

/// How a move of a record ended.
#[derive(Clone, Copy, Debug, PartialEq, Eq, PartialOrd, Ord)]
pub enum Ending {
    /// It was moved.
    Moved,
    /// A refusal of the reader's.
    Reader,
    /// 30.
    SameForm,
    /// 20.
    OtherRatio,
    /// 18.
    ShortRoom,
    /// It was moved, and what was moved came home again byte for byte.
    Home,
}

impl Ending {
    /// All of them.
    pub const ALL: [Ending; 6] = [
        Ending::Moved,
        Ending::Reader,
        Ending::SameForm,
        Ending::OtherRatio,
        Ending::ShortRoom,
        Ending::Home,
    ];

    /// The ending of a move with this answer.
    pub fn of<T>(answer: &Result<T, Refusal>) -> Ending {
        match answer {
            Ok(_) => Ending::Moved,
            Err(Refusal { number: 30, .. }) => Ending::SameForm,
            Err(Refusal { number: 20, .. }) => Ending::OtherRatio,
            Err(Refusal { number: 18, .. }) => Ending::ShortRoom,
            Err(_) => Ending::Reader,
        }
    }
}

/// Counts over all that was compared.
#[derive(Default)]
pub struct Counts {
    nets: u64,
    damaged: u64,
    second_form: u64,
    built: u64,
    /// How many margins were compared.
    pub margins: u64,
    /// How many drawn runs were compared.
    pub runs: u64,
    refused: BTreeMap<u32, u64>,
    moves: BTreeMap<(To, Ending), u64>,
}

impl Counts {
    /// Counts a record; one of the second form begins with 0.
    pub fn record(&mut self, kind: Kind, record: &[u8]) {
        match kind {
            Kind::Net => self.nets += 1,
            Kind::Damaged => self.damaged += 1,
        }
        self.second_form += u64::from(record.first() == Some(&0));
    }

    /// Counts an answer that was right and, if it is one, the refusal in it.
    pub fn answer<T>(&mut self, answer: &Result<T, Refusal>) {
        if let Err(refusal) = answer {
            *self.refused.entry(refusal.number).or_default() += 1;
        }
    }

    /// Counts how a move ended.
    pub fn moved(&mut self, to: To, ending: Ending) {
        *self.moves.entry((to, ending)).or_default() += 1;
    }

    /// Counts the trees of a net that a subject built, after holding them to the
    /// bounds by the reference's own sums.
    pub fn trees(&mut self, net: &Net, trees: &Trees) -> Result<(), Difference> {
        self.built += 1;
        match broken_bound(net, trees) {
            None => Ok(()),
            Some(broken) => Err(Difference::new("bounds", "all bounds hold", broken)),
        }
    }

    /// Adds what another thread counted.
    pub fn add(&mut self, other: Counts) {
        self.nets += other.nets;
        self.damaged += other.damaged;
        self.second_form += other.second_form;
        self.built += other.built;
        self.margins += other.margins;
        self.runs += other.runs;
        for (number, count) in other.refused {
            *self.refused.entry(number).or_default() += count;
        }
        for (ending, count) in other.moves {
            *self.moves.entry(ending).or_default() += count;
        }
    }

    /// The first of these refusals that was never met.
    pub fn never_met(&self, numbers: &[u32]) -> Option<u32> {
        let met = |number: &u32| self.refused.contains_key(number);
        numbers.iter().copied().find(|number| !met(number))
    }

    /// The first of these endings that no move to some form met, though it can be
    /// met: forward, 20 is never given.
    pub fn never_ended(&self, endings: &[Ending]) -> Option<(To, Ending)> {
        let ways = To::ALL.map(|to| endings.iter().map(move |&ending| (to, ending)));
        let mut given = ways
            .into_iter()
            .flatten()
            .filter(|&way| way != (To::Second, Ending::OtherRatio));
        given.find(|way| !self.moves.contains_key(way))
    }

    /// Prints what was compared, all of it equal.
    pub fn report(&self, subject: &str) {
        let refused: Vec<String> = self
            .refused
            .iter()
            .map(|(number, count)| format!("{number}: {count}"))
            .collect();
        println!("refusals met: {}", refused.join(", "));
        println!("{} records of the second form", self.second_form);
        println!("bounds hold on the trees of {} built nets", self.built);
        if self.margins + self.runs > 0 {
            println!("{} margins, {} drawn runs", self.margins, self.runs);
        }
        for to in To::ALL {
            let ended = self.moves.iter().filter(|((form, _), _)| *form == to);
            let ended: Vec<String> = ended
                .map(|((_, ending), count)| format!("{ending:?} {count}"))
                .collect();
            if !ended.is_empty() {
                println!("moves to the form {to:?}: {}", ended.join(", "));
            }
        }
        println!(
            "{} nets and {} damaged records compared with {subject}: all equal",
            self.nets, self.damaged
        );
    }
}

#[cfg(test)]
mod tests {
    use super::*;
    use reference::three_trees;
    use reference::worked::net_a;

    #[test]
    fn a_refusal_that_was_never_met_shows() {
        let mut counts = Counts::default();
        counts.answer(&Ok(1));
        counts.answer::<()>(&Err(Refusal::new(9, 1)));
        counts.answer::<()>(&Err(Refusal::new(12, 5)));
        assert_eq!(counts.never_met(&[9, 12]), None);
        assert_eq!(counts.never_met(&[9, 10, 12]), Some(10));
    }

    #[test]
    fn an_ending_of_moves_that_was_never_met_shows() {
        let all = To::ALL.map(|to| Ending::ALL.map(|ending| (to, ending)));
        let all: Vec<_> = all.into_iter().flatten().collect();
        for left_out in &all {
            let mut counts = Counts::default();
            for &(to, ending) in all.iter().filter(|way| *way != left_out) {
                counts.moved(to, ending);
            }
            let needed = *left_out != (To::Second, Ending::OtherRatio);
            assert_eq!(
                counts.never_ended(&Ending::ALL),
                needed.then_some(*left_out)
            );
            assert_eq!(counts.never_ended(&[]), None);
        }
    }

    #[test]
    fn endings_are_told_by_the_number() {
        let refused = |number| Ending::of::<()>(&Err(Refusal::new(number, 0)));
        assert_eq!(Ending::of(&Ok(5)), Ending::Moved);
        assert_eq!(refused(30), Ending::SameForm);
        assert_eq!(refused(20), Ending::OtherRatio);
        assert_eq!(refused(18), Ending::ShortRoom);
        assert_eq!(refused(12), Ending::Reader);
    }

    #[test]
    fn trees_that_break_a_bound_are_a_difference() {
        let net = net_a((1, 1));
        let right = three_trees(&net).expect("sound and joined");
        let mut counts = Counts::default();
        assert!(counts.trees(&net, &right).is_ok());
        // The path of post 3 in the lightest tree is above its limit.
        let slipped = Trees {
            between: right.lightest.clone(),
            ..right
        };
        assert!(counts.trees(&net, &slipped).is_err());
    }
}
