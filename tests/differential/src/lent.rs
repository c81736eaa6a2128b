//! Lent lists full of canaries, between guards that aren't lent.

use generate::Random;

/// Entries on either side of what is lent.
const GUARD: usize = 4;

/// An entry made of any bits.
pub trait Entry: Copy {
    /// The entry with the lowest of these bits.
    fn of_bits(bits: u64) -> Self;
}

impl Entry for u8 {
    fn of_bits(bits: u64) -> Self {
        bits as u8
    }
}

impl Entry for u16 {
    fn of_bits(bits: u64) -> Self {
        bits as u16
    }
}

impl Entry for u32 {
    fn of_bits(bits: u64) -> Self {
        bits as u32
    }
}

impl Entry for i64 {
    fn of_bits(bits: u64) -> Self {
        bits as i64
    }
}

/// A list to lend, with what stands before and after it. Two of them are equal
/// only if the guards are too.
#[derive(Clone, Debug, PartialEq)]
pub struct Lent<T> {
    all: Vec<T>,
}

impl<T: Entry> Lent<T> {
    /// A list of canaries.
    pub fn canaries(random: &mut Random, length: usize) -> Self {
        let entries = length + 2 * GUARD;
        Lent {
            all: (0..entries).map(|_| T::of_bits(random.bits())).collect(),
        }
    }

    /// A list that holds these entries.
    pub fn holding(random: &mut Random, entries: &[T]) -> Self {
        let mut lent = Lent::canaries(random, entries.len());
        lent.part().copy_from_slice(entries);
        lent
    }

    /// What is lent.
    pub fn part(&mut self) -> &mut [T] {
        let end = self.all.len() - GUARD;
        &mut self.all[GUARD..end]
    }
}

#[cfg(test)]
mod tests {
    use super::*;

    #[test]
    fn a_change_before_in_or_after_what_is_lent_shows() {
        let lent = Lent::holding(&mut Random::new(1), &[1_u16, 2, 3]);
        for at in 0..lent.all.len() {
            let mut changed = lent.clone();
            changed.all[at] ^= 1;
            assert!(changed != lent, "{at}");
        }
        assert_eq!(lent.clone().part(), [1, 2, 3]);
        assert_eq!(lent.all.len(), 3 + 2 * GUARD);
    }
}
