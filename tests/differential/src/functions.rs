//! The functions of the static library, as they answer.
//!
//! A refusal is its number × 2^32 + its place. The crate `droverboot` says what
//! each of them does.

use reference::{Built, Net, Refusal, To};

/// The library's functions, from wherever they come.
pub trait Functions: Sync {
    /// What they are, in words.
    fn name(&self) -> &str;

    /// Reads a record: 0, or the refusal.
    fn check(&self, record: &[u8]) -> u64;

    /// Reads a record and builds its trees into three lists, and its numbers
    /// into the summary: 0, or the refusal.
    fn plan(
        &self,
        record: &[u8],
        lightest: &mut [u16],
        shortest: &mut [u16],
        between: &mut [u16],
        summary: &mut [u32],
    ) -> u64;

    /// Reads a record and writes it: the length, or 2^63 + the refusal.
    fn rewrite(&self, record: &[u8], room: &mut [u8]) -> u64;

    /// Reads a record and writes it in the other form: the length, or 2^63 + the
    /// refusal.
    fn moved(&self, record: &[u8], to: To, room: &mut [u8]) -> u64;

    /// Reads a record and puts the margin of a post in a tree into the first
    /// entry of `out`: 0, or the refusal.
    fn margin(&self, record: &[u8], tree: u32, post: u32, out: &mut [i64]) -> u64;

    /// Turns a drawn run into a length: the length, or 2^63 + the refusal.
    fn drawn(&self, corner: u32, first_bits: u64, second_bits: u64) -> u64;

    /// What the bindings print for a record, in the program's form.
    fn printed(&self, record: &[u8]) -> String;
}

/// The name of the function that moves a record.
pub fn name_of_move(to: To) -> &'static str {
    match to {
        To::Second => "drover_to_second",
        To::First => "drover_to_first",
    }
}

/// How many numbers a summary has.
pub const SUMMARY: usize = 12;

/// The numbers of a summary.
pub fn summary(net: &Net, built: &Built) -> [u32; SUMMARY] {
    let small = |number: u64| u32::try_from(number).expect("lengths are small");
    [
        net.posts,
        net.segments.len() as u32,
        net.source,
        net.p,
        net.q,
        small(built.lightest.length),
        small(built.lightest.radius),
        small(built.shortest.length),
        small(built.shortest.radius),
        small(built.between.length),
        small(built.between.radius),
        built.laid,
    ]
}

fn refused(refusal: Refusal) -> u64 {
    u64::from(refusal.number) << 32 | u64::from(refusal.place)
}

/// The answer of a function that answers 0 or the refusal.
pub fn nothing_or_refusal(result: Result<(), Refusal>) -> u64 {
    match result {
        Ok(()) => 0,
        Err(refusal) => refused(refusal),
    }
}

/// The answer of a function that answers a number, or 2^63 + the refusal.
pub fn number_or_refusal(result: Result<u64, Refusal>) -> u64 {
    match result {
        Ok(number) => number,
        Err(refusal) => 1 << 63 | refused(refusal),
    }
}

#[cfg(feature = "library")]
pub use linked::Linked;

#[cfg(feature = "library")]
mod linked {
    use droverboot::{plan, raw};
    use reference::To;

    use super::Functions;

    /// The functions of the static library that is linked.
    pub struct Linked;

    impl Functions for Linked {
        fn name(&self) -> &str {
            "the library"
        }

        fn check(&self, record: &[u8]) -> u64 {
            raw::check(record)
        }

        fn plan(
            &self,
            record: &[u8],
            lightest: &mut [u16],
            shortest: &mut [u16],
            between: &mut [u16],
            summary: &mut [u32],
        ) -> u64 {
            raw::plan(record, lightest, shortest, between, summary)
        }

        fn rewrite(&self, record: &[u8], room: &mut [u8]) -> u64 {
            raw::rewrite(record, room)
        }

        fn moved(&self, record: &[u8], to: To, room: &mut [u8]) -> u64 {
            match to {
                To::Second => raw::to_second(record, room),
                To::First => raw::to_first(record, room),
            }
        }

        fn margin(&self, record: &[u8], tree: u32, post: u32, out: &mut [i64]) -> u64 {
            raw::margin(record, tree, post, out)
        }

        fn drawn(&self, corner: u32, first_bits: u64, second_bits: u64) -> u64 {
            raw::drawn(corner, first_bits, second_bits)
        }

        fn printed(&self, record: &[u8]) -> String {
            match plan(record) {
                Ok(plan) => plan.to_string(),
                Err(refusal) => refusal.line() + "\n",
            }
        }
    }
}
