//! Plans wire looms: safe functions over Droverboot's proved static library.
//!
//! A *net* is a number of posts, a source post, a house ratio p/q and a list of
//! segments; a segment joins two posts and has a length in sixteenths of a
//! millimetre. In the *first form* the house ratio rules every post; in the
//! *second form* every post but the source has a ratio of its own, and the house
//! ratio rules nothing. A net comes as a *record*, a row of bytes; that of the
//! second form begins with 0. From it the library builds three trees that hang
//! every post on the source: the lightest, the shortest, and one between them
//! that keeps each path within (p + q)/q of the least, p/q being the ratio that
//! rules the post, and its length near that of the lightest.
//!
//! ```
//! use droverboot::{plan, Tree};
//!
//! // Four posts, source 0, ratio 1/1, five segments.
//! let record = [4, 0, 1, 1, 5, 0, 1, 4, 1, 2, 4, 2, 3, 4, 0, 3, 5, 0, 2, 6];
//! let plan = plan(&record)?;
//! assert_eq!(plan.lightest.length, 12);
//! assert_eq!(plan.shortest.radius, 6);
//! assert_eq!(plan.tree(Tree::Between).segment_of(3), Some(3));
//! assert_eq!(plan.laid, 1);
//! # Ok::<(), droverboot::Refusal>(())
//! ```
//!
//! Whatever can't be done is refused with a [`Refusal`]: a reason, which has a
//! number, and a place. No record, run or list makes a function fail otherwise.
//!
//! The crate links the archive that `tools/library` writes in its repository,
//! or the one whose whole path the environment variable DROVER_LIBRARY gives. It
//! is for x86-64; for another processor nothing is linked, and the crate can be
//! checked and run only as far as it calls no function of the library
//! (`cargo test --lib`).

#![deny(missing_docs)]
#![deny(unsafe_op_in_unsafe_fn)]

#[cfg(test)]
mod header;
mod plan;
pub mod raw;
mod refusal;

pub use plan::{BuiltTree, Plan, Tree, SOURCE_ENTRY};
pub use refusal::{Reason, Refusal};

use refusal::{nothing_or_refusal, number_or_refusal};

/// The most posts that a net may have.
pub const MOST_POSTS: usize = 256;
/// The most segments that a net may have.
pub const MOST_SEGMENTS: usize = 2_048;
/// The length of the longest good record.
pub const LONGEST_RECORD: usize = 15_367;
/// The greatest length of a segment or a run, in sixteenths of a millimetre.
pub const MOST_LENGTH: u32 = 1_048_575;

/// A run as it is drawn; its lengths are millimetres.
#[derive(Clone, Copy, Debug, PartialEq)]
pub enum Run {
    /// A straight run with one length.
    Straight(f64),
    /// A corner with two legs.
    Corner(f64, f64),
}

/// Reads a record and says whether it is good: [`plan`] can then only be
/// refused because a post isn't joined to the source.
///
/// # Errors
/// The reader's refusal: numbers 1 to 7 and 10 to 12.
pub fn check(record: &[u8]) -> Result<(), Refusal> {
    nothing_or_refusal(raw::check(record))
}

/// Reads a record and builds its three trees.
///
/// # Errors
/// The reader's refusals, and number 9 if some post isn't joined to the source.
pub fn plan(record: &[u8]) -> Result<Plan, Refusal> {
    let mut lists = [[0; MOST_POSTS]; 3];
    let mut summary = [0; raw::SUMMARY];
    let [lightest, shortest, between] = &mut lists;
    let answer = raw::plan(record, lightest, shortest, between, &mut summary);
    nothing_or_refusal(answer)?;
    Ok(Plan::from_lists(&lists, summary))
}

/// Reads a record and writes it anew. There is one record for each net, so the
/// bytes come back as they were.
///
/// # Errors
/// The reader's refusals.
pub fn rewrite(record: &[u8]) -> Result<Vec<u8>, Refusal> {
    let mut room = vec![0; record.len()];
    let length = rewrite_into(record, &mut room)?;
    room.truncate(length);
    Ok(room)
}

/// Reads a record, writes it into `room` from its first byte on, and says how
/// many bytes it took. The bytes beyond stay as they were, and after a refusal
/// all of them do.
///
/// # Errors
/// The reader's refusals, and number 18 if the room is too short.
pub fn rewrite_into(record: &[u8], room: &mut [u8]) -> Result<usize, Refusal> {
    // Never above the room's own length, so nothing is lost.
    number_or_refusal(raw::rewrite(record, room)).map(|length| length as usize)
}

/// Reads a record of the first form and writes it in the second: every post but
/// the source has the house ratio as its own. The net needn't be joined, and
/// plans as before.
///
/// # Errors
/// The reader's refusals, and number 30 if the record is of the second form.
///
/// ```
/// use droverboot::{to_first, to_second};
///
/// // Two posts, source 0, house ratio 1/2, one segment of length 300.
/// let record = [2, 0, 1, 2, 1, 0, 1, 172, 2];
/// let moved = to_second(&record)?;
/// assert_eq!(moved, [0, 2, 0, 1, 2, 1, 1, 2, 0, 1, 172, 2]);
/// assert_eq!(to_first(&moved)?, record);
/// # Ok::<(), droverboot::Refusal>(())
/// ```
pub fn to_second(record: &[u8]) -> Result<Vec<u8>, Refusal> {
    let mut room = vec![0; LONGEST_RECORD];
    let length = to_second_into(record, &mut room)?;
    room.truncate(length);
    Ok(room)
}

/// Does what [`to_second`] does, into `room` from its first byte on, and says how
/// many bytes it took. The bytes beyond stay as they were, and after a refusal
/// all of them do.
///
/// # Errors
/// The refusals of [`to_second`], and number 18 if the room is too short.
pub fn to_second_into(record: &[u8], room: &mut [u8]) -> Result<usize, Refusal> {
    // Never above the room's own length, so nothing is lost.
    number_or_refusal(raw::to_second(record, room)).map(|length| length as usize)
}

/// Reads a record of the second form and writes it in the first, which is
/// possible exactly if every post's own p and q are the house p and q, as
/// numbers: 2/2 isn't 1/1. After [`to_second`] it gives the old bytes.
///
/// # Errors
/// The reader's refusals, number 30 if the record is of the first form, and
/// number 20, at the lowest post with another ratio.
pub fn to_first(record: &[u8]) -> Result<Vec<u8>, Refusal> {
    // It is shorter than the record was.
    let mut room = vec![0; record.len()];
    let length = to_first_into(record, &mut room)?;
    room.truncate(length);
    Ok(room)
}

/// Does what [`to_first`] does, into `room` from its first byte on, and says how
/// many bytes it took. The bytes beyond stay as they were, and after a refusal
/// all of them do.
///
/// # Errors
/// The refusals of [`to_first`], and number 18 if the room is too short.
pub fn to_first_into(record: &[u8], room: &mut [u8]) -> Result<usize, Refusal> {
    // Never above the room's own length, so nothing is lost.
    number_or_refusal(raw::to_first(record, room)).map(|length| length as usize)
}

/// The margin of a post in one of a record's trees, worked out afresh:
/// (p + q) × least length minus q × path in the tree, p/q being the ratio that
/// rules the post. It is below zero exactly when the post breaks the limit, and 0
/// for the source.
///
/// # Errors
/// The refusals of [`plan`], and number 19 if there is no such post.
pub fn margin(record: &[u8], tree: Tree, post: u32) -> Result<i64, Refusal> {
    let mut out = [0];
    nothing_or_refusal(raw::margin(record, tree.number(), post, &mut out))?;
    Ok(out[0])
}

/// The length of a drawn run in sixteenths of a millimetre, each leg rounded up
/// to the next whole one: at least 16 times the exact length and less than 1
/// above it, of a corner less than 2.
///
/// # Errors
/// Numbers 13, 14, 15 and 17; the place says which leg, or 2 for both together.
///
/// ```
/// use droverboot::{drawn, Reason, Run};
///
/// assert_eq!(drawn(Run::Straight(12.5)), Ok(200));
/// assert_eq!(drawn(Run::Straight(0.1)), Ok(2));
/// let refusal = drawn(Run::Straight(65_535.95)).unwrap_err();
/// assert_eq!(refusal.reason, Reason::TooLong);
/// ```
pub fn drawn(run: Run) -> Result<u32, Refusal> {
    let answer = match run {
        Run::Straight(length) => raw::drawn(0, length.to_bits(), 0),
        Run::Corner(first, second) => raw::drawn(1, first.to_bits(), second.to_bits()),
    };
    // At most MOST_LENGTH, so nothing is lost.
    number_or_refusal(answer).map(|length| length as u32)
}
