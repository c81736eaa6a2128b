//! Moving a record into the other form and back (Req 02): refusals 30 and 20.
//!
//! A record that the reader finds good is moved as the row of bytes that it is,
//! and no net is written: forward, the house ratio's bytes are put in once for
//! each post but the source; back, they are cut out again. There is one row of
//! bytes for each number, so two ratios are equal as numbers exactly if their
//! bytes are.

use crate::net::{posts_but, Form, Net, Refusal};
use crate::record::{read, read_number};

/// The form into which a record is moved.
#[derive(Clone, Copy, Debug, PartialEq, Eq, PartialOrd, Ord)]
pub enum To {
    /// Each post is given the house ratio.
    Second,
    /// The posts' ratios, all of them the house ratio, are left out.
    First,
}

impl To {
    /// Both of them.
    pub const ALL: [To; 2] = [To::Second, To::First];

    /// The other way.
    pub fn back(self) -> To {
        match self {
            To::Second => To::First,
            To::First => To::Second,
        }
    }

    /// The form that is wanted.
    pub fn form(self) -> Form {
        match self {
            To::Second => Form::Second,
            To::First => Form::First,
        }
    }
}

/// Where each number of a good record begins, and where the last one ends.
fn offsets(record: &[u8]) -> Vec<usize> {
    let mut offsets = vec![0];
    while let Ok((_, next)) = read_number(record, offsets[offsets.len() - 1]) {
        offsets.push(next);
    }
    offsets
}

/// Moves a record into the other form: the reader's refusals, then 30, then,
/// going back, 20.
pub fn moved(record: &[u8], to: To) -> Result<Vec<u8>, Refusal> {
    let net = read(record)?;
    if net.form() == to.form() {
        return Err(Refusal::new(30, 0));
    }
    match to {
        To::Second => Ok(with_ratios(record, &net)),
        To::First => without_ratios(record, &net),
    }
}

/// A good record of the first form with a 0 before it, and after its head the
/// house ratio once for each post but the source.
fn with_ratios(record: &[u8], net: &Net) -> Vec<u8> {
    let at = offsets(record);
    let (head, segments) = record.split_at(at[5]);
    let house = &record[at[2]..at[4]];
    let own = house.repeat(net.posts as usize - 1);
    [&[0], head, &own, segments].concat()
}

/// A good record of the second form without its first 0 and its own ratios, if
/// the bytes of each are those of the house ratio.
fn without_ratios(record: &[u8], net: &Net) -> Result<Vec<u8>, Refusal> {
    let at = offsets(record);
    let house = &record[at[3]..at[5]];
    let mut end = 6;
    for post in posts_but(net.source, net.posts) {
        if record[at[end]..at[end + 2]] != *house {
            return Err(Refusal::new(20, post as usize));
        }
        end += 2;
    }
    Ok([&record[1..at[6]], &record[at[end]..]].concat())
}

/// Moves a record into the other form, into the lent room, and says how long it
/// is then: the refusals of [`moved`], then 18. Bytes beyond it stay as they
/// were, and after a refusal all of them do.
pub fn moved_into(record: &[u8], to: To, room: &mut [u8]) -> Result<usize, Refusal> {
    let moved = moved(record, to)?;
    if room.len() < moved.len() {
        return Err(Refusal::new(18, 0));
    }
    room[..moved.len()].copy_from_slice(&moved);
    Ok(moved.len())
}
