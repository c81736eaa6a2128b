//! The slips that are feared of moving a record into the other form (Req 02),
//! each made on purpose, to test the tests with. Nothing else uses this module.

use crate::moves::{moved, To};
use crate::net::{posts_but, Form, Net, Ratio, Refusal};
use crate::record::{number_bytes, numbers, read, write};

/// A slip in moving a record.
#[derive(Clone, Copy, Debug, PartialEq, Eq)]
pub enum MoveSlip {
    /// 20 by cross products: 2/2 is taken for 1/1.
    CrossProducts,
    /// 20 looks at the source too, which has no ratio.
    SourceAsked,
    /// 20 has the highest such post as place.
    HighestPost,
    /// 20 counts the ratios and not the posts.
    CountedRatios,
    /// 30 comes after 18.
    LateForm,
    /// 30 comes before the reader's refusals.
    EarlyForm,
    /// 18 comes before 20.
    EarlyRoom,
    /// A ratio is written for the source too.
    RatioForSource,
    /// Back drops the first 0 and two bytes for each post but one, and reads
    /// nothing.
    ByOffset,
    /// The room is written before 18 is ruled out.
    RoomTouched,
    /// Only the lowest seven bits of p are given to the posts.
    OneByteP,
    /// A net that isn't joined is refused with 9.
    JoinedOnly,
}

impl MoveSlip {
    /// All of them.
    pub const ALL: [MoveSlip; 12] = [
        MoveSlip::CrossProducts,
        MoveSlip::SourceAsked,
        MoveSlip::HighestPost,
        MoveSlip::CountedRatios,
        MoveSlip::LateForm,
        MoveSlip::EarlyForm,
        MoveSlip::EarlyRoom,
        MoveSlip::RatioForSource,
        MoveSlip::ByOffset,
        MoveSlip::RoomTouched,
        MoveSlip::OneByteP,
        MoveSlip::JoinedOnly,
    ];

    /// The slip with this name, as `Debug` writes it.
    pub fn named(name: &str) -> Option<MoveSlip> {
        MoveSlip::ALL
            .into_iter()
            .find(|slip| format!("{slip:?}") == name)
    }
}

/// Moves a record into the lent room with this slip.
pub fn slipped_moved_into(
    record: &[u8],
    to: To,
    room: &mut [u8],
    slip: MoveSlip,
) -> Result<usize, Refusal> {
    let bytes = slipped_moved(record, to, room.len(), slip)?;
    let fits = bytes.len().min(room.len());
    if fits == bytes.len() || slip == MoveSlip::RoomTouched {
        room[..fits].copy_from_slice(&bytes[..fits]);
    }
    if fits < bytes.len() {
        return Err(Refusal::new(18, 0));
    }
    Ok(fits)
}

/// What is to be put into a room of so many bytes, with this slip.
fn slipped_moved(record: &[u8], to: To, room: usize, slip: MoveSlip) -> Result<Vec<u8>, Refusal> {
    match (slip, record.first()) {
        (MoveSlip::EarlyForm, Some(&first)) if (first == 0) == (to == To::Second) => {
            return Err(Refusal::new(30, 0));
        }
        (MoveSlip::ByOffset, Some(0)) if to == To::First => return Ok(cut_by_offset(record)),
        _ => {}
    }
    let right = moved(record, to);
    let net = read(record)?;
    match slip {
        MoveSlip::LateForm if net.form() == to.form() => at_least(room, record.len()).and(right),
        MoveSlip::JoinedOnly => right.and_then(|moved| net.check_joined().map(|()| moved)),
        _ if net.form() == to.form() => right,
        MoveSlip::EarlyRoom if to == To::First => {
            at_least(room, written(&in_first(&net)).len()).and(right)
        }
        MoveSlip::RatioForSource | MoveSlip::OneByteP if to == To::Second => {
            Ok(slipped_second(&net, slip))
        }
        _ if to == To::Second => right,
        _ => match slipped_other(&net, slip) {
            Some(place) => Err(Refusal::new(20, place)),
            None => Ok(written(&in_first(&net))),
        },
    }
}

/// Refusal 18.
fn at_least(room: usize, needed: usize) -> Result<(), Refusal> {
    if room < needed {
        return Err(Refusal::new(18, 0));
    }
    Ok(())
}

fn in_first(net: &Net) -> Net {
    Net {
        own: None,
        ..net.clone()
    }
}

fn written(net: &Net) -> Vec<u8> {
    write(net).expect("it was read")
}

/// The record without its first byte and two bytes for each post but one, as if
/// every number had one byte.
fn cut_by_offset(record: &[u8]) -> Vec<u8> {
    let posts = record.get(1).copied().unwrap_or(1).max(1);
    let head = &record[1..record.len().clamp(1, 6)];
    let rest = record.get(6 + 2 * (usize::from(posts) - 1)..);
    [head, rest.unwrap_or_default()].concat()
}

/// The record in the second form, with a ratio for the source too or with p's
/// lowest seven bits for each post.
fn slipped_second(net: &Net, slip: MoveSlip) -> Vec<u8> {
    let (p, posts) = match slip {
        MoveSlip::OneByteP => (net.p % 128, net.posts - 1),
        _ => (net.p, net.posts),
    };
    let own = vec![Ratio::new(p, net.q); posts as usize];
    let own = Some(own);
    let numbers = numbers(&Net { own, ..net.clone() });
    numbers.into_iter().flat_map(number_bytes).collect()
}

/// The place of 20 with this slip, for a net of the second form.
fn slipped_other(net: &Net, slip: MoveSlip) -> Option<usize> {
    assert_eq!(net.form(), Form::Second);
    let house = net.house();
    let differs = |ratio: Ratio| match slip {
        MoveSlip::CrossProducts => ratio.is_below(house) || house.is_below(ratio),
        _ => ratio != house,
    };
    let own = net.own.iter().flatten().copied();
    let mut others: Vec<usize> = match slip {
        MoveSlip::CountedRatios => (0..).zip(own).collect::<Vec<_>>(),
        _ => {
            let posts = posts_but(net.source, net.posts);
            posts.map(|post| post as usize).zip(own).collect()
        }
    }
    .into_iter()
    .filter_map(|(place, ratio)| differs(ratio).then_some(place))
    .collect();
    if slip == MoveSlip::SourceAsked {
        others.push(net.source as usize);
        others.sort_unstable();
    }
    match slip {
        MoveSlip::HighestPost => others.last().copied(),
        _ => others.first().copied(),
    }
}
