//! Records of nets, and damaged ones.

use reference::net::MOST_RATIO;
use reference::record::{number_bytes, numbers, MOST_GROUPS};
use reference::{Form, Net};

use crate::faults::{own_of, spoil, Fault};
use crate::random::Random;

/// What is done to a record.
#[derive(Clone, Copy, Debug, PartialEq, Eq, Hash)]
pub enum Damage {
    /// It is cut short at any byte.
    Cut,
    /// Bytes are put after it.
    Extra,
    /// A number isn't in its shortest form.
    Padded,
    /// A number has four groups that all say that more follow.
    Endless,
    /// The same, and the record ends in or right after that number.
    EndlessCut,
    /// A number is replaced by any other.
    Replaced,
    /// One to three bytes are changed.
    Changed,
    /// A byte is taken out.
    Removed,
    /// A byte is put in.
    Inserted,
    /// Two numbers change places.
    Swapped,
    /// The segment count is above the number of segments that follow.
    HighCount,
    /// The segment count is below the number of segments that follow.
    LowCount,
    /// The record has a first number 0 too many, or lacks it.
    OtherForm,
    /// A record of the second form has one own ratio too few, or too many.
    OtherRatios,
    /// A post's own p is above 10,000, and the record ends before its q or
    /// inside it, or q isn't in its shortest form.
    LargeAndCut,
    /// The net has a fault.
    Unsound,
    /// The net has two faults.
    TwiceUnsound,
    /// The net has a fault, and the record is cut or a number is padded.
    UnsoundAndDamaged,
    /// No record at all, but any bytes.
    Noise,
    /// A record near the most bytes that the program reads, or above.
    Long,
}

impl Damage {
    /// All of them.
    pub const ALL: [Damage; 20] = [
        Damage::Cut,
        Damage::Extra,
        Damage::Padded,
        Damage::Endless,
        Damage::EndlessCut,
        Damage::Replaced,
        Damage::Changed,
        Damage::Removed,
        Damage::Inserted,
        Damage::Swapped,
        Damage::HighCount,
        Damage::LowCount,
        Damage::OtherForm,
        Damage::OtherRatios,
        Damage::LargeAndCut,
        Damage::Unsound,
        Damage::TwiceUnsound,
        Damage::UnsoundAndDamaged,
        Damage::Noise,
        Damage::Long,
    ];
}

/// The record of a net, sound or not, whose numbers are all below 2^28.
pub fn encode(net: &Net) -> Vec<u8> {
    numbers(net).into_iter().flat_map(number_bytes).collect()
}

/// Every record that is cut from this one, the empty one first.
pub fn every_cut(record: &[u8]) -> impl Iterator<Item = &[u8]> {
    (0..record.len()).map(|length| &record[..length])
}

/// A number in more groups than it needs, if that can be done.
pub fn padded(random: &mut Random, value: u32) -> Option<Vec<u8>> {
    let mut bytes = number_bytes(value);
    let more = MOST_GROUPS.checked_sub(bytes.len() + 1)?;
    let groups = bytes.len() + 1 + random.index(more + 1);
    bytes.resize(groups, 0);
    let last = bytes.len() - 1;
    for byte in &mut bytes[..last] {
        *byte |= 128;
    }
    Some(bytes)
}

/// Four groups that all say that more follow.
fn endless(random: &mut Random) -> [u8; MOST_GROUPS] {
    [0; MOST_GROUPS].map(|_| random.from_to(128, 255) as u8)
}

/// Any number that a record can hold, of any length.
fn any_number(random: &mut Random) -> u32 {
    let bits = random.from_to(1, 28);
    match random.below(4) {
        0 => (1 << bits) - 1,
        1 => (1 << bits) >> 1,
        _ => random.below(1 << bits),
    }
}

/// How many numbers the head of a net's record has.
fn head_numbers(net: &Net) -> usize {
    match net.form() {
        Form::First => 5,
        Form::Second => 6,
    }
}

/// A place among the numbers of a net's record; often in the head, and often in
/// the own ratios.
fn any_place(random: &mut Random, net: &Net) -> usize {
    let head = head_numbers(net);
    let own = net.own.as_ref().map_or(0, |own| 2 * own.len());
    match random.below(4) {
        0 => random.index(head),
        1 if own > 0 => head + random.index(own),
        1 => random.index(head),
        _ => random.index(numbers(net).len()),
    }
}

/// The net in the second form, with the house ratio for each post if it isn't.
fn in_second_form(net: &Net) -> Net {
    let mut net = net.clone();
    own_of(&mut net);
    net
}

/// The record of a net in the second form with one own ratio too few or too
/// many.
fn with_other_ratios(random: &mut Random, net: &Net) -> Vec<u8> {
    let mut net = in_second_form(net);
    let house = net.house();
    let own = own_of(&mut net);
    if own.is_empty() || random.chance(1, 2) {
        let at = random.index(own.len() + 1);
        let any = own.first().copied().unwrap_or(house);
        own.insert(at, any);
    } else {
        own.remove(random.index(own.len()));
    }
    encode(&net)
}

/// The record of a net in the second form up to a post's own p, which is too
/// large, with a q after it that is missing, cut or padded.
fn large_and_cut(random: &mut Random, net: &Net) -> Vec<u8> {
    let net = in_second_form(net);
    let own = net.own.as_ref().map_or(0, Vec::len);
    let post = random.index(own.max(1));
    let mut list = numbers(&net);
    list.truncate(6 + 2 * post);
    list.push(random.from_to(MOST_RATIO + 1, MOST_RATIO + 9));
    let mut record: Vec<u8> = list.into_iter().flat_map(number_bytes).collect();
    let endings: [&[u8]; 5] = [&[], &[128], &[255, 128], &[128, 0], &[129, 128, 0, 1]];
    record.extend(random.pick(&endings));
    record
}

/// The record with the bytes of one number put in place of another's.
fn with_bytes_at(numbers: &[u32], place: usize, bytes: &[u8]) -> Vec<u8> {
    let mut record = Vec::new();
    for (at, &number) in numbers.iter().enumerate() {
        if at == place {
            record.extend(bytes);
        } else {
            record.extend(number_bytes(number));
        }
    }
    record
}

fn with_fault(random: &mut Random, net: &Net, faults: usize) -> Net {
    let mut net = net.clone();
    for _ in 0..faults {
        let fault = random.pick(&Fault::ALL);
        spoil(random, &mut net, fault);
    }
    net
}

/// A long record of either form: the longest head, the longest own ratios and
/// 2,047 segments of seven bytes each, and then any ending.
fn long(random: &mut Random) -> Vec<u8> {
    let mut numbers = vec![256, 255, 10_000, 10_000, 2_048];
    if random.chance(1, 2) {
        numbers.insert(0, 0);
        numbers.extend([MOST_RATIO; 510]);
    }
    for number in 0..2_047 {
        numbers.extend([128 + number % 127, 255, 1_048_575]);
    }
    let mut record: Vec<u8> = numbers.into_iter().flat_map(number_bytes).collect();
    for _ in 0..3 {
        match random.below(4) {
            0 => record.extend(number_bytes(random.from_to(128, 255))),
            1 => record.extend(endless(random)),
            2 => record.extend([255, 255, 255, 127]),
            _ => record.extend(number_bytes(any_number(random))),
        }
    }
    for _ in 0..random.pick(&[0, 0, 1, 2, 5, 100, 1_000]) {
        record.push(random.below(256) as u8);
    }
    record
}

/// The record of this net with this damage done to it.
pub fn damaged(random: &mut Random, net: &Net, damage: Damage) -> Vec<u8> {
    let list = numbers(net);
    let mut record = encode(net);
    match damage {
        Damage::Cut => record.truncate(random.index(record.len())),
        Damage::Extra => {
            for _ in 0..random.pick(&[1, 1, 2, 3, 12]) {
                record.push(random.pick(&[0, 1, 127, 128, 255]));
            }
        }
        Damage::Padded => {
            let place = any_place(random, net);
            if let Some(bytes) = padded(random, list[place]) {
                record = with_bytes_at(&list, place, &bytes);
            }
        }
        Damage::Endless | Damage::EndlessCut => {
            let place = any_place(random, net);
            let bytes = endless(random);
            record = with_bytes_at(&list, place, &bytes);
            if damage == Damage::EndlessCut {
                let before = with_bytes_at(&list[..place], place, &[]).len();
                record.truncate(before + random.index(MOST_GROUPS + 1));
            }
        }
        Damage::Replaced => {
            let place = any_place(random, net);
            let bytes = number_bytes(any_number(random));
            record = with_bytes_at(&list, place, &bytes);
        }
        Damage::Changed => {
            for _ in 0..random.from_to(1, 3) {
                let at = random.index(record.len());
                record[at] ^= random.from_to(1, 255) as u8;
            }
        }
        Damage::Removed => {
            record.remove(random.index(record.len()));
        }
        Damage::Inserted => {
            let at = random.index(record.len() + 1);
            record.insert(at, random.below(256) as u8);
        }
        Damage::Swapped => {
            let mut list = list;
            let (first, second) = (any_place(random, net), random.index(list.len()));
            list.swap(first, second);
            record = list.into_iter().flat_map(number_bytes).collect();
        }
        Damage::HighCount => {
            let place = head_numbers(net) - 1;
            let count = list[place] + random.pick(&[1, 1, 2, 30, 2_048]);
            record = with_bytes_at(&list, place, &number_bytes(count));
        }
        Damage::LowCount => {
            let place = head_numbers(net) - 1;
            let count = list[place].saturating_sub(random.pick(&[1, 1, 2, 30]));
            record = with_bytes_at(&list, place, &number_bytes(count));
        }
        Damage::OtherForm => match net.form() {
            Form::First => record.insert(0, 0),
            Form::Second => {
                record.remove(0);
            }
        },
        Damage::OtherRatios => record = with_other_ratios(random, net),
        Damage::LargeAndCut => record = large_and_cut(random, net),
        Damage::Unsound => record = encode(&with_fault(random, net, 1)),
        Damage::TwiceUnsound => record = encode(&with_fault(random, net, 2)),
        Damage::UnsoundAndDamaged => {
            let net = with_fault(random, net, 1);
            let second = random.pick(&[
                Damage::Cut,
                Damage::Extra,
                Damage::Padded,
                Damage::Endless,
                Damage::HighCount,
                Damage::LowCount,
            ]);
            record = damaged(random, &net, second);
        }
        Damage::Noise => {
            record.clear();
            for _ in 0..random.below(40) {
                let any = random.below(256) as u8;
                record.push(random.pick(&[any, any, 0, 1, 2, 128]));
            }
        }
        Damage::Long => record = long(random),
    }
    record
}

/// The record of this net with any damage done to it.
pub fn any_damaged(random: &mut Random, net: &Net) -> Vec<u8> {
    // Long records take longest, and few of them say all that they can.
    let damage = match random.pick(&Damage::ALL) {
        Damage::Long if random.chance(3, 4) => Damage::Cut,
        damage => damage,
    };
    damaged(random, net, damage)
}
