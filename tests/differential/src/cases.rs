//! The records on which a subject is compared with the reference.

use generate::records::every_cut;
use generate::{
    any_damaged, any_net, damaged, encode, net_of, special_nets, spoil, worked_nets, Damage, Fault,
    Random, Shape,
};
use reference::worked::{
    built_of_second_form, moves, net_a, net_a_own, net_b, net_c, two_posts, RECORD_A,
    REFUSED_OF_SECOND_FORM,
};
use reference::{read, Net};

/// Whether a case's record is that of a sound net, or a damaged one.
#[derive(Clone, Copy, Debug, PartialEq, Eq)]
pub enum Kind {
    /// The record of a sound net, joined or not.
    Net,
    /// A damaged record, or that of an unsound net.
    Damaged,
}

/// One input.
#[derive(Clone, Debug)]
pub struct Case {
    /// Where it comes from, in words.
    pub name: String,
    /// Net or damaged record.
    pub kind: Kind,
    /// The record.
    pub record: Vec<u8>,
    /// What else the comparison draws at random for this case.
    pub random: Random,
}

/// A net whose numbers take as many bytes as they can.
fn net_of_wide_numbers() -> Net {
    let list = [
        (128, 255, 1_048_575),
        (200, 130, 16_384),
        (255, 254, 300),
        (0, 255, 127),
    ];
    Net::new(256, 255, (10_000, 9_999), &list)
}

/// A net of the second form whose own ratios take as many bytes as they can.
fn net_of_wide_ratios() -> Net {
    let list = [(0, 1, 1_048_575), (1, 3, 16_384), (2, 3, 300)];
    let own = [(10_000, 128), (128, 10_000), (0, 300)];
    Net::new(4, 2, (10_000, 9_999), &list).with_own(&own)
}

/// Net A in the second form from each source, with the house ratio for each post
/// and with another, as large and not, for each one.
fn nets_nearly_of_the_house_ratio() -> Vec<Net> {
    let mut nets = Vec::new();
    for source in 0..4 {
        let whole = net_a_own((2, 2), [(2, 2); 3]);
        nets.push(Net { source, ..whole });
        for (at, ratio) in (0..6).map(|number| (number / 2, [(1, 1), (2, 3)][number % 2])) {
            let mut own = [(2, 2); 3];
            own[at] = ratio;
            let net = net_a_own((2, 2), own);
            nets.push(Net { source, ..net });
        }
    }
    nets
}

/// The inputs that are always the same: the worked nets and the records worked
/// for Req 01 and Req 02; the special nets; nets of nearly the house ratio; the worked records and one of wide numbers, of
/// both forms, cut at each byte; net A's of both forms with each byte changed;
/// each fault of a net and each kind of damage.
pub fn fixed_cases() -> Vec<Case> {
    let mut cases = Vec::new();
    let mut add = |kind, record: Vec<u8>| {
        let number = cases.len();
        cases.push(Case {
            name: format!("fixed input {number}"),
            kind,
            record,
            random: Random::for_case(0, number as u64),
        });
    };
    let worked = worked_nets();
    for net in &worked {
        add(Kind::Net, encode(net));
    }
    for (record, ..) in REFUSED_OF_SECOND_FORM {
        add(Kind::Damaged, record.to_vec());
    }
    for row in moves() {
        let kind = match read(&row.record) {
            Ok(_) => Kind::Net,
            Err(_) => Kind::Damaged,
        };
        add(kind, row.record);
    }
    for net in nets_nearly_of_the_house_ratio() {
        add(Kind::Net, encode(&net));
    }
    // The special nets begin with those that are worked.
    for net in special_nets().iter().skip(worked.len()) {
        add(Kind::Net, encode(net));
    }
    let wide = net_of_wide_numbers();
    let wide_own = net_of_wide_ratios();
    for net in [&wide, &wide_own] {
        add(Kind::Net, encode(net));
    }
    for net in [
        net_a((1, 1)),
        net_b(),
        net_c(),
        two_posts(),
        wide,
        net_a_own((1, 1), [(1, 1), (0, 1), (9, 1)]),
        wide_own,
    ] {
        for cut in every_cut(&encode(&net)) {
            add(Kind::Damaged, cut.to_vec());
        }
    }
    let (second, _) = built_of_second_form().swap_remove(1);
    for record in [&RECORD_A[..], &second] {
        for at in 0..record.len() {
            for byte in [0, 1, 3, 4, 5, 127, 128, 129, 255] {
                let mut record = record.to_vec();
                record[at] = byte;
                add(Kind::Damaged, record);
            }
        }
    }
    let mut random = Random::new(0);
    for fault in Fault::ALL {
        let mut net = net_of(&mut random, Shape::Sparse);
        spoil(&mut random, &mut net, fault);
        add(Kind::Damaged, encode(&net));
    }
    for damage in Damage::ALL {
        let net = net_of(&mut random, Shape::Sparse);
        add(Kind::Damaged, damaged(&mut random, &net, damage));
    }
    cases
}

/// The case with this number of this seed: even ones are nets, odd ones are
/// damaged records.
pub fn random_case(seed: u64, number: u64) -> Case {
    let mut random = Random::for_case(seed, number);
    let net = any_net(&mut random);
    let (kind, record) = if number.is_multiple_of(2) {
        (Kind::Net, encode(&net))
    } else {
        (Kind::Damaged, any_damaged(&mut random, &net))
    };
    Case {
        name: format!("case {number} of seed {seed}"),
        kind,
        record,
        random,
    }
}
