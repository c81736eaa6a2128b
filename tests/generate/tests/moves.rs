//! What the generators reach of moving records: every ending in both directions,
//! 20 at every kind of place, and records on which every slip shows.

use std::collections::BTreeMap;

use generate::{any_damaged, any_net, encode, lent, Random};
use reference::move_slips::{slipped_moved_into, MoveSlip};
use reference::{moved, moved_into, read, Form, Net, Ratio, To};

const SEED: u64 = 2_002;
const CASES: u64 = 3_000;

fn nets() -> impl Iterator<Item = (Net, Random)> {
    (0..CASES).map(|case| {
        let mut random = Random::for_case(SEED, case);
        (any_net(&mut random), random)
    })
}

/// Demands that each of these names was counted often enough.
fn demand(counted: &BTreeMap<String, u32>, names: &[&str], least: u32) {
    println!("{counted:#?}");
    for &name in names {
        let count = counted.get(name).copied().unwrap_or_default();
        assert!(count >= least, "{name}: {count}");
    }
}

/// Kinds of the post at which 20 is given.
fn kinds_of_place(net: &Net, place: u32) -> Vec<&'static str> {
    let own = net.own.as_deref().unwrap_or_default();
    let posts = (0..net.posts).filter(|&post| post != net.source);
    let ratio = posts.zip(own).find(|&(post, _)| post == place);
    let (_, &ratio) = ratio.expect("a post with a ratio");
    let house = net.house();
    let others = own.iter().filter(|&&ratio| ratio != house).count();
    let kinds = [
        ("at post 0", place == 0),
        ("at the last post", place + 1 == net.posts),
        ("below the source", place < net.source),
        ("above the source", place > net.source),
        ("at one post only", others == 1 && net.posts > 2),
        ("at the lowest of some", others > 1 && own[0] == house),
        ("p alone differs", ratio.q == house.q),
        ("q alone differs", ratio.p == house.p),
        ("as large as the house ratio", same_size(ratio, house)),
    ];
    kinds
        .into_iter()
        .filter(|kind| kind.1)
        .map(|kind| kind.0)
        .collect()
}

fn same_size(one: Ratio, other: Ratio) -> bool {
    !one.is_below(other) && !other.is_below(one)
}

#[test]
fn moves_of_nets_end_in_every_way() {
    let mut counted = BTreeMap::<String, u32>::new();
    let mut count = |name: String| *counted.entry(name).or_default() += 1;
    for (net, mut random) in nets() {
        let record = encode(&net);
        for to in To::ALL {
            let there = moved(&record, to);
            let needed = there.as_ref().map_or(record.len(), Vec::len);
            let room = lent::any_length(&mut random, needed);
            match moved_into(&record, to, &mut vec![7; room]) {
                Ok(_) => count(format!("{to:?} moved")),
                Err(refusal) => count(format!("{to:?} {}", refusal.number)),
            }
            match there {
                Ok(there) => {
                    assert_eq!(moved(&there, to.back()).as_ref(), Ok(&record));
                    count(format!("{to:?} home again"));
                    if net.posts == 1 {
                        count(format!("{to:?} one post"));
                    }
                    if net.check_joined().is_err() {
                        count(format!("{to:?} not joined"));
                    }
                    if room + 1 == needed {
                        count(format!("{to:?} one byte short"));
                    }
                }
                Err(refusal) if refusal.number == 20 => {
                    for kind in kinds_of_place(&net, refusal.place) {
                        count(kind.to_owned());
                    }
                }
                Err(refusal) => assert_eq!(refusal.number, 30),
            }
        }
    }
    for to in ["Second", "First"] {
        let names = [
            "moved",
            "30",
            "18",
            "home again",
            "one post",
            "not joined",
            "one byte short",
        ];
        let names = names.map(|name| format!("{to} {name}"));
        demand(&counted, &names.each_ref().map(String::as_str), 5);
    }
    let places = [
        "First 20",
        "at post 0",
        "at the last post",
        "below the source",
        "above the source",
        "at one post only",
        "at the lowest of some",
        "p alone differs",
        "q alone differs",
        "as large as the house ratio",
    ];
    demand(&counted, &places, 10);
    assert!(!counted.contains_key("Second 20"));
}

#[test]
fn damaged_records_are_refused_as_the_reader_refuses_them() {
    let mut moves = BTreeMap::<String, u32>::new();
    for (net, mut random) in nets() {
        let record = any_damaged(&mut random, &net);
        for to in To::ALL {
            let answer = moved(&record, to);
            let number = answer.as_ref().map_or_else(|refusal| refusal.number, |_| 0);
            match read(&record) {
                Err(refusal) => assert_eq!(answer, Err(refusal)),
                Ok(net) => assert_eq!(number == 30, net.form() == to.form()),
            }
            *moves.entry(format!("{to:?} {number}")).or_default() += 1;
        }
    }
    for to in ["Second", "First"] {
        let names = [1, 2, 3, 4, 5, 6, 7, 10, 11, 12, 30].map(|name| format!("{to} {name}"));
        demand(&moves, &names.each_ref().map(String::as_str), 3);
    }
}

/// Whether a slip shows on a record, moved into a room of this length.
fn shows(record: &[u8], to: To, room: usize, slip: MoveSlip) -> bool {
    let [mut right, mut slipped] = [vec![7; room], vec![7; room]];
    let answer = moved_into(record, to, &mut right);
    slipped_moved_into(record, to, &mut slipped, slip) != answer || slipped != right
}

#[test]
fn every_slip_shows_on_many_records() {
    let mut shown = BTreeMap::<String, u32>::new();
    for (net, mut random) in nets() {
        let mut records = vec![encode(&net)];
        records.push(any_damaged(&mut random, &net));
        for record in records {
            for to in To::ALL {
                let needed = moved(&record, to).map_or(record.len(), |moved| moved.len());
                let room = lent::any_length(&mut random, needed);
                for slip in MoveSlip::ALL {
                    let count = shown.entry(format!("{slip:?}")).or_default();
                    *count += u32::from(shows(&record, to, room, slip));
                }
            }
        }
    }
    let names = MoveSlip::ALL.map(|slip| format!("{slip:?}"));
    demand(&shown, &names.each_ref().map(String::as_str), 20);
}

#[test]
fn as_many_nets_of_either_form() {
    let first = nets().filter(|(net, _)| net.form() == Form::First).count() as u64;
    assert!((CASES * 2 / 5..CASES * 3 / 5).contains(&first), "{first}");
}
