//! What the generators reach: every shape as it is described, every refusal
//! number in both forms of a record, and nets on which every slip shows.

use std::collections::{BTreeMap, HashSet};

use generate::records::{every_cut, padded};
use generate::{
    any_damaged, any_net, damaged, drawn, encode, lent, net_of, special_nets, spoil, Damage, Fault,
    Random, Shape,
};
use reference::net::{posts_but, MOST_LENGTH, MOST_RATIO, MOST_SEGMENTS};
use reference::program::{planned, MOST_BYTES};
use reference::record::{number_bytes, numbers, read_number, LONGEST_FIRST_FORM, LONGEST_RECORD};
use reference::slips::{
    house_margin, slipped_output, slipped_read_into, slipped_record, slipped_smallest,
    slipped_sound, LentSlip, Slip, SmallestSlip,
};
use reference::trees::{least_lengths, path};
use reference::{
    build, drawn_length, margin, program_output, read, read_into, three_trees, write, write_into,
    Form, LentNet, Net, Ratio, Refusal, Run, Segment, Tree,
};

const SEED: u64 = 2_001;

fn cases(count: u64) -> impl Iterator<Item = Random> {
    (0..count).map(|case| Random::for_case(SEED, case))
}

#[test]
fn the_seed_fixes_nets_records_and_runs() {
    let all = |seed| {
        let mut random = Random::new(seed);
        let net = any_net(&mut random);
        let record = any_damaged(&mut random, &net);
        (net, record, format!("{:?}", drawn::any_run(&mut random)))
    };
    assert_eq!(all(5), all(5));
    let different: HashSet<_> = (0..100).map(all).collect();
    assert!(different.len() > 95, "{}", different.len());
}

#[test]
fn nets_are_sound_and_joined_unless_they_are_meant_not_to_be() {
    for mut random in cases(300) {
        for shape in Shape::ALL {
            let net = net_of(&mut random, shape);
            assert_eq!(net.check_sound(), Ok(()), "{shape:?}: {net:?}");
            let joined = net.check_joined();
            assert_eq!(joined.is_ok(), shape != Shape::Unjoined, "{shape:?}");
            assert_eq!(write(&net), Ok(encode(&net)));
        }
    }
    for net in special_nets() {
        assert_eq!(net.check_sound(), Ok(()));
    }
}

#[test]
fn shapes_are_what_they_say() {
    for mut random in cases(100) {
        let mut sizes = |shape| {
            let net = net_of(&mut random, shape);
            (net.posts, net.segments.len())
        };
        assert_eq!(sizes(Shape::OnePost), (1, 0));
        assert_eq!(sizes(Shape::TwoPosts).0, 2);
        assert_eq!(sizes(Shape::Widest).0, 256);
        assert_eq!(sizes(Shape::Fullest), (256, MOST_SEGMENTS));
        for shape in [Shape::Path, Shape::Star, Shape::Bare] {
            let (posts, segments) = sizes(shape);
            assert_eq!(posts as usize, segments + 1);
        }
        let (posts, segments) = sizes(Shape::Ring);
        assert_eq!(posts as usize, segments);
    }
}

/// Counts how often each of some traits is met, and demands a least number.
#[derive(Default)]
struct Tally(BTreeMap<String, u32>);

impl Tally {
    fn meet(&mut self, name: impl ToString, met: bool) {
        *self.0.entry(name.to_string()).or_default() += u32::from(met);
    }

    fn demand(&self, least: u32) {
        println!("{:#?}", self.0);
        for (name, &count) in &self.0 {
            assert!(count >= least, "{name}: {count}");
        }
    }
}

#[test]
fn nets_show_what_matters() {
    let mut tally = Tally::default();
    for mut random in cases(4_000) {
        let net = any_net(&mut random);
        let Ok(trees) = three_trees(&net) else {
            tally.meet("unjoined", true);
            continue;
        };
        let built = trees.built(&net);
        let lengths = || net.segments.iter().map(|segment| segment.length);
        let mut pairs = HashSet::new();
        let parallel = net
            .segments
            .iter()
            .any(|s| !pairs.insert((s.a.min(s.b), s.a.max(s.b))));
        let distinct: HashSet<u32> = lengths().collect();
        tally.meet("laid once", built.laid == 1);
        tally.meet("laid twice", built.laid == 2);
        tally.meet("laid often", built.laid > 5);
        tally.meet("none laid", net.posts > 2 && built.laid == 0);
        let [low, middle, high] = [&trees.lightest, &trees.between, &trees.shortest];
        let apart = low != middle && middle != high && low != high;
        tally.meet("three different trees", apart);
        tally.meet("parallel segments", parallel);
        tally.meet("tied lengths", distinct.len() < net.segments.len());
        tally.meet("length 1", lengths().any(|length| length == 1));
        tally.meet("longest", lengths().any(|length| length == MOST_LENGTH));
        tally.meet("0/1", (net.p, net.q) == (0, 1));
        tally.meet("10000/1", (net.p, net.q) == (10_000, 1));
        tally.meet("1/10000", (net.p, net.q) == (1, 10_000));
        tally.meet("256 posts", net.posts == 256);
        tally.meet("2,048 segments", net.segments.len() == MOST_SEGMENTS);
        tally.meet("source not 0", net.source != 0);
        let mut ruled = (0..).zip(net.ratios()).zip(least_lengths(&net));
        let at_limit = ruled.any(|((post, ratio), least)| {
            let path = path(&net, &trees.lightest, post).expect("reached");
            ratio.is_some_and(|Ratio { p, q }| {
                p > 0 && u64::from(q) * path == u64::from(p + q) * least
            })
        });
        let first = net.form() == Form::First;
        tally.meet("at the limit, first form", first && at_limit);
        tally.meet("at the limit, second form", !first && at_limit);
    }
    tally.demand(40);
}

#[test]
fn own_ratios_show_what_matters() {
    let mut tally = Tally::default();
    for mut random in cases(3_000) {
        let net = any_net(&mut random);
        let Ok(trees) = three_trees(&net) else {
            continue;
        };
        let Some(own) = &net.own else {
            tally.meet("first form", true);
            continue;
        };
        let house = Net {
            own: None,
            ..net.clone()
        };
        let by_house = three_trees(&house).expect("sound and joined");
        let distinct: HashSet<&Ratio> = own.iter().collect();
        tally.meet("second form", true);
        tally.meet("all own ratios alike", distinct.len() == 1);
        tally.meet("two own ratios", distinct.len() == 2);
        tally.meet("many own ratios", distinct.len() > 5);
        let all_house = own.iter().all(|&ratio| ratio == net.house());
        tally.meet("all as the house ratio", all_house);
        tally.meet("the house would lay more", by_house.laid > trees.laid);
        tally.meet("the house would lay less", by_house.laid < trees.laid);
        let [low, middle, high] = [&trees.lightest, &trees.between, &trees.shortest];
        let apart = low != middle && middle != high && low != high;
        tally.meet("three different trees", apart);
        let inside = net.source > 0 && net.source + 1 < net.posts;
        tally.meet("source 0", net.source == 0);
        tally.meet("source inside", inside && by_house.between != trees.between);
        tally.meet("source last", net.source > 0 && net.source + 1 == net.posts);
        tally.meet("a post's p is 0", own.iter().any(|ratio| ratio.p == 0));
        let smallest = net.smallest_ratio();
        let house_below = smallest.is_some_and(|ratio| net.house().is_below(ratio));
        tally.meet("the house ratio is the smallest", house_below);
        for slip in SmallestSlip::ALL {
            let other = slipped_smallest(&net, &trees, slip);
            let alike = match (smallest, other) {
                (Some(a), Some(b)) => !a.is_below(b) && !b.is_below(a),
                (a, b) => a == b,
            };
            tally.meet(format!("smallest ratio {slip:?}"), !alike);
        }
        let post = random.below(net.posts);
        let tree = random.pick(&Tree::ALL);
        let right = trees.margin(&net, post, tree);
        let wrong = house_margin(&net, &trees, post, tree);
        tally.meet("another margin by the house ratio", wrong != right);
    }
    tally.demand(40);
}

#[test]
fn the_special_nets_reach_the_ends() {
    let nets = special_nets();
    let trees: Vec<_> = nets
        .iter()
        .filter_map(|net| Some(three_trees(net).ok()?.built(net)))
        .collect();
    let longest = trees.iter().map(|built| built.lightest.length).max();
    assert_eq!(longest, Some(267_386_625));
    let radius = trees.iter().map(|built| built.between.radius).max();
    assert_eq!(radius, Some(267_386_625));
    assert!(trees.iter().any(|built| built.laid > 20));
    let longest = |form| {
        let nets = nets.iter().filter(|net| net.form() == form);
        nets.map(|net| encode(net).len()).max()
    };
    assert_eq!(longest(Form::First), Some(LONGEST_FIRST_FORM));
    assert_eq!(longest(Form::Second), Some(LONGEST_RECORD));
    let one_post = |net: &Net| net.posts == 1 && net.form() == Form::Second;
    assert!(nets.iter().any(one_post));
}

#[test]
fn each_fault_brings_its_refusal() {
    for mut random in cases(300) {
        for fault in Fault::ALL {
            let mut net = net_of(&mut random, Shape::Sparse);
            spoil(&mut random, &mut net, fault);
            let refusal = three_trees(&net).expect_err("spoilt");
            assert_eq!(refusal.number, fault.number(), "{fault:?}");
            let record = program_output(&encode(&net));
            assert_eq!(record, format!("{refusal}\n"), "{fault:?}");
        }
    }
}

#[test]
fn two_faults_at_once_bring_one_of_the_two_refusals() {
    let mut tally = Tally::default();
    for mut random in cases(200) {
        for first in Fault::ALL {
            for second in Fault::ALL {
                let mut net = net_of(&mut random, Shape::Sparse);
                spoil(&mut random, &mut net, first);
                spoil(&mut random, &mut net, second);
                // A record can hold whatever comes of it.
                let numbers = numbers(&net);
                assert!(numbers.iter().all(|&number| number < 1 << 28));
                // A second fault may mend the first or lead to a third.
                if let Err(Refusal { number, .. }) = three_trees(&net) {
                    tally.meet(number, true);
                }
            }
        }
    }
    assert_eq!(tally.0.len(), 8);
    tally.demand(200);
}

/// Which number of a record, counted from 0, begins at this offset.
fn number_at(record: &[u8], place: usize) -> usize {
    let mut at = 0;
    let mut index = 0;
    while at < place {
        (_, at) = read_number(record, at).expect("it was read before");
        index += 1;
    }
    index
}

/// What kind of refusal this is of a record of the second form.
fn refusal_of_second_form(record: &[u8], refusal: Refusal) -> String {
    let Refusal { number, place } = refusal;
    let value = |index: usize| {
        let mut at = 0;
        for _ in 0..index {
            (_, at) = read_number(record, at).expect("it was read before");
        }
        read_number(record, at).expect("it was read before").0
    };
    match number {
        1 if value(1) == 0 => "0, then 0: 1".to_owned(),
        1 => "0, then above 256: 1".to_owned(),
        3 if place > 0 => "3 at a post".to_owned(),
        3 if !(1..=MOST_RATIO).contains(&value(4)) || value(3) > MOST_RATIO => {
            "3 at the house ratio".to_owned()
        }
        3 => "3 at post 0".to_owned(),
        10 | 11 => match number_at(record, place as usize) {
            0 => format!("{number} at the first number"),
            1 => format!("{number} after a first number 0"),
            index if index < 6 => format!("{number} in the head"),
            index if index < 4 + 2 * value(1) as usize => match (index % 2, value(index - 1)) {
                (1, p) if p > MOST_RATIO => format!("{number} at a q after a large p"),
                (1, _) => format!("{number} at a q"),
                _ => format!("{number} at a p"),
            },
            _ => format!("{number} in the segments"),
        },
        _ => number.to_string(),
    }
}

/// Names of refusals, none of them met yet.
fn none_met<T: ToString>(tally: &mut Tally, names: impl IntoIterator<Item = T>) {
    for name in names {
        tally.meet(name, false);
    }
}

#[test]
fn damaged_records_reach_every_refusal_of_reading_and_building() {
    let mut all = Tally::default();
    none_met(&mut all, [1, 2, 3, 4, 5, 6, 7, 9, 10, 11, 12]);
    let mut second = Tally::default();
    none_met(&mut second, [2, 4, 5, 6, 7, 9, 12]);
    none_met(&mut second, ["0, then 0: 1", "0, then above 256: 1"]);
    none_met(
        &mut second,
        ["3 at a post", "3 at post 0", "3 at the house ratio"],
    );
    for number in [10, 11] {
        let places = [
            "after a first number 0",
            "in the head",
            "at a p",
            "at a q",
            "at a q after a large p",
            "in the segments",
        ];
        none_met(&mut second, places.map(|place| format!("{number} {place}")));
    }
    for mut random in cases(15_000) {
        let net = any_net(&mut random);
        let record = any_damaged(&mut random, &net);
        let of_second_form = record.first() == Some(&0);
        let (name, in_second_form) = match planned(&record) {
            Ok(_) => ("built".to_owned(), "built".to_owned()),
            Err(refusal) if of_second_form => (
                refusal.number.to_string(),
                refusal_of_second_form(&record, refusal),
            ),
            Err(refusal) => (refusal.number.to_string(), String::new()),
        };
        all.meet(name, true);
        if of_second_form {
            second.meet(in_second_form, true);
        }
    }
    assert_eq!(all.0.len(), 12, "no refusal but these, 8 least of all");
    all.demand(100);
    assert_eq!(second.0.len(), 25, "no refusal but these");
    second.demand(20);
}

#[test]
fn each_kind_of_damage_brings_its_refusals() {
    let expected = |damage| match damage {
        Damage::Cut => vec![10],
        Damage::Extra | Damage::LowCount => vec![12],
        Damage::Padded | Damage::Endless => vec![11],
        Damage::EndlessCut => vec![10, 11],
        Damage::HighCount => vec![4, 10],
        Damage::LargeAndCut => vec![10, 11],
        _ => (1..=12).filter(|&number| number != 8).collect(),
    };
    let mut tally = Tally::default();
    for mut random in cases(1_000) {
        let net = net_of(&mut random, Shape::Sparse);
        for damage in Damage::ALL {
            let record = damaged(&mut random, &net, damage);
            match planned(&record) {
                // A number may already have all four groups, a change may not
                // matter, and so on.
                Ok(_) => tally.meet(format!("{damage:?} refused"), false),
                Err(Refusal { number, .. }) => {
                    assert!(expected(damage).contains(&number), "{damage:?}: {number}");
                    tally.meet(format!("{damage:?} refused"), true);
                }
            }
        }
    }
    tally.demand(300);
}

#[test]
fn damage_can_always_be_done() {
    let net = reference::worked::net_b();
    let mut different = HashSet::new();
    for mut random in cases(200_000) {
        different.insert(any_damaged(&mut random, &net));
    }
    assert!(different.len() > 50_000, "{}", different.len());
}

#[test]
fn every_cut_of_a_good_record_is_refused_with_10() {
    for mut random in cases(200) {
        let net = net_of(&mut random, Shape::Ties);
        let record = encode(&net);
        for cut in every_cut(&record) {
            let refusal = read(cut).expect_err("cut");
            assert_eq!(refusal.number, 10);
            let place = refusal.place as usize;
            assert!(place <= cut.len() && cut.len() <= place + 3);
        }
    }
}

#[test]
fn padded_numbers_are_refused_with_11() {
    let mut random = Random::new(SEED);
    for value in (0..1 << 21)
        .step_by(997)
        .chain([0, 127, 128, (1 << 21) - 1])
    {
        let bytes = padded(&mut random, value).expect("there is room for a group");
        assert!(bytes.len() > number_bytes(value).len() && bytes.len() <= 4);
        assert_eq!(read_number(&bytes, 0), Err(Refusal::new(11, 0)));
    }
    assert_eq!(padded(&mut random, 1 << 21), None);
}

#[test]
fn lent_lists_reach_refusals_8_18_and_19() {
    let mut tally = Tally::default();
    for mut random in cases(1_000) {
        let net = net_of(&mut random, Shape::Sparse);
        let record = encode(&net);
        let blank = Segment::new(7, 7, 7);
        let mut list = vec![blank; lent::any_length(&mut random, net.segments.len())];
        let enough = [net.posts as usize; 2];
        let [mut p, mut q] = lent::ratio_lists(&mut random, &net, enough);
        let refused = read_into(&record, &mut p, &mut q, &mut list).err();
        tally.meet("8 of reading", refused == Some(Refusal::new(8, 0)));
        tally.meet("read", refused.is_none());

        let mut room = vec![7; lent::any_length(&mut random, record.len())];
        let refused = write_into(&net, &mut room).err();
        tally.meet("18", refused == Some(Refusal::new(18, 0)));
        tally.meet("written", refused.is_none());

        let posts = net.posts as usize;
        let mut lists = [0; 3].map(|_| vec![7; lent::any_length(&mut random, posts)]);
        let [first, second, third] = &mut lists;
        let refused = build(&net, first, second, third).err();
        tally.meet("8 of building", refused == Some(Refusal::new(8, 0)));
        tally.meet("built", refused.is_none());

        let post = random.below(2 * net.posts);
        let answer = margin(&net, post, random.pick(&Tree::ALL));
        tally.meet("19", answer == Err(Refusal::new(19, 0)));
        tally.meet("margin", answer.is_ok());
    }
    tally.demand(100);
}

#[test]
fn drawn_runs_reach_every_refusal_at_every_place() {
    let mut tally = Tally::default();
    for number in [13, 14, 15, 17] {
        for place in [0, 1] {
            tally.meet(format!("{number} at {place}"), false);
        }
    }
    for mut random in cases(20_000) {
        match drawn_length(drawn::any_run(&mut random)) {
            Ok(_) => tally.meet("accepted", true),
            Err(Refusal { number, place }) => tally.meet(format!("{number} at {place}"), true),
        }
    }
    // Zeros and the like are rare at random: the borders hold them too.
    for length in drawn::borders() {
        for run in [Run::Straight(length), Run::Corner(1.0, length)] {
            if let Err(Refusal { number, place }) = drawn_length(run) {
                tally.meet(format!("{number} at {place}"), true);
            }
        }
    }
    assert_eq!(tally.0.len(), 10);
    tally.demand(50);
}

/// Lists of ratios for a net, each at times too short.
fn any_ratio_lists(random: &mut Random, net: &Net) -> [Vec<u32>; 2] {
    let posts = net.posts as usize;
    let lengths = [0; 2].map(|_| lent::any_length(random, posts));
    lent::ratio_lists(random, net, lengths)
}

/// Which of two lists of ratios is too short, in words.
fn short_lists(posts: usize, [p, q]: &[Vec<u32>; 2]) -> &'static str {
    match (p.len() < posts, q.len() < posts) {
        (false, false) => "none short",
        (true, false) => "p short",
        (false, true) => "q short",
        (true, true) => "both short",
    }
}

#[test]
fn lent_ratios_reach_8_in_every_call_and_poison_changes_nothing() {
    let mut tally = Tally::default();
    for mut random in cases(2_000) {
        let net = net_of(&mut random, Shape::Sparse);
        let lists = any_ratio_lists(&mut random, &net);
        let lent = LentNet::of(&net, &lists[0], &lists[1]);
        let posts = net.posts as usize;
        let short = short_lists(posts, &lists);
        let right = if short == "none short" {
            Ok(())
        } else {
            Err(Refusal::new(8, 0))
        };
        let form = net.form();
        tally.meet(format!("{form:?} form, {short}"), true);
        let poisoned = [&lists[0], &lists[1]].map(|list| list.get(net.source as usize).copied());
        let refused_there =
            poisoned[1] == Some(0) || poisoned.iter().flatten().any(|&n| n > MOST_RATIO);
        if right.is_ok() {
            tally.meet(format!("{form:?} form, source poisoned"), refused_there);
        }

        let [mut first, mut second, mut third] = [0; 3].map(|_| vec![7; posts]);
        let mut own = [first.clone(), second.clone(), third.clone()];
        let [own_first, own_second, own_third] = &mut own;
        let built = lent.build(&mut first, &mut second, &mut third);
        let expected = right.and_then(|()| build(&net, own_first, own_second, own_third));
        assert_eq!(built, expected, "{net:?} {lists:?}");
        assert_eq!([first, second, third], own);

        let post = random.below(2 * net.posts);
        let tree = random.pick(&Tree::ALL);
        let expected = right.and_then(|()| margin(&net, post, tree));
        assert_eq!(lent.margin(post, tree), expected, "{net:?} {lists:?}");

        let record = encode(&net);
        let mut room = vec![7; lent::any_length(&mut random, record.len())];
        let mut own_room = room.clone();
        let expected = right.and_then(|()| write_into(&net, &mut own_room));
        assert_eq!(lent.write_into(&mut room), expected, "{net:?} {lists:?}");
        assert_eq!(room, own_room);
        tally.meet("18 with lent ratios", expected == Err(Refusal::new(18, 0)));
    }
    tally.demand(40);
}

#[test]
fn reading_into_lent_ratios_leaves_the_source_and_what_is_beyond() {
    let mut tally = Tally::default();
    for mut random in cases(2_000) {
        let net = net_of(&mut random, Shape::Sparse);
        let record = encode(&net);
        // Nothing but poison is lent.
        let poison = Net {
            own: None,
            ..net.clone()
        };
        let before = any_ratio_lists(&mut random, &poison);
        let mut after = before.clone();
        let mut segments = vec![Segment::new(7, 7, 7); net.segments.len()];
        let [p, q] = &mut after;
        let answer = read_into(&record, p, q, &mut segments);
        let short = short_lists(net.posts as usize, &before);
        let form = net.form();
        tally.meet(format!("{form:?} form, {short}"), true);
        if short != "none short" {
            assert_eq!(answer, Err(Refusal::new(8, 0)));
            assert_eq!(after, before);
            continue;
        }
        assert!(answer.is_ok());
        let mut expected = before.clone();
        let own = net.own.iter().flatten();
        for (post, ratio) in posts_but(net.source, net.posts).zip(own) {
            expected[0][post as usize] = ratio.p;
            expected[1][post as usize] = ratio.q;
        }
        assert_eq!(after, expected);
        for slip in [LentSlip::FirstFormStored, LentSlip::SourceStored] {
            let mut slipped = before.clone();
            let [p, q] = &mut slipped;
            let answer = slipped_read_into(&record, p, q, &mut segments, slip);
            assert!(answer.is_ok());
            tally.meet(format!("{slip:?}"), slipped != after);
        }
        let wrong = slipped_record(&net, LentSlip::SourceWritten);
        tally.meet("SourceWritten", wrong != record);
    }
    tally.demand(40);
}

#[test]
fn faults_of_lent_ratios_are_seen_as_far_as_both_lists_go() {
    let mut tally = Tally::default();
    for mut random in cases(4_000) {
        let mut net = net_of(&mut random, Shape::Sparse);
        let fault = random.pick(&[Fault::OwnNoQ, Fault::OwnLargeP, Fault::OwnLargeQ]);
        spoil(&mut random, &mut net, fault);
        if random.chance(1, 3) {
            let other = random.pick(&[Fault::End, Fault::SameEnds, Fault::LargeLength]);
            spoil(&mut random, &mut net, other);
        }
        // In the first form no fault of a ratio is seen.
        let own = net.own.clone();
        let first_form = random.chance(1, 4);
        let lists = any_ratio_lists(&mut random, &net);
        if first_form {
            net.own = None;
        }
        let lent = LentNet::of(&net, &lists[0], &lists[1]);
        let far = lists[0].len().min(lists[1].len());
        let faulty = posts_but(net.source, net.posts)
            .zip(own.iter().flatten())
            .find(|(_, ratio)| ratio.p > MOST_RATIO || !(1..=MOST_RATIO).contains(&ratio.q));
        let (post, _) = faulty.expect("spoilt");
        let seen = !first_form && (post as usize) < far;
        let answer = lent.sound().map(|_| ());
        if seen {
            assert_eq!(answer, Err(Refusal::new(3, post as usize)), "{net:?}");
            let name = if post == 0 {
                "3 at post 0"
            } else {
                "3 at a post"
            };
            tally.meet(name, true);
            tally.meet("3 in short lists", far < net.posts as usize);
        } else {
            let number = answer.err().map_or(0, |refusal| refusal.number);
            assert_ne!(number, 3);
            let unseen = if first_form { "first form" } else { "beyond" };
            tally.meet(format!("unseen, {unseen}, {number}"), true);
        }
        for slip in [
            LentSlip::SourceChecked,
            LentSlip::CheckedLate,
            LentSlip::SecondFormOnly,
        ] {
            let wrong = slipped_sound(&lent, slip).map(|_| ());
            tally.meet(format!("{slip:?}"), wrong != answer);
        }
    }
    tally.demand(20);
}

#[test]
fn every_slip_shows_on_many_nets() {
    let mut tally = Tally::default();
    for mut random in cases(2_000) {
        let net = any_net(&mut random);
        let record = encode(&net);
        let right = program_output(&record);
        let damaged = any_damaged(&mut random, &net);
        let right_of_damaged = program_output(&damaged);
        for slip in Slip::ALL {
            let met = match slip {
                // Sound nets don't show these, and only long records the last,
                // see below.
                Slip::LateRatio | Slip::RatioAtZero => {
                    slipped_output(&damaged, slip) != right_of_damaged
                }
                Slip::FewBytes => continue,
                _ => slipped_output(&record, slip) != right,
            };
            tally.meet(format!("{slip:?}"), met);
        }
    }
    tally.demand(30);
}

#[test]
fn records_are_as_long_as_the_program_can_read_and_longer() {
    let mut tally = Tally::default();
    for mut random in cases(300) {
        let record = damaged(&mut random, &Net::new(1, 0, (1, 1), &[]), Damage::Long);
        let (form, longest) = match record[0] {
            0 => (Form::Second, LONGEST_RECORD),
            _ => (Form::First, LONGEST_FIRST_FORM),
        };
        let mut meet = |name: &str, met| tally.meet(format!("{form:?} form, {name}"), met);
        meet("longest good or longer", record.len() >= longest);
        meet("enough", record.len() == longest + 5);
        meet("more than enough", record.len() > longest + 5);
        if form == Form::Second {
            let wrong = slipped_output(&record, Slip::FewBytes);
            meet("FewBytes", wrong != program_output(&record));
        }
        // The first 15,372 bytes decide.
        let whole = planned(&record).map(|_| ());
        let looked_at = planned(&record[..record.len().min(MOST_BYTES)]).map(|_| ());
        assert_eq!(whole, looked_at);
    }
    tally.demand(10);
}
