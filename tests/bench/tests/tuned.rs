//! The tuned Rust answers as the reference does: only then is its speed worth
//! measuring against.

use bench::tuned::{drawn, Planner};
use generate::{any_damaged, any_net, drawn as runs, encode, lent, special_nets, Random};
use reference::{build, drawn_length, read, write_into, Net, Refusal, Run};

const SEED: u64 = 4_001;

/// Lists and summary after building.
type Built = ([Vec<u16>; 3], [u32; 12]);

fn reference_plan(record: &[u8], mut lists: [Vec<u16>; 3]) -> Result<Built, Refusal> {
    let net = read(record)?;
    let [first, second, third] = &mut lists;
    let built = build(&net, first, second, third)?;
    let small = |number: u64| u32::try_from(number).expect("small");
    let Net {
        posts,
        source,
        p,
        q,
        segments,
        ..
    } = net;
    let mut summary = [
        posts,
        segments.len() as u32,
        source,
        p,
        q,
        0,
        0,
        0,
        0,
        0,
        0,
        built.laid,
    ];
    for (place, measure) in [(5, built.lightest), (7, built.shortest), (9, built.between)] {
        summary[place] = small(measure.length);
        summary[place + 1] = small(measure.radius);
    }
    Ok((lists, summary))
}

fn tuned_plan(
    planner: &mut Planner,
    record: &[u8],
    mut lists: [Vec<u16>; 3],
) -> Result<Built, Refusal> {
    let mut summary = [0; 12];
    let [first, second, third] = &mut lists;
    planner.plan(record, first, second, third, &mut summary)?;
    Ok((lists, summary))
}

fn assert_equal(planner: &mut Planner, random: &mut Random, record: &[u8]) {
    let net = read(record);
    assert_eq!(planner.check(record).err(), net.as_ref().err().copied());
    let posts = net.as_ref().map_or(3, |net| net.posts) as usize;
    let lists = [0; 3].map(|_| vec![7; lent::any_length(random, posts)]);
    assert_eq!(
        tuned_plan(planner, record, lists.clone()),
        reference_plan(record, lists),
        "{record:?}"
    );
    let mut room = vec![7; lent::any_length(random, record.len())];
    let mut expected = room.clone();
    let right = net.and_then(|net| write_into(&net, &mut expected));
    assert_eq!(planner.rewrite(record, &mut room), right, "{record:?}");
    assert_eq!(room, expected);
}

#[test]
fn nets_and_damaged_records() {
    let mut planner = Planner::default();
    let mut random = Random::new(SEED);
    for net in special_nets() {
        assert_equal(&mut planner, &mut random, &encode(&net));
    }
    for case in 0..6_000 {
        let mut random = Random::for_case(SEED, case);
        let net = any_net(&mut random);
        assert_equal(&mut planner, &mut random, &encode(&net));
        let record = any_damaged(&mut random, &net);
        assert_equal(&mut planner, &mut random, &record);
    }
}

#[test]
fn drawn_runs() {
    let mut random = Random::new(SEED);
    let borders = runs::borders();
    let straight = borders.iter().map(|&length| Run::Straight(length));
    let corners = borders.iter().map(|&length| Run::Corner(1.0, length));
    let any = (0..500_000).map(|_| runs::any_run(&mut random));
    for run in straight.chain(corners).chain(any) {
        assert_eq!(drawn(run), drawn_length(run), "{run:?}");
    }
}
