//! The reference compared with itself: two methods for the lightest tree, the
//! least lengths and drawn lengths; all spanning trees of tiny nets; and laws
//! that follow from document 01.

use generate::{any_damaged, any_net, drawn, encode, net_of, Random, Shape};
use reference::between::walked;
use reference::drawn::{sixteenths, sixteenths_by_doubling};
use reference::program::planned;
use reference::slips::{slipped_trees, Slip};
use reference::trees::{
    least_lengths, least_lengths_by_triples, lightest, lightest_by_chains, path, whole_length,
};
use reference::{
    bounds_hold, broken_bound, margin, read, three_trees, write, Form, Net, Ratio, Tree,
};

const SEED: u64 = 3_001;

fn joined_nets(count: u64) -> impl Iterator<Item = Net> {
    (0..count)
        .map(|case| any_net(&mut Random::for_case(SEED, case)))
        .filter(|net| net.check_joined().is_ok())
}

#[test]
fn the_lightest_tree_by_two_methods() {
    for net in joined_nets(4_000) {
        assert_eq!(lightest(&net), lightest_by_chains(&net), "{net:?}");
    }
}

#[test]
fn least_lengths_by_two_methods() {
    for net in joined_nets(3_000) {
        assert_eq!(
            least_lengths(&net),
            least_lengths_by_triples(&net),
            "{net:?}"
        );
    }
}

#[test]
fn drawn_lengths_by_two_methods() {
    let mut random = Random::new(SEED);
    let borders = drawn::borders().into_iter();
    let any = (0..1_000_000).map(|number| {
        if number % 2 == 0 {
            f64::from_bits(random.bits())
        } else {
            drawn::any_length(&mut random)
        }
    });
    for length in borders.chain(any) {
        let bits = length.to_bits();
        assert_eq!(
            sixteenths(length, 1),
            sixteenths_by_doubling(length, 1),
            "{bits:#x}"
        );
    }
    // Every whole number of sixteenths, and what is next above it.
    for whole in 1..=1_048_575 {
        let length = f64::from(whole) / 16.0;
        let above = f64::from_bits(length.to_bits() + 1);
        assert_eq!(sixteenths(length, 0), Ok(whole));
        assert_eq!(
            sixteenths(above, 0).ok(),
            (whole < 1_048_575).then(|| whole + 1)
        );
    }
}

#[test]
fn the_bounds_hold() {
    for net in joined_nets(4_000) {
        let trees = three_trees(&net).expect("sound and joined");
        assert_eq!(broken_bound(&net, &trees), None, "{net:?}");
    }
}

#[test]
fn margins_are_signed_as_the_limit_says() {
    let mut below_zero = 0;
    for (case, net) in (0..).zip(joined_nets(1_000)) {
        let mut random = Random::for_case(SEED, case);
        let post = random.below(net.posts);
        let of = |tree| margin(&net, post, tree).expect("sound and joined");
        let least = least_lengths(&net)[post as usize];
        assert!(of(Tree::Between) >= 0);
        let Some(Ratio { p, q }) = net.ratios()[post as usize] else {
            assert_eq!(Tree::ALL.map(of), [0; 3]);
            continue;
        };
        let shortest = i64::try_from(u64::from(p) * least).expect("small");
        assert_eq!(of(Tree::Shortest), shortest);
        let far = path(&net, &lightest(&net), post).expect("reached");
        let breaks = u64::from(q) * far > u64::from(p + q) * least;
        assert_eq!(of(Tree::Lightest) < 0, breaks);
        below_zero += u32::from(breaks);
    }
    assert!(below_zero > 50, "{below_zero}");
}

#[test]
fn notes_are_never_below_paths_and_keep_the_limit() {
    for net in joined_nets(1_500) {
        let trees = three_trees(&net).expect("sound and joined");
        let least = least_lengths(&net);
        let after = walked(&net, &trees.lightest, &least, &trees.shortest);
        for ((post, least), ratio) in (0..).zip(least).zip(net.ratios()) {
            let note = after.notes[post as usize].length().expect("noted");
            let path = path(&net, &after.tree, post).expect("reached");
            assert!(least <= path && path <= note);
            let Ratio { p, q } = ratio.unwrap_or(Ratio::new(0, 1));
            assert!(u64::from(q) * note <= u64::from(p + q) * least);
            if p == 0 {
                assert_eq!(path, least);
            }
        }
        // Without a laid path the walk only goes down the lightest tree.
        if after.laid == 0 {
            assert_eq!(after.tree, trees.lightest);
        }
    }
}

#[test]
fn the_walk_by_two_methods() {
    for net in joined_nets(1_500) {
        let trees = three_trees(&net).expect("sound and joined");
        // This slip is in what is reported, and not in the walk.
        let (again, _) = slipped_trees(&net, &trees, Slip::NotesAsPaths);
        assert_eq!(again, trees, "{net:?}");
    }
}

#[test]
fn the_house_ratio_for_each_post_builds_as_the_first_form_does() {
    let mut laid = 0;
    for net in joined_nets(1_000) {
        let first = Net { own: None, ..net };
        let all_alike = vec![(first.p, first.q); first.posts as usize - 1];
        let second = first.clone().with_own(&all_alike);
        let trees = three_trees(&first).expect("sound and joined");
        assert_eq!(three_trees(&second).as_ref(), Ok(&trees));
        for tree in Tree::ALL {
            let last = first.posts - 1;
            assert_eq!(margin(&first, last, tree), margin(&second, last, tree));
        }
        assert_ne!(write(&first), write(&second));
        laid += u32::from(trees.laid > 0);
    }
    assert!(laid > 100, "{laid}");
}

#[test]
fn what_the_trees_do_not_depend_on() {
    let mut scaled = 0;
    for net in joined_nets(1_500) {
        let trees = three_trees(&net).expect("sound and joined");
        let built = trees.built(&net);
        let mut other = net.clone();
        for segment in &mut other.segments {
            (segment.a, segment.b) = (segment.b, segment.a);
        }
        let small = |ratio: Ratio| ratio.p.max(ratio.q) <= 3_333;
        if net.form() == Form::Second {
            // The house ratio rules nothing.
            (other.p, other.q) = (net.q, net.p.max(1));
        } else if small(net.house()) {
            (other.p, other.q) = (net.p * 3, net.q * 3);
        }
        for ratio in other
            .own
            .iter_mut()
            .flatten()
            .filter(|ratio| small(**ratio))
        {
            *ratio = Ratio::new(ratio.p * 3, ratio.q * 3);
        }
        assert_eq!(three_trees(&other).as_ref(), Ok(&trees));
        if net.segments.iter().all(|segment| segment.length < 100_000) {
            scaled += 1;
            for segment in &mut other.segments {
                segment.length *= 7;
            }
            let larger = three_trees(&other).expect("sound and joined");
            assert_eq!(larger, trees);
            let measured = larger.built(&other);
            assert_eq!(measured.between.length, 7 * built.between.length);
            assert_eq!(measured.between.radius, 7 * built.between.radius);
            assert_eq!(measured.shortest.length, 7 * built.shortest.length);
        }
    }
    assert!(scaled > 500, "{scaled}");
}

#[test]
fn good_records_come_back_and_no_others_are_read() {
    let mut good = 0;
    for case in 0..5_000 {
        let mut random = Random::for_case(SEED, case);
        let net = any_net(&mut random);
        let record = write(&net).expect("sound");
        assert_eq!(read(&record), Ok(net.clone()));
        // What is read is written back byte for byte: no two records read
        // alike.
        let record = any_damaged(&mut random, &net);
        if let Ok(net) = read(&record) {
            good += 1;
            assert_eq!(write(&net), Ok(record));
        }
    }
    assert!(good > 100, "{good}");
}

/// Every list of `count` segments, by their numbers.
fn choices(segments: usize, count: usize) -> Vec<Vec<usize>> {
    if count == 0 {
        return vec![Vec::new()];
    }
    (count - 1..segments)
        .flat_map(|last| {
            choices(last, count - 1).into_iter().map(move |mut list| {
                list.push(last);
                list
            })
        })
        .collect()
}

/// The length of each post's path from the source by these segments, if they
/// make a tree over all posts.
fn paths_by(net: &Net, chosen: &[usize]) -> Option<Vec<u64>> {
    let mut paths = vec![None; net.posts as usize];
    paths[net.source as usize] = Some(0);
    for _ in 0..net.posts {
        for &number in chosen {
            let segment = net.segments[number];
            for (from, to) in [(segment.a, segment.b), (segment.b, segment.a)] {
                if let (Some(length), None) = (paths[from as usize], paths[to as usize]) {
                    paths[to as usize] = Some(length + u64::from(segment.length));
                }
            }
        }
    }
    paths.into_iter().collect()
}

#[test]
fn all_spanning_trees_of_tiny_nets() {
    let mut nets = 0;
    let mut spanning_trees = 0;
    for case in 0.. {
        let mut random = Random::for_case(SEED, case);
        let shape = random.pick(&[Shape::Sparse, Shape::Ties, Shape::Dense, Shape::Express]);
        let net = net_of(&mut random, shape);
        let posts = net.posts as usize;
        if posts > 6 || net.segments.len() > 12 {
            continue;
        }
        let mut lightest_length = u64::MAX;
        let mut least = vec![u64::MAX; posts];
        for chosen in choices(net.segments.len(), posts - 1) {
            if let Some(paths) = paths_by(&net, &chosen) {
                spanning_trees += 1;
                let length = chosen
                    .iter()
                    .map(|&number| u64::from(net.segments[number].length))
                    .sum();
                lightest_length = lightest_length.min(length);
                for (known, path) in least.iter_mut().zip(paths) {
                    *known = path.min(*known);
                }
            }
        }
        let trees = three_trees(&net).expect("sound and joined");
        let built = trees.built(&net);
        assert_eq!(built.lightest.length, lightest_length);
        assert_eq!(least_lengths(&net), least);
        assert_eq!(
            built.shortest.radius,
            *least.iter().max().expect("a source")
        );
        let numbers = |ratio: Ratio| (u64::from(ratio.p), u64::from(ratio.q));
        for ((post, least), ratio) in (0..).zip(least).zip(net.ratios()) {
            let Some((p, q)) = ratio.map(numbers) else {
                continue;
            };
            let path = path(&net, &trees.between, post).expect("reached");
            assert!(q * path <= (p + q) * least);
            // The smallest ratio is below no other.
            let (least_p, least_q) = net.smallest_ratio().map(numbers).expect("two posts");
            assert!(least_p * q <= p * least_q);
            let whole = whole_length(&net, &trees.between);
            assert!(least_p * whole <= (least_p + 2 * least_q) * lightest_length);
        }
        assert!(bounds_hold(&net, &trees));
        nets += 1;
        if nets == 1_500 {
            break;
        }
    }
    assert!(spanning_trees > 20_000, "{spanning_trees}");
}

#[test]
fn planning_a_record_is_reading_and_building() {
    for net in joined_nets(300) {
        let (read_net, trees) = planned(&encode(&net)).expect("sound and joined");
        assert_eq!(Ok(trees), three_trees(&net));
        assert_eq!(read_net, net);
    }
}
