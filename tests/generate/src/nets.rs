//! Sound nets of both forms, and of many shapes, lengths and ratios.
//!
//! Every shape but [`Shape::Unjoined`] gives nets whose posts are all joined to
//! the source.

use std::collections::HashSet;
use std::iter;

use reference::net::{posts_but, MOST_LENGTH, MOST_POSTS, MOST_RATIO, MOST_SEGMENTS};
use reference::trees::{least_lengths, lightest, path};
use reference::{read, worked, Net, Ratio, Segment};

use crate::random::Random;

/// What a net looks like.
#[derive(Clone, Copy, Debug, PartialEq, Eq, Hash)]
pub enum Shape {
    /// One post and no segment.
    OnePost,
    /// Two posts, joined once or more.
    TwoPosts,
    /// A path.
    Path,
    /// All posts on one, which needn't be the source.
    Star,
    /// A ring.
    Ring,
    /// A grid, some of whose segments may be missing.
    Grid,
    /// Every post joined to every other.
    Dense,
    /// A random tree with a few segments more.
    Sparse,
    /// A random tree and nothing more.
    Bare,
    /// Few pairs of posts, each joined many times.
    Parallel,
    /// A long light path, and direct segments from the source to many posts.
    Spokes,
    /// A long light path, and quicker segments that skip some posts of it.
    Express,
    /// Every length and number tied as far as that goes.
    Ties,
    /// 256 posts.
    Widest,
    /// 256 posts and 2,048 segments.
    Fullest,
    /// Some post isn't joined to the source.
    Unjoined,
}

impl Shape {
    /// All of them.
    pub const ALL: [Shape; 16] = [
        Shape::OnePost,
        Shape::TwoPosts,
        Shape::Path,
        Shape::Star,
        Shape::Ring,
        Shape::Grid,
        Shape::Dense,
        Shape::Sparse,
        Shape::Bare,
        Shape::Parallel,
        Shape::Spokes,
        Shape::Express,
        Shape::Ties,
        Shape::Widest,
        Shape::Fullest,
        Shape::Unjoined,
    ];

    /// How often [`any_net`] takes this shape, against the others.
    fn weight(self) -> u32 {
        match self {
            Shape::OnePost => 1,
            Shape::TwoPosts | Shape::Widest | Shape::Fullest => 2,
            Shape::Path | Shape::Star | Shape::Ring | Shape::Bare | Shape::Unjoined => 4,
            Shape::Grid | Shape::Dense | Shape::Parallel | Shape::Ties => 8,
            Shape::Sparse | Shape::Spokes | Shape::Express => 12,
        }
    }
}

/// How the lengths of a net's segments are drawn.
#[derive(Clone, Copy, Debug, PartialEq, Eq)]
enum Lengths {
    /// All 1.
    Ones,
    /// All 1,048,575.
    Longest,
    /// 1 or 1,048,575.
    Extremes,
    /// From this to that.
    Within(u32, u32),
}

impl Lengths {
    fn any(random: &mut Random) -> Self {
        match random.below(12) {
            0 => Lengths::Ones,
            1 => Lengths::Longest,
            2 => Lengths::Extremes,
            3 | 4 => Lengths::Within(1, 3),
            5..=7 => Lengths::Within(1, 12),
            8 | 9 => Lengths::Within(20, 40),
            10 => Lengths::Within(1, 1_000),
            _ => Lengths::Within(1, MOST_LENGTH),
        }
    }

    fn one(self, random: &mut Random) -> u32 {
        match self {
            Lengths::Ones => 1,
            Lengths::Longest => MOST_LENGTH,
            Lengths::Extremes => random.pick(&[1, MOST_LENGTH]),
            Lengths::Within(low, high) => random.from_to(low, high),
        }
    }
}

/// A number of posts, mostly small.
fn post_count(random: &mut Random, least: u32) -> u32 {
    let most = random.pick(&[5, 8, 8, 12, 12, 20, 40, 100, MOST_POSTS]);
    random.from_to(least, most)
}

/// A random tree over these posts: each but the first joined to an earlier
/// one, which is near if `stretched`.
fn tree_pairs(random: &mut Random, posts: u32) -> Vec<(u32, u32)> {
    let stretched = random.chance(1, 2);
    (1..posts)
        .map(|post| {
            let back = if stretched {
                random.from_to(1, post.min(3))
            } else {
                random.from_to(1, post)
            };
            (post - back, post)
        })
        .collect()
}

/// A pair of different posts; there are at least two.
fn any_pair(random: &mut Random, posts: u32) -> (u32, u32) {
    let a = random.below(posts);
    let b = random.below(posts - 1);
    (a, if b < a { b } else { b + 1 })
}

fn add_pairs(random: &mut Random, pairs: &mut Vec<(u32, u32)>, posts: u32, more: u32) {
    for _ in 0..more {
        pairs.push(any_pair(random, posts));
    }
    pairs.truncate(MOST_SEGMENTS);
}

fn with_lengths(random: &mut Random, pairs: &[(u32, u32)], lengths: Lengths) -> Vec<Segment> {
    pairs
        .iter()
        .map(|&(a, b)| Segment::new(a, b, lengths.one(random)))
        .collect()
}

fn grid_pairs(random: &mut Random) -> (u32, Vec<(u32, u32)>) {
    let most = random.pick(&[4, 4, 6, 16]);
    let (wide, high) = (random.from_to(1, most), random.from_to(2, most));
    let whole = random.chance(1, 2);
    let mut pairs = Vec::new();
    for row in 0..high {
        for column in 0..wide {
            let post = row * wide + column;
            // The first column and all rows stay whole, so all is joined.
            if row + 1 < high && (column == 0 || whole || random.chance(2, 3)) {
                pairs.push((post, post + wide));
            }
            if column + 1 < wide {
                pairs.push((post, post + 1));
            }
        }
    }
    (wide * high, pairs)
}

/// A light path from post 0 on, and segments from post 0 to later posts whose
/// lengths are a little below, at or above those of the path.
fn spokes(random: &mut Random) -> (u32, Vec<Segment>) {
    let posts = post_count(random, 3);
    let step = random.from_to(1, 12);
    let mut segments = Vec::new();
    let mut along = 0;
    for post in 1..posts {
        let length = step + random.below(2);
        along += length;
        segments.push(Segment::new(post - 1, post, length));
        if post > 1 && random.chance(2, 3) {
            let direct = along * random.from_to(6, 17) / 16;
            segments.push(Segment::new(0, post, direct.max(1)));
        }
    }
    (posts, segments)
}

/// A light path, and segments that skip two to five posts of it and are a
/// little quicker; sometimes over several levels.
fn express(random: &mut Random) -> (u32, Vec<Segment>) {
    let posts = post_count(random, 4);
    let step = random.from_to(2, 10);
    let mut segments: Vec<Segment> = (1..posts)
        .map(|post| Segment::new(post - 1, post, step + random.below(2)))
        .collect();
    let mut skip = random.from_to(2, 5);
    let mut length = step * skip;
    while skip < posts {
        length = (length * random.from_to(11, 15) / 16).max(1);
        let first = random.below(2);
        for post in (first + skip..posts).step_by(skip as usize) {
            let extra = random.below(2);
            segments.push(Segment::new(post - skip, post, length + extra));
        }
        let times = random.from_to(2, 4);
        skip *= times;
        length *= times;
    }
    segments.truncate(MOST_SEGMENTS);
    (posts, segments)
}

fn parts_of(random: &mut Random, shape: Shape) -> (u32, Vec<Segment>) {
    let lengths = Lengths::any(random);
    let (posts, pairs) = match shape {
        Shape::OnePost => (1, Vec::new()),
        Shape::TwoPosts => {
            let times = random.pick(&[1, 1, 2, 3, 9]);
            (2, vec![(0, 1); times])
        }
        Shape::Path => {
            let posts = post_count(random, 2);
            (posts, (1..posts).map(|post| (post - 1, post)).collect())
        }
        Shape::Star => {
            let posts = post_count(random, 2);
            (posts, (1..posts).map(|post| (0, post)).collect())
        }
        Shape::Ring => {
            let posts = post_count(random, 3);
            let ring = (0..posts).map(|post| (post, (post + 1) % posts));
            (posts, ring.collect())
        }
        Shape::Grid => grid_pairs(random),
        Shape::Dense => {
            let posts = random.from_to(3, 64).min(random.from_to(3, 64));
            let all = (1..posts).flat_map(|b| (0..b).map(move |a| (a, b)));
            (posts, all.take(MOST_SEGMENTS).collect())
        }
        Shape::Sparse | Shape::Unjoined => {
            let posts = post_count(random, 2);
            let mut pairs = tree_pairs(random, posts);
            let more = random.from_to(1, 3 * posts);
            add_pairs(random, &mut pairs, posts, more);
            (posts, pairs)
        }
        Shape::Bare => {
            let posts = post_count(random, 2);
            (posts, tree_pairs(random, posts))
        }
        Shape::Parallel => {
            let posts = post_count(random, 2).min(40);
            let mut pairs = tree_pairs(random, posts);
            for _ in 0..random.from_to(1, 4 * posts) {
                let again = random.pick(&pairs);
                pairs.push(again);
            }
            (posts, pairs)
        }
        Shape::Ties => {
            let posts = post_count(random, 3).min(30);
            let mut pairs = tree_pairs(random, posts);
            add_pairs(random, &mut pairs, posts, 4 * posts);
            let tied = Lengths::Within(1, random.pick(&[1, 1, 2, 2, 3]));
            return (posts, with_lengths(random, &pairs, tied));
        }
        Shape::Spokes => return spokes(random),
        Shape::Express => return express(random),
        Shape::Widest => {
            let mut pairs = tree_pairs(random, MOST_POSTS);
            let more = random.pick(&[0, 1, 100, 500]);
            add_pairs(random, &mut pairs, MOST_POSTS, more);
            (MOST_POSTS, pairs)
        }
        Shape::Fullest => {
            let mut pairs = tree_pairs(random, MOST_POSTS);
            add_pairs(random, &mut pairs, MOST_POSTS, MOST_SEGMENTS as u32);
            (MOST_POSTS, pairs)
        }
    };
    (posts, with_lengths(random, &pairs, lengths))
}

/// Renumbers the posts, brings the segments into any order and turns some of
/// them round; each of these is left out at times.
fn disguise(random: &mut Random, net: &mut Net) {
    if random.chance(3, 4) {
        let mut names: Vec<u32> = (0..net.posts).collect();
        random.shuffle(&mut names);
        net.source = names[net.source as usize];
        for segment in &mut net.segments {
            segment.a = names[segment.a as usize];
            segment.b = names[segment.b as usize];
        }
    }
    if random.chance(3, 4) {
        random.shuffle(&mut net.segments);
    }
    if random.chance(3, 4) {
        for segment in &mut net.segments {
            if random.chance(1, 2) {
                (segment.a, segment.b) = (segment.b, segment.a);
            }
        }
    }
}

/// Ratios at the ends of what is allowed, and those that document 01 uses.
pub const NOTED_RATIOS: [(u32, u32); 12] = [
    (0, 1),
    (0, 10_000),
    (1, 10_000),
    (10_000, 1),
    (10_000, 10_000),
    (9_999, 10_000),
    (1, 1),
    (2, 2),
    (1, 2),
    (7, 5),
    (6, 5),
    (1, 16),
];

fn common_divisor(a: u64, b: u64) -> u64 {
    if b == 0 {
        a
    } else {
        common_divisor(b, a % b)
    }
}

/// For each post of a joined net how far its path in the lightest tree is above
/// D, and D.
fn overs(net: &Net) -> Vec<(u64, u64)> {
    let tree = lightest(net);
    let paths = (0..net.posts).map(|post| path(net, &tree, post).expect("reached"));
    let least = least_lengths(net);
    paths.zip(least).map(|(path, d)| (path - d, d)).collect()
}

/// A ratio at which a post that is so far above D is exactly at the limit, or p
/// is one off that; `None` where the numbers are too large.
fn border_ratio(random: &mut Random, (over, least): (u64, u64)) -> Option<Ratio> {
    // At the limit (p + q) × D = q × path, so p / q = (path - D) / D.
    let divisor = common_divisor(over, least);
    if divisor == 0 {
        return None;
    }
    let p = u32::try_from(over / divisor).ok()?;
    let q = u32::try_from(least / divisor).ok()?;
    let most = MOST_RATIO / p.max(q).max(1);
    if most == 0 {
        return None;
    }
    let times = random.from_to(1, most);
    let p = match random.below(4) {
        0 => (p * times).saturating_sub(1),
        1 => (p * times + 1).min(MOST_RATIO),
        _ => p * times,
    };
    Some(Ratio::new(p, q * times))
}

/// A ratio for a post that is so far above D.
fn ratio(random: &mut Random, over: (u64, u64)) -> Ratio {
    let (p, q) = match random.below(10) {
        0..=2 => random.pick(&NOTED_RATIOS),
        3..=5 => return border_ratio(random, over).unwrap_or(Ratio::new(1, 3)),
        6 => (random.from_to(0, MOST_RATIO), random.from_to(1, MOST_RATIO)),
        7 => (random.from_to(0, 2_000), MOST_RATIO),
        _ => (random.from_to(0, 8), random.from_to(1, 12)),
    };
    Ratio::new(p, q)
}

/// A ratio for a post of a joined net, any of them.
fn any_ratio(random: &mut Random, overs: &[(u64, u64)]) -> Ratio {
    let over = random.pick(overs);
    ratio(random, over)
}

/// A ratio near this one that isn't the same two numbers: at times it is as
/// large.
fn other_ratio(random: &mut Random, Ratio { p, q }: Ratio) -> Ratio {
    let near = [
        (2 * p, 2 * q),
        (p / 2, q / 2),
        (p + 1, q),
        (p.wrapping_sub(1), q),
        (p, q + 1),
        (p, q - 1),
        (q, p),
        (0, q),
    ];
    let other = |&(r, s): &(u32, u32)| {
        let numbers = r <= MOST_RATIO && (1..=MOST_RATIO).contains(&s);
        numbers && (r, s) != (p, q)
    };
    let list: Vec<(u32, u32)> = near.into_iter().filter(other).collect();
    let (p, q) = random.pick(&list);
    Ratio::new(p, q)
}

/// The house ratio for each post but the source, and another for one of them,
/// often the first or the last, or for some.
fn nearly_house(random: &mut Random, net: &Net) -> Vec<Ratio> {
    let house = net.house();
    let mut own = vec![house; net.posts as usize - 1];
    if let Some(last) = own.len().checked_sub(1) {
        let any = random.index(own.len());
        let one = random.pick(&[0, last, any, any]);
        own[one] = other_ratio(random, house);
        for _ in 0..random.pick(&[0, 0, 1, 5]) {
            let more = random.index(own.len());
            own[more] = other_ratio(random, house);
        }
    }
    own
}

/// Own ratios for the posts but the source of a joined net: each by its own
/// path, or all alike, or one of two, or all but a few loose, or all as the
/// house ratio, or all but one or a few.
fn own_ratios(random: &mut Random, net: &Net, overs: &[(u64, u64)]) -> Vec<Ratio> {
    let posts = posts_but(net.source, net.posts);
    let [first, second] = [0; 2].map(|_| any_ratio(random, overs));
    let loose = Ratio::new(MOST_RATIO, random.pick(&[1, MOST_RATIO]));
    match random.below(10) {
        0 | 8 => posts.map(|_| net.house()).collect(),
        9 => nearly_house(random, net),
        1 => posts.map(|_| first).collect(),
        2 | 3 => posts.map(|_| random.pick(&[first, second])).collect(),
        4 => posts
            .map(|_| random.pick(&[loose, loose, loose, first]))
            .collect(),
        _ => posts
            .map(|post| ratio(random, overs[post as usize]))
            .collect(),
    }
}

/// Takes every segment away that leads out of some set of posts without the
/// source.
fn set_apart(random: &mut Random, net: &mut Net) {
    let mut apart = vec![false; net.posts as usize];
    let mut others: Vec<u32> = (0..net.posts).filter(|&post| post != net.source).collect();
    random.shuffle(&mut others);
    let count = random.from_to(1, net.posts - 1).min(random.from_to(1, 4));
    for post in others.into_iter().take(count as usize) {
        apart[post as usize] = true;
    }
    net.segments
        .retain(|segment| apart[segment.a as usize] == apart[segment.b as usize]);
}

/// A sound net of this shape, as often of the second form as of the first.
pub fn net_of(random: &mut Random, shape: Shape) -> Net {
    let (posts, segments) = parts_of(random, shape);
    let from_the_start = matches!(shape, Shape::Spokes | Shape::Express);
    let source = if from_the_start && random.chance(3, 4) {
        0
    } else {
        random.below(posts)
    };
    let mut net = Net {
        posts,
        source,
        p: 1,
        q: 1,
        own: None,
        segments,
    };
    disguise(random, &mut net);
    let overs = overs(&net);
    let house = any_ratio(random, &overs);
    (net.p, net.q) = (house.p, house.q);
    if random.chance(1, 2) {
        net.own = Some(own_ratios(random, &net, &overs));
    }
    if shape == Shape::Unjoined {
        set_apart(random, &mut net);
    }
    net
}

/// A shape, each as often as its weight says.
pub fn any_shape(random: &mut Random) -> Shape {
    let whole = Shape::ALL.iter().map(|shape| shape.weight()).sum();
    let mut left = random.below(whole);
    for shape in Shape::ALL {
        match left.checked_sub(shape.weight()) {
            None => return shape,
            Some(rest) => left = rest,
        }
    }
    unreachable!("the weights add up")
}

/// A sound net of any shape.
pub fn any_net(random: &mut Random) -> Net {
    let shape = any_shape(random);
    net_of(random, shape)
}

/// The net in the second form, each post with the next of the noted ratios, from
/// this one on.
fn with_noted_ratios(net: &Net, first: usize) -> Net {
    let noted = NOTED_RATIOS.into_iter().cycle().skip(first);
    let own = posts_but(net.source, net.posts).zip(noted);
    let list: Vec<(u32, u32)> = own.map(|(_, ratio)| ratio).collect();
    net.clone().with_own(&list)
}

/// The nets that are worked by hand, of both forms.
pub fn worked_nets() -> Vec<Net> {
    let mut nets = vec![
        worked::net_a((1, 1)),
        worked::net_a((0, 1)),
        worked::net_a((7, 5)),
        worked::net_a((6, 5)),
        worked::net_a((2, 2)),
        worked::net_b(),
        worked::net_c(),
        worked::one_post(),
        worked::two_posts(),
        worked::two_posts_apart(),
    ];
    for (record, _) in worked::built_of_second_form() {
        nets.push(read(&record).expect("good"));
    }
    nets.push(worked::net_a_turned([(9, 1), (0, 1), (1, 1)]));
    nets
}

/// The nets that are worked, and then nets at the ends of what is allowed, always
/// the same: of the first form, and each of them with own ratios, but once
/// whatever its house ratio.
pub fn special_nets() -> Vec<Net> {
    let mut nets = worked_nets();
    let largest = largest_nets();
    let mut seen = HashSet::new();
    let once = nets
        .iter()
        .chain(&largest)
        .filter(|net| seen.insert((net.posts, net.source, &net.segments)));
    let with_own: Vec<Net> = (0..)
        .zip(once)
        .map(|(number, net)| with_noted_ratios(net, number))
        .collect();
    nets.extend(largest);
    nets.extend(with_own);
    nets.push(worked::longest_net());
    nets
}

/// Nets of the first form at the ends of what is allowed.
fn largest_nets() -> Vec<Net> {
    let whole = |posts: u32, source, ratio, list: Vec<(u32, u32, u32)>| {
        Net::new(posts, source, ratio, &list)
    };
    let path = |length| {
        (1..256)
            .map(move |post| (post - 1, post, length))
            .collect::<Vec<_>>()
    };
    let star = |length| {
        (1..256)
            .map(move |post| (0, post, length))
            .collect::<Vec<_>>()
    };
    let mut nets = Vec::new();
    // The longest good record of the first form. Posts below 128 have no
    // segment, so it is refused in building.
    let longest = vec![(128, 255, MOST_LENGTH); MOST_SEGMENTS];
    nets.push(whole(256, 255, (MOST_RATIO, MOST_RATIO), longest));
    for ratio in NOTED_RATIOS {
        // The longest tree there is: 255 × 1,048,575.
        nets.push(whole(256, 0, ratio, path(MOST_LENGTH)));
        nets.push(whole(256, 255, ratio, path(1)));
        nets.push(whole(256, 128, ratio, path(MOST_LENGTH)));
        nets.push(whole(256, 0, ratio, star(MOST_LENGTH)));
        nets.push(whole(256, 17, ratio, star(1)));
        // A light path from the source, and a direct segment to every post.
        let both = path(4).into_iter().chain(star(5)).collect();
        nets.push(whole(256, 0, ratio, both));
        // As long a record as a joined net can have.
        let spread = iter::repeat_with(|| (128..255).map(|post| (post, post + 1, MOST_LENGTH)))
            .flatten()
            .take(MOST_SEGMENTS - 128)
            .chain((0..128).map(|post| (post, 255, MOST_LENGTH)))
            .collect();
        nets.push(whole(256, 255, ratio, spread));
        // As many segments between two posts as there may be.
        let many = (0..2_048).map(|number| (number % 2, 1 - number % 2, 2_048 - number));
        nets.push(whole(2, 1, ratio, many.collect()));
    }
    nets
}
