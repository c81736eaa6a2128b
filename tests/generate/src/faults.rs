//! Nets spoilt so that they are refused, each fault for one refusal number.

use reference::net::{MOST_LENGTH, MOST_POSTS, MOST_RATIO, MOST_SEGMENTS};
use reference::{Net, Ratio, Segment};

use crate::random::Random;

/// Something wrong with a net.
#[derive(Clone, Copy, Debug, PartialEq, Eq, Hash)]
pub enum Fault {
    /// Post count 0.
    NoPosts,
    /// Post count above 256.
    ManyPosts,
    /// Source not below the post count.
    Source,
    /// q is 0.
    NoQ,
    /// p above 10,000.
    LargeP,
    /// q above 10,000.
    LargeQ,
    /// q of a post's own ratio is 0.
    OwnNoQ,
    /// p of a post's own ratio above 10,000.
    OwnLargeP,
    /// q of a post's own ratio above 10,000.
    OwnLargeQ,
    /// More than 2,048 segments.
    ManySegments,
    /// A segment's end not below the post count.
    End,
    /// Both ends of a segment the same.
    SameEnds,
    /// Length 0.
    NoLength,
    /// Length above 1,048,575.
    LargeLength,
    /// Some post isn't joined to the source.
    Unjoined,
}

impl Fault {
    /// All of them.
    pub const ALL: [Fault; 15] = [
        Fault::NoPosts,
        Fault::ManyPosts,
        Fault::Source,
        Fault::NoQ,
        Fault::LargeP,
        Fault::LargeQ,
        Fault::OwnNoQ,
        Fault::OwnLargeP,
        Fault::OwnLargeQ,
        Fault::ManySegments,
        Fault::End,
        Fault::SameEnds,
        Fault::NoLength,
        Fault::LargeLength,
        Fault::Unjoined,
    ];

    /// The number of the refusal that this fault alone brings to a net of at
    /// least two posts.
    pub fn number(self) -> u32 {
        match self {
            Fault::NoPosts | Fault::ManyPosts => 1,
            Fault::Source => 2,
            Fault::NoQ | Fault::LargeP | Fault::LargeQ => 3,
            Fault::OwnNoQ | Fault::OwnLargeP | Fault::OwnLargeQ => 3,
            Fault::ManySegments => 4,
            Fault::End => 5,
            Fault::SameEnds => 6,
            Fault::NoLength | Fault::LargeLength => 7,
            Fault::Unjoined => 9,
        }
    }
}

/// The most that four groups of seven bits can say.
const MOST_NUMBER: u32 = (1 << 28) - 1;

/// A number above `most` that a record can hold: just above it, or anything; or
/// the largest there is, if `most` is that itself.
fn above(random: &mut Random, most: u32) -> u32 {
    let least = (most + 1).min(MOST_NUMBER);
    match random.below(5) {
        0 | 1 => least,
        2 => (least + random.below(300)).min(MOST_NUMBER),
        3 => MOST_NUMBER,
        _ => random.from_to(least, MOST_NUMBER),
    }
}

/// Any segment of the net; one is added first if there is none.
fn any_segment<'n>(random: &mut Random, net: &'n mut Net) -> &'n mut Segment {
    if net.segments.is_empty() {
        net.segments.push(Segment::new(0, 1, 1));
    }
    let number = random.index(net.segments.len());
    &mut net.segments[number]
}

/// The net's own ratios; in the first form each post is given the house ratio
/// first.
pub fn own_of(net: &mut Net) -> &mut Vec<Ratio> {
    let house = net.house();
    let count = net.posts.clamp(1, MOST_POSTS) - 1;
    net.own.get_or_insert_with(|| vec![house; count as usize])
}

/// Any post's own ratio; one is added first if there is none.
fn any_own<'n>(random: &mut Random, net: &'n mut Net) -> &'n mut Ratio {
    let own = own_of(net);
    if own.is_empty() {
        own.push(Ratio::new(1, 1));
    }
    let number = random.index(own.len());
    &mut own[number]
}

/// Puts this fault into the net, whatever else is wrong with it.
pub fn spoil(random: &mut Random, net: &mut Net, fault: Fault) {
    let posts = net.posts;
    match fault {
        Fault::NoPosts => {
            // A record says so only in the second form.
            own_of(net);
            net.posts = 0;
        }
        Fault::ManyPosts => net.posts = above(random, MOST_POSTS),
        Fault::Source => net.source = above(random, posts.max(1) - 1),
        Fault::NoQ => net.q = 0,
        Fault::LargeP => net.p = above(random, MOST_RATIO),
        Fault::LargeQ => net.q = above(random, MOST_RATIO),
        Fault::OwnNoQ => any_own(random, net).q = 0,
        Fault::OwnLargeP => {
            let p = above(random, MOST_RATIO);
            any_own(random, net).p = p;
        }
        Fault::OwnLargeQ => {
            let q = above(random, MOST_RATIO);
            any_own(random, net).q = q;
        }
        Fault::ManySegments => {
            any_segment(random, net);
            while net.segments.len() <= MOST_SEGMENTS {
                let again = random.pick(&net.segments);
                net.segments.push(again);
            }
            for _ in 0..random.pick(&[0, 0, 1, 9]) {
                let again = random.pick(&net.segments);
                net.segments.push(again);
            }
        }
        Fault::End => {
            let end = above(random, posts.max(1) - 1);
            let first = random.chance(1, 2);
            let segment = any_segment(random, net);
            if first {
                segment.a = end;
            } else {
                segment.b = end;
            }
        }
        Fault::SameEnds => {
            let segment = any_segment(random, net);
            segment.b = segment.a;
        }
        Fault::NoLength => any_segment(random, net).length = 0,
        Fault::LargeLength => {
            let length = above(random, MOST_LENGTH);
            any_segment(random, net).length = length;
        }
        Fault::Unjoined => {
            if posts < MOST_POSTS && random.chance(1, 3) {
                net.posts += 1;
                if net.own.is_some() {
                    own_of(net).resize(posts as usize, Ratio::new(1, 1));
                }
            } else {
                let apart = random.below(posts.max(1));
                if apart != net.source {
                    net.segments
                        .retain(|segment| segment.across(apart).is_none());
                } else {
                    net.segments.clear();
                }
            }
        }
    }
}
