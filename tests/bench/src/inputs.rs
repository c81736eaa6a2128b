//! The nets and runs on which all are measured, always the same.

use generate::{drawn, encode, Random};
use reference::{Net, Run, Segment};

/// A number of posts and of segments.
#[derive(Clone, Copy, Debug, PartialEq, Eq)]
pub struct Size {
    /// Posts.
    pub posts: u32,
    /// Segments.
    pub segments: u32,
}

impl Size {
    /// The sizes that are measured: a chain of posts, which has no segment to spare, and then frames, the largest that
    /// there may be last.
    pub const ALL: [Size; 4] = [
        Size::new(256, 255),
        Size::new(16, 64),
        Size::new(64, 256),
        Size::new(256, 2_048),
    ];

    const fn new(posts: u32, segments: u32) -> Self {
        Size { posts, segments }
    }

    /// Whether a net of this size is a chain.
    const fn is_chain(self) -> bool {
        self.segments < self.posts
    }

    /// How it is written in tables and as an argument.
    pub fn text(self) -> String {
        format!("{}/{}", self.posts, self.segments)
    }

    /// The size that is written so.
    pub fn named(text: &str) -> Option<Size> {
        Size::ALL.into_iter().find(|size| size.text() == text)
    }
}

/// A net and its record.
pub struct Input {
    /// The net, for those that start from segments already read.
    pub net: Net,
    /// Its record.
    pub record: Vec<u8>,
}

const SEED: u64 = 6_001;
/// Nets of each size: enough that no branch is learnt by heart.
pub const NETS: usize = 48;
/// Drawn runs.
pub const RUNS: usize = 4_096;
/// The frame on which posts stand, in sixteenths of a millimetre a side.
const FRAME: u32 = 32_000;

/// The length of a segment along the frame's two directions.
fn length((ax, ay): (u32, u32), (bx, by): (u32, u32)) -> u32 {
    (ax.abs_diff(bx) + ay.abs_diff(by)).max(1)
}

/// A joined net of the first form, of posts at random places on a square frame: first a random tree, or
/// a chain, then segments between posts of which one is, mostly, near the other.
fn net_on_frame(random: &mut Random, size: Size) -> Net {
    let places: Vec<(u32, u32)> = (0..size.posts)
        .map(|_| (random.below(FRAME), random.below(FRAME)))
        .collect();
    let joined =
        |a: u32, b: u32| Segment::new(a, b, length(places[a as usize], places[b as usize]));
    let mut segments: Vec<Segment> = (1..size.posts)
        .map(|post| {
            let other = if size.is_chain() {
                post - 1
            } else {
                random.below(post)
            };
            joined(other, post)
        })
        .collect();
    while segments.len() < size.segments as usize {
        let a = random.below(size.posts);
        let others = [0; 4].map(|_| random.below(size.posts));
        let near = others.into_iter().filter(|&b| b != a);
        if let Some(b) = near.min_by_key(|&b| length(places[a as usize], places[b as usize])) {
            segments.push(joined(a, b));
        }
    }
    random.shuffle(&mut segments);
    Net {
        posts: size.posts,
        source: random.below(size.posts),
        p: random.pick(&[1, 1, 2, 3]),
        q: random.pick(&[2, 4, 4, 8]),
        own: None,
        segments,
    }
}

/// The nets of this size.
pub fn nets(size: Size) -> Vec<Input> {
    (0..NETS)
        .map(|case| {
            let net = net_on_frame(&mut Random::for_case(SEED, case as u64), size);
            let record = encode(&net);
            Input { net, record }
        })
        .collect()
}

/// The drawn runs, of which some are refused.
pub fn runs() -> Vec<Run> {
    let mut random = Random::new(SEED);
    (0..RUNS).map(|_| drawn::any_run(&mut random)).collect()
}
