//! Nets of both forms, the numbers that bound them, refusals 1 to 7 and 9, and
//! 8 for own ratios that are missing.

use std::fmt;

/// The most posts that a net may have.
pub const MOST_POSTS: u32 = 256;
/// The most segments that a net may have.
pub const MOST_SEGMENTS: usize = 2_048;
/// The greatest length of a segment, in sixteenths of a millimetre.
pub const MOST_LENGTH: u32 = 1_048_575;
/// The greatest p, and the greatest q, of a ratio p/q.
pub const MOST_RATIO: u32 = 10_000;

/// A refusal: its number in document 01's table, and its place.
#[derive(Clone, Copy, Debug, PartialEq, Eq, PartialOrd, Ord, Hash)]
pub struct Refusal {
    /// The number: 1 to 20, or 30.
    pub number: u32,
    /// A segment, a post, an offset or a leg, as the number demands; or 0.
    pub place: u32,
}

impl Refusal {
    /// The refusal with this number and place.
    pub fn new(number: u32, place: usize) -> Self {
        let place = u32::try_from(place).expect("places are small");
        Refusal { number, place }
    }
}

impl fmt::Display for Refusal {
    fn fmt(&self, f: &mut fmt::Formatter<'_>) -> fmt::Result {
        write!(f, "refused {} {}", self.number, self.place)
    }
}

/// A segment: the two posts that it joins, and its length in sixteenths of a
/// millimetre.
#[derive(Clone, Copy, Debug, Default, PartialEq, Eq, Hash)]
pub struct Segment {
    /// The first post.
    pub a: u32,
    /// The second post.
    pub b: u32,
    /// The length.
    pub length: u32,
}

impl Segment {
    /// The segment with these ends and this length.
    pub fn new(a: u32, b: u32, length: u32) -> Self {
        Segment { a, b, length }
    }

    /// The end that isn't `post`, or `None` if `post` is no end of the segment.
    pub fn across(self, post: u32) -> Option<u32> {
        if self.a == post {
            Some(self.b)
        } else if self.b == post {
            Some(self.a)
        } else {
            None
        }
    }
}

/// A ratio p/q. It isn't reduced.
#[derive(Clone, Copy, Debug, PartialEq, Eq, Hash)]
pub struct Ratio {
    /// The upper number.
    pub p: u32,
    /// The lower number.
    pub q: u32,
}

impl Ratio {
    /// The ratio of these two numbers.
    pub fn new(p: u32, q: u32) -> Self {
        Ratio { p, q }
    }

    /// Whether this ratio is smaller than another, by cross products.
    pub fn is_below(self, other: Ratio) -> bool {
        u64::from(self.p) * u64::from(other.q) < u64::from(other.p) * u64::from(self.q)
    }
}

/// The form of a net and of its record.
#[derive(Clone, Copy, Debug, PartialEq, Eq, Hash)]
pub enum Form {
    /// The house ratio rules every post.
    First,
    /// Every post but the source has a ratio of its own.
    Second,
}

/// A net, sound or not: any numbers may stand here, and the checks say which
/// of them are refused.
#[derive(Clone, Debug, PartialEq, Eq, Hash)]
pub struct Net {
    /// How many posts there are; they are numbered from 0.
    pub posts: u32,
    /// The source post.
    pub source: u32,
    /// The upper number of the house ratio p/q.
    pub p: u32,
    /// The lower number of the house ratio p/q.
    pub q: u32,
    /// In the second form, the own ratio of each post but the source, in rising
    /// order, as the record has them; in the first form `None`.
    pub own: Option<Vec<Ratio>>,
    /// The segments, numbered from 0 in this order.
    pub segments: Vec<Segment>,
}

impl Net {
    /// A net of the first form from its numbers and a list of (post, post,
    /// length).
    pub fn new(posts: u32, source: u32, (p, q): (u32, u32), list: &[(u32, u32, u32)]) -> Self {
        let segments = list
            .iter()
            .map(|&(a, b, length)| Segment::new(a, b, length))
            .collect();
        Net {
            posts,
            source,
            p,
            q,
            own: None,
            segments,
        }
    }

    /// The same net in the second form, with these own ratios of the posts but
    /// the source.
    pub fn with_own(self, list: &[(u32, u32)]) -> Self {
        let own = list.iter().map(|&(p, q)| Ratio::new(p, q)).collect();
        Net {
            own: Some(own),
            ..self
        }
    }

    /// The form of the net.
    pub fn form(&self) -> Form {
        match self.own {
            None => Form::First,
            Some(_) => Form::Second,
        }
    }

    /// The house ratio.
    pub fn house(&self) -> Ratio {
        Ratio::new(self.p, self.q)
    }

    /// For each post of a sound net the ratio that rules it. The source has
    /// none: its path is 0 in every tree, and no ratio says more of that.
    pub fn ratios(&self) -> Vec<Option<Ratio>> {
        let mut ratios = vec![Some(self.house()); self.posts as usize];
        for (post, ratio) in self.own_ratios() {
            ratios[post as usize] = Some(ratio);
        }
        ratios[self.source as usize] = None;
        ratios
    }

    /// The own ratios with their posts, as far as there are both.
    fn own_ratios(&self) -> impl Iterator<Item = (u32, Ratio)> + '_ {
        let own = self.own.iter().flatten().copied();
        posts_but(self.source, self.posts).zip(own)
    }

    /// The smallest ratio of any post but the source of a sound net, by cross
    /// products; the lowest post's where several are. `None` for one post.
    pub fn smallest_ratio(&self) -> Option<Ratio> {
        let ratios = self.ratios().into_iter().flatten();
        ratios.reduce(|least, next| if next.is_below(least) { next } else { least })
    }

    /// Refusals 1 to 4.
    pub fn check_head(&self) -> Result<(), Refusal> {
        check_head(self.posts, self.source, self.p, self.q, self.segments.len())
    }

    /// Refusals 1 to 7, in the order of building, and then 8 where a net of the
    /// second form has no ratio for some post.
    pub fn check_sound(&self) -> Result<(), Refusal> {
        self.check_head()?;
        for (post, ratio) in self.own_ratios() {
            check_ratio(ratio, post as usize)?;
        }
        for (number, &segment) in self.segments.iter().enumerate() {
            check_segment(self.posts, number, segment)?;
        }
        match &self.own {
            Some(own) if own.len() + 1 < self.posts as usize => Err(Refusal::new(8, 0)),
            _ => Ok(()),
        }
    }

    /// Refusal 9, for a sound net: every post must be joined to the source.
    pub fn check_joined(&self) -> Result<(), Refusal> {
        match self.joined().iter().position(|&joined| !joined) {
            None => Ok(()),
            Some(post) => Err(Refusal::new(9, post)),
        }
    }

    /// For each post of a sound net, whether it is joined to the source.
    pub fn joined(&self) -> Vec<bool> {
        let mut joined = vec![false; self.posts as usize];
        joined[self.source as usize] = true;
        let mut more = true;
        while more {
            more = false;
            for segment in &self.segments {
                let (a, b) = (segment.a as usize, segment.b as usize);
                if joined[a] != joined[b] {
                    joined[a] = true;
                    joined[b] = true;
                    more = true;
                }
            }
        }
        joined
    }
}

/// Every post but the source, in rising order.
pub fn posts_but(source: u32, posts: u32) -> impl Iterator<Item = u32> {
    (0..posts).filter(move |&post| post != source)
}

/// Refusals 1 to 4, in turn: what can be said before any own ratio or segment
/// is looked at.
pub fn check_head(
    posts: u32,
    source: u32,
    p: u32,
    q: u32,
    segment_count: usize,
) -> Result<(), Refusal> {
    if !(1..=MOST_POSTS).contains(&posts) {
        return Err(Refusal::new(1, 0));
    }
    if source >= posts {
        return Err(Refusal::new(2, 0));
    }
    check_ratio(Ratio::new(p, q), 0)?;
    if segment_count > MOST_SEGMENTS {
        return Err(Refusal::new(4, 0));
    }
    Ok(())
}

/// Refusal 3: at place 0 for the house ratio, at the post for its own.
pub fn check_ratio(ratio: Ratio, place: usize) -> Result<(), Refusal> {
    if ratio.p <= MOST_RATIO && (1..=MOST_RATIO).contains(&ratio.q) {
        Ok(())
    } else {
        Err(Refusal::new(3, place))
    }
}

/// Refusals 5 to 7, in turn, for the segment with this number.
pub fn check_segment(posts: u32, number: usize, segment: Segment) -> Result<(), Refusal> {
    if segment.a >= posts || segment.b >= posts {
        return Err(Refusal::new(5, number));
    }
    if segment.a == segment.b {
        return Err(Refusal::new(6, number));
    }
    if !(1..=MOST_LENGTH).contains(&segment.length) {
        return Err(Refusal::new(7, number));
    }
    Ok(())
}
