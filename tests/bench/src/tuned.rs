//! Document 01, with the own ratios of Req 01, in plain Rust tuned for speed, to
//! measure the library against.
//!
//! The lightest tree by sorting and joining (path halving), the least lengths by
//! Dijkstra's method with a binary heap, the walk without recursion. All memory
//! is used again from net to net. Nothing here is proved; `tests/tuned.rs` holds
//! it to the reference.

use std::cmp::Reverse;
use std::collections::BinaryHeap;

use reference::net::{MOST_LENGTH, MOST_POSTS, MOST_RATIO, MOST_SEGMENTS};
use reference::trees::SOURCE_ENTRY;
use reference::{Refusal, Run};

/// A note or a least length that isn't known yet: larger than any length, and
/// small enough to add a length to.
const NONE_YET: u32 = u32::MAX / 2;
/// Low bits of a sorting key, which hold a segment's number.
const NUMBER_BITS: u32 = 11;

/// A segment.
#[derive(Clone, Copy, Default)]
struct Segment {
    length: u32,
    a: u16,
    b: u16,
}

impl Segment {
    /// The end that isn't `post`, which is the other one.
    #[inline]
    fn across(self, post: usize) -> usize {
        usize::from(self.a ^ self.b) ^ post
    }
}

/// A ratio's p and q.
type Ratio = (u32, u32);

#[inline]
fn is_ratio((p, q): Ratio) -> bool {
    p <= MOST_RATIO && q.wrapping_sub(1) < MOST_RATIO
}

/// The five head numbers, and whether a number 0 stands before them: each post
/// but the source then has a ratio of its own.
#[derive(Clone, Copy, Default)]
struct Head {
    second_form: bool,
    posts: u32,
    source: u32,
    p: u32,
    q: u32,
    segments: u32,
}

/// A record, and the place in it.
struct Reader<'r> {
    record: &'r [u8],
    at: usize,
}

impl Reader<'_> {
    /// The next number; most have one byte.
    #[inline]
    fn number(&mut self) -> Result<u32, Refusal> {
        match self.record.get(self.at) {
            Some(&byte) if byte < 128 => {
                self.at += 1;
                Ok(u32::from(byte))
            }
            _ => self.long_number(),
        }
    }

    #[inline]
    fn long_number(&mut self) -> Result<u32, Refusal> {
        let mut value = 0;
        for group in 0..4 {
            let Some(&byte) = self.record.get(self.at + group) else {
                return Err(Refusal::new(10, self.at));
            };
            value |= u32::from(byte & 127) << (7 * group);
            if byte < 128 {
                if byte == 0 && group > 0 {
                    return Err(Refusal::new(11, self.at));
                }
                self.at += group + 1;
                return Ok(value);
            }
        }
        Err(Refusal::new(11, self.at))
    }

    fn head(&mut self) -> Result<Head, Refusal> {
        let first = self.number()?;
        let second_form = first == 0;
        let head = Head {
            second_form,
            posts: if second_form { self.number()? } else { first },
            source: self.number()?,
            p: self.number()?,
            q: self.number()?,
            segments: self.number()?,
        };
        let refused = if head.posts.wrapping_sub(1) >= MOST_POSTS {
            1
        } else if head.source >= head.posts {
            2
        } else if !is_ratio((head.p, head.q)) {
            3
        } else if head.segments as usize > MOST_SEGMENTS {
            4
        } else {
            return Ok(head);
        };
        Err(Refusal::new(refused, 0))
    }

    fn ratio(&mut self, post: u32) -> Result<Ratio, Refusal> {
        let ratio = (self.number()?, self.number()?);
        if is_ratio(ratio) {
            Ok(ratio)
        } else {
            Err(Refusal::new(3, post as usize))
        }
    }

    #[inline]
    fn segment(&mut self, posts: u32, number: usize) -> Result<Segment, Refusal> {
        let (a, b, length) = (self.number()?, self.number()?, self.number()?);
        let refused = if a >= posts || b >= posts {
            5
        } else if a == b {
            6
        } else if length.wrapping_sub(1) >= MOST_LENGTH {
            7
        } else {
            return Ok(Segment {
                length,
                a: a as u16,
                b: b as u16,
            });
        };
        Err(Refusal::new(refused, number))
    }
}

/// Puts a number into the room, from `at` on, and says where it ends.
#[inline]
fn put_number(room: &mut [u8], mut at: usize, mut value: u32) -> Result<usize, Refusal> {
    loop {
        let Some(byte) = room.get_mut(at) else {
            return Err(Refusal::new(18, 0));
        };
        at += 1;
        if value < 128 {
            *byte = value as u8;
            return Ok(at);
        }
        *byte = value as u8 | 128;
        value >>= 7;
    }
}

/// How many bytes a number takes.
#[inline]
fn bytes_of(value: u32) -> usize {
    match value {
        0..0x80 => 1,
        0x80..0x4000 => 2,
        0x4000..0x20_0000 => 3,
        _ => 4,
    }
}

/// For each post the segments that end at it, in rising number, one row after
/// the other.
#[derive(Default)]
struct Rows {
    starts: Vec<u32>,
    ends: Vec<u16>,
}

impl Rows {
    /// Makes the rows of these segments, given in rising number.
    fn fill(
        &mut self,
        posts: usize,
        segments: &[Segment],
        numbers: impl Iterator<Item = usize> + Clone,
    ) {
        self.starts.clear();
        self.starts.resize(posts + 2, 0);
        let mut count = 0;
        for number in numbers.clone() {
            let segment = segments[number];
            self.starts[usize::from(segment.a) + 2] += 1;
            self.starts[usize::from(segment.b) + 2] += 1;
            count += 2;
        }
        for post in 2..posts + 2 {
            self.starts[post] += self.starts[post - 1];
        }
        self.ends.clear();
        self.ends.resize(count, 0);
        for number in numbers {
            let segment = segments[number];
            for end in [segment.a, segment.b] {
                let next = &mut self.starts[usize::from(end) + 1];
                self.ends[*next as usize] = number as u16;
                *next += 1;
            }
        }
    }

    #[inline]
    fn row(&self, post: usize) -> &[u16] {
        &self.ends[self.starts[post] as usize..self.starts[post + 1] as usize]
    }
}

/// The part to which a post belongs, with the way to it halved.
#[inline]
fn part_of(parts: &mut [u16], mut post: usize) -> usize {
    while usize::from(parts[post]) != post {
        parts[post] = parts[usize::from(parts[post])];
        post = usize::from(parts[post]);
    }
    post
}

/// A post on the walk, the segment by which it was entered, and how far its row
/// was gone through.
#[derive(Clone, Copy)]
struct Step {
    post: u16,
    by: u16,
    next: u32,
}

/// Plans nets. Its memory is used again from net to net.
#[derive(Default)]
pub struct Planner {
    head: Head,
    /// In the second form each post's own ratio; the source's is never looked at.
    own: Vec<Ratio>,
    segments: Vec<Segment>,
    keys: Vec<u32>,
    parts: Vec<u16>,
    chosen: Vec<u16>,
    light_rows: Rows,
    all_rows: Rows,
    least: Vec<u32>,
    heap: BinaryHeap<Reverse<u64>>,
    notes: Vec<u32>,
    paths: Vec<u32>,
    steps: Vec<Step>,
    climb: Vec<u16>,
}

/// Length and radius of a tree.
type Measure = (u32, u32);

impl Planner {
    /// Reads a record.
    pub fn check(&mut self, record: &[u8]) -> Result<(), Refusal> {
        let mut reader = Reader { record, at: 0 };
        self.head = reader.head()?;
        self.own.clear();
        if self.head.second_form {
            self.read_own(&mut reader)?;
        }
        self.segments.clear();
        for number in 0..self.head.segments as usize {
            let segment = reader.segment(self.head.posts, number)?;
            self.segments.push(segment);
        }
        if reader.at < record.len() {
            return Err(Refusal::new(12, reader.at));
        }
        Ok(())
    }

    /// Reads the own ratio of each post but the source.
    fn read_own(&mut self, reader: &mut Reader) -> Result<(), Refusal> {
        for post in 0..self.head.posts {
            let none = post == self.head.source;
            self.own
                .push(if none { (0, 1) } else { reader.ratio(post)? });
        }
        Ok(())
    }

    /// The numbers of the record before the segments.
    fn start(&self) -> impl Iterator<Item = u32> + '_ {
        let head = self.head;
        let own = (0..).zip(&self.own);
        (head.second_form.then_some(0).into_iter())
            .chain([head.posts, head.source, head.p, head.q, head.segments])
            .chain(
                own.filter(move |&(post, _)| post != head.source)
                    .flat_map(|(_, &(p, q))| [p, q]),
            )
    }

    /// Reads a record and writes it into the room.
    pub fn rewrite(&mut self, record: &[u8], room: &mut [u8]) -> Result<usize, Refusal> {
        self.check(record)?;
        // Nothing may be written into room that is too short.
        let body: usize = self
            .segments
            .iter()
            .map(|s| bytes_of(s.a.into()) + bytes_of(s.b.into()) + bytes_of(s.length))
            .sum();
        if room.len() < body + self.start().map(bytes_of).sum::<usize>() {
            return Err(Refusal::new(18, 0));
        }
        let mut at = 0;
        for number in self.start() {
            at = put_number(room, at, number)?;
        }
        for segment in &self.segments {
            at = put_number(room, at, segment.a.into())?;
            at = put_number(room, at, segment.b.into())?;
            at = put_number(room, at, segment.length)?;
        }
        Ok(at)
    }

    /// Reads a record and builds its trees into three lists with an entry for
    /// each post, and the twelve numbers of the summary.
    pub fn plan(
        &mut self,
        record: &[u8],
        lightest: &mut [u16],
        shortest: &mut [u16],
        between: &mut [u16],
        summary: &mut [u32; 12],
    ) -> Result<(), Refusal> {
        self.check(record)?;
        let posts = self.head.posts as usize;
        let lists = [lightest.len(), shortest.len(), between.len()];
        if lists.iter().any(|&entries| entries < posts) {
            return Err(Refusal::new(8, 0));
        }
        self.choose_lightest(posts)?;
        let chosen = &self.chosen;
        self.light_rows.fill(
            posts,
            &self.segments,
            chosen.iter().map(|&number| number.into()),
        );
        self.all_rows
            .fill(posts, &self.segments, 0..self.segments.len());
        self.find_least(posts);
        let (lightest, shortest, between) = (
            &mut lightest[..posts],
            &mut shortest[..posts],
            &mut between[..posts],
        );
        let short = self.hang_shortest(shortest);
        let (light, laid) = self.walk(lightest, shortest, between);
        let middle = self.measure(between);
        let Head {
            posts,
            source,
            p,
            q,
            segments,
            ..
        } = self.head;
        *summary = [
            posts, segments, source, p, q, light.0, light.1, short.0, short.1, middle.0, middle.1,
            laid,
        ];
        Ok(())
    }

    /// Chooses the segments of the lightest tree, in rising number.
    fn choose_lightest(&mut self, posts: usize) -> Result<(), Refusal> {
        self.keys.clear();
        let keys = (0..).zip(&self.segments);
        self.keys
            .extend(keys.map(|(number, segment)| segment.length << NUMBER_BITS | number));
        self.keys.sort_unstable();
        self.parts.clear();
        self.parts.extend(0..posts as u16);
        self.chosen.clear();
        for key in &self.keys {
            if self.chosen.len() + 1 == posts {
                break;
            }
            let number = key & ((1 << NUMBER_BITS) - 1);
            let segment = self.segments[number as usize];
            let a = part_of(&mut self.parts, segment.a.into());
            let b = part_of(&mut self.parts, segment.b.into());
            if a != b {
                self.parts[a] = b as u16;
                self.chosen.push(number as u16);
            }
        }
        if self.chosen.len() + 1 < posts {
            let home = part_of(&mut self.parts, self.head.source as usize);
            let apart = (0..posts).find(|&post| part_of(&mut self.parts, post) != home);
            return Err(Refusal::new(9, apart.expect("some post is apart")));
        }
        self.chosen.sort_unstable();
        Ok(())
    }

    /// Finds the least length of a route to each post.
    fn find_least(&mut self, posts: usize) {
        let source = self.head.source as usize;
        self.least.clear();
        self.least.resize(posts, NONE_YET);
        self.least[source] = 0;
        self.heap.clear();
        self.heap.push(Reverse(source as u64));
        while let Some(Reverse(key)) = self.heap.pop() {
            let (length, post) = ((key >> 16) as u32, key as u16 as usize);
            if length > self.least[post] {
                continue;
            }
            for &number in self.all_rows.row(post) {
                let segment = self.segments[usize::from(number)];
                let next = segment.across(post);
                let route = length + segment.length;
                if route < self.least[next] {
                    self.least[next] = route;
                    self.heap
                        .push(Reverse(u64::from(route) << 16 | next as u64));
                }
            }
        }
    }

    /// Hangs each post by the lowest-numbered segment that fits.
    fn hang_shortest(&mut self, tree: &mut [u16]) -> Measure {
        tree.fill(SOURCE_ENTRY);
        let mut whole = 0;
        for (number, segment) in (0..).zip(&self.segments) {
            let (a, b) = (usize::from(segment.a), usize::from(segment.b));
            let (to_a, to_b) = (self.least[a], self.least[b]);
            let v = if to_a + segment.length == to_b {
                b
            } else if to_b + segment.length == to_a {
                a
            } else {
                continue;
            };
            if tree[v] == SOURCE_ENTRY {
                tree[v] = number;
                whole += segment.length;
            }
        }
        (whole, self.least.iter().copied().max().unwrap_or(0))
    }

    /// Walks the lightest tree from the source: hangs it, and makes the tree
    /// between. Answers with the lightest tree's measure and the count of laid
    /// paths.
    fn walk(
        &mut self,
        lightest: &mut [u16],
        shortest: &[u16],
        between: &mut [u16],
    ) -> (Measure, u32) {
        let posts = lightest.len();
        let source = self.head.source as usize;
        let house = (self.head.p, self.head.q);
        let (mut whole, mut radius, mut laid) = (0, 0, 0);
        between.fill(SOURCE_ENTRY);
        self.notes.clear();
        self.notes.resize(posts, NONE_YET);
        self.notes[source] = 0;
        self.paths.clear();
        self.paths.resize(posts, 0);
        lightest[source] = SOURCE_ENTRY;
        self.steps.clear();
        self.steps.push(Step {
            post: source as u16,
            by: SOURCE_ENTRY,
            next: self.light_rows.starts[source],
        });
        while let Some(step) = self.steps.last_mut() {
            let v = usize::from(step.post);
            if step.next == self.light_rows.starts[v + 1] {
                let by = step.by;
                self.steps.pop();
                if let Some(above) = self.steps.last() {
                    let segment = self.segments[usize::from(by)];
                    attempt(
                        &mut self.notes,
                        between,
                        above.post.into(),
                        v,
                        by,
                        segment.length,
                    );
                }
                continue;
            }
            let number = self.light_rows.ends[step.next as usize];
            step.next += 1;
            if number == step.by {
                continue;
            }
            let segment = self.segments[usize::from(number)];
            let child = segment.across(v);
            lightest[child] = number;
            whole += segment.length;
            self.paths[child] = self.paths[v] + segment.length;
            radius = radius.max(self.paths[child]);
            attempt(&mut self.notes, between, child, v, number, segment.length);
            let (p, q) = self.own.get(child).copied().unwrap_or(house);
            let limit = u64::from(p + q) * u64::from(self.least[child]);
            if u64::from(q) * u64::from(self.notes[child]) > limit {
                self.lay(child, shortest, between);
                laid += 1;
            }
            self.steps.push(Step {
                post: child as u16,
                by: number,
                next: self.light_rows.starts[child],
            });
        }
        ((whole, radius), laid)
    }

    /// Lays the direct path of a post.
    fn lay(&mut self, post: usize, shortest: &[u16], between: &mut [u16]) {
        self.climb.clear();
        let mut at = post;
        while self.notes[at] > self.least[at] {
            self.climb.push(at as u16);
            at = self.segments[usize::from(shortest[at])].across(at);
        }
        for &post in self.climb.iter().rev() {
            let v = usize::from(post);
            let number = shortest[v];
            let segment = self.segments[usize::from(number)];
            attempt(
                &mut self.notes,
                between,
                v,
                segment.across(v),
                number,
                segment.length,
            );
        }
    }

    /// The measure of a tree: every path is found once, from the nearest post
    /// above whose path is known.
    fn measure(&mut self, tree: &[u16]) -> Measure {
        self.paths.clear();
        self.paths.resize(tree.len(), NONE_YET);
        self.paths[self.head.source as usize] = 0;
        let (mut whole, mut radius) = (0, 0);
        for post in 0..tree.len() {
            self.climb.clear();
            let mut at = post;
            while self.paths[at] == NONE_YET {
                self.climb.push(at as u16);
                at = self.segments[usize::from(tree[at])].across(at);
            }
            let mut path = self.paths[at];
            for &post in self.climb.iter().rev() {
                let length = self.segments[usize::from(tree[usize::from(post)])].length;
                path += length;
                whole += length;
                self.paths[usize::from(post)] = path;
            }
            radius = radius.max(self.paths[post]);
        }
        (whole, radius)
    }
}

/// Tries `v` from `u` by a segment.
#[inline]
fn attempt(notes: &mut [u32], tree: &mut [u16], v: usize, u: usize, number: u16, length: u32) {
    let sum = notes[u] + length;
    if sum < notes[v] {
        notes[v] = sum;
        tree[v] = number;
    }
}

/// 16 times one length, rounded up, or its refusal with this place.
#[inline]
fn sixteenths(length: f64, place: usize) -> Result<u32, Refusal> {
    // Doubling is exact, and what becomes infinite is too long.
    let doubled = length * 16.0;
    if doubled > 0.0 && doubled <= f64::from(MOST_LENGTH) {
        let whole = doubled as u32;
        return Ok(whole + u32::from(f64::from(whole) != doubled));
    }
    let refused = if !length.is_finite() {
        13
    } else if length < 0.0 {
        14
    } else if length == 0.0 {
        15
    } else {
        17
    };
    Err(Refusal::new(refused, place))
}

/// The length of a drawn run, in sixteenths of a millimetre.
#[inline(never)]
pub fn drawn(run: Run) -> Result<u32, Refusal> {
    match run {
        Run::Straight(length) => sixteenths(length, 0),
        Run::Corner(first, second) => {
            let sum = sixteenths(first, 0)? + sixteenths(second, 1)?;
            if sum > MOST_LENGTH {
                return Err(Refusal::new(17, 2));
            }
            Ok(sum)
        }
    }
}
