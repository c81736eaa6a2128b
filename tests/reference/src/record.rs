//! Net records of both forms: reading (refusals 10 to 12, 1 to 8) and writing
//! (1 to 8, 18).

use crate::net::{
    check_head, check_ratio, check_segment, posts_but, Form, Net, Ratio, Refusal, Segment,
    MOST_POSTS, MOST_SEGMENTS,
};

/// The most groups in which a number is written.
pub const MOST_GROUPS: usize = 4;
/// The length of the longest good record.
pub const LONGEST_RECORD: usize = 15_367;
/// The length of the longest good record of the first form.
pub const LONGEST_FIRST_FORM: usize = 14_346;

/// The head of a record: its form and the five numbers.
#[derive(Clone, Copy, Debug, PartialEq, Eq)]
pub struct Head {
    /// The form; a number 0 before the post count says that it is the second.
    pub form: Form,
    /// The post count.
    pub posts: u32,
    /// The source post.
    pub source: u32,
    /// The upper number of the house ratio p/q.
    pub p: u32,
    /// The lower number of the house ratio p/q.
    pub q: u32,
    /// The segment count.
    pub segments: u32,
}

/// Reads the number at `offset`: its value and the offset after it.
///
/// Refused with 10 if the record ends before the number or inside it after at
/// most three of its bytes, and with 11 if it isn't in its shortest form or a
/// fourth group says that more follow.
pub fn read_number(record: &[u8], offset: usize) -> Result<(u32, usize), Refusal> {
    let rest = &record[offset..];
    let groups = &rest[..rest.len().min(MOST_GROUPS)];
    let Some(last) = groups.iter().position(|&byte| byte < 128) else {
        let number = if groups.len() < MOST_GROUPS { 10 } else { 11 };
        return Err(Refusal::new(number, offset));
    };
    if last > 0 && groups[last] == 0 {
        return Err(Refusal::new(11, offset));
    }
    let value = groups[..=last]
        .iter()
        .rev()
        .fold(0, |higher, &byte| higher * 128 + u32::from(byte % 128));
    Ok((value, offset + last + 1))
}

/// A record and the place in it, carried from number to number.
struct Reader<'r> {
    record: &'r [u8],
    offset: usize,
}

impl Reader<'_> {
    fn number(&mut self) -> Result<u32, Refusal> {
        let (value, offset) = read_number(self.record, self.offset)?;
        self.offset = offset;
        Ok(value)
    }

    /// The head's numbers, none of them looked at.
    fn head(&mut self) -> Result<Head, Refusal> {
        let first = self.number()?;
        let (form, posts) = match first {
            0 => (Form::Second, self.number()?),
            _ => (Form::First, first),
        };
        Ok(Head {
            form,
            posts,
            source: self.number()?,
            p: self.number()?,
            q: self.number()?,
            segments: self.number()?,
        })
    }

    /// A post's own ratio: both numbers are read before its 3.
    fn ratio(&mut self, post: u32) -> Result<Ratio, Refusal> {
        let ratio = Ratio::new(self.number()?, self.number()?);
        check_ratio(ratio, post as usize)?;
        Ok(ratio)
    }

    /// A segment: its three numbers are read before its 5, 6, 7.
    fn segment(&mut self, posts: u32, number: usize) -> Result<Segment, Refusal> {
        let segment = Segment {
            a: self.number()?,
            b: self.number()?,
            length: self.number()?,
        };
        check_segment(posts, number, segment)?;
        Ok(segment)
    }
}

/// How many entries there are for what a record holds.
struct Rooms {
    /// For the posts' ratios, in either list.
    ratios: usize,
    /// For the segments.
    segments: usize,
}

/// What a record holds; own ratios only in the second form.
struct Parts {
    head: Head,
    own: Vec<Ratio>,
    segments: Vec<Segment>,
}

/// Reads a record whose ratios and segments find these rooms.
fn read_within(record: &[u8], rooms: &Rooms) -> Result<Parts, Refusal> {
    let mut reader = Reader { record, offset: 0 };
    let head = reader.head()?;
    let count = head.segments as usize;
    check_head(head.posts, head.source, head.p, head.q, count)?;
    if rooms.segments < count || rooms.ratios < head.posts as usize {
        return Err(Refusal::new(8, 0));
    }
    let mut own = Vec::new();
    if head.form == Form::Second {
        for post in posts_but(head.source, head.posts) {
            own.push(reader.ratio(post)?);
        }
    }
    let mut segments = Vec::new();
    for number in 0..count {
        segments.push(reader.segment(head.posts, number)?);
    }
    if reader.offset < record.len() {
        return Err(Refusal::new(12, reader.offset));
    }
    Ok(Parts {
        head,
        own,
        segments,
    })
}

/// Reads a record into lent lists: two for the posts' ratios, p and q, and one
/// for the segments. The source's entries, those beyond the record's counts and,
/// in the first form, both ratio lists stay as they were; after a refusal all
/// do.
pub fn read_into(
    record: &[u8],
    p: &mut [u32],
    q: &mut [u32],
    segments: &mut [Segment],
) -> Result<Head, Refusal> {
    let rooms = Rooms {
        ratios: p.len().min(q.len()),
        segments: segments.len(),
    };
    let parts = read_within(record, &rooms)?;
    let head = parts.head;
    for (post, ratio) in posts_but(head.source, head.posts).zip(parts.own) {
        (p[post as usize], q[post as usize]) = (ratio.p, ratio.q);
    }
    segments[..parts.segments.len()].copy_from_slice(&parts.segments);
    Ok(head)
}

/// Reads a record into a net of its own, as with lent lists that are always
/// long enough.
pub fn read(record: &[u8]) -> Result<Net, Refusal> {
    let rooms = Rooms {
        ratios: MOST_POSTS as usize,
        segments: MOST_SEGMENTS,
    };
    let parts = read_within(record, &rooms)?;
    let head = parts.head;
    Ok(Net {
        posts: head.posts,
        source: head.source,
        p: head.p,
        q: head.q,
        own: (head.form == Form::Second).then_some(parts.own),
        segments: parts.segments,
    })
}

/// Writes a number in groups of seven bits, lowest group first.
///
/// # Panics
/// If the number needs more than four groups.
pub fn number_bytes(value: u32) -> Vec<u8> {
    assert!(value < 1 << 28, "{value} needs more than four groups");
    let mut bytes = Vec::new();
    let mut rest = value;
    loop {
        let group = (rest % 128) as u8;
        rest /= 128;
        if rest == 0 {
            bytes.push(group);
            return bytes;
        }
        bytes.push(group + 128);
    }
}

/// The numbers of a net's record, in the order in which they are written.
pub fn numbers(net: &Net) -> Vec<u32> {
    let count = u32::try_from(net.segments.len()).expect("no list is that long");
    let mut numbers = vec![net.posts, net.source, net.p, net.q, count];
    if let Some(own) = &net.own {
        numbers.insert(0, 0);
        numbers.extend(own.iter().flat_map(|ratio| [ratio.p, ratio.q]));
    }
    for segment in &net.segments {
        numbers.extend([segment.a, segment.b, segment.length]);
    }
    numbers
}

/// The record of a sound net, joined or not: refusals 1 to 8.
pub fn write(net: &Net) -> Result<Vec<u8>, Refusal> {
    net.check_sound()?;
    Ok(numbers(net).into_iter().flat_map(number_bytes).collect())
}

/// Writes a net's record into the lent room and says how long it is. Bytes
/// beyond it stay as they were, and after a refusal all of them do.
pub fn write_into(net: &Net, room: &mut [u8]) -> Result<usize, Refusal> {
    let record = write(net)?;
    match room.get_mut(..record.len()) {
        None => Err(Refusal::new(18, 0)),
        Some(part) => {
            part.copy_from_slice(&record);
            Ok(record.len())
        }
    }
}
