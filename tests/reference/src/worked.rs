//! The nets that document 01 works by hand, and the records worked for Req 01 and
//! Req 02.

use crate::moves::To;
use crate::net::{Net, MOST_LENGTH, MOST_POSTS, MOST_RATIO, MOST_SEGMENTS};

/// Net A with this ratio: 4 posts, source 0.
pub fn net_a(ratio: (u32, u32)) -> Net {
    let list = [(0, 1, 4), (1, 2, 4), (2, 3, 4), (0, 3, 5), (0, 2, 6)];
    Net::new(4, 0, ratio, &list)
}

/// The record of net A with ratio 1/1, byte by byte as document 01 gives it.
pub const RECORD_A: [u8; 20] = [4, 0, 1, 1, 5, 0, 1, 4, 1, 2, 4, 2, 3, 4, 0, 3, 5, 0, 2, 6];

/// Net B: 5 posts, source 0, ratio 1/2.
pub fn net_b() -> Net {
    let list = [(0, 1, 6), (1, 2, 6), (2, 3, 1), (2, 4, 2), (0, 4, 7)];
    Net::new(5, 0, (1, 2), &list)
}

/// Net C: 5 posts, source 0, ratio 1/2.
pub fn net_c() -> Net {
    let list = [
        (0, 1, 4),
        (1, 2, 4),
        (0, 2, 6),
        (2, 4, 5),
        (4, 3, 5),
        (2, 3, 5),
    ];
    Net::new(5, 0, (1, 2), &list)
}

/// One post and no segment, ratio 1/1.
pub fn one_post() -> Net {
    Net::new(1, 0, (1, 1), &[])
}

/// Two posts and no segment, ratio 1/1: refused with 9, place 1.
pub fn two_posts_apart() -> Net {
    Net::new(2, 0, (1, 1), &[])
}

/// Two posts, source 0, ratio 1/2 and one segment 0, 1, 300.
pub fn two_posts() -> Net {
    Net::new(2, 0, (1, 2), &[(0, 1, 300)])
}

/// The record of [`two_posts`], byte by byte as document 01 gives it.
pub const RECORD_TWO_POSTS: [u8; 9] = [2, 0, 1, 2, 1, 0, 1, 172, 2];

/// Net A in the second form: this house ratio, and the own ratios of posts 1, 2
/// and 3.
pub fn net_a_own(house: (u32, u32), own: [(u32, u32); 3]) -> Net {
    net_a(house).with_own(&own)
}

/// Net A with its posts numbered from the other end, source 3, ratio 1/1, and
/// these own ratios of posts 0, 1 and 2.
pub fn net_a_turned(own: [(u32, u32); 3]) -> Net {
    let list = [(3, 2, 4), (2, 1, 4), (1, 0, 4), (3, 0, 5), (3, 1, 6)];
    Net::new(4, 3, (1, 1), &list).with_own(&own)
}

/// A record that ends with net A's segments.
pub fn record_on_a(start: &[u8]) -> Vec<u8> {
    [start, &RECORD_A[5..]].concat()
}

/// The records of the second form that are worked and built, each with what is
/// printed for it.
pub fn built_of_second_form() -> Vec<(Vec<u8>, &'static str)> {
    vec![
        (
            record_on_a(&[0, 4, 0, 1, 1, 5, 1, 1, 1, 1, 1, 1]),
            "net 4 5 0 1/1\nmst 12 12 0 1 2\nspt 15 6 0 4 3\nlast 13 8 0 1 3\nlaid 1\n",
        ),
        // Only post 2 is laid.
        (
            record_on_a(&[0, 4, 0, 1, 1, 5, 1, 1, 0, 1, 9, 1]),
            "net 4 5 0 1/1\nmst 12 12 0 1 2\nspt 15 6 0 4 3\nlast 14 10 0 4 2\nlaid 1\n",
        ),
        // The house ratio rules nothing.
        (
            record_on_a(&[0, 4, 0, 0, 1, 5, 7, 5, 7, 5, 7, 5]),
            "net 4 5 0 0/1\nmst 12 12 0 1 2\nspt 15 6 0 4 3\nlast 12 12 0 1 2\nlaid 0\n",
        ),
        (
            record_on_a(&[0, 4, 0, 0, 1, 5, 7, 5, 7, 5, 6, 5]),
            "net 4 5 0 0/1\nmst 12 12 0 1 2\nspt 15 6 0 4 3\nlast 13 8 0 1 3\nlaid 1\n",
        ),
        // Source 2: the ratios are those of posts 0, 1 and 3.
        (
            record_on_a(&[0, 4, 2, 1, 1, 5, 0, 1, 1, 1, 2, 1]),
            "net 4 5 2 1/1\nmst 12 8 0 1 2\nspt 14 6 4 1 2\nlast 14 6 4 1 2\nlaid 1\n",
        ),
        // One post has no ratio of its own.
        (
            vec![0, 1, 0, 1, 2, 0],
            "net 1 0 0 1/2\nmst 0 0\nspt 0 0\nlast 0 0\nlaid 0\n",
        ),
    ]
}

/// The records that are worked for Req 01 and refused, each with number and
/// place.
pub const REFUSED_OF_SECOND_FORM: [(&[u8], u32, u32); 16] = [
    (&[0], 10, 1),
    (&[0, 0, 1, 1, 5], 10, 5),
    (&[0, 0, 0, 1, 1, 0], 1, 0),
    (&[128, 0], 11, 0),
    (&[0, 0], 10, 2),
    (&[0, 3, 0, 1, 1, 0, 1, 0], 3, 1),
    (&[0, 3, 0, 1, 1, 0, 1, 1, 1, 0], 3, 2),
    // p is 10,001.
    (&[0, 3, 0, 1, 1, 0, 145, 78, 1], 3, 1),
    (&[0, 3, 0, 1, 1, 0, 145, 78], 10, 8),
    (&[0, 3, 0, 1, 1, 0, 1, 128, 0], 11, 7),
    (&[0, 3, 0, 1, 1, 0, 1, 1], 10, 8),
    (&[0, 2, 0, 1, 0, 0, 1, 1], 3, 0),
    // Before the segment's 5.
    (&[0, 2, 0, 1, 2, 1, 1, 0, 0, 2, 4], 3, 1),
    (&[0, 2, 0, 1, 2, 1, 1, 1, 0, 2, 4], 5, 0),
    (&[0, 2, 0, 1, 2, 1, 1, 1, 0, 1, 4, 9], 12, 11),
    (&[0, 2, 0, 1, 2, 0, 1, 1], 9, 1),
];

/// A move that is worked for Req 02.
pub struct WorkedMove {
    /// The form that is wanted.
    pub to: To,
    /// The record that is moved.
    pub record: Vec<u8>,
    /// The bytes of room that are lent.
    pub room: usize,
    /// The record afterwards, or the refusal's number and place.
    pub answer: Result<Vec<u8>, (u32, u32)>,
}

/// The moves that are worked, row by row.
pub fn moves() -> Vec<WorkedMove> {
    let forward = |record: &[u8], room, answer: &[u8]| WorkedMove {
        to: To::Second,
        record: record.to_vec(),
        room,
        answer: Ok(answer.to_vec()),
    };
    let back = |record: &[u8], room, answer: &[u8]| WorkedMove {
        to: To::First,
        ..forward(record, room, answer)
    };
    let refused = |to, record: &[u8], room, number, place| WorkedMove {
        to,
        record: record.to_vec(),
        room,
        answer: Err((number, place)),
    };
    let second_a = record_on_a(&[0, 4, 0, 1, 1, 5, 1, 1, 1, 1, 1, 1]);
    let source_1 = [2, 1, 1, 2, 1, 0, 1, 172, 2];
    vec![
        forward(&RECORD_A, 30, &second_a),
        refused(To::Second, &RECORD_A, 26, 18, 0),
        back(&second_a, 22, &RECORD_A),
        refused(To::First, &second_a, 19, 18, 0),
        forward(
            &RECORD_TWO_POSTS,
            20,
            &[0, 2, 0, 1, 2, 1, 1, 2, 0, 1, 172, 2],
        ),
        forward(&source_1, 20, &[0, 2, 1, 1, 2, 1, 1, 2, 0, 1, 172, 2]),
        // p is 200: two bytes.
        forward(
            &[3, 1, 200, 1, 3, 0],
            40,
            &[0, 3, 1, 200, 1, 3, 0, 200, 1, 3, 200, 1, 3],
        ),
        forward(&[1, 0, 1, 2, 0], 8, &[0, 1, 0, 1, 2, 0]),
        back(&[0, 1, 0, 1, 2, 0], 8, &[1, 0, 1, 2, 0]),
        // It isn't joined.
        forward(&[2, 0, 1, 2, 0], 20, &[0, 2, 0, 1, 2, 0, 1, 2]),
        refused(To::Second, &second_a, 0, 30, 0),
        refused(To::First, &RECORD_A, 0, 30, 0),
        // As numbers; 20 before 18.
        refused(To::First, &[0, 2, 0, 1, 1, 1, 2, 2, 0, 1, 4], 0, 20, 1),
        // The lowest.
        refused(
            To::First,
            &record_on_a(&[0, 4, 0, 1, 1, 5, 1, 1, 2, 1, 1, 2]),
            0,
            20,
            2,
        ),
        // The source is 1.
        refused(
            To::First,
            &record_on_a(&[0, 4, 1, 1, 1, 5, 1, 2, 1, 1, 1, 1]),
            0,
            20,
            0,
        ),
        refused(To::Second, &[2, 0, 1, 2, 1, 0, 1, 172, 2, 7], 0, 12, 9),
        // The reader's, before 20.
        refused(To::First, &[0, 2, 0, 1, 1, 1, 2, 0, 0, 1, 4], 0, 3, 1),
        refused(To::Second, &[], 0, 10, 0),
    ]
}

/// The net whose record is the longest: 256 posts, source 255, every ratio
/// 10,000/10,000 and 2,048 segments of seven bytes. Posts below 128 have no
/// segment, so it is refused in building.
pub fn longest_net() -> Net {
    let list = vec![(128, 255, MOST_LENGTH); MOST_SEGMENTS];
    let ratio = (MOST_RATIO, MOST_RATIO);
    Net::new(MOST_POSTS, 255, ratio, &list).with_own(&[ratio; 255])
}
