//! Every example that document 01 works, and its decided readings.

use reference::net::{MOST_LENGTH, MOST_SEGMENTS};
use reference::program::MOST_BYTES;
use reference::record::{number_bytes, read_number, LONGEST_FIRST_FORM, LONGEST_RECORD};
use reference::slips::{
    drawn_by_refusal, drawn_rounded_once, drawn_to_nearest, slipped_output, slipped_trees, Slip,
};
use reference::trees::{least_lengths, lightest, path, shortest, whole_length, SOURCE_ENTRY};
use reference::worked::{
    net_a, net_b, net_c, one_post, two_posts, two_posts_apart, RECORD_A, RECORD_TWO_POSTS,
};
use reference::{
    bounds_hold, build, drawn_length, margin, program_output, read, read_into, three_trees, write,
    write_into, Form, Measure, Net, Refusal, Run, Segment, Tree, Trees,
};

const S: u16 = SOURCE_ENTRY;

fn refusal<T>(number: u32, place: u32) -> Result<T, Refusal> {
    Err(Refusal { number, place })
}

fn measure(length: u64, radius: u64) -> Measure {
    Measure { length, radius }
}

fn built_trees(net: &Net) -> Trees {
    three_trees(net).expect("the net is sound and joined")
}

// The three trees.

#[test]
fn net_a_one_to_one() {
    let net = net_a((1, 1));
    let trees = built_trees(&net);
    assert_eq!(trees.lightest, [S, 0, 1, 2]);
    assert_eq!(trees.shortest, [S, 0, 4, 3]);
    assert_eq!(trees.between, [S, 0, 1, 3]);
    let built = trees.built(&net);
    assert_eq!(built.lightest, measure(12, 12));
    assert_eq!(built.shortest, measure(15, 6));
    assert_eq!(built.between, measure(13, 8));
    assert_eq!(built.laid, 1);
}

#[test]
fn net_a_margins() {
    let net = net_a((1, 1));
    assert_eq!(margin(&net, 3, Tree::Lightest), Ok(-2));
    assert_eq!(margin(&net, 3, Tree::Between), Ok(5));
    assert_eq!(margin(&net, 3, Tree::Shortest), Ok(5));
    assert_eq!(margin(&net, 2, Tree::Lightest), Ok(4));
    for tree in Tree::ALL {
        assert_eq!(margin(&net, 0, tree), Ok(0));
        assert_eq!(margin(&net, 4, tree), refusal(19, 0));
        assert_eq!(margin(&net, u32::MAX, tree), refusal(19, 0));
    }
    assert_eq!(margin(&net_a((7, 5)), 3, Tree::Lightest), Ok(0));
}

#[test]
fn net_a_nought_to_one() {
    let net = net_a((0, 1));
    let trees = built_trees(&net);
    assert_eq!(trees.between, [S, 0, 4, 3]);
    assert_eq!(trees.built(&net).between, measure(15, 6));
    assert_eq!(trees.laid, 2);
}

#[test]
fn net_a_seven_to_five_is_equality() {
    let net = net_a((7, 5));
    let trees = built_trees(&net);
    assert_eq!(trees.between, [S, 0, 1, 2]);
    assert_eq!(trees.built(&net).between, measure(12, 12));
    assert_eq!(trees.laid, 0);
}

#[test]
fn net_a_six_to_five() {
    let trees = built_trees(&net_a((6, 5)));
    assert_eq!(trees.between, [S, 0, 1, 3]);
    assert_eq!(trees.laid, 1);
}

#[test]
fn net_b_path_below_its_note() {
    let net = net_b();
    let trees = built_trees(&net);
    assert_eq!(trees.between, [S, 0, 3, 2, 4]);
    assert_eq!(trees.built(&net).between, measure(16, 10));
    assert_eq!(trees.laid, 1);
    let least = least_lengths(&net);
    let walked = reference::between::walked(&net, &trees.lightest, &least, &trees.shortest);
    assert_eq!(walked.notes[3].length(), Some(13));
    assert_eq!(path(&net, &walked.tree, 3), Some(10));
}

#[test]
fn net_c_inner_test_without_the_ratio() {
    let net = net_c();
    let trees = built_trees(&net);
    let built = trees.built(&net);
    assert_eq!(built.lightest.length, 18);
    assert_eq!(trees.between, [S, 0, 2, 5, 3]);
    assert_eq!(built.between, measure(20, 11));
    assert_eq!(trees.laid, 1);
}

#[test]
fn one_post_measures_nothing() {
    let net = one_post();
    let trees = built_trees(&net);
    let built = trees.built(&net);
    for tree in [built.lightest, built.shortest, built.between] {
        assert_eq!(tree, measure(0, 0));
    }
    assert_eq!(built.laid, 0);
    assert_eq!(trees.lightest, [S]);
    assert_eq!(margin(&net, 0, Tree::Between), Ok(0));
    assert_eq!(margin(&net, 1, Tree::Between), refusal(19, 0));
}

#[test]
fn two_posts_without_a_segment() {
    let net = two_posts_apart();
    assert_eq!(three_trees(&net), refusal(9, 1));
    // 9 is the whole net's, whatever post is asked, and comes before 19.
    assert_eq!(margin(&net, 0, Tree::Lightest), refusal(9, 1));
    assert_eq!(margin(&net, 7, Tree::Lightest), refusal(9, 1));
    // The place is the lowest such post, and the source may be above it.
    assert_eq!(three_trees(&Net::new(2, 1, (1, 1), &[])), refusal(9, 0));
}

#[test]
fn equal_ratios_build_equal_trees_but_are_different_records() {
    let (one, two) = (net_a((1, 1)), net_a((2, 2)));
    assert_eq!(three_trees(&one), three_trees(&two));
    assert_ne!(write(&one), write(&two));
}

#[test]
fn ties_go_to_the_lower_number() {
    // Two segments join the same posts with the same length.
    let net = Net::new(2, 0, (1, 1), &[(1, 0, 5), (0, 1, 5)]);
    let trees = built_trees(&net);
    assert_eq!(trees.lightest, [S, 0]);
    assert_eq!(trees.shortest, [S, 0]);
    // A ring of four equal segments: the last number stays out, and the far
    // post hangs by the lower of its two direct segments.
    let ring = Net::new(4, 0, (1, 1), &[(2, 3, 5), (0, 1, 5), (1, 2, 5), (3, 0, 5)]);
    assert_eq!(lightest(&ring), [S, 1, 2, 0]);
    assert_eq!(shortest(&ring, &least_lengths(&ring)), [S, 1, 0, 3]);
}

/// Laying the path of post 5 brings post 2 to its direct length 8 by segment 1,
/// before post 2 is tried from post 1 by segment 5, which would give 8 too.
fn net_with_a_tied_try() -> Net {
    let list = [
        (0, 1, 4),
        (0, 2, 8),
        (1, 3, 4),
        (3, 4, 4),
        (4, 5, 4),
        (1, 2, 4),
        (2, 5, 5),
    ];
    Net::new(6, 0, (1, 10), &list)
}

#[test]
fn a_try_at_equality_changes_nothing() {
    let net = net_with_a_tied_try();
    let trees = built_trees(&net);
    assert_eq!(trees.lightest, [S, 0, 5, 2, 3, 4]);
    assert_eq!(trees.shortest, [S, 0, 1, 2, 3, 6]);
    assert_eq!(trees.between, [S, 0, 1, 2, 3, 6]);
    assert_eq!(trees.built(&net).between, measure(25, 13));
    assert_eq!(trees.laid, 1);
    let (slipped, ..) = slipped(&net, Slip::TriedAtEquality);
    assert_eq!(slipped.between, [S, 0, 5, 2, 3, 6]);
}

// Bounds.

#[test]
fn bounds_hold_on_the_worked_nets_and_can_break() {
    let nets = [
        net_a((1, 1)),
        net_a((0, 1)),
        net_a((7, 5)),
        net_a((6, 5)),
        net_b(),
        net_c(),
        one_post(),
        two_posts(),
    ];
    for net in &nets {
        assert!(bounds_hold(net, &built_trees(net)));
    }
    let net = net_a((1, 1));
    let right = built_trees(&net);
    // The lightest tree in place of the between tree: post 3 is too far.
    let far = Trees {
        between: right.lightest.clone(),
        ..right.clone()
    };
    assert!(!bounds_hold(&net, &far));
    // Posts 1 and 2 hang on each other.
    let loose = Trees {
        between: vec![S, 1, 1, 3],
        ..right.clone()
    };
    assert!(!bounds_hold(&net, &loose));
    // A post hangs by a segment that isn't its own, or by none.
    for entry in [2, 5, S] {
        let wrong = Trees {
            between: vec![S, entry, 1, 3],
            ..right.clone()
        };
        assert!(!bounds_hold(&net, &wrong));
    }
    // Too heavy: with a large ratio the between tree has to be light.
    let heavy_net = Net::new(
        4,
        0,
        (10_000, 1),
        &[(0, 1, 1), (1, 2, 1), (2, 3, 1), (0, 2, 2), (0, 3, 3)],
    );
    let heavy = Trees {
        between: vec![S, 0, 3, 4],
        ..built_trees(&heavy_net)
    };
    assert!(!bounds_hold(&heavy_net, &heavy));
}

// Refusals of building, and their order.

#[test]
fn refusals_of_building() {
    let good = net_a((1, 1));
    let with = |change: &dyn Fn(&mut Net)| {
        let mut net = good.clone();
        change(&mut net);
        three_trees(&net).map(|trees| trees.laid)
    };
    assert_eq!(with(&|_| {}), Ok(1));
    assert_eq!(with(&|net| net.posts = 0), refusal(1, 0));
    assert_eq!(with(&|net| net.posts = 257), refusal(1, 0));
    assert_eq!(with(&|net| net.posts = 256), refusal(9, 4));
    assert_eq!(with(&|net| net.source = 4), refusal(2, 0));
    assert_eq!(with(&|net| net.q = 0), refusal(3, 0));
    assert_eq!(with(&|net| net.q = 10_001), refusal(3, 0));
    assert_eq!(with(&|net| net.p = 10_001), refusal(3, 0));
    assert_eq!(with(&|net| net.p = 10_000), Ok(0));
    let full = |net: &mut Net| net.segments.resize(MOST_SEGMENTS, Segment::new(0, 1, 9));
    assert_eq!(with(&full), Ok(1));
    let above = |net: &mut Net| {
        net.segments
            .resize(MOST_SEGMENTS + 1, Segment::new(0, 1, 9))
    };
    assert_eq!(with(&above), refusal(4, 0));
    assert_eq!(with(&|net| net.segments[3].a = 4), refusal(5, 3));
    assert_eq!(with(&|net| net.segments[2].b = 4), refusal(5, 2));
    assert_eq!(with(&|net| net.segments[1].b = 1), refusal(6, 1));
    assert_eq!(with(&|net| net.segments[4].length = 0), refusal(7, 4));
    let long = |net: &mut Net| net.segments[0].length = MOST_LENGTH + 1;
    assert_eq!(with(&long), refusal(7, 0));
    let longest = |net: &mut Net| net.segments[4].length = MOST_LENGTH;
    assert_eq!(with(&longest), Ok(1));
}

#[test]
fn order_of_refusals_in_building() {
    // Everything is wrong; one fault after the other is mended.
    let mut net = Net::new(0, 9, (0, 0), &[(4, 4, 0); 2_049]);
    let mut lists = [[7_u16; 4]; 3];
    let mut next = |net: &Net, entries: usize| {
        let [first, second, third] = &mut lists;
        let answer = build(net, first, &mut second[..entries], third);
        assert_eq!(lists, [[7; 4]; 3], "lent memory changed by a refusal");
        answer.expect_err("a refusal")
    };
    let refusal = |number, place| Refusal { number, place };
    assert_eq!(next(&net, 3), refusal(1, 0));
    net.posts = 4;
    assert_eq!(next(&net, 3), refusal(2, 0));
    net.source = 2;
    assert_eq!(next(&net, 3), refusal(3, 0));
    net.q = 1;
    assert_eq!(next(&net, 3), refusal(4, 0));
    net.segments.truncate(2);
    assert_eq!(next(&net, 3), refusal(5, 0));
    (net.segments[0].a, net.segments[0].b) = (3, 3);
    assert_eq!(next(&net, 3), refusal(6, 0));
    net.segments[0].a = 2;
    assert_eq!(next(&net, 3), refusal(7, 0));
    net.segments[0].length = 1;
    assert_eq!(next(&net, 3), refusal(5, 1));
    net.segments[1] = Segment::new(1, 3, 1);
    assert_eq!(next(&net, 3), refusal(8, 0));
    assert_eq!(next(&net, 4), refusal(9, 0));
}

#[test]
fn building_leaves_entries_beyond_the_post_count() {
    let net = net_a((1, 1));
    let (mut first, mut second, mut third) = ([9_u16; 4], [9_u16; 6], [9_u16; 5]);
    let built = build(&net, &mut first, &mut second, &mut third).expect("built");
    assert_eq!(first, [S, 0, 1, 2]);
    assert_eq!(second, [S, 0, 4, 3, 9, 9]);
    assert_eq!(third, [S, 0, 1, 3, 9]);
    assert_eq!(built, built_trees(&net).built(&net));
    for short in 0..3 {
        let mut lists = [vec![9; 4], vec![9; 4], vec![9; 4]];
        lists[short].pop();
        let before = lists.clone();
        let [first, second, third] = &mut lists;
        assert_eq!(build(&net, first, second, third), refusal(8, 0));
        assert_eq!(lists, before);
    }
}

#[test]
fn order_of_refusals_in_margin() {
    let mut net = Net::new(3, 0, (1, 0), &[(0, 1, 0)]);
    assert_eq!(margin(&net, 3, Tree::Shortest), refusal(3, 0));
    net.q = 1;
    assert_eq!(margin(&net, 3, Tree::Shortest), refusal(7, 0));
    net.segments[0].length = 2;
    assert_eq!(margin(&net, 3, Tree::Shortest), refusal(9, 2));
    net.segments.push(Segment::new(2, 1, 2));
    assert_eq!(margin(&net, 3, Tree::Shortest), refusal(19, 0));
    assert_eq!(margin(&net, 2, Tree::Shortest), Ok(4));
}

// Numbers and records.

#[test]
fn numbers_in_groups() {
    let worked: [(u32, &[u8]); 8] = [
        (0, &[0]),
        (127, &[127]),
        (128, &[128, 1]),
        (300, &[172, 2]),
        (16_383, &[255, 127]),
        (16_384, &[128, 128, 1]),
        (2_097_152, &[128, 128, 128, 1]),
        (268_435_455, &[255, 255, 255, 127]),
    ];
    for (value, bytes) in worked {
        assert_eq!(number_bytes(value), bytes);
        assert_eq!(read_number(bytes, 0), Ok((value, bytes.len())));
    }
    for value in (0..1 << 28).step_by(4_099) {
        let bytes = number_bytes(value);
        assert_eq!(read_number(&bytes, 0), Ok((value, bytes.len())));
    }
}

#[test]
fn numbers_refused() {
    assert_eq!(read_number(&[128, 0], 0), refusal(11, 0));
    assert_eq!(read_number(&[9, 255, 128, 0], 1), refusal(11, 1));
    assert_eq!(read_number(&[255, 255, 255, 0], 0), refusal(11, 0));
    // A fourth group that says more: 11, whatever follows.
    assert_eq!(read_number(&[128, 128, 128, 128], 0), refusal(11, 0));
    assert_eq!(read_number(&[129, 128, 128, 128, 1], 0), refusal(11, 0));
    // Cut before it, or after one to three bytes: 10.
    assert_eq!(read_number(&[], 0), refusal(10, 0));
    assert_eq!(read_number(&[5], 1), refusal(10, 1));
    assert_eq!(read_number(&[5, 128], 1), refusal(10, 1));
    assert_eq!(read_number(&[128, 128], 0), refusal(10, 0));
    assert_eq!(read_number(&[255, 255, 255], 0), refusal(10, 0));
}

#[test]
fn records_as_worked() {
    assert_eq!(write(&two_posts()).as_deref(), Ok(&RECORD_TWO_POSTS[..]));
    assert_eq!(read(&RECORD_TWO_POSTS), Ok(two_posts()));
    assert_eq!(write(&net_a((1, 1))).as_deref(), Ok(&RECORD_A[..]));
    assert_eq!(read(&RECORD_A), Ok(net_a((1, 1))));
    for net in [net_b(), net_c(), one_post(), two_posts_apart()] {
        assert_eq!(read(&write(&net).expect("sound")), Ok(net));
    }
}

#[test]
fn ends_stay_in_the_order_given() {
    let net = Net::new(3, 2, (0, 1), &[(2, 0, 1), (0, 1, 1)]);
    let record = write(&net).expect("sound");
    assert_eq!(record, [3, 2, 0, 1, 2, 2, 0, 1, 0, 1, 1]);
    assert_eq!(read(&record), Ok(net));
}

#[test]
fn the_longest_good_record_of_the_first_form() {
    let segment = Segment::new(128, 255, MOST_LENGTH);
    let net = Net {
        posts: 256,
        source: 255,
        p: 10_000,
        q: 10_000,
        own: None,
        segments: vec![segment; MOST_SEGMENTS],
    };
    let record = write(&net).expect("sound");
    assert_eq!(record.len(), LONGEST_FIRST_FORM);
    assert_eq!(read(&record), Ok(net));
}

#[test]
fn order_of_refusals_in_reading() {
    // Each record has several faults; the first in the order is given.
    let cases: [(&[u8], u32, u32); 26] = [
        (&[], 10, 0),
        // All five head numbers are read before 1 to 4.
        (&[0], 10, 1),
        (&[0, 0, 0, 0], 10, 4),
        (&[0, 0, 0, 0, 128], 10, 4),
        (&[0, 9, 128, 0, 0, 0], 11, 2),
        (&[128, 0], 11, 0),
        (&[128, 128, 128, 128], 11, 0),
        // A first number 0 says that five more make the head.
        (&[0, 0, 0, 0, 0, 0], 1, 0),
        (&[129, 2, 0, 0, 0, 0], 1, 0),
        (&[4, 4, 0, 0, 129, 16], 2, 0),
        (&[4, 3, 0, 0, 129, 16], 3, 0),
        (&[4, 3, 145, 78, 1, 129, 16], 3, 0),
        (&[4, 3, 1, 145, 78, 129, 16], 3, 0),
        (&[4, 3, 144, 78, 144, 78, 129, 16], 4, 0),
        (&[4, 0, 1, 1, 129, 16], 4, 0),
        (&[4, 0, 1, 1, 1], 10, 5),
        // All three numbers of a segment are read before its 5, 6, 7.
        (&[4, 0, 1, 1, 1, 9, 9], 10, 7),
        (&[4, 0, 1, 1, 1, 9, 9, 128, 0], 11, 7),
        (&[4, 0, 1, 1, 1, 4, 4, 0], 5, 0),
        (&[4, 0, 1, 1, 1, 3, 3, 0], 6, 0),
        (&[4, 0, 1, 1, 1, 3, 2, 0, 0], 7, 0),
        (&[4, 0, 1, 1, 1, 3, 2, 128, 128, 64], 7, 0),
        (&[4, 0, 1, 1, 2, 0, 1, 255, 255, 63, 0, 4], 10, 12),
        (&[4, 0, 1, 1, 2, 0, 1, 1, 0, 4, 1], 5, 1),
        // 12 comes before 9, which only building gives.
        (&[4, 0, 1, 1, 1, 0, 1, 1, 0], 12, 8),
        (&[2, 0, 1, 1, 0, 128], 12, 5),
    ];
    for (record, number, place) in cases {
        assert_eq!(read(record), refusal(number, place), "{record:?}");
        let text = format!("refused {number} {place}\n");
        assert_eq!(program_output(record), text, "{record:?}");
    }
}

#[test]
fn reading_into_a_lent_list() {
    let blank = Segment::new(77, 77, 77);
    // A record of the first form leaves the ratios as they were.
    let into = |record: &[u8], lent: &mut [Segment]| {
        let mut ratios = [[88; 4]; 2];
        let [p, q] = &mut ratios;
        let answer = read_into(record, p, q, lent);
        assert_eq!(ratios, [[88; 4]; 2], "{record:?}");
        answer
    };
    let mut lent = [blank; 7];
    let head = into(&RECORD_A, &mut lent).expect("good");
    assert_eq!((head.posts, head.source, head.p, head.q), (4, 0, 1, 1));
    assert_eq!((head.form, head.segments), (Form::First, 5));
    assert_eq!(lent[..5], net_a((1, 1)).segments);
    assert_eq!(lent[5..], [blank; 2]);
    // A short list: 8 after 1 to 4, before the first segment is read.
    let mut lent = [blank; 4];
    assert_eq!(into(&RECORD_A, &mut lent), refusal(8, 0));
    assert_eq!(into(&RECORD_A[..5], &mut lent), refusal(8, 0));
    assert_eq!(into(&RECORD_A[..4], &mut lent), refusal(10, 4));
    assert_eq!(into(&[4, 4, 1, 1, 5], &mut lent), refusal(2, 0));
    // Nothing is stored before the whole record is found good.
    let mut lent = [blank; 5];
    assert_eq!(into(&RECORD_A[..19], &mut lent), refusal(10, 19));
    let mut longer = RECORD_A.to_vec();
    longer.push(0);
    assert_eq!(into(&longer, &mut lent), refusal(12, 20));
    assert_eq!(lent, [blank; 5]);
}

#[test]
fn writing_into_lent_room() {
    let net = two_posts();
    let mut room = [99; 12];
    assert_eq!(write_into(&net, &mut room), Ok(9));
    assert_eq!(room[..9], RECORD_TWO_POSTS);
    assert_eq!(room[9..], [99; 3]);
    let mut exact = [99; 9];
    assert_eq!(write_into(&net, &mut exact), Ok(9));
    for length in 0..9 {
        let mut short = vec![99; length];
        assert_eq!(write_into(&net, &mut short), refusal(18, 0));
        assert_eq!(short, vec![99; length]);
    }
    // 1 to 7 come before 18; a net that isn't joined is written all the same.
    let unsound = Net::new(2, 0, (1, 2), &[(0, 1, 0)]);
    assert_eq!(write_into(&unsound, &mut []), refusal(7, 0));
    assert_eq!(write_into(&two_posts_apart(), &mut [0; 5]), Ok(5));
}

// Drawn runs.

#[test]
fn drawn_lengths_as_worked() {
    let worked: [(f64, Result<u32, Refusal>); 30] = [
        (12.5, Ok(200)),
        (65_535.937_5, Ok(1_048_575)),
        (65_536.0, refusal(17, 0)),
        (0.0625, Ok(1)),
        (0.031_25, Ok(1)),
        (0.1, Ok(2)),
        (0.2, Ok(4)),
        (0.3, Ok(5)),
        (0.065, Ok(2)),
        (100.1, Ok(1_602)),
        // The neighbours of 1/16, of 1 and of the longest.
        (f64::from_bits(0x3fb0_0000_0000_0001), Ok(2)),
        (f64::from_bits(0x3faf_ffff_ffff_ffff), Ok(1)),
        (f64::from_bits(0x3ff0_0000_0000_0001), Ok(17)),
        (f64::from_bits(0x40ef_fffd_ffff_ffff), Ok(1_048_575)),
        (f64::from_bits(0x40ef_fffe_0000_0001), refusal(17, 0)),
        (65_535.9, Ok(1_048_575)),
        (65_535.95, refusal(17, 0)),
        (f64::NAN, refusal(13, 0)),
        (-f64::NAN, refusal(13, 0)),
        (f64::INFINITY, refusal(13, 0)),
        (f64::NEG_INFINITY, refusal(13, 0)),
        (-1.0, refusal(14, 0)),
        (-0.0, refusal(15, 0)),
        (0.0, refusal(15, 0)),
        // Small ones, and above the limit without being a multiple.
        (f64::from_bits(1), Ok(1)),
        (1e-300, Ok(1)),
        (-0.1, refusal(14, 0)),
        (-f64::from_bits(1), refusal(14, 0)),
        (70_000.031_25, refusal(17, 0)),
        (f64::MAX, refusal(17, 0)),
    ];
    for (length, answer) in worked {
        assert_eq!(drawn_length(Run::Straight(length)), answer, "{length}");
        // As the second leg of a corner it is refused with place 1.
        let as_leg = answer
            .map(|sixteenths| sixteenths + 1)
            .map_err(|Refusal { number, .. }| Refusal { number, place: 1 });
        let corner = drawn_length(Run::Corner(0.0625, length));
        if answer == Ok(1_048_575) {
            assert_eq!(corner, refusal(17, 2), "{length}");
        } else {
            assert_eq!(corner, as_leg, "{length}");
        }
    }
}

#[test]
fn drawn_corners_as_worked() {
    let corner = |first, second| drawn_length(Run::Corner(first, second));
    assert_eq!(corner(10.0, 2.5), Ok(200));
    assert_eq!(corner(65_535.937_5, 0.0625), refusal(17, 2));
    assert_eq!(corner(65_535.875, 0.0625), Ok(1_048_575));
    // Each leg is rounded by itself, and then they are added.
    assert_eq!(corner(0.1, 0.1), Ok(4));
    assert_eq!(corner(0.031_25, 0.031_25), Ok(2));
    assert_eq!(corner(65_535.8, 0.1), Ok(1_048_575));
    assert_eq!(corner(65_535.937_5, 0.01), refusal(17, 2));
    assert_eq!(corner(65_535.9, 0.01), refusal(17, 2));
    assert_eq!(corner(32_768.0, 32_767.95), refusal(17, 2));
    // The first leg's four come before the second's.
    assert_eq!(corner(65_535.95, f64::NAN), refusal(17, 0));
    assert_eq!(corner(0.1, f64::NAN), refusal(13, 1));
    assert_eq!(corner(0.1, -1.0), refusal(14, 1));
    assert_eq!(corner(0.1, 0.0), refusal(15, 1));
    assert_eq!(corner(0.0, 0.1), refusal(15, 0));
    assert_eq!(corner(0.1, 65_535.95), refusal(17, 1));
    assert_eq!(corner(65_536.0, f64::NAN), refusal(17, 0));
    assert_eq!(corner(65_535.937_5, f64::NAN), refusal(13, 1));
    assert_eq!(corner(65_535.937_5, 65_536.0), refusal(17, 1));
    assert_eq!(corner(-1.0, -1.0), refusal(14, 0));
}

// The program.

const OUTPUT_A: &str = "\
net 4 5 0 1/1
mst 12 12 0 1 2
spt 15 6 0 4 3
last 13 8 0 1 3
laid 1
";

#[test]
fn program_on_net_a() {
    assert_eq!(program_output(&RECORD_A), OUTPUT_A);
}

#[test]
fn program_on_other_worked_nets() {
    let output = |net: &Net| program_output(&write(net).expect("sound"));
    assert_eq!(
        output(&net_b()),
        "net 5 5 0 1/2\nmst 15 14 0 1 2 3\nspt 16 10 0 3 2 4\nlast 16 10 0 3 2 4\nlaid 1\n"
    );
    assert_eq!(
        output(&net_c()),
        "net 5 6 0 1/2\nmst 18 18 0 1 4 3\nspt 20 11 0 2 5 3\nlast 20 11 0 2 5 3\nlaid 1\n"
    );
    assert_eq!(
        output(&one_post()),
        "net 1 0 0 1/1\nmst 0 0\nspt 0 0\nlast 0 0\nlaid 0\n"
    );
    assert_eq!(output(&two_posts_apart()), "refused 9 1\n");
    assert_eq!(
        output(&two_posts()),
        "net 2 1 0 1/2\nmst 300 300 0\nspt 300 300 0\nlast 300 300 0\nlaid 0\n"
    );
    // The source is left out wherever it stands.
    assert_eq!(
        output(&Net::new(3, 1, (2, 2), &[(0, 1, 3), (2, 1, 4)])),
        "net 3 2 1 2/2\nmst 7 4 0 1\nspt 7 4 0 1\nlast 7 4 0 1\nlaid 0\n"
    );
}

#[test]
fn program_on_empty_input() {
    assert_eq!(program_output(&[]), "refused 10 0\n");
}

#[test]
fn program_answers_for_the_whole_input() {
    // The longest start up to the last segment, then a segment of three
    // four-byte numbers, then more: the first 15,372 bytes are enough.
    let head = [256, 255, 10_000, 10_000, 2_048];
    let second_form = [&[0], &head[..], &[10_000; 510]].concat();
    for (numbers, longest) in [
        (&head[..], LONGEST_FIRST_FORM),
        (&second_form[..], LONGEST_RECORD),
    ] {
        let mut start: Vec<u8> = numbers.iter().copied().flat_map(number_bytes).collect();
        for _ in 0..2_047 {
            start.extend([128, 255].map(number_bytes).concat());
            start.extend(number_bytes(MOST_LENGTH));
        }
        let mut long = start.clone();
        for _ in 0..3 {
            long.extend([255, 255, 255, 127]);
        }
        assert_eq!(long.len(), longest + 5);
        for extra in 0..20 {
            let mut input = long.clone();
            input.extend(vec![128; extra]);
            assert_eq!(read(&input), refusal(5, 2_047));
            assert_eq!(program_output(&input), "refused 5 2047\n");
        }
        let mut more = start.clone();
        more.extend([255, 255, 255, 127, 255, 255, 255, 127, 128, 128, 128, 128]);
        let refused = format!("refused 11 {}\n", longest + 1);
        assert_eq!(program_output(&more), refused);
        more.extend([1; 9]);
        assert_eq!(program_output(&more), refused);
        let mut after = start;
        after.extend([128, 1, 129, 1, 255, 255, 63]);
        assert_eq!(after.len(), longest);
        assert_eq!(program_output(&after), "refused 9 0\n");
        after.extend([0; 100]);
        assert_eq!(program_output(&after), format!("refused 12 {longest}\n"));
    }
    assert_eq!(MOST_BYTES, LONGEST_RECORD + 5);
}

// Slips.

fn slipped(net: &Net, slip: Slip) -> (Trees, u64, u64) {
    let (trees, greatest_note) = slipped_trees(net, &built_trees(net), slip);
    let length = whole_length(net, &trees.between);
    (trees, length, greatest_note)
}

#[test]
fn slip_notes_as_paths_shows_radius_13_on_net_b() {
    let (trees, length, greatest_note) = slipped(&net_b(), Slip::NotesAsPaths);
    assert_eq!(trees, built_trees(&net_b()));
    assert_eq!((length, greatest_note), (16, 13));
}

#[test]
fn slip_no_try_back_comes_to_20_on_net_b() {
    let (_, length, _) = slipped(&net_b(), Slip::NoTryBack);
    assert_eq!(length, 20);
}

#[test]
fn slip_scaled_inner_test_comes_to_18_on_net_c() {
    let net = net_c();
    let (trees, length, _) = slipped(&net, Slip::ScaledInnerTest);
    assert_eq!(length, 18);
    let least = least_lengths(&net)[2];
    assert!(path(&net, &trees.between, 2).expect("reached") > least);
    assert_eq!(path(&net, &built_trees(&net).between, 2), Some(least));
}

#[test]
fn slip_laying_at_equality_gives_13_on_net_a() {
    let (_, length, _) = slipped(&net_a((7, 5)), Slip::LaidAtEquality);
    assert_eq!(length, 13);
}

#[test]
fn slip_of_a_test_for_refusal_lets_a_not_a_number_through() {
    assert!(drawn_by_refusal(f64::NAN).is_ok());
    assert_eq!(drawn_length(Run::Straight(f64::NAN)), refusal(13, 0));
    for good in [12.5, 65_535.937_5, 0.1, 65_536.0, -1.0] {
        assert_eq!(drawn_by_refusal(good), drawn_length(Run::Straight(good)));
    }
}

#[test]
fn slips_of_rounding_show_on_decimals() {
    assert_eq!(drawn_to_nearest(0.2), Ok(3));
    assert_eq!(drawn_to_nearest(0.065), Ok(1));
    assert_eq!(drawn_rounded_once(0.031_25, 0.031_25), Ok(1));
    for (first, second) in [(12.5, 0.0625), (0.1, 65_536.0), (0.1, 10.0)] {
        let corner = drawn_length(Run::Corner(first, second));
        assert_eq!(drawn_rounded_once(first, second), corner);
        assert_eq!(drawn_to_nearest(first), drawn_length(Run::Straight(first)));
    }
}

#[test]
fn slips_show_in_the_program_only_where_they_matter() {
    for slip in Slip::ALL {
        assert_eq!(slipped_output(&RECORD_A, slip), OUTPUT_A);
        assert_eq!(Slip::named(&format!("{slip:?}")), Some(slip));
    }
}
