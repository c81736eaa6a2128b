//! The nets and runs that document 01 works by hand, and the moves that Req 02
//! works, through the library.

use std::fs;
use std::path::{Path, PathBuf};

use droverboot::{check, drawn, margin, plan, raw, rewrite, rewrite_into};
use droverboot::{to_first, to_first_into, to_second, to_second_into, LONGEST_RECORD};
use droverboot::{Reason, Refusal, Run, Tree, MOST_LENGTH, SOURCE_ENTRY};

const NET_A: [u8; 20] = [4, 0, 1, 1, 5, 0, 1, 4, 1, 2, 4, 2, 3, 4, 0, 3, 5, 0, 2, 6];
const NET_B: [u8; 20] = [5, 0, 1, 2, 5, 0, 1, 6, 1, 2, 6, 2, 3, 1, 2, 4, 2, 0, 4, 7];
const NET_C: [u8; 23] = [
    5, 0, 1, 2, 6, 0, 1, 4, 1, 2, 4, 0, 2, 6, 2, 4, 5, 4, 3, 5, 2, 3, 5,
];
/// Net A in the second form: house ratio 1/1, own ratios 1/1, 0/1 and 9/1 of
/// posts 1, 2 and 3.
const OWN: [u8; 27] = [
    0, 4, 0, 1, 1, 5, 1, 1, 0, 1, 9, 1, 0, 1, 4, 1, 2, 4, 2, 3, 4, 0, 3, 5, 0, 2, 6,
];
/// Net A in the second form, where each post has the house ratio 1/1.
const HOUSE: [u8; 27] = [
    0, 4, 0, 1, 1, 5, 1, 1, 1, 1, 1, 1, 0, 1, 4, 1, 2, 4, 2, 3, 4, 0, 3, 5, 0, 2, 6,
];
const ONE_POST: [u8; 5] = [1, 0, 1, 1, 0];
const TWO_POSTS: [u8; 9] = [2, 0, 1, 2, 1, 0, 1, 172, 2];

fn net_a(p: u8, q: u8) -> [u8; 20] {
    let mut record = NET_A;
    (record[2], record[3]) = (p, q);
    record
}

fn refused<T>(reason: Reason, place: u32) -> Result<T, Refusal> {
    Err(Refusal { reason, place })
}

/// Length, radius and entries without the source's.
type Measured<'m> = (u32, u32, &'m [u16]);

fn assert_plan(record: &[u8], trees: [Measured; 3], laid: u32) {
    let plan = plan(record).expect("planned");
    for (which, (length, radius, entries)) in Tree::ALL.into_iter().zip(trees) {
        let tree = plan.tree(which);
        assert_eq!((tree.length, tree.radius), (length, radius), "{which:?}");
        assert_eq!(tree.entries[0], SOURCE_ENTRY);
        assert_eq!(&tree.entries[1..], entries, "{which:?}");
        assert_eq!(tree.segment_of(0), None);
        assert_eq!(tree.segment_of(tree.entries.len()), None);
    }
    assert_eq!(plan.laid, laid);
}

#[test]
fn net_a_at_its_ratios() {
    let lightest: Measured = (12, 12, &[0, 1, 2]);
    let shortest: Measured = (15, 6, &[0, 4, 3]);
    let between: Measured = (13, 8, &[0, 1, 3]);
    assert_plan(&NET_A, [lightest, shortest, between], 1);
    assert_plan(&net_a(6, 5), [lightest, shortest, between], 1);
    assert_plan(&net_a(0, 1), [lightest, shortest, shortest], 2);
    assert_plan(&net_a(7, 5), [lightest, shortest, lightest], 0);
}

#[test]
fn nets_b_and_c() {
    let quick: Measured = (16, 10, &[0, 3, 2, 4]);
    assert_plan(&NET_B, [(15, 14, &[0, 1, 2, 3]), quick, quick], 1);
    let quick: Measured = (20, 11, &[0, 2, 5, 3]);
    assert_plan(&NET_C, [(18, 18, &[0, 1, 4, 3]), quick, quick], 1);
}

#[test]
fn one_post_and_two() {
    assert_plan(&ONE_POST, [(0, 0, &[]); 3], 0);
    assert_plan(&TWO_POSTS, [(300, 300, &[0]); 3], 0);
}

#[test]
fn the_head_comes_back() {
    let plan = plan(&net_a(7, 5)).expect("planned");
    assert_eq!((plan.posts, plan.segments, plan.source), (4, 5, 0));
    assert_eq!((plan.p, plan.q), (7, 5));
}

#[test]
fn own_ratios() {
    let lightest: Measured = (12, 12, &[0, 1, 2]);
    let shortest: Measured = (15, 6, &[0, 4, 3]);
    assert_plan(&OWN, [lightest, shortest, (14, 10, &[0, 4, 2])], 1);
    // The house ratio is kept and rules nothing.
    let mut house = OWN;
    (house[3], house[4]) = (0, 7);
    assert_plan(&house, [lightest, shortest, (14, 10, &[0, 4, 2])], 1);
    let printed = plan(&house).expect("planned");
    assert_eq!((printed.p, printed.q), (0, 7));
    // Source 2: the ratios are those of posts 0, 1 and 3.
    let mut source_2 = OWN;
    source_2[2] = 2;
    source_2[6..12].copy_from_slice(&[0, 1, 1, 1, 2, 1]);
    let text = plan(&source_2).expect("planned").to_string();
    assert!(text.ends_with("spt 14 6 4 1 2\nlast 14 6 4 1 2\nlaid 1\n"));
    for post in 0..4 {
        let margins = [[0; 3], [4; 3], [-2, 0, 0], [38, 45, 40]];
        let found = Tree::ALL.map(|tree| margin(&OWN, tree, post));
        assert_eq!(found, margins[post as usize].map(Ok), "{post}");
    }
}

#[test]
fn refused_records() {
    let cases: [(&[u8], Reason, u32); 20] = [
        (&[], Reason::CutRecord, 0),
        (&NET_A[..19], Reason::CutRecord, 19),
        (&[0, 0, 1, 1, 0], Reason::CutRecord, 5),
        (&[0, 0, 0, 1, 1, 0], Reason::PostCount, 0),
        (&[0, 3, 0, 1, 1, 0, 1, 1, 1, 0], Reason::Ratio, 2),
        (&[0, 3, 0, 1, 1, 0, 145, 78], Reason::CutRecord, 8),
        (&[0, 3, 0, 1, 1, 0, 1, 128, 0], Reason::NumberForm, 7),
        (&[0, 2, 0, 1, 0, 0, 1, 1], Reason::Ratio, 0),
        (&[129, 2, 0, 1, 1, 0], Reason::PostCount, 0),
        (&[4, 4, 1, 1, 0], Reason::Source, 0),
        (&[4, 0, 1, 0, 0], Reason::Ratio, 0),
        (&[4, 0, 145, 78, 1, 0], Reason::Ratio, 0),
        (&[4, 0, 1, 1, 129, 16], Reason::SegmentCount, 0),
        (&[4, 0, 1, 1, 1, 0, 4, 1], Reason::SegmentEnd, 0),
        (&[4, 0, 1, 1, 2, 0, 3, 1, 2, 2, 1], Reason::SameEnds, 1),
        (&[4, 0, 1, 1, 1, 0, 3, 0], Reason::SegmentLength, 0),
        (&[128, 0], Reason::NumberForm, 0),
        (&[4, 128, 128, 128, 128], Reason::NumberForm, 1),
        (&[1, 0, 1, 1, 0, 9], Reason::ExtraBytes, 5),
        (&[4, 0, 1, 1, 1, 0, 1, 1, 0], Reason::ExtraBytes, 8),
    ];
    for (record, reason, place) in cases {
        assert_eq!(check(record), refused(reason, place), "{record:?}");
        assert_eq!(plan(record), refused(reason, place), "{record:?}");
        assert_eq!(rewrite(record), refused(reason, place), "{record:?}");
        assert_eq!(to_second(record), refused(reason, place), "{record:?}");
        assert_eq!(to_first(record), refused(reason, place), "{record:?}");
        let answer = margin(record, Tree::Between, 0);
        assert_eq!(answer, refused(reason, place), "{record:?}");
    }
}

#[test]
fn a_net_that_is_not_joined() {
    let record = [2, 0, 1, 1, 0];
    assert_eq!(check(&record), Ok(()));
    assert_eq!(rewrite(&record).as_deref(), Ok(&record[..]));
    assert_eq!(plan(&record), refused(Reason::NotJoined, 1));
    let answer = margin(&record, Tree::Lightest, 9);
    assert_eq!(answer, refused(Reason::NotJoined, 1));
}

#[test]
fn records_are_written_as_they_were_read() {
    for record in [&NET_A[..], &NET_B, &NET_C, &OWN, &ONE_POST, &TWO_POSTS] {
        assert_eq!(check(record), Ok(()));
        assert_eq!(rewrite(record).as_deref(), Ok(record));
    }
}

#[test]
fn room_beyond_the_record_stays_as_it_was() {
    let mut room = [99; 12];
    assert_eq!(rewrite_into(&TWO_POSTS, &mut room), Ok(9));
    assert_eq!(room[..9], TWO_POSTS);
    assert_eq!(room[9..], [99; 3]);
    let mut short = [99; 8];
    let answer = rewrite_into(&TWO_POSTS, &mut short);
    assert_eq!(answer, refused(Reason::ShortRoom, 0));
    assert_eq!(short, [99; 8]);
    assert_eq!(
        rewrite_into(&TWO_POSTS, &mut []),
        refused(Reason::ShortRoom, 0)
    );
}

#[test]
fn records_go_to_the_second_form_and_home_again() {
    let forward: [(&[u8], &[u8]); 6] = [
        (&NET_A, &HOUSE),
        (&TWO_POSTS, &[0, 2, 0, 1, 2, 1, 1, 2, 0, 1, 172, 2]),
        (
            &[2, 1, 1, 2, 1, 0, 1, 172, 2],
            &[0, 2, 1, 1, 2, 1, 1, 2, 0, 1, 172, 2],
        ),
        // p is 200: two bytes.
        (
            &[3, 1, 200, 1, 3, 0],
            &[0, 3, 1, 200, 1, 3, 0, 200, 1, 3, 200, 1, 3],
        ),
        (&[1, 0, 1, 2, 0], &[0, 1, 0, 1, 2, 0]),
        // It isn't joined.
        (&[2, 0, 1, 2, 0], &[0, 2, 0, 1, 2, 0, 1, 2]),
    ];
    for (first, second) in forward {
        assert_eq!(to_second(first).as_deref(), Ok(second));
        assert_eq!(to_first(second).as_deref(), Ok(first));
        assert_eq!(to_second(second), refused(Reason::SameForm, 0));
        assert_eq!(to_first(first), refused(Reason::SameForm, 0));
    }
    let moved = to_second(&deepest_net()).expect("of the first form");
    assert!(moved.len() < LONGEST_RECORD);
    assert_eq!(plan(&moved), plan(&deepest_net()));
    assert_eq!(to_first(&moved), Ok(deepest_net()));
}

#[test]
fn another_ratio_keeps_a_record_from_going_home() {
    // As numbers, the lowest post, and never the source.
    let as_numbers = [0, 2, 0, 1, 1, 1, 2, 2, 0, 1, 4];
    let mut lowest = HOUSE;
    lowest[6..12].copy_from_slice(&[1, 1, 2, 1, 1, 2]);
    let mut source_1 = HOUSE;
    (source_1[2], source_1[7]) = (1, 2);
    for (record, place) in [
        (&as_numbers[..], 1),
        (&lowest, 2),
        (&source_1, 0),
        (&OWN, 2),
    ] {
        assert_eq!(to_first(record), refused(Reason::OtherRatio, place));
        // 20 comes before 18.
        let answer = to_first_into(record, &mut []);
        assert_eq!(answer, refused(Reason::OtherRatio, place));
    }
}

#[test]
fn room_beyond_a_moved_record_stays_as_it_was() {
    let mut room = [99; 30];
    assert_eq!(to_second_into(&NET_A, &mut room), Ok(27));
    assert_eq!(room[..27], HOUSE);
    assert_eq!(room[27..], [99; 3]);
    let mut room = [99; 22];
    assert_eq!(to_first_into(&HOUSE, &mut room), Ok(20));
    assert_eq!(room[..20], NET_A);
    assert_eq!(room[20..], [99; 2]);
    let mut short = [99; 26];
    let answer = to_second_into(&NET_A, &mut short);
    assert_eq!(answer, refused(Reason::ShortRoom, 0));
    let answer = to_first_into(&HOUSE, &mut short[..19]);
    assert_eq!(answer, refused(Reason::ShortRoom, 0));
    assert_eq!(short, [99; 26]);
    // 30 doesn't look at the room.
    let answer = to_second_into(&HOUSE, &mut []);
    assert_eq!(answer, refused(Reason::SameForm, 0));
    let answer = to_first_into(&NET_A, &mut []);
    assert_eq!(answer, refused(Reason::SameForm, 0));
}

#[test]
fn margins() {
    assert_eq!(margin(&NET_A, Tree::Lightest, 3), Ok(-2));
    assert_eq!(margin(&NET_A, Tree::Shortest, 3), Ok(5));
    assert_eq!(margin(&NET_A, Tree::Between, 3), Ok(5));
    for tree in Tree::ALL {
        assert_eq!(margin(&NET_A, tree, 0), Ok(0));
        let answer = margin(&NET_A, tree, 4);
        assert_eq!(answer, refused(Reason::NoSuchPost, 0));
    }
}

#[test]
fn drawn_runs() {
    let straight = |length| drawn(Run::Straight(length));
    assert_eq!(straight(12.5), Ok(200));
    assert_eq!(straight(65_535.937_5), Ok(MOST_LENGTH));
    assert_eq!(straight(0.0625), Ok(1));
    assert_eq!(straight(65_536.0), refused(Reason::TooLong, 0));
    assert_eq!(straight(65_535.95), refused(Reason::TooLong, 0));
    assert_eq!(straight(0.031_25), Ok(1));
    assert_eq!(straight(0.1), Ok(2));
    for length in [f64::NAN, f64::INFINITY, f64::NEG_INFINITY] {
        assert_eq!(straight(length), refused(Reason::NotFinite, 0));
    }
    assert_eq!(straight(-1.0), refused(Reason::BelowZero, 0));
    assert_eq!(straight(-0.0), refused(Reason::Zero, 0));
    assert_eq!(straight(0.0), refused(Reason::Zero, 0));
}

#[test]
fn drawn_corners() {
    let corner = |first, second| drawn(Run::Corner(first, second));
    assert_eq!(corner(10.0, 2.5), Ok(200));
    assert_eq!(corner(0.1, 0.1), Ok(4));
    assert_eq!(corner(0.031_25, 0.031_25), Ok(2));
    assert_eq!(corner(65_535.937_5, 0.0625), refused(Reason::TooLong, 2));
    assert_eq!(corner(1.0, f64::NAN), refused(Reason::NotFinite, 1));
    assert_eq!(corner(0.0, f64::NAN), refused(Reason::Zero, 0));
}

#[test]
fn a_short_list_is_refused_and_a_short_summary_is_not() {
    let [mut first, mut second, mut third] = [[7; 4]; 3];
    let answer = raw::plan(
        &NET_A,
        &mut first,
        &mut second,
        &mut third[..3],
        &mut [0; 12],
    );
    assert_eq!(answer, u64::from(Reason::ShortList.number()) << 32);
    assert_eq!([first, second, third], [[7; 4]; 3]);
    let mut summary = [0; 2];
    let answer = raw::plan(&NET_A, &mut first, &mut second, &mut third, &mut summary);
    assert_eq!((answer, summary), (0, [4, 5]));
}

fn shipped_examples() -> impl Iterator<Item = PathBuf> {
    let folder = Path::new(env!("CARGO_MANIFEST_DIR")).join("../../examples");
    fs::read_dir(folder)
        .expect("the examples are there")
        .map(|entry| entry.expect("readable").path())
        .filter(|path| path.extension().is_some_and(|end| end == "record"))
}

#[test]
fn shipped_examples_print_as_stored() {
    let mut printed = 0;
    for path in shipped_examples() {
        let record = fs::read(&path).expect("readable");
        let text = match plan(&record) {
            Ok(plan) => plan.to_string(),
            Err(refusal) => refusal.line() + "\n",
        };
        let stored = fs::read_to_string(path.with_extension("txt")).expect("readable");
        assert_eq!(text, stored, "{}", path.display());
        printed += 1;
    }
    assert!(printed >= 8, "{printed}");
}

/// 256 posts on a path, and a direct segment to each: the deepest walk there is,
/// and a path laid at each post.
fn deepest_net() -> Vec<u8> {
    let number = |value: u32| match value {
        0..128 => vec![value as u8],
        _ => vec![value as u8 | 128, (value >> 7) as u8],
    };
    let mut record = [256, 0, 0, 1, 255 + 254].map(number).concat();
    for post in 1..256 {
        record.extend([post - 1, post, 4].map(number).concat());
    }
    for post in 2..256 {
        record.extend([0, post, 5].map(number).concat());
    }
    record
}

#[test]
fn a_call_takes_little_of_the_stack() {
    let thread = std::thread::Builder::new().stack_size(256 << 10);
    let planned = thread.spawn(|| {
        let record = deepest_net();
        let margin = margin(&record, Tree::Between, 255).expect("planned");
        let written = rewrite(&record).expect("written");
        assert_eq!(written, record);
        (plan(&record).expect("planned").laid, margin)
    });
    let planned = planned.expect("a thread").join().expect("no panic");
    assert_eq!(planned, (254, 0));
}
