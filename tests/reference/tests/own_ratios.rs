//! Every row that is worked for Req 01, own ratios, its decided readings, and
//! the slips that are feared of it.

use reference::bounds::length_within;
use reference::net::{MOST_LENGTH, MOST_SEGMENTS};
use reference::program::planned;
use reference::record::{LONGEST_FIRST_FORM, LONGEST_RECORD};
use reference::slips::{
    house_margin, slipped_output, slipped_read, slipped_read_into, slipped_record,
    slipped_smallest, slipped_sound, LentSlip, Slip, SmallestSlip,
};
use reference::trees::SOURCE_ENTRY;
use reference::worked::{
    built_of_second_form, longest_net, net_a, net_a_own, net_a_turned, record_on_a, RECORD_A,
    REFUSED_OF_SECOND_FORM,
};
use reference::{
    bounds_hold, build, margin, program_output, read, read_into, three_trees, write, write_into,
    Form, LentNet, Net, Ratio, Refusal, Segment, Tree, Trees,
};

const S: u16 = SOURCE_ENTRY;

fn refusal<T>(number: u32, place: u32) -> Result<T, Refusal> {
    Err(Refusal { number, place })
}

/// Net A, ratio 1/1, in the second form; its own ratios are lent.
fn lent_a<'l>(net: &'l Net, p: &'l [u32], q: &'l [u32]) -> LentNet<'l> {
    LentNet {
        form: Form::Second,
        ..LentNet::of(net, p, q)
    }
}

/// The count of laid paths and the third tree of a net that is lent, with three
/// lists of four places.
fn built(lent: &LentNet) -> Result<(u32, [u16; 4]), Refusal> {
    let [mut first, mut second, mut third] = [[9; 4]; 3];
    let built = lent.build(&mut first, &mut second, &mut third);
    if built.is_err() {
        assert_eq!([first, second, third], [[9; 4]; 3]);
    }
    Ok((built?.laid, third))
}

// Records.

#[test]
fn records_that_are_built() {
    for (record, printed) in built_of_second_form() {
        assert_eq!(program_output(&record), printed, "{record:?}");
        let net = read(&record).expect("good");
        assert_eq!(net.form(), Form::Second);
        assert_eq!(write(&net), Ok(record));
        assert!(bounds_hold(&net, &three_trees(&net).expect("joined")));
    }
}

#[test]
fn records_that_are_refused() {
    for (record, number, place) in REFUSED_OF_SECOND_FORM {
        let refused = format!("refused {number} {place}\n");
        assert_eq!(program_output(record), refused, "{record:?}");
        // 9 is building's alone.
        if number != 9 {
            assert_eq!(read(record), refusal(number, place), "{record:?}");
        }
    }
}

#[test]
fn order_of_refusals_in_reading_the_second_form() {
    let cases: [(&[u8], u32, u32); 17] = [
        // Six head numbers are read before 1 to 4.
        (&[0, 0, 9, 0, 0], 10, 5),
        (&[0, 0, 9, 128, 0, 0, 0], 11, 3),
        (&[0, 129, 2, 0, 0, 0, 0], 1, 0),
        (&[0, 3, 3, 0, 0, 129, 16], 2, 0),
        (&[0, 3, 2, 0, 0, 129, 16], 3, 0),
        (&[0, 3, 2, 0, 1, 129, 16], 4, 0),
        // The posts' ratios come before the segments, with the post as place.
        (&[0, 3, 2, 0, 1, 1], 10, 6),
        (&[0, 3, 2, 0, 1, 1, 0, 0, 9, 9, 9], 3, 0),
        (&[0, 3, 2, 0, 1, 1, 0, 1, 0, 0, 9, 9, 9], 3, 1),
        (&[0, 3, 1, 0, 1, 1, 0, 1, 0, 0, 9, 9, 9], 3, 2),
        (&[0, 3, 1, 0, 1, 1, 0, 1, 1, 145, 78, 9, 9, 9], 3, 2),
        // One post's 3 comes before the next post's numbers are read.
        (&[0, 3, 0, 1, 1, 0, 1, 0, 128, 0], 3, 1),
        // Both numbers of a post are read before its 3.
        (&[0, 3, 0, 1, 1, 0, 145, 78, 128, 0], 11, 8),
        (&[0, 3, 0, 1, 1, 0, 145, 78, 128], 10, 8),
        (&[0, 3, 2, 0, 1, 1, 0, 1, 0, 1, 3, 9, 9], 5, 0),
        (&[0, 3, 2, 0, 1, 0, 0, 1, 0, 1, 7], 12, 10),
        // One post: no ratio, and so the next byte is beyond the record.
        (&[0, 1, 0, 1, 2, 0, 1], 12, 6),
    ];
    for (record, number, place) in cases {
        assert_eq!(read(record), refusal(number, place), "{record:?}");
        let text = format!("refused {number} {place}\n");
        assert_eq!(program_output(record), text, "{record:?}");
    }
}

#[test]
fn reading_into_lent_lists() {
    let blank = Segment::new(77, 77, 77);
    let record = record_on_a(&[0, 4, 2, 1, 1, 5, 0, 1, 1, 3, 2, 5]);
    let (mut p, mut q, mut segments) = ([88; 6], [99; 5], [blank; 6]);
    let head = read_into(&record, &mut p, &mut q, &mut segments).expect("good");
    assert_eq!((head.form, head.posts, head.source), (Form::Second, 4, 2));
    // The source's place and all places beyond the posts are as they were.
    assert_eq!(p, [0, 1, 88, 2, 88, 88]);
    assert_eq!(q, [1, 3, 99, 5, 99]);
    assert_eq!(segments[..5], net_a((1, 1)).segments);
    assert_eq!(segments[5], blank);
    // 8 for any list, after 1 to 4, before the first ratio is read; both forms.
    for record in [&record[..], &record[..6], &RECORD_A, &RECORD_A[..5]] {
        for short in [[3, 4, 5], [4, 3, 5], [4, 4, 4]] {
            let (mut p, mut q) = (vec![88; short[0]], vec![99; short[1]]);
            let mut segments = vec![blank; short[2]];
            let answer = read_into(record, &mut p, &mut q, &mut segments);
            assert_eq!(answer, refusal(8, 0), "{record:?}");
        }
    }
    assert_eq!(
        read_into(&[0, 4, 4, 1, 1, 5], &mut [], &mut [], &mut []),
        refusal(2, 0)
    );
    // Nothing is stored before the whole record is found good.
    let (mut p, mut q, mut segments) = ([88; 4], [99; 4], [blank; 5]);
    let cut = &record[..record.len() - 1];
    let answer = read_into(cut, &mut p, &mut q, &mut segments);
    assert_eq!(answer, refusal(10, 26));
    assert_eq!((p, q, segments), ([88; 4], [99; 4], [blank; 5]));
    // A record of the first form leaves both lists of ratios as they were.
    read_into(&RECORD_A, &mut p, &mut q, &mut segments).expect("good");
    assert_eq!((p, q), ([88; 4], [99; 4]));
}

#[test]
fn writing_the_second_form() {
    let net = net_a_own((1, 1), [(1, 1), (1, 1), (0, 1)]);
    let record = record_on_a(&[0, 4, 0, 1, 1, 5, 1, 1, 1, 1, 0, 1]);
    assert_eq!(record.len(), 27);
    let mut room = [99; 28];
    assert_eq!(write_into(&net, &mut room), Ok(27));
    assert_eq!(room[..27], record);
    assert_eq!(room[27], 99);
    assert_eq!(write_into(&net, &mut [99; 26]), refusal(18, 0));
    assert_eq!(read(&record), Ok(net.clone()));
    // The form belongs to the net: the same ratio for all is another record.
    let all_alike = net_a_own((1, 1), [(1, 1); 3]);
    assert_ne!(write(&all_alike), write(&net_a((1, 1))));
    // 2/2 and 1/1 are equally small but different records.
    let twice = net_a_own((1, 1), [(2, 2); 3]);
    assert_eq!(three_trees(&twice), three_trees(&all_alike));
    assert_ne!(write(&twice), write(&all_alike));
}

#[test]
fn the_longest_good_record() {
    let net = longest_net();
    let record = write(&net).expect("sound");
    assert_eq!(record.len(), LONGEST_RECORD);
    assert_eq!(LONGEST_RECORD, LONGEST_FIRST_FORM + 1 + 255 * 4);
    assert_eq!(planned(&record), refusal(9, 0));
    assert_eq!(read(&record), Ok(net));
}

// Calls on a net whose ratios are lent.

#[test]
fn building_with_lent_ratios() {
    let net = net_a((1, 1));
    let both = |p: &[u32], q: &[u32]| built(&lent_a(&net, p, q));
    assert_eq!(both(&[1, 1], &[1, 0]), refusal(3, 1));
    // The source's isn't read.
    assert_eq!(both(&[1, 1], &[0, 1]), refusal(8, 0));
    let mut sixth = net.clone();
    sixth.segments.push(Segment::new(0, 4, 1));
    assert_eq!(built(&lent_a(&sixth, &[1, 1], &[0, 1])), refusal(5, 5));
    assert_eq!(both(&[1; 4], &[0, 1, 1, 1]), Ok((1, [S, 0, 1, 3])));
    let mut source_1 = net.clone();
    source_1.source = 1;
    assert_eq!(
        built(&lent_a(&source_1, &[1; 4], &[0, 1, 1, 1])),
        refusal(3, 0)
    );
    // They are read as far as both go.
    assert_eq!(both(&[1, 10_001], &[1, 1, 0]), refusal(3, 1));
    assert_eq!(both(&[1], &[1, 0, 0, 0]), refusal(8, 0));
    assert_eq!(both(&[1, 10_001, 1, 1], &[1]), refusal(8, 0));
    // Places beyond the posts say nothing.
    assert_eq!(
        both(&[1, 1, 1, 1, 99_999], &[9, 1, 1, 1, 0]),
        Ok((1, [S, 0, 1, 3]))
    );
    // In the first form no ratio is read, and both lists are held to 8.
    let first = |p: &[u32], q: &[u32]| built(&LentNet::of(&net, p, q));
    assert_eq!(first(&[77_777; 4], &[0; 4]), Ok((1, [S, 0, 1, 3])));
    assert_eq!(first(&[1; 3], &[1; 4]), refusal(8, 0));
    assert_eq!(first(&[1; 4], &[1; 3]), refusal(8, 0));
    assert_eq!(first(&[], &[]), refusal(8, 0));
}

#[test]
fn order_of_refusals_in_building_the_second_form() {
    let bad = |number, place| Refusal { number, place };
    let mut net = Net::new(0, 9, (0, 0), &[(4, 4, 0); 2_049]);
    let (mut p, q) = ([0, 10_001, 0, 10_001], [0, 1, 0, 1]);
    let refused = |net: &Net, p: &[u32], q: &[u32]| built(&lent_a(net, p, q)).expect_err("refused");
    assert_eq!(refused(&net, &p[..3], &q), bad(1, 0));
    net.posts = 4;
    assert_eq!(refused(&net, &p[..3], &q), bad(2, 0));
    net.source = 2;
    assert_eq!(refused(&net, &p[..3], &q), bad(3, 0));
    net.q = 1;
    assert_eq!(refused(&net, &p[..3], &q), bad(4, 0));
    net.segments.truncate(1);
    assert_eq!(refused(&net, &p[..3], &q), bad(3, 0));
    let q = [1, 1, 0, 1];
    assert_eq!(refused(&net, &p[..3], &q), bad(3, 1));
    p[1] = 1;
    // Post 3's ratio is beyond the shorter list.
    assert_eq!(refused(&net, &p[..3], &q), bad(5, 0));
    assert_eq!(refused(&net, &p, &q), bad(3, 3));
    net.segments[0] = Segment::new(0, 1, 1);
    assert_eq!(refused(&net, &p[..3], &q), bad(8, 0));
    p[3] = 1;
    assert_eq!(refused(&net, &p[..3], &q), bad(8, 0));
    assert_eq!(refused(&net, &p, &q), bad(9, 0));
}

#[test]
fn margins_by_own_ratios() {
    let net = net_a((1, 1));
    let lent = lent_a(&net, &[9, 7, 1, 0], &[9, 5, 1, 1]);
    for (tree, worked) in Tree::ALL
        .into_iter()
        .zip([[0, 28, 4, -7], [0, 28, 6, 0], [0, 28, 4, 0]])
    {
        let margins = [0, 1, 2, 3].map(|post| lent.margin(post, tree));
        assert_eq!(margins, worked.map(Ok), "{tree:?}");
    }
    assert_eq!(built(&lent), Ok((1, [S, 0, 1, 3])));
    assert_eq!(lent.net().smallest_ratio(), Some(Ratio::new(0, 1)));
    assert_eq!(lent.margin(4, Tree::Lightest), refusal(19, 0));
    // 8 of three places comes before 19.
    let ones = [1; 4];
    for (p, q) in [(&ones[..3], &ones[..]), (&ones, &ones[..3])] {
        let short = lent_a(&net, p, q);
        assert_eq!(short.margin(9, Tree::Lightest), refusal(8, 0));
        let first = LentNet::of(&net, p, q);
        assert_eq!(first.margin(9, Tree::Lightest), refusal(8, 0));
    }
    let apart = Net::new(3, 0, (1, 1), &[(0, 1, 1)]);
    let lent = lent_a(&apart, &[1; 3], &[1, 1, 0]);
    assert_eq!(lent.margin(9, Tree::Lightest), refusal(3, 2));
    let lent = lent_a(&apart, &[1; 3], &[1; 3]);
    assert_eq!(lent.margin(9, Tree::Lightest), refusal(9, 2));
}

#[test]
fn writing_with_lent_ratios() {
    let net = net_a((1, 1));
    let lent = lent_a(&net, &[9, 1, 1, 0], &[0, 1, 1, 1]);
    let mut room = [99; 27];
    assert_eq!(lent.write_into(&mut room[..26]), refusal(18, 0));
    assert_eq!(lent.write_into(&mut room), Ok(27));
    assert_eq!(room[..], record_on_a(&[0, 4, 0, 1, 1, 5, 1, 1, 1, 1, 0, 1]));
    // 8 of three places comes before 18, in both forms; 3 comes before 8.
    let ones = [1; 4];
    for (p, q) in [(&ones[..3], &ones[..]), (&ones, &ones[..3])] {
        let short = lent_a(&net, p, q);
        assert_eq!(short.write_into(&mut []), refusal(8, 0));
        let first = LentNet::of(&net, p, q);
        assert_eq!(first.write_into(&mut []), refusal(8, 0));
    }
    assert_eq!(
        lent_a(&net, &[1; 3], &[1, 1, 0]).write_into(&mut []),
        refusal(3, 2)
    );
    // In the first form the lent ratios aren't written.
    let first = LentNet::of(&net, &[9; 4], &[0; 4]);
    assert_eq!(first.write_into(&mut room), Ok(20));
    assert_eq!(room[..20], RECORD_A);
}

#[test]
fn a_net_without_a_ratio_for_each_post() {
    let short = net_a((1, 1)).with_own(&[(1, 1), (1, 1)]);
    assert_eq!(three_trees(&short), refusal(8, 0));
    assert_eq!(margin(&short, 9, Tree::Between), refusal(8, 0));
    assert_eq!(write(&short), refusal(8, 0));
    let mut lists = [[9; 4]; 3];
    let [first, second, third] = &mut lists;
    assert_eq!(build(&short, first, second, third), refusal(8, 0));
}

// Ratios and bounds.

#[test]
fn the_smallest_ratio() {
    let smallest = |own| net_a_own((0, 1), own).smallest_ratio();
    assert_eq!(smallest([(7, 5), (7, 5), (6, 5)]), Some(Ratio::new(6, 5)));
    assert_eq!(smallest([(1, 1), (2, 9), (1, 4)]), Some(Ratio::new(2, 9)));
    assert_eq!(smallest([(2, 2), (1, 1), (3, 3)]), Some(Ratio::new(2, 2)));
    assert_eq!(net_a((7, 5)).smallest_ratio(), Some(Ratio::new(7, 5)));
    let one_post = Net::new(1, 0, (1, 2), &[]);
    assert_eq!(one_post.smallest_ratio(), None);
    assert_eq!(one_post.with_own(&[]).smallest_ratio(), None);
}

#[test]
fn bounds_go_by_each_posts_own_ratio() {
    let right = |net: &Net| three_trees(net).expect("joined");
    // Post 3 alone may be as far as it is in the lightest tree.
    let loose = net_a_own((0, 1), [(0, 1), (1, 3), (7, 5)]);
    assert_eq!(right(&loose).between, [S, 0, 1, 2]);
    assert!(bounds_hold(&loose, &right(&loose)));
    let tight = net_a_own((7, 5), [(7, 5), (7, 5), (6, 5)]);
    let far = Trees {
        between: vec![S, 0, 1, 2],
        ..right(&tight)
    };
    assert!(!bounds_hold(&tight, &far));
}

// Slips.

#[test]
fn slips_of_the_program_show() {
    let a = |start: &[u8]| record_on_a(start);
    let turned = write(&net_a_turned([(9, 1), (0, 1), (1, 1)])).expect("sound");
    let shown: [(Slip, Vec<u8>, &str); 7] = [
        (
            Slip::HouseWalk,
            a(&[0, 4, 0, 0, 1, 5, 7, 5, 7, 5, 7, 5]),
            "laid 2\n",
        ),
        (Slip::MisplacedRatios, turned, "last 12 12 2 1 0\nlaid 0\n"),
        (
            Slip::SourceRatio,
            a(&[0, 4, 0, 1, 1, 5, 1, 1, 1, 1, 1, 1]),
            "refused ",
        ),
        (
            Slip::LateRatio,
            vec![0, 2, 0, 1, 2, 1, 1, 0, 0, 2, 4],
            "refused 5 0\n",
        ),
        (
            Slip::RatioAtZero,
            vec![0, 3, 0, 1, 1, 0, 1, 1, 1, 0],
            "refused 3 0\n",
        ),
        (Slip::ZeroPosts, vec![0, 0, 1, 1, 5], "refused 1 0\n"),
        (
            Slip::FewBytes,
            write(&longest_net()).expect("sound"),
            "refused 10 14349\n",
        ),
    ];
    for (slip, record, part) in shown {
        let wrong = slipped_output(&record, slip);
        assert_ne!(wrong, program_output(&record), "{slip:?}");
        assert!(wrong.contains(part), "{slip:?}: {wrong}");
    }
    // What is right there.
    assert!(
        program_output(&write(&net_a_turned([(9, 1), (0, 1), (1, 1)])).expect("sound"))
            .ends_with("last 14 10 2 4 0\nlaid 1\n")
    );
}

#[test]
fn slips_of_the_program_leave_the_first_form_alone() {
    for slip in Slip::ALL {
        assert_eq!(slipped_read(&RECORD_A, slip), Ok(net_a((1, 1))), "{slip:?}");
    }
}

#[test]
fn slip_of_a_margin_by_the_house_ratio() {
    let net = net_a_own((1, 1), [(7, 5), (1, 1), (0, 1)]);
    let trees = three_trees(&net).expect("joined");
    assert_eq!(trees.margin(&net, 3, Tree::Lightest), Ok(-7));
    assert_eq!(house_margin(&net, &trees, 3, Tree::Lightest), Ok(-2));
}

#[test]
fn slips_of_lent_ratios_show() {
    let net = net_a((1, 1));
    let slipped = |lent: &LentNet, slip| slipped_sound(lent, slip).map(|_| ());
    let right = |lent: &LentNet| lent.sound().map(|_| ());
    let source_bad = lent_a(&net, &[1; 4], &[0, 1, 1, 1]);
    assert_eq!(right(&source_bad), Ok(()));
    let wrong = slipped(&source_bad, LentSlip::SourceChecked);
    assert_eq!(wrong, refusal(3, 0));
    let mut sixth = net.clone();
    sixth.segments.push(Segment::new(0, 4, 1));
    let late = lent_a(&sixth, &[1; 4], &[1, 0, 1, 1]);
    assert_eq!(right(&late), refusal(3, 1));
    assert_eq!(slipped(&late, LentSlip::CheckedLate), refusal(5, 5));
    let short = LentNet::of(&net, &[1; 3], &[1; 4]);
    assert_eq!(right(&short), refusal(8, 0));
    assert_eq!(slipped(&short, LentSlip::SecondFormOnly), Ok(()));
    for slip in LentSlip::ALL {
        let good = lent_a(&net, &[1; 4], &[1; 4]);
        assert_eq!(slipped(&good, slip), Ok(()), "{slip:?}");
    }
    let second = net_a_own((1, 1), [(1, 1), (1, 1), (0, 1)]);
    let written = slipped_record(&second, LentSlip::SourceWritten);
    assert_eq!(written[..10], [0, 4, 0, 1, 1, 5, 1, 1, 1, 1]);
    assert_eq!(written.len(), 29);
    assert_eq!(write(&second).map(|record| record.len()), Ok(27));
}

#[test]
fn slips_of_reading_into_lent_lists_show() {
    let stored = |record: &[u8], slip: Option<LentSlip>| {
        let (mut p, mut q, mut segments) = ([88; 5], [99; 5], [Segment::default(); 5]);
        let (p, q, segments) = (&mut p, &mut q, &mut segments);
        let answer = match slip {
            None => read_into(record, p, q, segments),
            Some(slip) => slipped_read_into(record, p, q, segments, slip),
        };
        assert!(answer.is_ok());
        (*p, *q)
    };
    assert_eq!(stored(&RECORD_A, None), ([88; 5], [99; 5]));
    let wrong = stored(&RECORD_A, Some(LentSlip::FirstFormStored));
    assert_eq!(wrong, ([1, 1, 1, 1, 88], [1, 1, 1, 1, 99]));
    let second = record_on_a(&[0, 4, 2, 1, 1, 5, 0, 1, 1, 1, 2, 1]);
    assert_eq!(
        stored(&second, None),
        ([0, 1, 88, 2, 88], [1, 1, 99, 1, 99])
    );
    let wrong = stored(&second, Some(LentSlip::SourceStored));
    assert_eq!(wrong, ([0, 1, 1, 2, 88], [1, 1, 1, 1, 99]));
}

/// A light path from the source and a segment from there to each post: with
/// every direct segment the tree is heavy.
fn heavy_net(house: (u32, u32), own: [(u32, u32); 3]) -> (Net, Trees) {
    let list = [(0, 1, 1), (1, 2, 1), (2, 3, 1), (0, 2, 2), (0, 3, 3)];
    let net = Net::new(4, 0, house, &list).with_own(&own);
    let right = three_trees(&net).expect("joined");
    let heavy = Trees {
        between: vec![S, 0, 3, 4],
        ..right
    };
    (net, heavy)
}

#[test]
fn slips_of_the_smallest_ratio_show() {
    let smallest = |net: &Net, slip| {
        let right = three_trees(net).expect("joined");
        slipped_smallest(net, &right, slip)
    };
    // By p alone 1/1 is the smallest here, and 2/9 isn't.
    let net = net_a_own((1, 1), [(1, 1), (2, 9), (4, 4)]);
    assert_eq!(net.smallest_ratio(), Some(Ratio::new(2, 9)));
    assert_eq!(smallest(&net, SmallestSlip::ByP), Some(Ratio::new(1, 1)));
    // The house ratio makes the bound so weak that a heavy tree keeps it.
    let (net, heavy) = heavy_net((0, 1), [(10_000, 1); 3]);
    assert!(!bounds_hold(&net, &heavy));
    let weak = smallest(&net, SmallestSlip::WithHouse);
    assert_eq!(weak, Some(Ratio::new(0, 1)));
    assert!(length_within(&net, &heavy.between, weak));
    assert!(!length_within(&net, &heavy.between, net.smallest_ratio()));
    // None is laid in this net, so there would be no bound at all; where one is
    // laid, it isn't the smallest.
    assert_eq!(smallest(&net, SmallestSlip::LaidOnly), None);
    let net = net_a_own((1, 1), [(0, 1), (7, 5), (6, 5)]);
    assert_eq!(net.smallest_ratio(), Some(Ratio::new(0, 1)));
    let laid = smallest(&net, SmallestSlip::LaidOnly);
    assert_eq!(laid, Some(Ratio::new(6, 5)));
}

#[test]
fn lengths_are_as_long_as_they_may_be() {
    // Products of own ratios at the ends of what is allowed.
    let list: Vec<_> = (1..256).map(|post| (post - 1, post, MOST_LENGTH)).collect();
    assert!(list.len() < MOST_SEGMENTS);
    let net = Net::new(256, 0, (0, 1), &list).with_own(&[(10_000, 10_000); 255]);
    let longest = 255 * i64::from(MOST_LENGTH);
    for tree in Tree::ALL {
        assert_eq!(margin(&net, 255, tree), Ok(10_000 * longest));
    }
}
