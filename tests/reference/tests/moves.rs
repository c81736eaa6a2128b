//! Every row that is worked for Req 02, moving a record into the other form and
//! home again, its decided readings, and the slips that are feared of it.

use reference::move_slips::{slipped_moved_into, MoveSlip};
use reference::worked::{
    longest_net, moves, net_a, net_a_own, net_b, net_c, one_post, record_on_a, two_posts,
    two_posts_apart, WorkedMove, RECORD_A,
};
use reference::{
    margin, moved, moved_into, read, three_trees, write, Form, Net, Ratio, Refusal, To, Tree,
};

/// The answer and the room of 99s afterwards of a move by this function.
fn made(
    asked: &WorkedMove,
    by: impl Fn(&[u8], To, &mut [u8]) -> Result<usize, Refusal>,
) -> (Result<usize, Refusal>, Vec<u8>) {
    let mut room = vec![99; asked.room];
    let answer = by(&asked.record, asked.to, &mut room);
    (answer, room)
}

/// The same as it is worked.
fn worked(asked: &WorkedMove) -> (Result<usize, Refusal>, Vec<u8>) {
    let mut room = vec![99; asked.room];
    let answer = match &asked.answer {
        Ok(bytes) => {
            room[..bytes.len()].copy_from_slice(bytes);
            Ok(bytes.len())
        }
        &Err((number, place)) => Err(Refusal { number, place }),
    };
    (answer, room)
}

#[test]
fn the_rows_that_are_worked() {
    let rows = moves();
    assert_eq!(rows.len(), 18);
    for row in rows {
        let name = format!("{:?} {:?}", row.to, row.record);
        assert_eq!(made(&row, moved_into), worked(&row), "{name}");
    }
}

fn refusal<T>(number: u32, place: u32) -> Result<T, Refusal> {
    Err(Refusal { number, place })
}

/// The worked nets of the first form.
fn first_form_nets() -> Vec<Net> {
    vec![
        net_a((1, 1)),
        net_a((0, 1)),
        net_a((10_000, 128)),
        net_b(),
        net_c(),
        one_post(),
        two_posts(),
        two_posts_apart(),
        Net {
            own: None,
            ..longest_net()
        },
    ]
}

#[test]
fn forward_then_back_gives_the_old_bytes() {
    for net in first_form_nets() {
        let record = write(&net).expect("sound");
        let forward = moved(&record, To::Second).expect("of the first form");
        let house = vec![net.house(); net.posts as usize - 1];
        let second = read(&forward).expect("good");
        assert_eq!(second.own.as_deref(), Some(&house[..]));
        assert_eq!(
            Net {
                own: None,
                ..second
            },
            net
        );
        assert_eq!(moved(&forward, To::First), Ok(record));
    }
}

#[test]
fn the_moved_net_builds_the_same_and_has_the_same_margins() {
    for net in first_form_nets() {
        let record = write(&net).expect("sound");
        let forward = moved(&record, To::Second).expect("of the first form");
        let second = read(&forward).expect("good");
        assert_eq!(three_trees(&second), three_trees(&net));
        for post in 0..net.posts.min(5) {
            for tree in [Tree::Lightest, Tree::Shortest, Tree::Between] {
                assert_eq!(margin(&second, post, tree), margin(&net, post, tree));
            }
        }
    }
}

#[test]
fn back_is_possible_exactly_if_every_ratio_is_the_house_ratio_as_numbers() {
    let ratios = [(1, 1), (2, 2), (1, 2), (0, 1), (129, 1)];
    for own in 0..ratios.len().pow(3) {
        let own = [own / 25, own / 5 % 5, own % 5].map(|at| ratios[at]);
        for house in ratios {
            for source in 0..4 {
                let net = net_a_own(house, own);
                let record = write(&Net { source, ..net }).expect("sound");
                let posts = (0..4).filter(|&post| post != source);
                let other = posts.zip(own).find(|&(_, ratio)| ratio != house);
                let answer = moved(&record, To::First);
                match other {
                    Some((post, _)) => assert_eq!(answer, refusal(20, post)),
                    None => {
                        let back = answer.expect("every ratio is the house ratio");
                        assert_eq!(moved(&back, To::Second), Ok(record));
                    }
                }
            }
        }
    }
}

#[test]
fn order_of_refusals() {
    // Two posts, their ratio 2/2 against 1/1.
    let other = [0, 2, 0, 1, 1, 1, 2, 2, 0, 1, 4];
    let mut room = [99; 20];
    for to in To::ALL {
        // The reader's before 30, 20 and 18.
        assert_eq!(moved_into(&other[..10], to, &mut []), refusal(10, 10));
        let extra = [&other[..], &[0]].concat();
        assert_eq!(moved_into(&extra, to, &mut []), refusal(12, 11));
        assert_eq!(moved_into(&[0], to, &mut []), refusal(10, 1));
        assert_eq!(moved_into(&[3, 3, 1, 1, 0], to, &mut []), refusal(2, 0));
    }
    // 30 before 20 and 18, and it doesn't look at the room.
    for room in [&mut room[..], &mut []] {
        assert_eq!(moved_into(&other, To::Second, room), refusal(30, 0));
        assert_eq!(moved_into(&RECORD_A, To::First, room), refusal(30, 0));
        assert_eq!(moved_into(&other, To::First, room), refusal(20, 1));
    }
    assert_eq!(room, [99; 20]);
}

#[test]
fn one_post_and_nets_that_are_not_joined_move() {
    for net in [one_post(), two_posts_apart()] {
        let record = write(&net).expect("sound");
        let forward = moved(&record, To::Second).expect("moved");
        assert_eq!(read(&forward).map(|net| net.form()), Ok(Form::Second));
        assert_eq!(moved(&forward, To::First), Ok(record));
    }
}

#[test]
fn the_longest_record_comes_home() {
    let longest = write(&longest_net()).expect("sound");
    let back = moved(&longest, To::First).expect("every ratio is the house ratio");
    assert_eq!((longest.len(), back.len()), (15_367, 14_346));
    let mut room = vec![99; 15_367];
    assert_eq!(moved_into(&back, To::Second, &mut room), Ok(15_367));
    assert_eq!(room, longest);
    let mut room = vec![99; 15_366];
    assert_eq!(moved_into(&back, To::Second, &mut room), refusal(18, 0));
    assert_eq!(room, [99; 15_366]);
}

#[test]
fn the_house_ratio_is_given_to_each_post() {
    let forward = moved(&[3, 1, 200, 1, 3, 0], To::Second).expect("moved");
    let own = read(&forward).expect("good").own;
    assert_eq!(own, Some(vec![Ratio::new(200, 3); 2]));
}

/// The rows at which a slip shows, by their places in the table from 1 on.
fn shows_at(slip: MoveSlip) -> Vec<usize> {
    let slipped = |record: &[u8], to, room: &mut [u8]| slipped_moved_into(record, to, room, slip);
    let differs = |row: &WorkedMove| made(row, slipped) != worked(row);
    (1..)
        .zip(moves())
        .filter_map(|(place, row)| differs(&row).then_some(place))
        .collect()
}

#[test]
fn every_slip_shows_in_the_rows() {
    let expected: [(MoveSlip, &[usize]); 12] = [
        (MoveSlip::CrossProducts, &[13]),
        (MoveSlip::SourceAsked, &[3, 4, 9, 13, 14]),
        (MoveSlip::HighestPost, &[14]),
        (MoveSlip::CountedRatios, &[13, 14]),
        (MoveSlip::LateForm, &[11, 12]),
        (MoveSlip::EarlyForm, &[]),
        (MoveSlip::EarlyRoom, &[13, 14, 15]),
        (MoveSlip::RatioForSource, &[1, 5, 6, 7, 8, 10]),
        (MoveSlip::ByOffset, &[13, 14, 15, 17]),
        (MoveSlip::RoomTouched, &[2, 4]),
        (MoveSlip::OneByteP, &[7]),
        (MoveSlip::JoinedOnly, &[7, 10]),
    ];
    assert_eq!(expected.map(|(slip, _)| slip), MoveSlip::ALL);
    for (slip, rows) in expected {
        assert_eq!(shows_at(slip), rows, "{slip:?}");
    }
}

#[test]
fn slips_that_no_row_shows() {
    // 30 before the reader's refusals: a cut record of the form wanted.
    let cut = record_on_a(&[0, 4, 0, 1, 1, 5])[..10].to_vec();
    let mut room = [99; 20];
    assert!(moved_into(&cut, To::Second, &mut room).is_err_and(|refusal| refusal.number != 30));
    let slipped = slipped_moved_into(&cut, To::Second, &mut room, MoveSlip::EarlyForm);
    assert_eq!(slipped, refusal(30, 0));
}

#[test]
fn slips_have_names() {
    for slip in MoveSlip::ALL {
        assert_eq!(MoveSlip::named(&format!("{slip:?}")), Some(slip));
    }
    assert_eq!(MoveSlip::named("None"), None);
}
