//! How many entries to lend: fewer than needed, just enough, or more; and lists
//! of ratios, poisoned wherever they may not be read.

use reference::net::posts_but;
use reference::Net;

use crate::random::Random;

/// A length for a lent list that needs `needed` entries.
pub fn any_length(random: &mut Random, needed: usize) -> usize {
    match random.below(8) {
        0 => needed.saturating_sub(1),
        1 => random.index(needed + 1),
        2..=4 => needed,
        5 => needed + 1,
        _ => needed + 1 + random.index(9),
    }
}

/// A length that is long enough.
pub fn long_enough(random: &mut Random, needed: usize) -> usize {
    any_length(random, needed).max(needed)
}

/// A number that no ratio should hold, or that one could.
pub fn poison(random: &mut Random) -> u32 {
    let any = random.bits() as u32;
    random.pick(&[0, 0, 1, 10_000, 10_001, u32::MAX, any])
}

/// Lists of ratios to lend with a net, p and q, of these lengths: the posts' own
/// ratios as far as they go, and poison at the source's place, beyond the posts
/// and, in the first form, everywhere.
pub fn ratio_lists(random: &mut Random, net: &Net, lengths: [usize; 2]) -> [Vec<u32>; 2] {
    let mut lists = lengths.map(|length| {
        let list = (0..length).map(|_| poison(random));
        list.collect::<Vec<u32>>()
    });
    let own = net.own.iter().flatten();
    for (post, ratio) in posts_but(net.source, net.posts).zip(own) {
        for (list, number) in lists.iter_mut().zip([ratio.p, ratio.q]) {
            if let Some(place) = list.get_mut(post as usize) {
                *place = number;
            }
        }
    }
    lists
}
