//! What must hold of the three trees of every sound and joined net, checked by
//! the reference's own sums.
//!
//! * Every post is reached in each tree.
//! * In the between tree q × path ≤ (p + q) × D for every post but the source,
//!   p/q being the ratio that rules it; the source's path is 0.
//! * p × length of the between tree ≤ (p + 2q) × length of the lightest tree for
//!   the smallest ratio p/q of any post but the source; for one post it is 0.

use crate::building::{Tree, Trees};
use crate::net::{Net, Ratio};
use crate::trees::{least_lengths, lightest, path, whole_length};

/// The first bound that these trees break, in words, or `None`.
///
/// The trees may come from anywhere; nothing is taken for granted of them.
pub fn broken_bound(net: &Net, trees: &Trees) -> Option<String> {
    for which in Tree::ALL {
        let tree = trees.tree(which);
        if tree.len() != net.posts as usize {
            return Some(format!("{which:?} has {} entries", tree.len()));
        }
        for post in 0..net.posts {
            if path(net, tree, post).is_none() {
                return Some(format!("post {post} isn't reached in {which:?}"));
            }
        }
    }
    for ((post, least), ratio) in (0..).zip(least_lengths(net)).zip(net.ratios()) {
        let path = path(net, &trees.between, post).expect("reached, as seen above");
        let within = ratio.map_or(path == 0, |ratio| {
            let (p, q) = (u64::from(ratio.p), u64::from(ratio.q));
            q * path <= (p + q) * least
        });
        if !within {
            return Some(format!("the path of post {post} is {path}, D is {least}"));
        }
    }
    let smallest = net.smallest_ratio();
    if !length_within(net, &trees.between, smallest) {
        let between = whole_length(net, &trees.between);
        let ratio = smallest.map_or("none".to_owned(), |ratio| format!("{ratio:?}"));
        return Some(format!("length {between}, smallest ratio {ratio}"));
    }
    None
}

/// Whether the length of a tree keeps the bound of this ratio; without a ratio
/// it must be 0.
pub fn length_within(net: &Net, tree: &[u16], ratio: Option<Ratio>) -> bool {
    let whole = whole_length(net, tree);
    let lightest = whole_length(net, &lightest(net));
    ratio.map_or(whole == 0, |ratio| {
        let (p, q) = (u64::from(ratio.p), u64::from(ratio.q));
        p * whole <= (p + 2 * q) * lightest
    })
}

/// Whether all the bounds hold of these trees.
pub fn bounds_hold(net: &Net, trees: &Trees) -> bool {
    broken_bound(net, trees).is_none()
}
