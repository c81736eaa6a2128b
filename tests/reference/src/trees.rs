//! The lightest and the shortest tree, and sums over any tree.
//!
//! Every function here takes a sound net whose posts are all joined to the
//! source, and panics otherwise where it can't do without.

use crate::net::{Net, Segment};

/// A tree's entry for the source, which hangs on nothing.
pub const SOURCE_ENTRY: u16 = 65_535;

fn entry(number: usize) -> u16 {
    u16::try_from(number).expect("at most 2,048 segments")
}

/// The lightest tree, by Prim's method: it grows from the source, each time by
/// the first segment, by length and then number, that leads out of it.
///
/// No two segments stand alike in that order, so there is just one lightest
/// tree, and it is the one that document 01 defines; see
/// [`lightest_by_chains`].
pub fn lightest(net: &Net) -> Vec<u16> {
    let posts = net.posts as usize;
    let mut tree = vec![SOURCE_ENTRY; posts];
    let mut inside = vec![false; posts];
    inside[net.source as usize] = true;
    for _ in 1..posts {
        let (number, segment) = net
            .segments
            .iter()
            .enumerate()
            .filter(|(_, s)| inside[s.a as usize] != inside[s.b as usize])
            .min_by_key(|&(number, s)| (s.length, number))
            .expect("every post is joined to the source");
        let new = if inside[segment.a as usize] {
            segment.b
        } else {
            segment.a
        } as usize;
        inside[new] = true;
        tree[new] = entry(number);
    }
    tree
}

/// The lightest tree by document 01's own words: a segment belongs exactly if
/// no chain of segments before it, by length and then number, joins its ends;
/// the tree is then hung from the source.
pub fn lightest_by_chains(net: &Net) -> Vec<u16> {
    let mut ways = vec![Vec::new(); net.posts as usize];
    for (number, segment) in net.segments.iter().enumerate() {
        ways[segment.a as usize].push((number, segment.b));
        ways[segment.b as usize].push((number, segment.a));
    }
    let belonging: Vec<usize> = (0..net.segments.len())
        .filter(|&number| !chain_before(net, &ways, number))
        .collect();
    hung_from_source(net, &belonging)
}

/// Whether a chain of segments before this one joins its ends. From each post
/// there are ways: by a segment, to its other end.
fn chain_before(net: &Net, ways: &[Vec<(usize, u32)>], number: usize) -> bool {
    let order = |number: usize| (net.segments[number].length, number);
    let this = net.segments[number];
    let mut seen = vec![false; net.posts as usize];
    seen[this.a as usize] = true;
    let mut waiting = vec![this.a];
    while let Some(post) = waiting.pop() {
        for &(by, next) in &ways[post as usize] {
            if order(by) < order(number) && !seen[next as usize] {
                seen[next as usize] = true;
                waiting.push(next);
            }
        }
    }
    seen[this.b as usize]
}

/// Hangs the tree that these segments make from the source.
fn hung_from_source(net: &Net, belonging: &[usize]) -> Vec<u16> {
    let mut tree = vec![SOURCE_ENTRY; net.posts as usize];
    let mut hung = vec![false; net.posts as usize];
    hung[net.source as usize] = true;
    let mut waiting = vec![net.source];
    while let Some(post) = waiting.pop() {
        for &number in belonging {
            match net.segments[number].across(post) {
                Some(next) if !hung[next as usize] => {
                    hung[next as usize] = true;
                    tree[next as usize] = entry(number);
                    waiting.push(next);
                }
                _ => {}
            }
        }
    }
    tree
}

/// D(v) for each post v, the least length of a route from the source, by
/// Bellman and Ford's method.
pub fn least_lengths(net: &Net) -> Vec<u64> {
    let mut least: Vec<Option<u64>> = vec![None; net.posts as usize];
    least[net.source as usize] = Some(0);
    let mut more = true;
    while more {
        more = false;
        for segment in &net.segments {
            for (from, to) in [(segment.a, segment.b), (segment.b, segment.a)] {
                let Some(so_far) = least[from as usize] else {
                    continue;
                };
                let route = so_far + u64::from(segment.length);
                if least[to as usize].is_none_or(|known| route < known) {
                    least[to as usize] = Some(route);
                    more = true;
                }
            }
        }
    }
    least
        .into_iter()
        .map(|length| length.expect("every post is joined to the source"))
        .collect()
}

/// The same as [`least_lengths`], by Floyd and Warshall's method, from every
/// post to every other.
pub fn least_lengths_by_triples(net: &Net) -> Vec<u64> {
    const FAR: u64 = 1 << 40;
    let posts = net.posts as usize;
    let mut least = vec![vec![FAR; posts]; posts];
    for (post, row) in least.iter_mut().enumerate() {
        row[post] = 0;
    }
    for segment in &net.segments {
        let (a, b) = (segment.a as usize, segment.b as usize);
        let length = u64::from(segment.length).min(least[a][b]);
        least[a][b] = length;
        least[b][a] = length;
    }
    for through in 0..posts {
        let onward = least[through].clone();
        for row in &mut least {
            let first = row[through];
            for (known, second) in row.iter_mut().zip(&onward) {
                *known = (*known).min(first + second);
            }
        }
    }
    let row = least.swap_remove(net.source as usize);
    assert!(row.iter().all(|&length| length < FAR), "every post joined");
    row
}

/// The shortest tree: post v hangs by the lowest-numbered segment from some u
/// with D(u) plus its length equal to D(v).
pub fn shortest(net: &Net, least: &[u64]) -> Vec<u16> {
    (0..net.posts)
        .map(|post| {
            if post == net.source {
                return SOURCE_ENTRY;
            }
            let number = net
                .segments
                .iter()
                .position(|segment| {
                    segment.across(post).is_some_and(|from| {
                        least[from as usize] + u64::from(segment.length) == least[post as usize]
                    })
                })
                .expect("the last segment of a least route");
            entry(number)
        })
        .collect()
}

/// The parent of a post in a tree, and the segment by which it hangs there;
/// `None` for the source, and for an entry that is no segment of that post.
pub fn parent(net: &Net, tree: &[u16], post: u32) -> Option<(u32, Segment)> {
    let segment = *net.segments.get(usize::from(tree[post as usize]))?;
    Some((segment.across(post)?, segment))
}

/// The length of a post's path in a tree, by climbing to the source; `None` if
/// the climb doesn't come there.
pub fn path(net: &Net, tree: &[u16], post: u32) -> Option<u64> {
    let mut length = 0;
    let mut at = post;
    for _ in 0..net.posts {
        if at == net.source {
            return (tree[at as usize] == SOURCE_ENTRY).then_some(length);
        }
        let (above, segment) = parent(net, tree, at)?;
        length += u64::from(segment.length);
        at = above;
    }
    None
}

/// The length of a tree: the sum over its segments.
pub fn whole_length(net: &Net, tree: &[u16]) -> u64 {
    tree.iter()
        .filter(|&&number| number != SOURCE_ENTRY)
        .map(|&number| u64::from(net.segments[usize::from(number)].length))
        .sum()
}

/// The radius of a tree: the longest path from the source in it.
pub fn radius(net: &Net, tree: &[u16]) -> u64 {
    (0..net.posts)
        .map(|post| path(net, tree, post).expect("a tree comes to the source"))
        .max()
        .expect("there is a source")
}
