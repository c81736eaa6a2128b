//! The walk that makes the between tree, by recursion straight from the text.

use crate::net::{Net, Ratio};
use crate::trees::{parent, SOURCE_ENTRY};

/// A post's note d. "None yet" is larger than any length, and the order of the
/// cases says so.
#[derive(Clone, Copy, Debug, PartialEq, Eq, PartialOrd, Ord)]
pub enum Note {
    /// A length.
    Length(u64),
    /// None yet.
    NoneYet,
}

impl Note {
    /// The length that is noted, if there is one.
    pub fn length(self) -> Option<u64> {
        match self {
            Note::Length(length) => Some(length),
            Note::NoneYet => None,
        }
    }

    fn plus(self, length: u32) -> Note {
        match self {
            Note::Length(so_far) => Note::Length(so_far + u64::from(length)),
            Note::NoneYet => Note::NoneYet,
        }
    }

    fn times(self, factor: u32) -> Note {
        match self {
            Note::Length(length) => Note::Length(length * u64::from(factor)),
            Note::NoneYet => Note::NoneYet,
        }
    }
}

/// What the walk leaves behind.
#[derive(Clone, Debug, PartialEq, Eq)]
pub struct Walked {
    /// The between tree.
    pub tree: Vec<u16>,
    /// The note of each post, which may be above the path in the tree.
    pub notes: Vec<Note>,
    /// How many posts had their direct path laid on entering.
    pub laid: u32,
}

struct Walk<'n> {
    net: &'n Net,
    /// For each post the ratio that rules it; the source has none.
    ratios: Vec<Option<Ratio>>,
    least: &'n [u64],
    shortest: &'n [u16],
    /// For each post its children in the lightest tree and their segments, in
    /// rising number of the segment.
    children: Vec<Vec<(u16, u32)>>,
    after: Walked,
}

impl Walk<'_> {
    fn note(&self, post: u32) -> Note {
        self.after.notes[post as usize]
    }

    fn least(&self, post: u32) -> Note {
        Note::Length(self.least[post as usize])
    }

    /// Tries `v` from `u` by a segment.
    fn attempt(&mut self, v: u32, u: u32, number: u16) {
        let length = self.net.segments[usize::from(number)].length;
        let sum = self.note(u).plus(length);
        if sum < self.note(v) {
            self.after.notes[v as usize] = sum;
            self.after.tree[v as usize] = number;
        }
    }

    /// Lays the direct path of `v`.
    fn lay(&mut self, v: u32) {
        if self.note(v) > self.least(v) {
            let (above, _) = parent(self.net, self.shortest, v).expect("the source's note is 0");
            self.lay(above);
            self.attempt(v, above, self.shortest[v as usize]);
        }
    }

    /// Whether the note of `v` is above the limit by the ratio that rules `v`.
    fn breaks_limit(&self, v: u32) -> bool {
        let ratio = self.ratios[v as usize];
        ratio.is_some_and(|Ratio { p, q }| self.note(v).times(q) > self.least(v).times(p + q))
    }

    /// Enters `v` and walks what hangs below it.
    fn walk(&mut self, v: u32) {
        if self.breaks_limit(v) {
            self.lay(v);
            self.after.laid += 1;
        }
        for (number, child) in self.children[v as usize].clone() {
            self.attempt(child, v, number);
            self.walk(child);
            self.attempt(v, child, number);
        }
    }
}

/// For each post its children in a tree, each with its segment, in rising
/// number of the segment.
pub fn children(net: &Net, tree: &[u16]) -> Vec<Vec<(u16, u32)>> {
    let mut children = vec![Vec::new(); net.posts as usize];
    for post in 0..net.posts {
        if let Some((above, _)) = parent(net, tree, post) {
            children[above as usize].push((tree[post as usize], post));
        }
    }
    for list in &mut children {
        list.sort_unstable();
    }
    children
}

/// Walks the lightest tree of a sound and joined net from the source, with D
/// for each post and the shortest tree.
pub fn walked(net: &Net, lightest: &[u16], least: &[u64], shortest: &[u16]) -> Walked {
    let posts = net.posts as usize;
    let mut notes = vec![Note::NoneYet; posts];
    notes[net.source as usize] = Note::Length(0);
    let mut walk = Walk {
        net,
        ratios: net.ratios(),
        least,
        shortest,
        children: children(net, lightest),
        after: Walked {
            tree: vec![SOURCE_ENTRY; posts],
            notes,
            laid: 0,
        },
    };
    walk.walk(net.source);
    walk.after
}
