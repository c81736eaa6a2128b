//! The three trees of a net, and what the library says of them.

use std::fmt;

use crate::raw::SUMMARY;
use crate::MOST_POSTS;

/// A tree's entry for the source, which hangs on nothing.
pub const SOURCE_ENTRY: u16 = 65_535;

/// One of the three trees.
#[derive(Clone, Copy, Debug, PartialEq, Eq, Hash)]
pub enum Tree {
    /// The lightest tree.
    Lightest,
    /// The shortest tree.
    Shortest,
    /// The tree between them.
    Between,
}

impl Tree {
    /// All three, in the order in which they are printed.
    pub const ALL: [Tree; 3] = [Tree::Lightest, Tree::Shortest, Tree::Between];

    /// The number by which the library knows the tree.
    pub fn number(self) -> u32 {
        match self {
            Tree::Lightest => 0,
            Tree::Shortest => 1,
            Tree::Between => 2,
        }
    }

    /// The word that begins the tree's printed line.
    pub fn word(self) -> &'static str {
        match self {
            Tree::Lightest => "mst",
            Tree::Shortest => "spt",
            Tree::Between => "last",
        }
    }
}

/// A tree that was built.
#[derive(Clone, Debug, PartialEq, Eq, Hash)]
pub struct BuiltTree {
    /// For each post the number of the segment by which it hangs on its parent,
    /// and [`SOURCE_ENTRY`] for the source.
    pub entries: Vec<u16>,
    /// The sum of the tree's segments, in sixteenths of a millimetre.
    pub length: u32,
    /// The longest path from the source in the tree.
    pub radius: u32,
}

impl BuiltTree {
    /// The segment by which a post hangs on its parent; `None` for the source
    /// and where there is no such post.
    pub fn segment_of(&self, post: usize) -> Option<u16> {
        let entry = *self.entries.get(post)?;
        (entry != SOURCE_ENTRY).then_some(entry)
    }
}

/// What planning a net answers with. It is printed (`Display`) in five lines,
/// just as the program prints it.
#[derive(Clone, Debug, PartialEq, Eq, Hash)]
pub struct Plan {
    /// How many posts the net has.
    pub posts: u32,
    /// How many segments the net has.
    pub segments: u32,
    /// The source post.
    pub source: u32,
    /// The upper number of the house ratio p/q.
    pub p: u32,
    /// The lower number of the house ratio p/q.
    pub q: u32,
    /// The lightest tree.
    pub lightest: BuiltTree,
    /// The shortest tree.
    pub shortest: BuiltTree,
    /// The tree between them.
    pub between: BuiltTree,
    /// How many direct paths the walk laid.
    pub laid: u32,
}

impl Plan {
    /// The plan in three lists and a summary that the library filled.
    pub(crate) fn from_lists(lists: &[[u16; MOST_POSTS]; 3], summary: [u32; SUMMARY]) -> Plan {
        let [posts, segments, source, p, q, measures @ .., laid] = summary;
        let tree = |which: Tree| {
            let number = which.number() as usize;
            BuiltTree {
                entries: lists[number][..posts as usize].to_vec(),
                length: measures[2 * number],
                radius: measures[2 * number + 1],
            }
        };
        Plan {
            posts,
            segments,
            source,
            p,
            q,
            lightest: tree(Tree::Lightest),
            shortest: tree(Tree::Shortest),
            between: tree(Tree::Between),
            laid,
        }
    }

    /// One of the three trees.
    pub fn tree(&self, which: Tree) -> &BuiltTree {
        match which {
            Tree::Lightest => &self.lightest,
            Tree::Shortest => &self.shortest,
            Tree::Between => &self.between,
        }
    }
}

impl fmt::Display for Plan {
    fn fmt(&self, f: &mut fmt::Formatter<'_>) -> fmt::Result {
        writeln!(
            f,
            "net {} {} {} {}/{}",
            self.posts, self.segments, self.source, self.p, self.q
        )?;
        for which in Tree::ALL {
            let tree = self.tree(which);
            write!(f, "{} {} {}", which.word(), tree.length, tree.radius)?;
            for segment in (0..tree.entries.len()).filter_map(|post| tree.segment_of(post)) {
                write!(f, " {segment}")?;
            }
            writeln!(f)?;
        }
        writeln!(f, "laid {}", self.laid)
    }
}

#[cfg(test)]
mod tests {
    use super::*;

    /// Net A's lists and summary, as the library leaves them.
    fn net_a() -> Plan {
        let mut lists = [[99; MOST_POSTS]; 3];
        for (list, entries) in lists.iter_mut().zip([[0, 1, 2], [0, 4, 3], [0, 1, 3]]) {
            list[0] = SOURCE_ENTRY;
            list[1..4].copy_from_slice(&entries);
        }
        Plan::from_lists(&lists, [4, 5, 0, 1, 1, 12, 12, 15, 6, 13, 8, 1])
    }

    #[test]
    fn a_plan_is_read_from_lists_and_summary() {
        let plan = net_a();
        assert_eq!((plan.posts, plan.segments, plan.source), (4, 5, 0));
        assert_eq!((plan.p, plan.q, plan.laid), (1, 1, 1));
        assert_eq!((plan.shortest.length, plan.shortest.radius), (15, 6));
        assert_eq!(plan.tree(Tree::Between).entries, [SOURCE_ENTRY, 0, 1, 3]);
        assert_eq!(plan.lightest.segment_of(3), Some(2));
        assert_eq!(plan.lightest.segment_of(0), None);
        assert_eq!(plan.lightest.segment_of(4), None);
    }

    #[test]
    fn a_plan_is_printed_as_the_program_prints_it() {
        let stored = include_str!("../../../examples/net-a.txt");
        assert_eq!(net_a().to_string(), stored);
    }
}
