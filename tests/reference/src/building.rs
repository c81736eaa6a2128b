//! The building call with its three lent lists, and the margin.

use crate::between::walked;
use crate::net::{Net, Refusal};
use crate::trees::{least_lengths, lightest, path, radius, shortest, whole_length};

/// One of the three trees.
#[derive(Clone, Copy, Debug, PartialEq, Eq, Hash)]
pub enum Tree {
    /// The lightest tree.
    Lightest,
    /// The shortest tree.
    Shortest,
    /// The tree between them.
    Between,
}

impl Tree {
    /// All three, in document 01's order.
    pub const ALL: [Tree; 3] = [Tree::Lightest, Tree::Shortest, Tree::Between];
}

/// Length and radius of a tree.
#[derive(Clone, Copy, Debug, PartialEq, Eq)]
pub struct Measure {
    /// The sum over the tree's segments.
    pub length: u64,
    /// The longest path from the source.
    pub radius: u64,
}

/// What building answers with.
#[derive(Clone, Copy, Debug, PartialEq, Eq)]
pub struct Built {
    /// Length and radius of the lightest tree.
    pub lightest: Measure,
    /// Length and radius of the shortest tree.
    pub shortest: Measure,
    /// Length and radius of the between tree.
    pub between: Measure,
    /// The count of laid paths.
    pub laid: u32,
}

/// The three trees of a net and the count of laid paths.
#[derive(Clone, Debug, PartialEq, Eq)]
pub struct Trees {
    /// The lightest tree.
    pub lightest: Vec<u16>,
    /// The shortest tree.
    pub shortest: Vec<u16>,
    /// The between tree.
    pub between: Vec<u16>,
    /// The count of laid paths.
    pub laid: u32,
}

impl Trees {
    /// One of the three.
    pub fn tree(&self, which: Tree) -> &[u16] {
        match which {
            Tree::Lightest => &self.lightest,
            Tree::Shortest => &self.shortest,
            Tree::Between => &self.between,
        }
    }

    /// Lengths, radii and count, as building answers them.
    pub fn built(&self, net: &Net) -> Built {
        let measure = |tree: &[u16]| Measure {
            length: whole_length(net, tree),
            radius: radius(net, tree),
        };
        Built {
            lightest: measure(&self.lightest),
            shortest: measure(&self.shortest),
            between: measure(&self.between),
            laid: self.laid,
        }
    }

    /// The margin of a post in one of these trees, which are the net's:
    /// (p + q) × D minus q × path, p/q being the ratio that rules the post; 0
    /// for the source. Refusal 19.
    pub fn margin(&self, net: &Net, post: u32, which: Tree) -> Result<i64, Refusal> {
        if post >= net.posts {
            return Err(Refusal::new(19, 0));
        }
        let signed = |length: u64| i64::try_from(length).expect("lengths are small");
        let least = signed(least_lengths(net)[post as usize]);
        let path = path(net, self.tree(which), post).expect("a tree comes to the source");
        Ok(net.ratios()[post as usize].map_or(0, |ratio| {
            let (p, q) = (i64::from(ratio.p), i64::from(ratio.q));
            (p + q) * least - q * signed(path)
        }))
    }
}

/// The trees of a net that is known to be sound and joined.
fn trees_of_joined(net: &Net) -> Trees {
    let lightest = lightest(net);
    let least = least_lengths(net);
    let shortest = shortest(net, &least);
    let walked = walked(net, &lightest, &least, &shortest);
    Trees {
        lightest,
        shortest,
        between: walked.tree,
        laid: walked.laid,
    }
}

/// The three trees in lists of their own: refusals 1 to 8, then 9.
pub fn three_trees(net: &Net) -> Result<Trees, Refusal> {
    net.check_sound()?;
    net.check_joined()?;
    Ok(trees_of_joined(net))
}

/// Builds the three trees into three lent lists: refusals 1 to 7, then 8, then
/// 9. Entries beyond the post count stay as they were, and after a refusal all
/// of them do.
pub fn build(
    net: &Net,
    lightest: &mut [u16],
    shortest: &mut [u16],
    between: &mut [u16],
) -> Result<Built, Refusal> {
    net.check_sound()?;
    let posts = net.posts as usize;
    if [lightest.len(), shortest.len(), between.len()]
        .iter()
        .any(|&entries| entries < posts)
    {
        return Err(Refusal::new(8, 0));
    }
    net.check_joined()?;
    let trees = trees_of_joined(net);
    lightest[..posts].copy_from_slice(&trees.lightest);
    shortest[..posts].copy_from_slice(&trees.shortest);
    between[..posts].copy_from_slice(&trees.between);
    Ok(trees.built(net))
}

/// The margin of a post in one of the three trees, worked out afresh:
/// (p + q) × D minus q × path. Refusals 1 to 8, then 9, then 19.
pub fn margin(net: &Net, post: u32, which: Tree) -> Result<i64, Refusal> {
    three_trees(net)?.margin(net, post, which)
}
