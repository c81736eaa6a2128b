//! Nets as they are lent to a call: a head with its form, the posts' ratios as
//! two lists of numbers side by side, and a list of segments.
//!
//! The ratios are read only in the second form, only as far as both lists go,
//! and never at the source's place. Both lists are held to 8 in either form.

use crate::building::{build, margin, Built, Tree};
use crate::net::{Form, Net, Ratio, Refusal, Segment};
use crate::record::write_into;

/// A net as it is lent.
#[derive(Clone, Copy, Debug)]
pub struct LentNet<'l> {
    /// The form of the net.
    pub form: Form,
    /// How many posts there are.
    pub posts: u32,
    /// The source post.
    pub source: u32,
    /// The house ratio.
    pub house: Ratio,
    /// The upper numbers of the posts' own ratios.
    pub p: &'l [u32],
    /// The lower numbers of the posts' own ratios.
    pub q: &'l [u32],
    /// The segments.
    pub segments: &'l [Segment],
}

impl<'l> LentNet<'l> {
    /// What this net is when it is lent with these lists of ratios.
    pub fn of(net: &'l Net, p: &'l [u32], q: &'l [u32]) -> Self {
        LentNet {
            form: net.form(),
            posts: net.posts,
            source: net.source,
            house: net.house(),
            p,
            q,
            segments: &net.segments,
        }
    }

    /// The net that is lent, as far as the lists go.
    pub fn net(&self) -> Net {
        let side_by_side = self.p.iter().zip(self.q);
        let own = (0..self.posts)
            .zip(side_by_side)
            .filter(|&(post, _)| post != self.source)
            .map(|(_, (&p, &q))| Ratio::new(p, q));
        Net {
            posts: self.posts,
            source: self.source,
            p: self.house.p,
            q: self.house.q,
            own: (self.form == Form::Second).then(|| own.collect()),
            segments: self.segments.to_vec(),
        }
    }

    /// The net that is lent, if it is sound: refusals 1 to 7, then 8 for the
    /// lists of ratios.
    pub fn sound(&self) -> Result<Net, Refusal> {
        let net = self.net();
        net.check_sound()?;
        let posts = self.posts as usize;
        if self.p.len() < posts || self.q.len() < posts {
            return Err(Refusal::new(8, 0));
        }
        Ok(net)
    }

    /// Builds the three trees into three lent lists: refusals 1 to 7, then 8 for
    /// all five lists, then 9.
    pub fn build(
        &self,
        lightest: &mut [u16],
        shortest: &mut [u16],
        between: &mut [u16],
    ) -> Result<Built, Refusal> {
        build(&self.sound()?, lightest, shortest, between)
    }

    /// The margin of a post in one of the three trees: refusals 1 to 7, then 8,
    /// then 9, then 19.
    pub fn margin(&self, post: u32, which: Tree) -> Result<i64, Refusal> {
        margin(&self.sound()?, post, which)
    }

    /// Writes the record into the lent room and says how long it is: refusals 1
    /// to 7, then 8, then 18.
    pub fn write_into(&self, room: &mut [u8]) -> Result<usize, Refusal> {
        write_into(&self.sound()?, room)
    }
}
