//! An independent implementation of document 01 and of Req 01 and Req 02 of
//! document 02, written from their text alone.
//!
//! It exists to be compared with the proved library and its program, so
//! wherever document 01 leaves a choice of method it takes a plain one: Prim's
//! method for the lightest tree, Bellman and Ford's for the least lengths, the
//! walk by recursion straight from the text, and exact whole-number arithmetic
//! for drawn lengths. A second method stands beside the first for the lightest
//! tree, the least lengths and drawn lengths, so that the reference can be
//! compared with itself too.
//!
//! * [`net`]: nets of both forms, the numbers that bound them, refusals 1 to 7
//!   and 9;
//! * [`record`]: reading and writing records, refusals 8, 10 to 12 and 18;
//! * [`moves`]: moving a record into the other form, refusals 20 and 30;
//! * [`drawn`]: drawn runs, rounded up, refusals 13, 14, 15 and 17;
//! * [`trees`]: the lightest and the shortest tree, and sums over any tree;
//! * [`between`]: the walk that makes the third tree;
//! * [`building`]: the building call and the margin, refusals 8 and 19;
//! * [`lent`]: the calls on a net whose ratios are lent as two lists;
//! * [`bounds`]: what must hold of the three trees of every net;
//! * [`program`]: the exact text that the program prints;
//! * [`worked`]: the nets that are worked by hand;
//! * [`slips`], [`move_slips`]: the slips that are feared, to test the tests with.

#![forbid(unsafe_code)]

pub mod between;
pub mod bounds;
pub mod building;
pub mod drawn;
pub mod lent;
pub mod move_slips;
pub mod moves;
pub mod net;
pub mod program;
pub mod record;
pub mod slips;
pub mod trees;
pub mod worked;

pub use bounds::{bounds_hold, broken_bound};
pub use building::{build, margin, three_trees, Built, Measure, Tree, Trees};
pub use drawn::{drawn_length, Run};
pub use lent::LentNet;
pub use moves::{moved, moved_into, To};
pub use net::{Form, Net, Ratio, Refusal, Segment};
pub use program::program_output;
pub use record::{read, read_into, write, write_into};
