//! Generators of test inputs, all of them fixed by a seed.
//!
//! * [`random`]: the numbers that everything else is drawn from;
//! * [`nets`]: sound nets of both forms and of many shapes, lengths and ratios;
//! * [`faults`]: nets spoilt so that they are refused;
//! * [`records`]: records of nets, and damaged ones;
//! * [`drawn`]: drawn runs, random and near every border;
//! * [`lent`]: how many entries to lend, and lists of ratios.

#![forbid(unsafe_code)]

pub mod drawn;
pub mod faults;
pub mod lent;
pub mod nets;
pub mod random;
pub mod records;

pub use faults::{spoil, Fault};
pub use nets::{any_net, net_of, special_nets, worked_nets, Shape};
pub use random::Random;
pub use records::{any_damaged, damaged, encode, Damage};
