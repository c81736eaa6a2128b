//! Measures the static library side by side with plain Rust tuned for speed,
//! and with outside peers where they are installed.
//!
//! * [`tuned`]: document 01 in plain Rust tuned for speed;
//! * [`inputs`]: the nets and runs on which all are measured;
//! * [`subjects`]: the library, the tuned Rust and the peers, doing one work;
//! * [`rounds`]: ratios of times, measured in rounds;
//! * [`instructions`]: instructions counted, where valgrind is installed.

pub mod inputs;
pub mod instructions;
pub mod rounds;
pub mod subjects;
pub mod tuned;
