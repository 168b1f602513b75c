//! Holds the proved library, through its C interface and through the Rust crate over it, and the program against the second
//! program.

pub mod compare;
pub mod fuzzing;
pub mod interface;
pub mod lent;
pub mod limit;
pub mod mount_lists;
pub mod mounts;
pub mod program;
pub mod questions;
pub mod tally;
