//! Generators of what the operations are asked. All that they make depends on the random numbers alone.

pub mod batches;
pub mod boats;
pub mod breach;
mod break_field;
mod break_macroblock;
mod break_sequence;
mod break_skip;
mod break_state;
mod break_vectors;
pub mod draft;
pub mod input;
pub mod mount_lists;
pub mod mounts;
pub mod single;
