//! Speed of the proved check, whole and in parts, and of decoding, beside two checkers of the same rules that are not proved,
//! one in C and one in Rust, and a sum over the same words; speed of asking for a mount sheet, beside two functions that are not
//! proved; and peak memory and speed of the program `checker`.

pub mod ask_mount;
pub mod batch_check;
pub mod commands;
pub mod contenders;
pub mod details;
pub mod fields;
pub mod mounts;
pub mod pictures;
pub mod program;
pub mod tables;
pub mod timing;
