//! A second reading of document 01, with the bytes of document 02's, the field prediction of its R-6 and the mount
//! sheets of its R-9, kept apart from the proved crates: it shares no code and no table with them. It gives the answers that the
//! documents ask for by the plainest means: bit by bit, sample by sample, and commands found by trying them all. Beside them
//! stand what it is asked: the stored cases, and generators of batches, commands, records and mount sheets.

pub mod batch;
pub mod batch_cases;
pub mod batch_damage;
pub mod batch_document;
pub mod batch_faults;
pub mod batch_rules;
pub mod batch_valid;
pub mod cases;
pub mod check;
pub mod check_macroblock;
pub mod check_picture;
pub mod command;
pub mod command_cases;
pub mod decode;
pub mod decode_cases;
pub mod decode_fields;
pub mod decode_refused;
pub mod decode_valid;
pub mod field_blocks;
pub mod field_cases;
pub mod first_blocks;
pub mod first_cases;
pub mod generate;
pub mod interface_cases;
pub mod leaf;
pub mod leaf_cases;
pub mod mounts;
pub mod mounts_files;
pub mod mounts_marks;
pub mod mounts_reached;
#[cfg(test)]
mod mounts_tests;
pub mod plain;
pub mod program;
pub mod random;
#[cfg(test)]
mod reached;
pub mod record;
pub mod record_cases;
pub mod rules_field;
pub mod rules_macroblock;
pub mod rules_sequence;
pub mod rules_state;
pub mod rules_vectors;
pub mod samples;
pub mod tile_blocks;
pub mod tile_cases;
pub mod valid_cases;

use std::path::Path;

/// Writes DIR/stdin and DIR/stdout.
fn store(dir: &Path, stdin: Vec<u8>, stdout: String) -> std::io::Result<()> {
    std::fs::create_dir_all(dir)?;
    std::fs::write(dir.join("stdin"), stdin)?;
    std::fs::write(dir.join("stdout"), stdout)
}
