//! Batches for the example in C, as files: each as the program reads it, with the line due, and the log in hexadecimal if it is
//! accepted.

use crate::batch::{small_b, small_f, small_p, still, Frame};
use crate::batch_cases::{made_by, needed, Cases};
use crate::batch_document::{document, p1};
use crate::check::line;
use crate::decode::{decode, log_bytes};
use crate::program::bytes_of;
use std::path::Path;

/// Skipped macroblocks, a batch of several parts, words after END, and field prediction.
fn others(cases: &mut Cases) {
    let many = still(&Frame::new(3, 20, 11)).words();
    for words in [small_p().words(), small_b().words(), [many.clone(), vec![0; 3000]].concat(), many] {
        cases.push(words.clone(), needed(&words));
    }
    cases.push([p1(), vec![0, 7]].concat(), [384; 4]);
    cases.push(small_f().words(), needed(&small_f().words()));
}

/// Writes DIR/NN.batch, DIR/NN.batch.line and, of an accepted one, DIR/NN.batch.log.
pub fn write(dir: &Path) -> std::io::Result<()> {
    std::fs::create_dir_all(dir)?;
    for (n, case) in made_by(&[document, others]).iter().enumerate() {
        let name = dir.join(format!("{n:02}.batch"));
        std::fs::write(&name, bytes_of(&case.words, case.buffers))?;
        std::fs::write(name.with_extension("batch.line"), line(&case.report) + "\n")?;
        if case.report.number == 0 {
            let mut log = vec![0; log_bytes(&case.words).unwrap()];
            assert_eq!(decode(&case.words, case.buffers, &mut log), case.report);
            let text: String = log.iter().map(|byte| format!("{byte:02x}")).collect();
            std::fs::write(name.with_extension("batch.log"), text + "\n")?;
        }
    }
    Ok(())
}
