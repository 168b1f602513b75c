//! Runs of the program: bytes on its standard input, and the line that it prints.

use reference::batch_valid::{once_in, pick};
use reference::random::Random;
use std::fs::File;
use std::io::{self, Write};
use std::path::{Path, PathBuf};
use std::process::{Child, ChildStdin, Command, Stdio};

/// How the bytes come to the program.
#[derive(Clone, Copy, Debug)]
pub enum Way {
    /// A file.
    File,
    /// A pipe, written in pieces of up to so many bytes.
    Pipe(usize),
}

/// Any way, now and then in small pieces of odd sizes.
pub fn way(r: &mut Random, bytes: usize) -> Way {
    let small = r.within(1, 40) as usize;
    match r.within(0, 5) {
        0 => Way::File,
        1 if bytes < 4096 => Way::Pipe(pick(r, &[1, 3, 5, 7, 31, 33, small])),
        2 => Way::Pipe(pick(r, &[127, 1021, 4097, 65537])),
        _ => Way::Pipe(bytes.max(1)),
    }
}

fn start(program: &Path, input: Stdio) -> io::Result<Child> {
    Command::new(program).stdin(input).stdout(Stdio::piped()).stderr(Stdio::piped()).spawn()
}

/// Writes the pieces, each of any size up to the most.
fn write_pieces(r: &mut Random, mut pipe: impl Write, bytes: &[u8], most: usize) -> io::Result<()> {
    let mut rest = bytes;
    while !rest.is_empty() {
        let (piece, after) = rest.split_at(if once_in(r, 2) { most } else { r.within(1, most as i64) as usize }.min(rest.len()));
        pipe.write_all(piece)?;
        rest = after;
        if most < 100 && once_in(r, 8) {
            std::thread::yield_now();
        }
    }
    Ok(())
}

/// All that the program printed, and how it ended if that was by a signal.
fn printed(child: Child) -> io::Result<String> {
    let output = child.wait_with_output()?;
    let signal = if output.status.code().is_none() { output.status.to_string() } else { String::new() };
    Ok([String::from_utf8_lossy(&output.stdout), String::from_utf8_lossy(&output.stderr), signal.into()].concat())
}

/// What the program prints for what is written to it. If it has stopped reading, it has its answer.
pub fn run_with(program: &Path, write: impl FnOnce(ChildStdin) -> io::Result<()>) -> io::Result<String> {
    let mut child = start(program, Stdio::piped())?;
    match write(child.stdin.take().unwrap()) {
        Err(e) if e.kind() != io::ErrorKind::BrokenPipe => Err(e),
        _ => printed(child),
    }
}

/// What the program prints for these bytes.
pub fn run(r: &mut Random, program: &Path, bytes: &[u8], way: Way) -> io::Result<String> {
    match way {
        Way::File => {
            let file = Scratch::new(bytes)?;
            printed(start(program, File::open(&file.0)?.into())?)
        }
        Way::Pipe(most) => run_with(program, |pipe| write_pieces(r, pipe, bytes, most)),
    }
}

/// A file that is there for one run.
struct Scratch(PathBuf);

impl Scratch {
    fn new(bytes: &[u8]) -> io::Result<Scratch> {
        let path = std::env::temp_dir().join(format!("differential-{}", std::process::id()));
        std::fs::write(&path, bytes)?;
        Ok(Scratch(path))
    }
}

impl Drop for Scratch {
    fn drop(&mut self) {
        let _ = std::fs::remove_file(&self.0);
    }
}
