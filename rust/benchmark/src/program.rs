//! The program `checker`: its time beside the check of the same words in memory, and its peak memory.

use crate::commands::filling;
use crate::contenders::{CHECK, CONTENDERS};
use crate::pictures::Picture;
use std::fs::File;
use std::hint::black_box;
use std::io::{Error, Result, Write};
use std::path::{Path, PathBuf};
use std::process::{Command, Stdio};
use std::time::Instant;

/// The program and the check are run so often, in turn.
const RUNS: u32 = 20;
const RUNS_ON_PICTURES: u32 = 100;

/// A batch of so many bytes less the lengths before it: carried commands and NOOPs, and at its end a P picture.
fn filled(bytes: usize) -> Vec<u32> {
    let (columns, rows) = if bytes < 2_000_000 { (120, 68) } else { (256, 175) };
    let picture = Picture::new(2, columns, rows).words(0);
    let mut words = filling((bytes - 32) / 4 - picture.len());
    words.extend(picture);
    words
}

/// The program's line for a file.
fn run(mut command: Command, input: &Path) -> Result<String> {
    let done = command.stdin(File::open(input)?).stderr(Stdio::inherit()).output()?;
    Ok(String::from_utf8_lossy(&done.stdout).into_owned())
}

fn timed(call: impl FnOnce() -> Result<()>) -> Result<f64> {
    let now = Instant::now();
    call()?;
    Ok(now.elapsed().as_secs_f64())
}

/// What is measured of one input: the least times in seconds, and the bytes.
struct Times {
    program: f64,
    check: f64,
    bytes: usize,
}

/// The program, and a directory in which its input is stored.
struct Runs<'a> {
    checker: &'a Path,
    dir: &'a Path,
}

impl Runs<'_> {
    fn input(&self) -> PathBuf {
        self.dir.join("input")
    }

    /// Writes the input, and says how many bytes it has.
    fn store(&self, words: &[u32]) -> Result<usize> {
        let mut bytes = u64::MAX.to_le_bytes().repeat(4);
        bytes.extend(words.iter().flat_map(|word| word.to_le_bytes()));
        File::create(self.input())?.write_all(&bytes)?;
        Ok(bytes.len())
    }

    /// Runs the program and fails unless it prints this line.
    fn expect(&self, line: &str) -> Result<()> {
        let given = run(Command::new(self.checker), &self.input())?;
        (given == line).then_some(()).ok_or_else(|| Error::other(format!("checker printed {given:?}, due is {line:?}")))
    }

    /// Peak memory in KiB, as GNU time reports it. A large process must not start the program itself: the system would count
    /// its memory for the program.
    fn peak(&self) -> Result<u64> {
        let report = self.dir.join("peak");
        let mut command = Command::new("/usr/bin/time");
        command.args(["-f", "%M", "-o"]).arg(&report).arg(self.checker);
        run(command, &self.input())?;
        std::fs::read_to_string(&report)?.trim().parse().map_err(|_| Error::other("/usr/bin/time gave no number"))
    }

    /// The program on these words, which are stored, and the check of them, so many times in turn.
    fn times(&self, words: &[u32], runs: u32) -> Result<Times> {
        let bytes = self.store(words)?;
        let [_, _, reported @ ..] = (CONTENDERS[CHECK].call)(words, &mut []);
        let line = format!("accept{}\n", reported.map(|number| format!(" {number}")).concat());
        let mut least = Times { program: f64::INFINITY, check: f64::INFINITY, bytes };
        for _ in 0..runs {
            least.program = least.program.min(timed(|| self.expect(&line))?);
            least.check = least.check.min(timed(|| {
                black_box((CONTENDERS[CHECK].call)(black_box(words), &mut []));
                Ok(())
            })?);
        }
        Ok(least)
    }

    /// An input without words.
    fn start(&self) -> Result<f64> {
        self.store(&[])?;
        (0..RUNS_ON_PICTURES).try_fold(f64::INFINITY, |least, _| Ok(timed(|| self.expect("refuse 1 0\n"))?.min(least)))
    }
}

impl Times {
    fn heading(what: &str, last: &str) {
        print!("{what:>13}  {:>10}  {:>10}  {:>10}", "bytes", "program ms", "check ms");
        println!("  {:>13}  {:>11}  {last:>13}", "program/check", "MB a second");
    }

    fn print(&self, what: &str, last: String) {
        let Times { program, check, bytes } = self;
        print!("{what:>13}  {bytes:>10}  {:>10.3}  {:>10.3}", program * 1e3, check * 1e3);
        println!("  {:>13.2}  {:>11.0}  {last:>13}", program / check, *bytes as f64 / program / 1e6);
    }
}

/// Inputs that are one whole picture and nothing else.
fn pictures(runs: &Runs) -> Result<()> {
    let start = runs.start()?;
    println!("The program on one whole picture, and the check of its words in memory; the least of {RUNS_ON_PICTURES} runs.");
    println!(
        "An input without words takes the program {:.3} ms: the start of a process, which the last ratio leaves out.",
        start * 1e3
    );
    Times::heading("picture", "without start");
    for (columns, rows) in [(120, 68), (256, 175)] {
        for picture in Picture::all(columns, rows) {
            let times = runs.times(&picture.words(0), RUNS_ON_PICTURES)?;
            times.print(&picture.to_string(), format!("{:.2}", (times.program - start) / times.check));
        }
    }
    Ok(())
}

/// Inputs of several sizes, and what the peaks come to.
fn sizes(runs: &Runs) -> Result<()> {
    println!("The program on carried commands, NOOPs and one P picture, and the check of them; the least of {RUNS} runs.");
    Times::heading("input", "peak KiB");
    let mut peaks = Vec::new();
    for megabytes in [1, 10, 100] {
        let times = runs.times(&filled(megabytes * 1_000_000), RUNS)?;
        let kib = runs.peak()?;
        times.print(&format!("{megabytes} MB"), kib.to_string());
        peaks.push(kib);
    }
    let (low, high) = (peaks.iter().min().unwrap(), peaks.iter().max().unwrap());
    println!("Peak memory: {low} to {high} KiB over inputs of 1 to 100 MB.");
    Ok(())
}

pub fn measure(checker: &Path, dir: &Path) -> Result<()> {
    let runs = Runs { checker, dir };
    pictures(&runs)?;
    println!();
    sizes(&runs)?;
    std::fs::remove_file(runs.input())
}
