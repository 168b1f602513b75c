//! Holds the proved library and the program against the second program.
//!
//!     differential --seed S [--count N] [--books B] [--program PATH --runs M] [--first K] [--reproducer FILE] [--limit]
//!
//! N generated batches: each whole beside several lengths, in random parts, and decoded with rooms of several sizes; with each
//! a single command and a single record. Then M runs of the program. Then B generated books of mount sheets, each asked and
//! added to, with lists of calls on others, and the vectors of shifts. The first answer that is not the one due ends it: what
//! was asked is printed, with the bytes in hexadecimal or, if FILE is named, written there. It fails as well if a number from
//! 0 to 16 was never due, 16 only if the program is run; and with --books if something was never reached that mount sheets can
//! bring about. With --first all begin at number K in place of 0 and may leave such things out: so one question is asked again.
//! With --limit batches of more than 4294967295 words are asked about too.

use differential::compare::{Compare, Mismatch};
use differential::limit::limit;
use differential::questions::{ask_batch, ask_mounts, ask_program, ask_single, ask_vectors, numbers};
use reference::generate::batches::Batches;
use reference::mounts_marks;
use std::path::PathBuf;
use std::process::ExitCode;
use std::time::Instant;

#[derive(Default)]
struct Options {
    seed: u64,
    count: u64,
    books: u64,
    program: Option<PathBuf>,
    runs: u64,
    first: Option<u64>,
    reproducer: Option<PathBuf>,
    limit: bool,
}

fn options() -> Option<Options> {
    let mut options = Options::default();
    let mut words = std::env::args().skip(1);
    while let Some(word) = words.next() {
        match word.as_str() {
            "--seed" => options.seed = words.next()?.parse().ok()?,
            "--count" => options.count = words.next()?.parse().ok()?,
            "--books" => options.books = words.next()?.parse().ok()?,
            "--program" => options.program = Some(words.next()?.into()),
            "--runs" => options.runs = words.next()?.parse().ok()?,
            "--first" => options.first = Some(words.next()?.parse().ok()?),
            "--reproducer" => options.reproducer = Some(words.next()?.into()),
            "--limit" => options.limit = true,
            _ => return None,
        }
    }
    (options.runs == 0 || options.program.is_some()).then_some(options)
}

/// Says what was asked, what is due and what was given, and how to ask it again.
fn show(options: &Options, again: String, (mismatch, bytes): (Mismatch, Vec<u8>)) -> ExitCode {
    let Mismatch { question, due, given } = mismatch;
    println!("mismatch: {question}\n  due:   {due}\n  given: {given}");
    println!("  again: differential --seed {} {again}", options.seed);
    match &options.reproducer {
        Some(file) => match std::fs::write(file, &bytes) {
            Ok(()) => println!("  bytes: {} in {}", bytes.len(), file.display()),
            Err(e) => println!("  bytes: not written to {}: {e}", file.display()),
        },
        None => println!("  bytes: {}", bytes.iter().map(|byte| format!("{byte:02x}")).collect::<String>()),
    }
    ExitCode::FAILURE
}

/// Asks about batches. How often each rule of the table was broken, or the exit code of a mismatch.
fn ask(options: &Options, compare: &mut Compare, batches: &Batches) -> Result<Vec<u64>, ExitCode> {
    let first = options.first.unwrap_or(0);
    let mut broken = vec![0; batches.breaches.len()];
    for index in first..first + options.count {
        let mut r = numbers(options.seed, 2 * index);
        let batch = batches.next(&mut r);
        batch.broken.iter().for_each(|rule| broken[*rule] += 1);
        let asked = ask_batch(compare, &mut r, &batch).and_then(|()| ask_single(compare, &mut r));
        asked.map_err(|mismatch| show(options, format!("--first {index} --count 1"), mismatch))?;
    }
    for (index, program) in (first..first + options.runs).zip(options.program.iter().cycle()) {
        let mut r = numbers(options.seed, 2 * index + 1);
        let asked = ask_program(compare, &mut r, batches, program, index);
        let again = || format!("--first {index} --program {} --runs 1", program.display());
        asked.map_err(|mismatch| show(options, again(), mismatch))?;
    }
    if options.limit {
        let asked = limit(options.program.as_deref()).map_err(|mismatch| show(options, "--limit".into(), (mismatch, vec![])))?;
        println!("differential: {asked} batches of 4294967295 words or more");
    }
    Ok(broken)
}

/// Asks about batches and tells of it. What was never due, or the exit code of a mismatch.
fn compare_batches(options: &Options, compare: &mut Compare) -> Result<Vec<String>, ExitCode> {
    let (batches, began) = (Batches::default(), Instant::now());
    let broken = ask(options, compare, &batches)?;
    println!("{}", compare.tally);
    let rules = broken.iter().filter(|count| **count > 0).count();
    println!(
        "differential: seed {}, {} batches, {rules} of {} rules broken in them, {} runs of the program, {} answers compared in {:.1} s",
        options.seed,
        options.count,
        broken.len(),
        options.runs,
        compare.tally.total(),
        began.elapsed().as_secs_f64()
    );
    let missing = compare.tally.missing().into_iter().filter(|number| *number != 16 || options.runs > 0);
    Ok(missing.map(|number| number.to_string()).collect())
}

/// The same for mount sheets. Their random numbers are others than those of batches and runs.
fn compare_mounts(options: &Options, compare: &mut Compare) -> Result<Vec<String>, ExitCode> {
    let (first, began) = (options.first.unwrap_or(0), Instant::now());
    for index in first..first + options.books {
        let asked = ask_mounts(compare, &mut numbers(options.seed, !index), index);
        asked.map_err(|mismatch| show(options, format!("--first {index} --books 1"), mismatch))?;
    }
    ask_vectors(compare).map_err(|mismatch| show(options, "--first 0 --books 1".into(), mismatch))?;
    let (mounts, seconds) = (&compare.mounts, began.elapsed().as_secs_f64());
    let (due, missing) = (mounts_marks::due().len(), mounts.reached.rarer_than(1));
    println!("{}", mounts.tally);
    println!(
        "differential: seed {}, {} books of mount sheets, {} of {due} things reached in them, {} answers compared in {seconds:.1} s",
        options.seed,
        options.books,
        due - missing.len(),
        mounts.tally.total()
    );
    Ok(missing.into_iter().map(|(operation, mark)| format!("{operation} {mark}")).collect())
}

/// Asks what the options say: about batches unless there are books alone.
fn compare(options: &Options) -> Result<Vec<String>, ExitCode> {
    let (mut compare, mut missing) = (Compare::default(), Vec::new());
    if options.books == 0 || options.count + options.runs > 0 || options.limit {
        missing.extend(compare_batches(options, &mut compare)?);
    }
    if options.books > 0 {
        missing.extend(compare_mounts(options, &mut compare)?);
    }
    Ok(missing)
}

const USAGE: &str =
    "usage: differential --seed S [--count N] [--books B] [--program PATH --runs M] [--first K] [--reproducer FILE] [--limit]";

fn main() -> ExitCode {
    let Some(options) = options() else {
        eprintln!("{USAGE}");
        return ExitCode::from(2);
    };
    match compare(&options) {
        Ok(missing) if options.first.is_none() && !missing.is_empty() => {
            println!("differential: never due: {}", missing.join("; "));
            ExitCode::FAILURE
        }
        Ok(_) => ExitCode::SUCCESS,
        Err(failure) => failure,
    }
}
