//! What pictures hardly have: NOOPs, carried commands, and small parts.

use crate::commands::{carried_before, noops_before, noops_between, noops_within, CARRIED, PICTURE};
use crate::contenders::{parts, Contender, Work, C, CHECK, CONTENDERS, PARTS, PLAIN};
use crate::pictures::Picture;
use crate::timing::{measure, Sample};
use reference::random::Random;

const ROUNDS: u32 = 50;

/// In a batch that is nearly all NOOPs, or all carried commands.
const MANY: usize = 200_000;

/// Those whose time for one command is told.
const TOLD: [Contender; 4] = [CONTENDERS[C], CONTENDERS[PLAIN], CONTENDERS[CHECK], CONTENDERS[PARTS]];

/// A batch of PICTURE with so many commands added.
struct Added {
    what: String,
    commands: usize,
    words: Vec<u32>,
}

impl Added {
    fn noops(what: &str, words: Vec<u32>) -> Added {
        Added { what: what.into(), commands: words.len() - PICTURE.words(0).len(), words }
    }

    /// Of these sizes, one after the other and again.
    fn carried(what: &str, sizes: &[(u32, usize)]) -> Added {
        let commands = MANY * sizes.len() / sizes.iter().map(|(_, words)| words).sum::<usize>();
        let words = carried_before(sizes.iter().copied().cycle().take(commands));
        Added { what: what.into(), commands, words }
    }
}

/// What one added command takes, and one word of it if they have several: the time of the batch less that of the picture alone.
fn cost_of_added(what: &str, by_word: bool, added: Vec<Added>) {
    let alone = PICTURE.words(0);
    let batches = [alone.clone()].into_iter().chain(added.iter().map(|batch| batch.words.clone()));
    let sample = |words: Vec<u32>| Sample::new(Work::one(words, PICTURE.macroblocks()), &TOLD);
    let mut samples: Vec<Sample> = batches.map(sample).collect();
    measure(&mut samples, ROUNDS, || {});
    heading(what, by_word);
    for (batch, sample) in added.iter().zip(&samples[1..]) {
        let words = (batch.words.len() - alone.len()) as f64;
        let more: Vec<f64> = sample.times.iter().zip(&samples[0].times).map(|(with, without)| (with - without) * 1e9).collect();
        print!("{:>26}  {:>8}  {:>7.2}  {:>11.2} ", batch.what, batch.commands, more[2] / more[0], more[2] / more[1]);
        more.iter().for_each(|ns| print!(" {:>7.2}", ns / batch.commands as f64));
        if by_word {
            more.iter().for_each(|ns| print!(" {:>7.3}", ns / words));
        }
        println!();
    }
}

fn heading(what: &str, by_word: bool) {
    print!("{what:>26}  {:>8}  {:>7}  {:>11} ", "commands", "check/c", "check/plain");
    for _ in 0..1 + u32::from(by_word) {
        TOLD.iter().for_each(|contender| print!(" {:>7}", contender.name));
    }
    println!();
}

fn noops() {
    println!("NOOPs added to one picture of {PICTURE}: the time of the batch less that of the picture alone, as ratios and in");
    println!("nanoseconds a NOOP. The least of {} runs of each, in turn.", 2 * ROUNDS);
    let added = vec![
        Added::noops("before the picture", noops_before(MANY)),
        Added::noops("one run in a group", noops_within(MANY)),
        Added::noops("1 before each macroblock", noops_between(1)),
        Added::noops("4 before each macroblock", noops_between(4)),
        Added::noops("30 before each macroblock", noops_between(30)),
    ];
    cost_of_added("NOOPs", false, added);
}

fn carried() {
    println!("Carried commands before the same picture: ratios, nanoseconds a command, and nanoseconds a word.");
    let mut added: Vec<Added> = CARRIED.iter().map(|size| Added::carried(&format!("{} words", size.1), &[*size])).collect();
    added.push(Added::carried("all six, in turn", &CARRIED));
    let mut r = Random::new(8);
    let any: Vec<(u32, usize)> = (0..MANY / 26).map(|_| CARRIED[r.within(0, 5) as usize]).collect();
    added.push(Added::carried("all six, at random", &any));
    cost_of_added("carried commands", true, added);
}

/// The check whole and in parts of several sizes.
fn small_parts() {
    const LARGE: Picture = Picture::new(2, 256, 175);
    const WHOLE: Contender = CONTENDERS[CHECK];
    let sizes: [(usize, Contender); 4] = [
        (64, Contender { name: "64", call: parts::<64> }),
        (256, Contender { name: "256", call: parts::<256> }),
        (1024, Contender { name: "1024", call: parts::<1024> }),
        (16384, Contender { name: "16384", call: parts::<16384> }),
    ];
    let contenders: Vec<Contender> = [WHOLE].into_iter().chain(sizes.map(|(_, contender)| contender)).collect();
    let mut samples = [Sample::new(Work::one(LARGE.words(0), LARGE.macroblocks()), &contenders)];
    measure(&mut samples, 2 * ROUNDS, || {});
    let [Sample { work, times, .. }] = &samples;
    println!(
        "One picture of {LARGE}, {} words, in parts: the time divided by that of the check whole, nanoseconds a part,",
        work.words()
    );
    println!("and of them those beyond its share of the check whole. The least of {} runs of each, in turn.", 4 * ROUNDS);
    println!("{:>10}  {:>8}  {:>11}  {:>10}  {:>10}", "words", "parts", "parts/check", "ns a part", "ns beyond");
    for ((words, _), time) in sizes.iter().zip(&times[1..]) {
        let count = work.words().div_ceil(*words) as f64;
        let (all, beyond) = (time / count * 1e9, (time - times[0]) / count * 1e9);
        println!("{words:>10}  {count:>8}  {:>11.2}  {all:>10.0}  {beyond:>10.0}", time / times[0]);
    }
}

pub fn print() {
    noops();
    println!();
    carried();
    println!();
    small_parts();
}
