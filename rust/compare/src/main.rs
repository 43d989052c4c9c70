//! Compares the proved program with the second one: every call is made to both, and the answers and every lent byte must be alike.
//!
//! `compare` takes its seed from the clock, `compare SEED` repeats a run, and `compare --steps N [SEED]` goes on with random runs
//! until N more calls were compared.

#![forbid(unsafe_code)]

mod answers;
mod arguments;
mod boundaries;
mod calls;
mod checks;
mod coverage;
mod damage;
mod examples;
mod history;
mod laid;
mod pair;
mod random;
mod record;
mod runs;
mod scenes;
mod states;
mod voters;
mod world;

use calls::Compare;
use chance::Chance;
use record::Record;
use std::env;
use std::process;
use std::time::{Instant, SystemTime, UNIX_EPOCH};

type Part = (&'static str, fn(&mut Compare, &mut Chance));

const PARTS: [Part; 9] = [
    ("examples", examples::run),
    ("order of checks", checks::run),
    ("numbers in arguments", arguments::run),
    ("numbers in messages and states", boundaries::run),
    ("damaged messages", damage::run),
    ("voters and verdicts", voters::run),
    ("ill-formed states", states::run),
    ("random calls", random::run),
    ("random runs", runs::run),
];

/// Fewer calls are no comparison: some part was left out or ended early.
const FEWEST_CALLS: u64 = 1_000_000;

struct Wanted {
    seed: u64,
    steps: u64,
}

fn main() {
    let Some(wanted) = wanted(env::args().skip(1).collect()) else {
        println!("usage: compare [SEED] | compare --steps N [SEED]");
        process::exit(2);
    };
    let start = Instant::now();
    let mut again = format!("compare {}", wanted.seed);
    if wanted.steps > 0 {
        again = format!("compare --steps {} {}", wanted.steps, wanted.seed);
    }
    println!("seed {}", wanted.seed);
    let mut compare = Compare::new(Record::new(again), wanted.seed);
    for (number, (name, run)) in PARTS.iter().enumerate() {
        let mut chance = Chance::new(wanted.seed ^ (number as u64 + 1) << 56);
        let (calls, begin) = (compare.record.calls, Instant::now());
        compare.record.part = name;
        run(&mut compare, &mut chance);
        let seconds = begin.elapsed().as_secs_f64();
        let calls = compare.record.calls - calls;
        println!("{name}: {calls} calls, {seconds:.1} s");
    }
    soak(&mut compare, wanted);
    finish(&mut compare, start);
}

/// A number alone is the seed.
fn wanted(arguments: Vec<String>) -> Option<Wanted> {
    let words: Vec<&str> = arguments.iter().map(String::as_str).collect();
    let (steps, seed) = match words.as_slice() {
        [] => (0, seed_of_clock()),
        ["--steps", steps] => (steps.parse().ok()?, seed_of_clock()),
        ["--steps", steps, seed] => (steps.parse().ok()?, seed.parse().ok()?),
        [seed] => (0, seed.parse().ok()?),
        _ => return None,
    };
    Some(Wanted { seed, steps })
}

fn seed_of_clock() -> u64 {
    match SystemTime::now().duration_since(UNIX_EPOCH) {
        Ok(since) => since.as_nanos() as u64,
        Err(_) => 1,
    }
}

/// Random runs and random calls in turn, until as many more calls were compared as wanted.
fn soak(compare: &mut Compare, wanted: Wanted) {
    let mut chance = Chance::new(!wanted.seed);
    let mut tally = runs::Tally::default();
    let mut next_line = compare.record.calls;
    let last = compare.record.calls + wanted.steps;
    compare.record.part = "soak";
    while compare.record.calls < last {
        let f = chance.between(0, 5);
        runs::one_run(compare, &mut chance, f, &mut tally);
        for _ in 0..10 {
            random::one_round(compare, &mut chance);
        }
        if compare.record.calls >= next_line {
            next_line += 1_000_000;
            println!(
                "soak: {} calls so far, {} steps of runs, {} certain payments, {} redeemed",
                compare.record.calls, tally.steps, tally.certain, tally.redeemed
            );
        }
    }
}

fn finish(compare: &mut Compare, start: Instant) {
    compare.record.part = "coverage";
    compare.record.coverage.print();
    let missing = compare.record.coverage.missing();
    if !missing.is_empty() {
        compare.record.broken(&missing.join("; "));
    }
    let calls = compare.record.calls;
    if calls < FEWEST_CALLS {
        compare.record.broken(&format!(
            "{calls} calls compared, fewer than {FEWEST_CALLS}"
        ));
    }
    println!("{:.1} s", start.elapsed().as_secs_f64());
    println!("{calls} calls compared, all alike");
}
