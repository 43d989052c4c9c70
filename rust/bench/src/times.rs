//! Time as a ratio: ours, the other one and the other one again take turns, and each is first as often as the others.

use crate::index;
use crate::inputs::{batches, ACCOUNTS};
use crate::subjects::{judge_index, judge_ours, judge_second, SUBJECTS};
use std::time::Instant;

/// Nanoseconds that a batch takes for each of its calls.
fn timed(batch: &mut dyn FnMut() -> usize) -> f64 {
    let start = Instant::now();
    let refused = batch();
    let taken = start.elapsed().as_nanos() as f64;
    assert_eq!(refused, 0, "a measured call was refused");
    taken / ACCOUNTS as f64
}

fn median(mut of: Vec<f64>) -> f64 {
    of.sort_by(f64::total_cmp);
    of[of.len() / 2]
}

/// Prints one row. Each of the two makes its batch ready and gives its time.
fn row(
    name: &str,
    f: u64,
    against: &str,
    rounds: usize,
    ours: &mut dyn FnMut() -> f64,
    other: &mut dyn FnMut() -> f64,
) {
    let (mut times, mut ratios, mut controls) = (Vec::new(), Vec::new(), Vec::new());
    for round in 0..rounds {
        let mut taken = [0.0; 3];
        for turn in 0..3 {
            let who = (round + turn) % 3;
            taken[who] = if who == 0 { ours() } else { other() };
        }
        times.push(taken[0]);
        ratios.push(taken[0] / taken[1]);
        controls.push(taken[2] / taken[1]);
    }
    let (time, ratio, control) = (median(times), median(ratios), median(controls));
    println!("{name:<20} {f:>2} {against:<16} {time:>9.1} {ratio:>8.2} {control:>8.2}");
}

fn calls_on_states(f: u64, rounds: usize) {
    for subject in &SUBJECTS {
        let batch = (subject.batch)(f);
        let measure = |run: crate::subjects::Run| {
            let mut state = batch.state.clone();
            timed(&mut || run(&mut state, &batch))
        };
        let (mut ours, mut other) = (|| measure(subject.ours), || measure(subject.second));
        row(
            subject.name,
            f,
            "second program",
            rounds,
            &mut ours,
            &mut other,
        );
    }
}

fn judged(f: u64, rounds: usize) {
    let batch = batches(f).certificate;
    let (messages, verdicts) = (&batch.messages, &batch.verdicts);
    let mut ours = || timed(&mut || judge_ours(f, messages, verdicts));
    let mut second = || timed(&mut || judge_second(f, messages, verdicts));
    let mut plain = || timed(&mut || judge_index(index::judge, f, messages, verdicts));
    let mut once = || timed(&mut || judge_index(index::judge_in_one_pass, f, messages, verdicts));
    let name = "judged certificate";
    row(name, f, "second program", rounds, &mut ours, &mut second);
    row(name, f, "index-style", rounds, &mut ours, &mut plain);
    row(name, f, "index, one pass", rounds, &mut ours, &mut once);
}

pub fn table(rounds: usize) {
    println!("time of a call, median of {rounds} rounds in turn; 'control' is the other one against itself");
    println!(
        "{:<20} {:>2} {:<16} {:>9} {:>8} {:>8}",
        "call", "f", "against", "ours, ns", "ratio", "control"
    );
    for f in [0, 1, 5] {
        calls_on_states(f, rounds);
        judged(f, rounds);
    }
}
