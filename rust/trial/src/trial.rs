//! What every part works with, and how answers are compared.

use crate::desk::{Desk, Reply};
use crate::place::Place;
use crate::program::{whole, Ended, Program, Running};
use crate::streams::{changing_line, joined, showing_line};
use chance::Chance;
use std::path::PathBuf;
use std::sync::atomic::{AtomicBool, Ordering};
use std::thread;

/// A difference is told in words.
pub type Tried<T> = Result<T, String>;

pub struct Trial {
    pub program: Program,
    pub folder: PathBuf,
    pub seed: u64,
}

impl Trial {
    /// Each run has random numbers of its own, so that it does not matter how many the runs before it drew.
    pub fn chance(&self, part: &str, run: usize) -> Chance {
        let mut seed = self.seed;
        for byte in part.bytes().chain((run as u64).to_be_bytes()) {
            seed = Chance::new(seed ^ u64::from(byte)).number();
        }
        Chance::new(seed)
    }
}

/// The answers must be these, all of them and no more. The input serves to tell which line was answered wrongly.
pub fn check_answers(input: &[u8], expected: &[Reply], came: &[u8]) -> Tried<()> {
    let (lines, rest) = answer_lines(came);
    check_prefix(input, expected, &lines)?;
    if lines.len() < expected.len() {
        return Err(format!(
            "{} answers came, expected {}; the next would be: {}",
            lines.len(),
            expected.len(),
            expected[lines.len()].text
        ));
    }
    if !rest.is_empty() {
        return Err(format!(
            "behind the last answer came: {}",
            rest.escape_ascii()
        ));
    }
    Ok(())
}

/// The answers must be the first of these.
pub fn check_prefix(input: &[u8], expected: &[Reply], lines: &[&[u8]]) -> Tried<()> {
    for (number, line) in lines.iter().enumerate() {
        let Some(reply) = expected.get(number) else {
            return Err(format!(
                "expected {} answers and no more, then came: {}",
                expected.len(),
                line.escape_ascii()
            ));
        };
        if *line != reply.text.as_bytes() {
            return Err(format!(
                "line {number} of the input: {}\n  expected: {}\n  came:     {}",
                line_shown(input, number),
                reply.text,
                line.escape_ascii()
            ));
        }
    }
    Ok(())
}

/// The lines that have an end, and what stands behind the last of them.
pub fn answer_lines(answers: &[u8]) -> (Vec<&[u8]>, &[u8]) {
    let mut lines: Vec<&[u8]> = answers.split(|byte| *byte == b'\n').collect();
    let rest = lines.pop().unwrap_or_default();
    (lines, rest)
}

fn line_shown(input: &[u8], number: usize) -> String {
    let line = input
        .split(|byte| *byte == b'\n')
        .nth(number)
        .unwrap_or_default();
    if line.len() > 400 {
        return format!("{} .. ({} bytes)", line[..400].escape_ascii(), line.len());
    }
    line.escape_ascii().to_string()
}

/// Nothing may be answered, and the complaint must have these words in it.
pub fn check_stopped(ended: &Ended, words: &str) -> Tried<()> {
    if !ended.answers.is_empty() {
        return Err(format!(
            "expected no answer, came: {}",
            ended.answers.escape_ascii()
        ));
    }
    if !ended.complaints.contains(words) {
        return Err(format!(
            "expected a complaint with `{words}`, came: {}",
            ended.complaints
        ));
    }
    Ok(())
}

/// Nothing may be complained of.
pub fn check_quiet(ended: &Ended) -> Tried<()> {
    if !ended.complaints.is_empty() {
        return Err(format!("unexpected complaint: {}", ended.complaints));
    }
    Ok(())
}

/// Says a line and waits for its answer.
pub fn ask(running: &mut Running, desk: &mut Desk, line: &[u8]) -> Tried<()> {
    running.say(line);
    let came = running.next_answer()?;
    let expected = desk.answer(line).text;
    if came != expected {
        let line = line.escape_ascii();
        return Err(format!(
            "{line}\n  expected: {expected}\n  came:     {came}"
        ));
    }
    Ok(())
}

/// A program that is started now must answer a line that changes the state and one that shows it.
pub fn serves(program: &Program, place: &Place, desk: &mut Desk) -> Tried<()> {
    let input = joined(&[changing_line(desk), showing_line(desk.role)]);
    let replies = desk.answer_input(&input);
    let ended = program.run(desk.role, place, whole(&input))?;
    check_answers(&input, &replies, &ended.answers)?;
    check_quiet(&ended)?;
    place.check_state(&desk.state)
}

/// Work that several threads share. Where one finds a difference, the others are told to stop.
pub fn side_by_side<T: Send>(
    workers: usize,
    work: impl Fn(usize, &AtomicBool) -> Tried<T> + Sync,
) -> Tried<Vec<T>> {
    let stop = AtomicBool::new(false);
    let one = |worker: usize| {
        let done = work(worker, &stop);
        stop.fetch_or(done.is_err(), Ordering::Relaxed);
        done
    };
    thread::scope(|scope| {
        let one = &one;
        let handles: Vec<_> = (0..workers)
            .map(|worker| scope.spawn(move || one(worker)))
            .collect();
        handles
            .into_iter()
            .map(|handle| match handle.join() {
                Ok(done) => done,
                Err(_) => Err("a thread of the trial panicked".to_string()),
            })
            .collect()
    })
}
