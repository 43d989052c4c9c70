//! Lines of every length, inputs that end anywhere, and noise. Behind each stands a good line, which must be answered rightly.

use crate::desk::{Desk, Role, ROLES};
use crate::place::Place;
use crate::program::{in_pieces, whole, Piece};
use crate::streams::{changing_line, joined, random_lines, showing_line};
use crate::trial::{answer_lines, check_answers, check_quiet, serves, Trial, Tried};
use crate::words::LONGEST_LINE;
use chance::Chance;

const MEGABYTE: usize = 1_000_000;

pub fn run(trial: &Trial) -> Tried<String> {
    let place = Place::new(&trial.folder, "lines")?;
    let mut answered = 0;
    let mut inputs = 0;
    for (number, role) in ROLES.into_iter().enumerate() {
        let mut chance = trial.chance("lines", number);
        let desk = lived_in(&mut chance, role)?;
        for (what, input) in cases(&mut chance, &desk) {
            for pieces in [whole(&input), in_pieces(&mut chance, &input)] {
                answered += one_run(trial, &place, desk.clone(), &input, pieces)
                    .map_err(|reason| format!("{}, {what}: {reason}", role.name()))?;
            }
            inputs += 1;
        }
    }
    Ok(format!(
        "{inputs} inputs, each at once and in pieces, {answered} lines answered"
    ))
}

fn lived_in(chance: &mut Chance, role: Role) -> Tried<Desk> {
    let desk = Desk::fresh(role, 1, 1);
    let mut desk = desk.map_err(|number| format!("no fresh state: {number}"))?;
    for line in random_lines(chance, &desk, 200) {
        desk.answer(&line);
    }
    Ok(desk)
}

/// The input, and then good lines to a program that is started anew. Answers how many lines of the input were answered.
fn one_run(
    trial: &Trial,
    place: &Place,
    mut desk: Desk,
    input: &[u8],
    pieces: Vec<Piece>,
) -> Tried<usize> {
    place.put(&desk.state)?;
    let replies = desk.answer_input(input);
    let ended = trial.program.run(desk.role, place, pieces)?;
    check_answers(input, &replies, &ended.answers)?;
    check_quiet(&ended)?;
    place.check(&desk.state)?;
    let (lines, _) = answer_lines(&ended.answers);
    check_count(input, lines.len())?;
    serves(&trial.program, place, &mut desk)
        .and_then(|()| place.check_names(&["state"]))
        .map_err(|reason| format!("in the next run: {reason}"))?;
    Ok(lines.len())
}

/// One answer for each line feed, and one more where something stands behind the last.
fn check_count(input: &[u8], answers: usize) -> Tried<()> {
    let ends = input.iter().filter(|byte| **byte == b'\n').count();
    let is_cut = input.last().is_some_and(|byte| *byte != b'\n');
    if answers != ends + usize::from(is_cut) {
        return Err(format!(
            "{ends} line feeds{} and {answers} answers",
            if is_cut { " with something behind" } else { "" }
        ));
    }
    Ok(())
}

/// What an input is, and the input.
type Case = (&'static str, Vec<u8>);

fn cases(chance: &mut Chance, desk: &Desk) -> Vec<Case> {
    let good = good_lines(desk);
    let mut cases = vec![
        ("nothing", Vec::new()),
        ("good lines alone", good.clone()),
        ("one line feed", b"\n".to_vec()),
        (
            "100,000 line feeds",
            [vec![b'\n'; 100_000], good.clone()].concat(),
        ),
    ];
    cases.extend(long_lines(&good));
    cases.extend(cut_lines());
    cases.extend(noises(chance, &good));
    for length in [LONGEST_LINE - 1, LONGEST_LINE, LONGEST_LINE + 1] {
        cases.push(("padded lines", padded(&good, length)));
        cases.push((
            "lines of digits",
            [digits(desk.role, length), good.clone()].concat(),
        ));
    }
    cases
}

/// Good lines behind one that is about as long as a line may be, or longer.
fn long_lines(good: &[u8]) -> Vec<Case> {
    let long = |length: usize| [&vec![b'a'; length], b"\n".as_slice(), good].concat();
    vec![
        ("a line of 4,096 bytes", long(LONGEST_LINE)),
        ("a line of 4,097 bytes", long(LONGEST_LINE + 1)),
        ("a line of 65,535 bytes", long(65_535)),
        ("a line of 65,536 bytes", long(65_536)),
        ("a line of 70,000 bytes", long(70_000)),
        ("a line of 5 megabytes", long(5 * MEGABYTE)),
    ]
}

fn cut_lines() -> Vec<Case> {
    vec![
        ("an end inside a line", b"account".to_vec()),
        ("an end inside a long line", vec![b' '; LONGEST_LINE]),
        ("an end inside one too long", vec![b' '; LONGEST_LINE + 1]),
        ("an end far inside one too long", vec![0; MEGABYTE]),
        ("an end right behind a blank", b"\n ".to_vec()),
    ]
}

fn noises(chance: &mut Chance, good: &[u8]) -> Vec<Case> {
    vec![
        (
            "noise",
            [&chance.bytes(MEGABYTE), b"\n".as_slice(), good].concat(),
        ),
        (
            "noise that is cut",
            [&chance.bytes(MEGABYTE), b"x".as_slice()].concat(),
        ),
        ("noise of long lines", [&long_noise(chance), good].concat()),
    ]
}

/// One that changes the state, and one that shows it.
fn good_lines(desk: &Desk) -> Vec<u8> {
    joined(&[changing_line(desk), showing_line(desk.role)])
}

/// The same lines with blanks up to a length.
fn padded(lines: &[u8], length: usize) -> Vec<u8> {
    let mut lines: Vec<Vec<u8>> = lines
        .split(|byte| *byte == b'\n')
        .map(<[u8]>::to_vec)
        .collect();
    lines.pop();
    for line in &mut lines {
        line.resize(length, b' ');
    }
    joined(&lines)
}

/// A call whose message fills the line.
fn digits(role: Role, length: usize) -> Vec<u8> {
    let mut line = match role {
        Role::Machine => b"order ".to_vec(),
        Role::Ledger => b"redeem ".to_vec(),
    };
    while line.len() + 3 < length {
        line.push(b'0');
    }
    line.extend_from_slice(b" 01\n");
    line
}

/// Lines around the longest length, of any bytes.
fn long_noise(chance: &mut Chance) -> Vec<u8> {
    let mut noise = Vec::new();
    while noise.len() < MEGABYTE {
        let length = chance.below(2 * LONGEST_LINE);
        let mut line = chance.bytes(length);
        line.retain(|byte| *byte != b'\n');
        noise.extend(line);
        noise.push(b'\n');
    }
    noise
}
