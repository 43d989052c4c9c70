//! Long random streams of lines, each fed from a file, through a pipe at once, and through a pipe in pieces.

use crate::desk::{Desk, Role, ROLES};
use crate::place::{self, Place};
use crate::program::{in_pieces, whole, Ended};
use crate::streams::{joined, late, random_lines};
use crate::tally::Tally;
use crate::trial::{check_answers, check_quiet, Trial, Tried};
use chance::Chance;
use std::fs::File;

const LINES: usize = 700;
const FEWEST_LINES: u64 = 20_000;

pub fn run(trial: &Trial) -> Tried<String> {
    let place = Place::new(&trial.folder, "answers")?;
    let mut tally = Tally::default();
    let mut number = 0;
    for f in [0, 1, 2, 5] {
        for role in ROLES {
            for is_late in [false, true] {
                let mut chance = trial.chance("answers", number);
                let desk = start(&mut chance, role, f, is_late)?;
                one_stream(trial, &place, &mut chance, desk, &mut tally).map_err(|reason| {
                    format!("run {number}: {} with f = {f}: {reason}", role.name())
                })?;
                number += 1;
            }
        }
    }
    if tally.lines < FEWEST_LINES {
        return Err(format!(
            "only {} lines, fewer than {FEWEST_LINES}",
            tally.lines
        ));
    }
    let shown = tally.shown()?;
    Ok(format!(
        "{number} streams, each fed in three ways, {} lines answered alike; 18 cannot come{shown}",
        tally.lines
    ))
}

fn start(chance: &mut Chance, role: Role, f: u64, is_late: bool) -> Tried<Desk> {
    let own = chance.between(0, 3 * f);
    let mut desk =
        Desk::fresh(role, f, own).map_err(|number| format!("no fresh state: {number}"))?;
    if is_late {
        desk.state = late(role, f);
    }
    if !desk.is_formed() {
        return Err("the first state is ill-formed".to_string());
    }
    Ok(desk)
}

fn one_stream(
    trial: &Trial,
    place: &Place,
    chance: &mut Chance,
    mut desk: Desk,
    tally: &mut Tally,
) -> Tried<()> {
    let role = desk.role;
    let start = desk.state.clone();
    let mut input = joined(&random_lines(chance, &desk, LINES));
    if chance.one_in(2) {
        input.extend_from_slice(b"account 2");
    }
    let replies = desk.answer_input(&input);
    for way in ["from a file", "at once", "in pieces"] {
        place.put(&start)?;
        let ended = match way {
            "from a file" => run_file(trial, place, role, &input)?,
            "at once" => trial.program.run(role, place, whole(&input))?,
            _ => trial.program.run(role, place, in_pieces(chance, &input))?,
        };
        check_answers(&input, &replies, &ended.answers)
            .and_then(|()| place.check(&desk.state))
            .and_then(|()| check_quiet(&ended))
            .map_err(|reason| format!("fed {way}: {reason}"))?;
        tally.count(&replies);
    }
    Ok(())
}

fn run_file(trial: &Trial, place: &Place, role: Role, input: &[u8]) -> Tried<Ended> {
    let path = trial.folder.join("input");
    place::write(&path, input)?;
    let file = File::open(&path).map_err(|error| format!("{}: {error}", path.display()))?;
    trial.program.run_file(role, place, file)
}
