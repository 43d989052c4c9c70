//! How fresh states are made, and what is done where there is no state at all.

use crate::desk::{Desk, Role, ROLES};
use crate::place::Place;
use crate::program::{whole, Ended};
use crate::trial::{check_stopped, serves, Trial, Tried};
use crate::{wording, words};
use std::ffi::OsStr;
use std::fs;
use std::os::unix::fs::symlink;
use std::path::PathBuf;

const QUESTION: &[u8] = b"account 0\npot\n";

/// Every f and own number around their limits, and words that are no numbers. Answers how many were wanted.
pub fn make_all(trial: &Trial, place: &Place) -> Tried<usize> {
    let numbers = [
        "0",
        "1",
        "5",
        "6",
        "05",
        "256",
        "x",
        "-1",
        "18446744073709551617",
    ];
    let mut wanted = 0;
    for f in numbers {
        for own in ["0", "1", "3", "4", "15", "16", "256", "", "+0"] {
            make(trial, place, Role::Machine, f, own)
                .map_err(|reason| format!("fresh machine {f} {own}: {reason}"))?;
            wanted += 1;
        }
        make(trial, place, Role::Ledger, f, "")
            .map_err(|reason| format!("fresh ledger {f}: {reason}"))?;
        wanted += 1;
    }
    Ok(wanted)
}

fn make(trial: &Trial, place: &Place, role: Role, f: &str, own: &str) -> Tried<()> {
    place.clear()?;
    let ended = run_fresh(trial, place, role, f, own)?;
    let desk = Desk::fresh(
        role,
        words::number(f.as_bytes()),
        words::number(own.as_bytes()),
    );
    match desk {
        Ok(desk) => {
            place.check(&desk.state)?;
            // A second time, and over something that is no state.
            run_fresh(trial, place, role, f, own).and_then(check_left)?;
            place.check(&desk.state)?;
            place.put(b"no state")?;
            run_fresh(trial, place, role, f, own).and_then(check_left)?;
            place.check(b"no state")
        }
        Err(number) => {
            let expected = format!("{}\n", wording::refused(number));
            if ended.answers != expected.as_bytes() {
                let came = ended.answers.escape_ascii();
                return Err(format!("expected {expected}, came: {came}"));
            }
            place.check_names(&[])
        }
    }
}

pub fn run_fresh(trial: &Trial, place: &Place, role: Role, f: &str, own: &str) -> Tried<Ended> {
    let words = match role {
        Role::Machine => vec!["fresh", "machine", f, own],
        Role::Ledger => vec!["fresh", "ledger", f],
    };
    let mut words: Vec<&OsStr> = words.into_iter().map(OsStr::new).collect();
    words.push(place.state.as_os_str());
    trial.program.run_words(&words)
}

/// What `fresh` says where there is a file already.
fn check_left(ended: Ended) -> Tried<()> {
    check_stopped(&ended, "File exists")
}

/// No file, no folder to hold it, no name for it, a folder in its place: the program says so and leaves nothing behind.
pub fn miss_all(trial: &Trial, place: &Place) -> Tried<()> {
    for role in ROLES {
        miss(trial, place, role).map_err(|reason| format!("{}: {reason}", role.name()))?;
    }
    Ok(())
}

fn miss(trial: &Trial, place: &Place, role: Role) -> Tried<()> {
    place.clear()?;
    let serve = |place: &Place| trial.program.run(role, place, whole(QUESTION));
    check_stopped(&serve(place)?, "No such file")
        .and_then(|()| place.check_names(&[]))
        .map_err(|reason| format!("no file: {reason}"))?;
    let inner = Place::at(place.folder.join("missing"));
    check_stopped(&serve(&inner)?, "No such file")
        .and_then(|()| place.check_names(&[]))
        .map_err(|reason| format!("no folder: {reason}"))?;
    fs::create_dir(&place.state).map_err(|error| format!("{}: {error}", place.state.display()))?;
    check_stopped(&serve(place)?, "refused 16")
        .and_then(|()| place.check_names(&["state"]))
        .map_err(|reason| format!("a folder: {reason}"))?;
    run_fresh(trial, place, role, "1", "1").and_then(check_left)?;
    place.check_names(&["state"])?;
    place.clear()?;
    follow(trial, place, role).map_err(|reason| format!("a link: {reason}"))
}

/// A new state would take the place of a link, and leave the old one where the link leads.
fn follow(trial: &Trial, place: &Place, role: Role) -> Tried<()> {
    let desk = Desk::fresh(role, 1, 1).map_err(|number| format!("no fresh state: {number}"))?;
    let target = place.folder.join("target");
    fs::write(&target, &desk.state).map_err(|error| format!("{}: {error}", target.display()))?;
    symlink("target", &place.state).map_err(|error| format!("the link: {error}"))?;
    let ended = trial.program.run(role, place, whole(QUESTION))?;
    check_stopped(&ended, "this is a link")?;
    place.check_names(&["state", "target"])?;
    place.clear()
}

/// A state that is named without a folder lies in the current one, which is the trial's own. No name at all is no state.
pub fn name_shortly(trial: &Trial) -> Tried<()> {
    let place = Place {
        folder: trial.folder.clone(),
        state: PathBuf::from("state"),
    };
    let before = place.names()?;
    for role in ROLES {
        let nameless = trial.program.run_words(&[OsStr::new(role.name())])?;
        check_stopped(&nameless, "cartlozenge machine STATE")
            .map_err(|reason| format!("no name: {reason}"))?;
        let desk = Desk::fresh(role, 1, 1);
        let mut desk = desk.map_err(|number| format!("no fresh state: {number}"))?;
        place.put(&desk.state)?;
        serves(&trial.program, &place, &mut desk)
            .map_err(|reason| format!("a name without a folder: {reason}"))?;
        fs::remove_file(&place.state).map_err(|error| format!("the state: {error}"))?;
        let after = place.names()?;
        if after != before {
            return Err(format!(
                "the current folder: expected {before:?}, found {after:?}"
            ));
        }
    }
    Ok(())
}
