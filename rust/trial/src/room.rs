//! No room for a new state, a file system that is only read, and answers that cannot be printed.
//!
//! This needs a small file system of its own. The trial runs itself once more in a name space of mounts that nobody else sees: what is
//! mounted there is gone when that run ends, however it ends. Where that is not allowed the part fails, unless `TRIAL_WITHOUT_MOUNT` is
//! set in the environment.

use crate::desk::{Desk, Role, ROLES};
use crate::fresh;
use crate::place::{self, Place};
use crate::program::{Program, Running};
use crate::streams::{changing_line, showing_line};
use crate::trial::{ask, check_stopped, serves, Trial, Tried};
use std::env;
use std::ffi::OsStr;
use std::fs::{self, File};
use std::path::{Path, PathBuf};
use std::process::{self, Command, Stdio};

/// Where this is set in the environment, the part may go without a file system of its own.
const WITHOUT_MOUNT: &str = "TRIAL_WITHOUT_MOUNT";

/// The word that says that this run is the one inside.
pub const INSIDE: &str = "--inside";

/// How the run inside ends where something was wrong, and where nothing could be mounted. `unshare` itself ends with 1.
const DIFFERS: i32 = 20;
const UNMOUNTED: i32 = 21;

const PAGE: usize = 4_096;
const PAGES: usize = 64;

pub fn run(trial: &Trial) -> Tried<String> {
    for role in ROLES {
        full_output(trial, role)
            .map_err(|reason| format!("{}, answers to /dev/full: {reason}", role.name()))?;
    }
    let ways: [&[&str]; 2] = [&["--mount"], &["--map-root-user", "--mount"]];
    for way in ways {
        if let Some(done) = run_inside(trial, way)? {
            return Ok(done);
        }
    }
    if env::var_os(WITHOUT_MOUNT).is_none() {
        return Err(format!(
            "no file system could be mounted here; set {WITHOUT_MOUNT} in the environment to go without"
        ));
    }
    Ok(format!(
        "not tried here, since no file system could be mounted and {WITHOUT_MOUNT} is set"
    ))
}

/// Answers that cannot be printed: the state has what they would say.
fn full_output(trial: &Trial, role: Role) -> Tried<()> {
    let place = Place::new(&trial.folder, "output")?;
    let mut desk = fresh_desk(role)?;
    place.put(&desk.state)?;
    let output = File::options().write(true).open("/dev/full");
    let output = output.map_err(|error| format!("/dev/full: {error}"))?;
    let words = [OsStr::new(role.name()), place.state.as_os_str()];
    let mut running = trial
        .program
        .start(&words, Stdio::piped(), Stdio::from(output))?;
    running.say(&changing_line(&desk));
    let ended = running.finish()?;
    if ended.complaints.is_empty() {
        return Err("expected a complaint, came none".to_string());
    }
    desk.answer(&changing_line(&desk));
    place.check(&desk.state)?;
    goes_on(&trial.program, &place, &mut desk)
}

/// Runs this program under `unshare`; nothing where that is not allowed here.
fn run_inside(trial: &Trial, way: &[&str]) -> Tried<Option<String>> {
    let own = env::current_exe().map_err(|error| format!("where the trial lies: {error}"))?;
    let output = Command::new("unshare")
        .args(way)
        .arg(own)
        .arg(INSIDE)
        .arg(&trial.program.path)
        .arg(&trial.folder)
        .stdin(Stdio::null())
        .output();
    let Ok(output) = output else {
        return Ok(None);
    };
    let printed = String::from_utf8_lossy(&output.stdout).trim().to_string();
    match output.status.code() {
        Some(0) => Ok(Some(printed)),
        Some(DIFFERS) => Err(printed),
        Some(1 | 126 | 127 | UNMOUNTED) => Ok(None),
        _ => Err(format!(
            "the run inside ended with {}: {printed} {}",
            output.status,
            String::from_utf8_lossy(&output.stderr)
        )),
    }
}

/// The run inside.
pub fn main_inside(trial: &Trial) -> ! {
    let folder = trial.folder.join("room");
    let Some(room) = Room::new(&folder) else {
        process::exit(UNMOUNTED);
    };
    let outcome = inside(trial, &room);
    // Leaving the process would not drop it.
    drop(room);
    match outcome {
        Ok(done) => {
            println!("{done}");
            process::exit(0);
        }
        Err(reason) => {
            println!("{reason}");
            process::exit(DIFFERS);
        }
    }
}

/// A small file system, mounted on the folder.
struct Room {
    place: Place,
}

impl Room {
    fn new(folder: &Path) -> Option<Room> {
        fs::create_dir_all(folder).ok()?;
        let size = format!("size={}", PAGES * PAGE);
        let mounted = Command::new("mount")
            .args(["-t", "tmpfs", "-o", &size, "trial"])
            .arg(folder)
            .stderr(Stdio::null())
            .status();
        mounted.is_ok_and(|status| status.success()).then(|| Room {
            place: Place::at(folder.to_path_buf()),
        })
    }

    fn remount(&self, options: &str) -> Tried<()> {
        let output = Command::new("mount")
            .args(["-t", "tmpfs", "-o", &format!("remount,{options}"), "trial"])
            .arg(&self.place.folder)
            .output()
            .map_err(|error| format!("`mount` cannot be started: {error}"))?;
        if !output.status.success() {
            return Err(format!(
                "the file system cannot be mounted as {options}: {}",
                String::from_utf8_lossy(&output.stderr)
            ));
        }
        Ok(())
    }

    /// Fills it up to so many pages that stay free.
    fn fill(&self, free: usize) -> Tried<()> {
        let mut taken = 0;
        for name in self.place.names()? {
            let path = self.place.folder.join(name);
            let length =
                fs::metadata(&path).map_err(|error| format!("{}: {error}", path.display()))?;
            taken += (length.len() as usize).div_ceil(PAGE);
        }
        place::write(&self.filler(), &vec![1; (PAGES - taken - free) * PAGE])
    }

    fn filler(&self) -> PathBuf {
        self.place.folder.join("filler")
    }

    fn make_room(&self) -> Tried<()> {
        let path = self.filler();
        fs::remove_file(&path).map_err(|error| format!("{}: {error}", path.display()))
    }
}

impl Drop for Room {
    fn drop(&mut self) {
        // A program that still runs may hold it; it goes with the name space in any case.
        let _ = Command::new("umount")
            .arg("--lazy")
            .arg(&self.place.folder)
            .status();
    }
}

fn inside(trial: &Trial, room: &Room) -> Tried<String> {
    let mut stops = 0;
    for role in ROLES {
        let needed = role.state_length().div_ceil(PAGE);
        let told = |reason: String| format!("{}, {reason}", role.name());
        for free in 0..=needed + 2 {
            stops += fill_before(trial, room, role, free)
                .map_err(|reason| told(format!("{free} pages free at the start: {reason}")))?;
        }
        for free in 0..=needed {
            stops += fill_between(trial, room, role, free)
                .map_err(|reason| told(format!("{free} pages free later: {reason}")))?;
        }
        stops += no_fresh(trial, room, role)
            .map_err(|reason| told(format!("a fresh state: {reason}")))?;
        stops += few_names(trial, room, role)
            .map_err(|reason| told(format!("no room for names: {reason}")))?;
        stops += only_read(trial, room, role)
            .map_err(|reason| told(format!("a file system only read: {reason}")))?;
    }
    Ok(format!(
        "{stops} stops for want of room or leave to write, the old state whole and nothing beside it; then it goes on; answers to a full \
         device"
    ))
}

fn fresh_desk(role: Role) -> Tried<Desk> {
    Desk::fresh(role, 1, 2).map_err(|number| format!("no fresh state: {number}"))
}

/// A fresh state, alone in the room.
fn furnish(room: &Room, role: Role) -> Tried<Desk> {
    let desk = fresh_desk(role)?;
    room.place.clear()?;
    room.place.put(&desk.state)?;
    Ok(desk)
}

/// Once there is room, the program goes on from the state that is there.
fn goes_on(program: &Program, place: &Place, desk: &mut Desk) -> Tried<()> {
    serves(program, place, desk)
        .and_then(|()| place.check_names(&["state"]))
        .map_err(|reason| format!("once there is room: {reason}"))
}

/// A line that changes the state stops the program: it gives no answer, tells why, and leaves the old state.
fn stops(mut running: Running, place: &Place, desk: &Desk, why: &str) -> Tried<()> {
    running.say(&changing_line(desk));
    running.say(&showing_line(desk.role));
    check_stopped(&running.finish()?, why)?;
    place.check_state(&desk.state)
}

/// There is no room when the program starts: for its lock, for a new state, or there is enough. Answers how often it stopped.
fn fill_before(trial: &Trial, room: &Room, role: Role, free: usize) -> Tried<usize> {
    let mut desk = furnish(room, role)?;
    room.fill(free)?;
    let running = trial.program.serve(role, &room.place)?;
    // One page is for the lock.
    let is_enough = free > role.state_length().div_ceil(PAGE);
    next_write(trial, room, running, &mut desk, is_enough)
}

/// The room goes while the program runs.
fn fill_between(trial: &Trial, room: &Room, role: Role, free: usize) -> Tried<usize> {
    let mut desk = furnish(room, role)?;
    let mut running = trial.program.serve(role, &room.place)?;
    let line = changing_line(&desk);
    ask(&mut running, &mut desk, &line)?;
    room.fill(free)?;
    ask(&mut running, &mut desk, &showing_line(role))?;
    let is_enough = free >= role.state_length().div_ceil(PAGE);
    next_write(trial, room, running, &mut desk, is_enough)
}

/// With enough room the next write succeeds, and otherwise stops the program. In any case it goes on once there is more room.
fn next_write(
    trial: &Trial,
    room: &Room,
    mut running: Running,
    desk: &mut Desk,
    is_enough: bool,
) -> Tried<usize> {
    if is_enough {
        let line = changing_line(desk);
        ask(&mut running, desk, &line)?;
        running.finish()?;
        room.place.check_state(&desk.state)?;
    } else {
        stops(running, &room.place, desk, "No space left")?;
    }
    room.place.check_names(&["filler", "state"])?;
    room.make_room()?;
    goes_on(&trial.program, &room.place, desk)?;
    Ok(usize::from(!is_enough))
}

/// A fresh state for which there is no room is not begun.
fn no_fresh(trial: &Trial, room: &Room, role: Role) -> Tried<usize> {
    let needed = role.state_length().div_ceil(PAGE);
    for free in 0..needed {
        room.place.clear()?;
        room.fill(free)?;
        let ended = fresh::run_fresh(trial, &room.place, role, "1", "2")?;
        check_stopped(&ended, "No space left")?;
        room.place.check_names(&["filler"])?;
    }
    Ok(needed)
}

/// A file system that takes no more names: the folder, the state and perhaps the lock are all that it can hold.
fn few_names(trial: &Trial, room: &Room, role: Role) -> Tried<usize> {
    for names in [2, 3] {
        let mut desk = furnish(room, role)?;
        room.remount(&format!("nr_inodes={names}"))?;
        let running = trial.program.serve(role, &room.place)?;
        let stopped = stops(running, &room.place, &desk, "No space left")
            .and_then(|()| room.place.check(&desk.state));
        room.remount("nr_inodes=1000")?;
        stopped?;
        goes_on(&trial.program, &room.place, &mut desk)?;
    }
    Ok(2)
}

/// Only read from the start, and from some time on. Then the lock cannot be taken away either; the next start does so.
fn only_read(trial: &Trial, room: &Room, role: Role) -> Tried<usize> {
    let mut desk = furnish(room, role)?;
    room.remount("ro")?;
    let running = trial.program.serve(role, &room.place)?;
    let stopped = stops(running, &room.place, &desk, "Read-only");
    room.remount("rw")?;
    stopped?;
    room.place.check(&desk.state)?;
    goes_on(&trial.program, &room.place, &mut desk)?;
    let mut running = trial.program.serve(role, &room.place)?;
    let line = changing_line(&desk);
    ask(&mut running, &mut desk, &line)?;
    room.remount("ro")?;
    let shown = ask(&mut running, &mut desk, &showing_line(role));
    let stopped = stops(running, &room.place, &desk, "Read-only");
    room.remount("rw")?;
    shown?;
    stopped?;
    room.place.check_names(&["state", "state.lock"])?;
    goes_on(&trial.program, &room.place, &mut desk)?;
    Ok(2)
}
