//! Two programs on one state, locks that were left over, and a state that changes behind a running program's back.

use crate::desk::{Desk, Role, ROLES};
use crate::place::{self, Place};
use crate::program::{whole, Ended, Running};
use crate::streams::{changing_line, joined, showing_line};
use crate::trial::{ask, check_stopped, serves, side_by_side, Trial, Tried};
use std::ffi::OsStr;
use std::fs;
use std::io;
use std::process::{self, Command, Stdio};
use std::sync::Barrier;
use std::thread;
use std::time::{Duration, Instant};

/// How long a program may take to say that a state is in use, or to end. An empty lock is given two seconds for its maker to write
/// it, and others use the processors too.
const AT_ONCE: Duration = Duration::from_secs(30);
/// The file of the first who takes over a lock that was left over.
const HEIR: &str = "state.heir1";
const CROWD: usize = 6;
const CROWDS: usize = 10;
/// More of these: there are only moments in which two can take one lock for left over.
const CROWDS_AT_A_LOCK: usize = 100;
/// What those may say who come too late at a lock that was left over: while it is being taken over there may be nobody to name yet.
const TOO_LATE: [&str; 4] = [
    "in use by process",
    "another program is just taking it over",
    "another program is just starting on it",
    "another program took the lock",
];

pub fn run(trial: &Trial) -> Tried<String> {
    let place = Place::new(&trial.folder, "shared")?;
    let mut locks = 0;
    for role in ROLES {
        let shared = Shared {
            trial,
            place: &place,
            role,
        };
        shared
            .run(&mut locks)
            .map_err(|reason| format!("{}: {reason}", role.name()))?;
    }
    Ok(format!(
        "a second program refused and the first went on; {locks} locks found; {} crowds of {CROWD} at once; \
         answers that nobody reads; a state changed behind a program's back in 3 ways; each as machine and as ledger",
        2 * (CROWDS + CROWDS_AT_A_LOCK)
    ))
}

struct Shared<'a> {
    trial: &'a Trial,
    place: &'a Place,
    role: Role,
}

fn boot_text() -> Tried<String> {
    let path = "/proc/sys/kernel/random/boot_id";
    fs::read_to_string(path).map_err(|error| format!("{path}: {error}"))
}

/// The number of a process that has ended.
fn dead_process() -> Tried<u32> {
    let mut child = Command::new("true")
        .spawn()
        .map_err(|error| format!("`true` cannot be started: {error}"))?;
    let number = child.id();
    child
        .wait()
        .map_err(|error| format!("`true` cannot be awaited: {error}"))?;
    Ok(number)
}

/// Locks that belong to no process that runs, each with what is the matter with it.
fn left_over_locks(boot: &str, own: u32, dead: u32) -> Vec<(&'static str, String)> {
    vec![
        ("a dead process", format!("{dead} {boot}")),
        ("nothing", String::new()),
        ("a line feed", "\n".to_string()),
        (
            "another boot",
            format!("{own} 01234567-89ab-cdef-0123-456789abcdef\n"),
        ),
        ("no boot", format!("{own}\n")),
        ("no number", format!("x {boot}")),
        (
            "too large a number",
            format!("{} {boot}", u64::from(own) + (1 << 32)),
        ),
        ("a long text", "1".repeat(5_000)),
        // A machine that lost its power may find such a file.
        ("20 zero bytes", "\0".repeat(20)),
        // No file may be named after what a lock says.
        ("a path for a number", format!("../x {boot}")),
    ]
}

/// One of a crowd came too late: it names the first, or at a lock that was left over says one of a few other things.
fn check_late(ended: &Ended, first: u32, at_lock: bool) -> Tried<()> {
    if !at_lock {
        return check_stopped(ended, &format!("in use by process {first}"));
    }
    if TOO_LATE
        .iter()
        .any(|words| ended.complaints.contains(words))
    {
        // No answer, and a complaint of the program's own.
        return check_stopped(ended, "cartlozenge: ");
    }
    Err(format!(
        "expected a complaint with one of {TOO_LATE:?}, came: {}",
        ended.complaints
    ))
}

/// Waits until all but one have ended. Answers that one and what became of the others.
fn await_first(mut crowd: Vec<Running>) -> Tried<(Running, Vec<Ended>)> {
    let deadline = Instant::now() + AT_ONCE;
    let mut late = Vec::new();
    while crowd.len() > 1 {
        let mut place = 0;
        while place < crowd.len() {
            if crowd[place].has_ended()? {
                late.push(crowd.remove(place).finish()?);
            } else {
                place += 1;
            }
        }
        if Instant::now() > deadline {
            return Err(format!("{} of {CROWD} serve", crowd.len()));
        }
        thread::sleep(Duration::from_micros(200));
    }
    match crowd.pop() {
        Some(first) => Ok((first, late)),
        None => Err("none of them serves".to_string()),
    }
}

impl Shared<'_> {
    fn run(&self, locks: &mut usize) -> Tried<()> {
        self.second()
            .map_err(|reason| format!("a second program: {reason}"))?;
        *locks += self.locks()?;
        for crowd in 0..CROWDS {
            self.crowd(None)
                .map_err(|reason| format!("crowd {crowd}: {reason}"))?;
        }
        let left_over = format!("{} {}", dead_process()?, boot_text()?);
        for crowd in 0..CROWDS_AT_A_LOCK {
            self.crowd(Some(&left_over)).map_err(|reason| {
                format!("crowd {crowd} at a lock that was left over: {reason}")
            })?;
        }
        self.unheard()
            .map_err(|reason| format!("answers that nobody reads: {reason}"))?;
        for way in ["replaced", "overwritten", "removed"] {
            self.changed(way)
                .map_err(|reason| format!("a state that is {way}: {reason}"))?;
        }
        Ok(())
    }

    /// A fresh state, alone in its folder.
    fn desk(&self) -> Tried<Desk> {
        let desk = Desk::fresh(self.role, 1, 2);
        let desk = desk.map_err(|number| format!("no fresh state: {number}"))?;
        self.place.clear()?;
        self.place.put(&desk.state)?;
        Ok(desk)
    }

    fn serve(&self) -> Tried<Running> {
        self.trial.program.serve(self.role, self.place)
    }

    /// A program that is started now must serve, and leave the state alone in its folder.
    fn serves(&self, desk: &mut Desk) -> Tried<()> {
        serves(&self.trial.program, self.place, desk)?;
        self.place.check_names(&["state"])
    }

    /// A program that is started now must refuse at once, and name the process.
    fn refuses(&self, desk: &Desk, process: u32) -> Tried<()> {
        self.refuses_beside(desk, process, &["state", "state.lock"])
    }

    fn refuses_beside(&self, desk: &Desk, process: u32, names: &[&str]) -> Tried<()> {
        let begin = Instant::now();
        let input = joined(&[changing_line(desk)]);
        let ended = self
            .trial
            .program
            .run(self.role, self.place, whole(&input))?;
        check_stopped(&ended, &format!("in use by process {process}"))?;
        if begin.elapsed() > AT_ONCE {
            return Err(format!("it took {:?} to refuse", begin.elapsed()));
        }
        self.place.check_state(&desk.state)?;
        self.place.check_names(names)
    }

    fn second(&self) -> Tried<()> {
        let mut desk = self.desk()?;
        let mut first = self.serve()?;
        ask(&mut first, &mut desk, &showing_line(self.role))?;
        self.refuses(&desk, first.process())?;
        let line = changing_line(&desk);
        ask(&mut first, &mut desk, &line)?;
        self.refuses(&desk, first.process())?;
        ask(&mut first, &mut desk, &showing_line(self.role))?;
        first.finish()?;
        self.place.check(&desk.state)?;
        self.serves(&mut desk)
    }

    /// Locks of processes that do not run, and of those that do. Answers how many.
    fn locks(&self) -> Tried<usize> {
        let boot = boot_text()?;
        let own = process::id();
        let dead = dead_process()?;
        let left_over = left_over_locks(&boot, own, dead);
        for (what, text) in &left_over {
            self.left_over(text.as_bytes(), dead)
                .map_err(|reason| format!("a lock with {what}: {reason}"))?;
        }
        let text = format!("{own} {boot}");
        let desk = self.desk()?;
        place::write(&self.place.lock(), text.as_bytes())?;
        self.refuses(&desk, own)?;
        let path = self.place.lock();
        let kept = fs::read(&path).map_err(|error| format!("{}: {error}", path.display()))?;
        if kept != text.as_bytes() {
            return Err("the lock of a process that runs was changed".to_string());
        }
        Ok(left_over.len() + 1 + self.heirs(&boot)?)
    }

    /// A process that was killed while it took over a lock of another that was. Answers how many.
    fn heirs(&self, boot: &str) -> Tried<usize> {
        let lock = format!("{} {boot}", dead_process()?);
        let marks = [
            (
                "another dead process",
                format!("{} {boot}", dead_process()?),
            ),
            ("nothing", String::new()),
            // The number of a dead process is given to another in time, and the heir may have had the same.
            ("the same as the lock", lock.clone()),
        ];
        for (what, mark) in &marks {
            let mut desk = self.inherited(&lock, mark)?;
            self.serves(&mut desk)
                .map_err(|reason| format!("an heir's file with {what}: {reason}"))?;
        }
        let own = process::id();
        let desk = self.inherited(&lock, &format!("{own} {boot}"))?;
        self.refuses_beside(&desk, own, &["state", HEIR, "state.lock"])
            .map_err(|reason| format!("an heir that runs: {reason}"))?;
        Ok(marks.len() + 1)
    }

    /// A fresh state with a lock and the file of the first heir.
    fn inherited(&self, lock: &str, mark: &str) -> Tried<Desk> {
        let desk = self.desk()?;
        place::write(&self.place.lock(), lock.as_bytes())?;
        place::write(&self.place.folder.join(HEIR), mark.as_bytes())?;
        Ok(desk)
    }

    /// The lock is taken away, and what its process had written beside the state.
    fn left_over(&self, lock: &[u8], dead: u32) -> Tried<()> {
        let mut desk = self.desk()?;
        place::write(&self.place.lock(), lock)?;
        if lock.starts_with(format!("{dead} ").as_bytes()) {
            let new = self.place.folder.join(format!("state.{dead}.new"));
            place::write(&new, b"half of a state")?;
        }
        self.serves(&mut desk)
    }

    /// As many starts as there are in a crowd, from threads that wait for one another. Each is given a line.
    fn serve_at_once(&self) -> Tried<Vec<Running>> {
        let barrier = Barrier::new(CROWD);
        side_by_side(CROWD, |_, _| {
            barrier.wait();
            let mut running = self.serve()?;
            running.say(&showing_line(self.role));
            Ok(running)
        })
    }

    /// Many are started at once: one serves, and the others name it.
    fn crowd(&self, lock: Option<&str>) -> Tried<()> {
        let mut desk = self.desk()?;
        if let Some(text) = lock {
            place::write(&self.place.lock(), text.as_bytes())?;
        }
        let (mut first, late) = await_first(self.serve_at_once()?)?;
        for ended in &late {
            check_late(ended, first.process(), lock.is_some())?;
        }
        let came = first.next_answer()?;
        let expected = desk.answer(&showing_line(self.role)).text;
        if came != expected {
            return Err(format!("expected {expected}, came: {came}"));
        }
        let line = changing_line(&desk);
        ask(&mut first, &mut desk, &line)?;
        first.finish()?;
        self.place.check(&desk.state)
    }

    /// Who reads the answers has gone, and the program ends as soon as it prints: the state has what it would have printed.
    fn unheard(&self) -> Tried<()> {
        let mut desk = self.desk()?;
        let (reader, writer) = io::pipe().map_err(|error| format!("no pipe: {error}"))?;
        drop(reader);
        let words = [OsStr::new(self.role.name()), self.place.state.as_os_str()];
        let mut running = self
            .trial
            .program
            .start(&words, Stdio::piped(), Stdio::from(writer))?;
        running.say(&changing_line(&desk));
        let deadline = Instant::now() + AT_ONCE;
        while !running.has_ended()? {
            if Instant::now() > deadline {
                running.kill()?;
                return Err(format!("it had not ended after {AT_ONCE:?}"));
            }
            thread::sleep(Duration::from_micros(200));
        }
        desk.answer(&changing_line(&desk));
        self.place.check_state(&desk.state)?;
        self.serves(&mut desk)
    }

    /// Another state stands in the file, or none: the program must stop at the next line that changes its own.
    fn changed(&self, way: &str) -> Tried<()> {
        let mut desk = self.desk()?;
        let mut first = self.serve()?;
        let line = changing_line(&desk);
        ask(&mut first, &mut desk, &line)?;
        let mut foreign = desk.clone();
        foreign.answer(&changing_line(&desk));
        let path = &self.place.state;
        let done = match way {
            "replaced" => {
                let beside = self.place.folder.join("other");
                place::write(&beside, &foreign.state)?;
                fs::rename(&beside, path)
            }
            "overwritten" => fs::write(path, &foreign.state),
            _ => fs::remove_file(path),
        };
        done.map_err(|error| format!("{}: {error}", path.display()))?;
        first.say(&changing_line(&desk));
        check_stopped(&first.finish()?, "another program changed the state")?;
        if way == "removed" {
            return self.place.check_names(&[]);
        }
        self.place.check(&foreign.state)
    }
}
