//! The program is killed at random times, and what it leaves is held against what it had printed. Then it is started again on the same
//! files, killed once more or left to answer the rest.

use crate::desk::{Desk, Reply, Role, ROLES};
use crate::place::Place;
use crate::program::{join, whole, Ended, Piece};
use crate::streams::{joined, random_lines};
use crate::trial::{
    answer_lines, check_answers, check_prefix, check_quiet, side_by_side, Trial, Tried,
};
use chance::Chance;
use std::os::unix::process::ExitStatusExt;
use std::sync::atomic::{AtomicBool, Ordering};
use std::thread;
use std::time::{Duration, Instant};

const KILLS: usize = 1_000;
const SIGKILL: i32 = 9;
const WORKERS: usize = 2;
const MEASURES: usize = 5;

/// Where the kills fell: by what the state file held, and what was left beside it.
#[derive(Default)]
struct Falls {
    kills: usize,
    /// Runs that had ended by themselves when the kill came. They are in none of the other counts.
    ended: usize,
    before: usize,
    between: usize,
    after: usize,
    unchanged: usize,
    with_lock: usize,
    with_new: usize,
    unprinted: usize,
    /// Starts with lines that had been answered already.
    again: usize,
    states: usize,
}

impl Falls {
    fn add(&mut self, other: &Falls) {
        self.kills += other.kills;
        self.ended += other.ended;
        self.before += other.before;
        self.between += other.between;
        self.after += other.after;
        self.unchanged += other.unchanged;
        self.with_lock += other.with_lock;
        self.with_new += other.with_new;
        self.unprinted += other.unprinted;
        self.again += other.again;
        self.states += other.states;
    }
}

/// A state and the lines that are fed to it, with all that the second program makes of them.
struct Course {
    lines: Vec<Vec<u8>>,
    replies: Vec<Reply>,
    /// Before the first line and behind each.
    states: Vec<Vec<u8>>,
}

impl Course {
    fn new(role: Role, state: Vec<u8>, lines: Vec<Vec<u8>>) -> Course {
        let mut desk = Desk { role, state };
        let mut replies = Vec::new();
        let mut states = vec![desk.state.clone()];
        for line in &lines {
            replies.push(desk.answer(line));
            states.push(desk.state.clone());
        }
        Course {
            lines,
            replies,
            states,
        }
    }

    fn last(&self) -> &[u8] {
        &self.states[self.lines.len()]
    }
}

/// What a run that was to be killed had come to.
struct Found {
    /// How many lines it had answered in full.
    printed: usize,
    /// The state file is the one behind so many lines.
    reached: usize,
}

pub fn run(trial: &Trial) -> Tried<String> {
    let mut falls = Falls::default();
    for of_worker in side_by_side(WORKERS, |worker, stop| work(trial, worker, stop))? {
        falls.add(&of_worker);
    }
    if falls.before == 0 || falls.between == 0 || falls.after == 0 {
        return Err(format!(
            "of the kills {} fell before the first write, {} between writes, {} behind the last: none of these may be 0",
            falls.before, falls.between, falls.after
        ));
    }
    Ok(format!(
        "{} kills over {} states, beside {} runs that had ended by themselves; of the kills {} before the first write, {} between \
         writes, {} behind the last, {} where nothing was to be written; {} left a lock, {} a new state not yet renamed, {} a state \
         with answers not yet printed; started again each time, {} times with lines from before",
        falls.kills,
        falls.states,
        falls.ended,
        falls.before,
        falls.between,
        falls.after,
        falls.unchanged,
        falls.with_lock,
        falls.with_new,
        falls.unprinted,
        falls.again
    ))
}

/// Machine and ledger in turn. Of all runs this worker makes each `WORKERS`th.
fn work(trial: &Trial, worker: usize, stop: &AtomicBool) -> Tried<Falls> {
    let place = Place::new(&trial.folder, &format!("killed-{worker}"))?;
    let mut falls = Falls::default();
    let mut whole_times = [Duration::ZERO; 2];
    while falls.kills < KILLS / WORKERS && !stop.load(Ordering::Relaxed) {
        let number = falls.states * WORKERS + worker;
        let role = ROLES[falls.states % 2];
        let whole_time = &mut whole_times[falls.states % 2];
        if falls.states % 50 < 2 {
            // Measured again now and then: others use the processors too.
            *whole_time = measure(trial, &place, role, number)
                .map_err(|reason| format!("measure {number}: {}: {reason}", role.name()))?;
        }
        let mut life = Life {
            trial,
            place: &place,
            role,
            chance: trial.chance("killed", number),
            whole_time: *whole_time,
        };
        life.live(&mut falls)
            .map_err(|reason| format!("run {number}: {}: {reason}", role.name()))?;
        falls.states += 1;
    }
    Ok(falls)
}

fn course(chance: &mut Chance, role: Role) -> Tried<Course> {
    let f = chance.between(0, 2);
    let desk = Desk::fresh(role, f, chance.between(0, 3 * f));
    let desk = desk.map_err(|number| format!("no fresh state: {number}"))?;
    let count = 200 + chance.below(200);
    let lines = random_lines(chance, &desk, count);
    Ok(Course::new(role, desk.state, lines))
}

/// Lines in a few bursts, so that the state is written several times. Every second burst ends inside a line.
fn bursts(chance: &mut Chance, lines: &[Vec<u8>]) -> Vec<Piece> {
    let input = joined(lines);
    let count = 2 + chance.below(7);
    let mut ends: Vec<usize> = (0..count).map(|_| chance.below(input.len() + 1)).collect();
    for end in ends.iter_mut() {
        if chance.one_in(2) {
            let line = input[*end..].iter().position(|byte| *byte == b'\n');
            *end = line.map_or(input.len(), |line| *end + line + 1);
        }
    }
    ends.push(input.len());
    ends.sort();
    let mut pieces = Vec::new();
    let mut from = 0;
    for end in ends {
        pieces.push(Piece {
            bytes: input[from..end].to_vec(),
            pause: Duration::from_micros(chance.between(0, 1_200)),
        });
        from = end;
    }
    pieces
}

/// How long whole runs take, on an average.
fn measure(trial: &Trial, place: &Place, role: Role, number: usize) -> Tried<Duration> {
    let mut sum = Duration::ZERO;
    for turn in 0..MEASURES {
        let mut chance = trial.chance("measure", number * MEASURES + turn);
        let course = course(&mut chance, role)?;
        place.put(&course.states[0])?;
        let pieces = bursts(&mut chance, &course.lines);
        let begin = Instant::now();
        let ended = trial.program.run(role, place, pieces)?;
        sum += begin.elapsed();
        check_whole(&course, place, &ended)?;
    }
    Ok(sum / MEASURES as u32)
}

/// One state: a run that is killed unless it ends before that, up to three more, and one that is not.
struct Life<'a> {
    trial: &'a Trial,
    place: &'a Place,
    role: Role,
    chance: Chance,
    whole_time: Duration,
}

impl Life<'_> {
    fn live(&mut self, falls: &mut Falls) -> Tried<()> {
        let mut course = course(&mut self.chance, self.role)?;
        self.place.put(&course.states[0])?;
        let turns = 1 + self.chance.below(4);
        for turn in 0..turns {
            let found = self.kill(&course, falls);
            let found = found.map_err(|reason| format!("turn {turn}: {reason}"))?;
            let mut from = found.printed;
            if self.chance.one_in(4) {
                from = self.chance.below(found.printed + 1);
                falls.again += 1;
            }
            course = self.go_on(course, from, found.reached);
        }
        let input = whole(&joined(&course.lines));
        let ended = self.trial.program.run(self.role, self.place, input);
        ended
            .and_then(|ended| check_whole(&course, self.place, &ended))
            .map_err(|reason| format!("behind {turns} turns: {reason}"))
    }

    /// The lines from one on, with more behind them where few are left.
    fn go_on(&mut self, mut course: Course, from: usize, reached: usize) -> Course {
        let role = self.role;
        let state = course.states.swap_remove(reached);
        let rest = Course::new(role, state, course.lines.split_off(from));
        if rest.lines.len() > 100 {
            return rest;
        }
        let desk = Desk {
            role,
            state: rest.last().to_vec(),
        };
        let mut lines = rest.lines;
        lines.extend(random_lines(&mut self.chance, &desk, 200));
        Course::new(role, rest.states[0].clone(), lines)
    }

    /// The input is closed behind the last line in every second run; in the others the program is still there, whenever it is killed.
    fn kill(&mut self, course: &Course, falls: &mut Falls) -> Tried<Found> {
        let pieces = bursts(&mut self.chance, &course.lines);
        let longest = 2 * self.whole_time.as_micros() as u64;
        let wait = Duration::from_micros(match self.chance.below(4) {
            0 => self.chance.between(0, longest / 8),
            _ => self.chance.between(0, longest),
        });
        let closes = self.chance.one_in(2);
        let mut running = self.trial.program.serve(self.role, self.place)?;
        let process = running.process();
        let feeding = running.feed(pieces, closes);
        thread::sleep(wait);
        let ended = running.kill()?;
        drop(join(feeding)?);
        self.judge(course, process, &ended, falls)
            .map_err(|reason| format!("after {} microseconds: {reason}", wait.as_micros()))
    }

    fn judge(
        &mut self,
        course: &Course,
        process: u32,
        ended: &Ended,
        falls: &mut Falls,
    ) -> Tried<Found> {
        if ended.status.signal() != Some(SIGKILL) {
            return judge_ended(course, self.place, ended, falls);
        }
        check_quiet(ended)?;
        let printed = printed(course, ended)?;
        let state = self.place.get()?;
        let reached = reached(course, printed, &state)?;
        falls.kills += 1;
        if course.states[0] == course.last() {
            falls.unchanged += 1;
        } else if state == course.last() {
            falls.after += 1;
        } else if state == course.states[0] {
            falls.before += 1;
        } else {
            falls.between += 1;
        }
        if state != course.states[printed] {
            falls.unprinted += 1;
        }
        self.look(process, falls)?;
        Ok(Found { printed, reached })
    }

    /// What is left beside the state is the program's affair; the run that is not killed must have taken it away.
    fn look(&self, process: u32, falls: &mut Falls) -> Tried<()> {
        for name in self.place.names()? {
            falls.with_lock += usize::from(name == "state.lock");
            falls.with_new += usize::from(name == format!("state.{process}.new"));
        }
        Ok(())
    }
}

/// A run that had ended by itself must have come to its end in the right way.
fn judge_ended(course: &Course, place: &Place, ended: &Ended, falls: &mut Falls) -> Tried<Found> {
    if !ended.status.success() {
        return Err(format!("the program ended with {}", ended.status));
    }
    check_whole(course, place, ended)?;
    falls.ended += 1;
    Ok(Found {
        printed: course.lines.len(),
        reached: course.lines.len(),
    })
}

fn check_whole(course: &Course, place: &Place, ended: &Ended) -> Tried<()> {
    check_answers(&joined(&course.lines), &course.replies, &ended.answers)?;
    check_quiet(ended)?;
    place.check(course.last())
}

/// How many lines were answered; the last answer may be cut.
fn printed(course: &Course, ended: &Ended) -> Tried<usize> {
    let (lines, rest) = answer_lines(&ended.answers);
    check_prefix(&joined(&course.lines), &course.replies, &lines)?;
    let next = course.replies.get(lines.len());
    let next = next.map_or("", |reply| &reply.text);
    if !next.as_bytes().starts_with(rest) {
        return Err(format!(
            "the last answer was cut to `{}`, which does not begin: {next}",
            rest.escape_ascii()
        ));
    }
    Ok(lines.len())
}

/// Behind which line the state is the one in the file: none that was answered may be missing from it.
fn reached(course: &Course, printed: usize, state: &[u8]) -> Tried<usize> {
    let is_here = |known: &Vec<u8>| known == state;
    if let Some(more) = course.states[printed..].iter().position(is_here) {
        return Ok(printed + more);
    }
    match course.states[..printed].iter().rposition(is_here) {
        Some(earlier) => Err(format!(
            "{printed} answers were printed, and the state file is the one behind {earlier} lines"
        )),
        None => Err(format!(
            "the state file, {} bytes, is none that the lines lead to; {printed} answers were printed",
            state.len()
        )),
    }
}
