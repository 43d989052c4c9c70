//! Runs of the program: started, fed, listened to, and waited for or killed.

use crate::desk::Role;
use crate::place::Place;
use crate::trial::Tried;
use chance::Chance;
use std::ffi::OsStr;
use std::fs::File;
use std::io::{Read, Write};
use std::path::PathBuf;
use std::process::{Child, ChildStdin, Command, ExitStatus, Stdio};
use std::sync::mpsc::{self, Receiver, RecvTimeoutError};
use std::thread::{self, JoinHandle};
use std::time::{Duration, Instant};

/// No run takes so long, even where others use the processors too.
const PATIENCE: Duration = Duration::from_secs(60);

pub struct Program {
    pub path: PathBuf,
}

/// What a run printed until it ended, and how it ended.
pub struct Ended {
    pub answers: Vec<u8>,
    pub complaints: String,
    pub status: ExitStatus,
}

pub struct Running {
    child: Child,
    input: Option<ChildStdin>,
    answers: Receiver<Vec<u8>>,
    complaints: Receiver<Vec<u8>>,
    printed: Vec<u8>,
    /// How much of what was printed `next_answer` has given.
    taken: usize,
}

/// A part of an input, and how long to wait behind it.
pub struct Piece {
    pub bytes: Vec<u8>,
    pub pause: Duration,
}

/// All at once.
pub fn whole(input: &[u8]) -> Vec<Piece> {
    vec![Piece {
        bytes: input.to_vec(),
        pause: Duration::ZERO,
    }]
}

/// In pieces of random lengths, cut anywhere, with a pause behind some.
pub fn in_pieces(chance: &mut Chance, input: &[u8]) -> Vec<Piece> {
    let longest = *chance.pick(&[60, 700, 5_000, 60_000]);
    let mut pieces = Vec::new();
    let mut rest = input;
    while !rest.is_empty() {
        let (bytes, behind) = rest.split_at((1 + chance.below(longest)).min(rest.len()));
        let mut pause = Duration::ZERO;
        if pieces.len() < 200 && chance.one_in(6) {
            pause = Duration::from_micros(chance.between(50, 1_000));
        }
        pieces.push(Piece {
            bytes: bytes.to_vec(),
            pause,
        });
        rest = behind;
    }
    pieces
}

impl Program {
    /// Starts it on a state, its input open.
    pub fn serve(&self, role: Role, place: &Place) -> Tried<Running> {
        self.start(
            &[OsStr::new(role.name()), place.state.as_os_str()],
            Stdio::piped(),
            Stdio::piped(),
        )
    }

    /// Runs it on a state until it ends.
    pub fn run(&self, role: Role, place: &Place, pieces: Vec<Piece>) -> Tried<Ended> {
        let mut running = self.serve(role, place)?;
        let feeding = running.feed(pieces, true);
        let ended = running.finish();
        join(feeding)?;
        ended
    }

    /// Runs it on a state with a file as its input.
    pub fn run_file(&self, role: Role, place: &Place, input: File) -> Tried<Ended> {
        let words = [OsStr::new(role.name()), place.state.as_os_str()];
        self.start(&words, Stdio::from(input), Stdio::piped())?
            .finish()
    }

    /// Runs it with any arguments and no input.
    pub fn run_words(&self, words: &[&OsStr]) -> Tried<Ended> {
        self.start(words, Stdio::null(), Stdio::piped())?.finish()
    }

    pub fn start(&self, words: &[&OsStr], input: Stdio, output: Stdio) -> Tried<Running> {
        let mut child = Command::new(&self.path)
            .args(words)
            .stdin(input)
            .stdout(output)
            .stderr(Stdio::piped())
            .spawn()
            .map_err(|error| format!("{} cannot be started: {error}", self.path.display()))?;
        Ok(Running {
            input: child.stdin.take(),
            answers: listen(child.stdout.take()),
            complaints: listen(child.stderr.take()),
            child,
            printed: Vec::new(),
            taken: 0,
        })
    }
}

/// Hands on what is printed as it comes, so that the program never waits for its reader.
fn listen(from: Option<impl Read + Send + 'static>) -> Receiver<Vec<u8>> {
    let (sender, receiver) = mpsc::channel();
    if let Some(mut from) = from {
        thread::spawn(move || {
            let mut space = vec![0; 65_536];
            while let Ok(length) = from.read(&mut space) {
                if length == 0 || sender.send(space[..length].to_vec()).is_err() {
                    return;
                }
            }
        });
    }
    receiver
}

/// The end of a thread that feeds.
pub fn join<T>(feeding: JoinHandle<T>) -> Tried<T> {
    feeding
        .join()
        .map_err(|_| "the thread that feeds panicked".to_string())
}

impl Running {
    pub fn process(&self) -> u32 {
        self.child.id()
    }

    pub fn has_ended(&mut self) -> Tried<bool> {
        let status = self.child.try_wait();
        let status = status.map_err(|error| format!("the program cannot be awaited: {error}"))?;
        Ok(status.is_some())
    }

    /// Feeds from a thread, which ends where the program takes no more. It hands the input back unless it is to close it.
    pub fn feed(&mut self, pieces: Vec<Piece>, closes: bool) -> JoinHandle<Option<ChildStdin>> {
        let input = self.input.take();
        thread::spawn(move || {
            let mut input = input?;
            for piece in pieces {
                if input.write_all(&piece.bytes).is_err() {
                    break;
                }
                if !piece.pause.is_zero() {
                    thread::sleep(piece.pause);
                }
            }
            (!closes).then_some(input)
        })
    }

    /// Writes a line. One that has ended is found out by its answer.
    pub fn say(&mut self, line: &[u8]) {
        if let Some(input) = &mut self.input {
            let _ = input.write_all(&[line, b"\n"].concat());
        }
    }

    /// Waits for one line.
    pub fn next_answer(&mut self) -> Tried<String> {
        loop {
            let rest = &self.printed[self.taken..];
            if let Some(end) = rest.iter().position(|byte| *byte == b'\n') {
                self.taken += end + 1;
                return Ok(String::from_utf8_lossy(&rest[..end]).into_owned());
            }
            match self.answers.recv_timeout(PATIENCE) {
                Ok(bytes) => self.printed.extend(bytes),
                Err(RecvTimeoutError::Timeout) => return Err(self.impatient("answer")),
                Err(RecvTimeoutError::Disconnected) => {
                    let complaints = drain(&self.complaints, Instant::now() + PATIENCE);
                    let complaints = complaints.unwrap_or_default();
                    return Err(format!(
                        "the program ended where an answer was due; it complained: {}",
                        String::from_utf8_lossy(&complaints)
                    ));
                }
            }
        }
    }

    /// Closes the input, if that was not done, and waits for the end. Answers that were given before are left out.
    pub fn finish(mut self) -> Tried<Ended> {
        drop(self.input.take());
        let deadline = Instant::now() + PATIENCE;
        let Some(answers) = drain(&self.answers, deadline) else {
            return Err(self.impatient("end"));
        };
        let Some(complaints) = drain(&self.complaints, deadline) else {
            return Err(self.impatient("end"));
        };
        let status = self.child.wait();
        let status = status.map_err(|error| format!("the program cannot be awaited: {error}"))?;
        let complaints = String::from_utf8_lossy(&complaints).into_owned();
        if !status.success() {
            return Err(format!(
                "the program ended with {status}; it complained: {complaints}"
            ));
        }
        self.printed.extend(answers);
        Ok(Ended {
            answers: self.printed.split_off(self.taken),
            complaints,
            status,
        })
    }

    /// Ends it by SIGKILL, and gives what it had printed. The status tells whether it had ended by itself before.
    pub fn kill(mut self) -> Tried<Ended> {
        self.child
            .kill()
            .map_err(|error| format!("the program cannot be killed: {error}"))?;
        let status = self.child.wait();
        let status = status.map_err(|error| format!("the program cannot be awaited: {error}"))?;
        let deadline = Instant::now() + PATIENCE;
        let (Some(answers), Some(complaints)) = (
            drain(&self.answers, deadline),
            drain(&self.complaints, deadline),
        ) else {
            return Err("what a killed program had printed has no end".to_string());
        };
        self.printed.extend(answers);
        Ok(Ended {
            answers: self.printed,
            complaints: String::from_utf8_lossy(&complaints).into_owned(),
            status,
        })
    }

    fn impatient(&mut self, what: &str) -> String {
        // It may have ended by now, which is as well.
        let _ = self.child.kill();
        let _ = self.child.wait();
        format!("no {what} within {} seconds", PATIENCE.as_secs())
    }
}

/// All that comes until the end, or nothing where that does not come in time.
fn drain(from: &Receiver<Vec<u8>>, deadline: Instant) -> Option<Vec<u8>> {
    let mut all = Vec::new();
    loop {
        let left = deadline.saturating_duration_since(Instant::now());
        match from.recv_timeout(left) {
            Ok(bytes) => all.extend(bytes),
            Err(RecvTimeoutError::Disconnected) => return Some(all),
            Err(RecvTimeoutError::Timeout) => return None,
        }
    }
}
