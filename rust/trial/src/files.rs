//! State files that are none. What the program refuses it must leave alone, byte for byte and with nothing beside it.

use crate::desk::{record_place, Desk, Role, LIMIT, MACHINE_HEADER_LENGTH, RECORD_LENGTH, ROLES};
use crate::fresh;
use crate::messages;
use crate::place::Place;
use crate::program::{whole, Ended};
use crate::streams::random_lines;
use crate::trial::{check_answers, check_stopped, side_by_side, Trial, Tried};
use chance::Chance;
use second::Payment;
use std::sync::atomic::{AtomicBool, Ordering};

/// The account whose record is changed by hand: it has a body pending.
const ACCOUNT: usize = 5;
const RECORD: usize = record_place(ACCOUNT);
const WORKERS: usize = 4;
const LIVED_IN: usize = 12;
const SAMPLES: usize = 100;

pub fn run(trial: &Trial) -> Tried<String> {
    let place = Place::new(&trial.folder, "fresh")?;
    let made = fresh::make_all(trial, &place)?;
    fresh::miss_all(trial, &place)?;
    fresh::name_shortly(trial)?;
    let (mut judged, mut served) = (0, 0);
    for counts in side_by_side(WORKERS, |worker, stop| work(trial, worker, stop))? {
        judged += counts.0;
        served += counts.1;
    }
    Ok(format!(
        "{made} fresh states wanted; {judged} files judged, {served} served, {} refused and left alone",
        judged - served
    ))
}

/// Every worker goes through all files and takes its share of them. Answers how many it judged, and how many of these were served.
fn work(trial: &Trial, worker: usize, stop: &AtomicBool) -> Tried<(usize, usize)> {
    let mut files = Files {
        trial,
        place: Place::new(&trial.folder, &format!("files-{worker}"))?,
        worker,
        stop,
        number: 0,
        judged: 0,
        served: 0,
    };
    for role in ROLES {
        files.lengths(role)?;
        files.headers(role)?;
    }
    files.machine_headers()?;
    files.ledger_headers()?;
    files.records()?;
    files.record_bytes()?;
    for number in 0..LIVED_IN {
        files
            .lived_in(number)
            .map_err(|reason| format!("run {number}: {reason}"))?;
    }
    Ok((files.judged, files.served))
}

struct Files<'a> {
    trial: &'a Trial,
    place: Place,
    worker: usize,
    stop: &'a AtomicBool,
    number: usize,
    judged: usize,
    served: usize,
}

/// A change by hand: which bytes are put where, and whether that is still a state.
struct Change {
    what: &'static str,
    at: usize,
    bytes: Vec<u8>,
    is_formed: bool,
}

fn good(what: &'static str, at: usize, bytes: impl Into<Vec<u8>>) -> Change {
    Change {
        what,
        at,
        bytes: bytes.into(),
        is_formed: true,
    }
}

fn bad(what: &'static str, at: usize, bytes: impl Into<Vec<u8>>) -> Change {
    Change {
        is_formed: false,
        ..good(what, at, bytes)
    }
}

/// Lines that change no state.
fn question(role: Role) -> &'static [u8] {
    match role {
        Role::Machine => b"account 5\naccount 0\n",
        Role::Ledger => b"pot\nredeemed 3 9\n",
    }
}

fn fresh_state(role: Role, f: u64, own: u64) -> Tried<Vec<u8>> {
    match Desk::fresh(role, f, own) {
        Ok(desk) => Ok(desk.state),
        Err(number) => Err(format!(
            "the second program refuses a fresh state: {number}"
        )),
    }
}

impl Files<'_> {
    /// Counts a file; false where it is for another worker.
    fn is_mine(&mut self) -> bool {
        self.number += 1;
        self.number % WORKERS == self.worker && !self.stop.load(Ordering::Relaxed)
    }

    fn start(&mut self, role: Role, bytes: &[u8]) -> Tried<Ended> {
        self.judged += 1;
        self.place.put(bytes)?;
        let input = whole(question(role));
        let ended = self.trial.program.run(role, &self.place, input)?;
        self.place.check(bytes)?;
        Ok(ended)
    }

    fn refuses(&mut self, role: Role, bytes: &[u8]) -> Tried<()> {
        if !self.is_mine() {
            return Ok(());
        }
        check_stopped(&self.start(role, bytes)?, "refused 16")
    }

    fn serves(&mut self, role: Role, bytes: &[u8]) -> Tried<()> {
        if !self.is_mine() {
            return Ok(());
        }
        self.served += 1;
        let ended = self.start(role, bytes)?;
        let mut desk = Desk {
            role,
            state: bytes.to_vec(),
        };
        let replies = desk.answer_input(question(role));
        check_answers(question(role), &replies, &ended.answers)
    }

    /// Served exactly if the second program finds every part of it well formed.
    fn judge(&mut self, role: Role, bytes: &[u8]) -> Tried<()> {
        let desk = Desk {
            role,
            state: bytes.to_vec(),
        };
        if desk.is_formed() {
            return self.serves(role, bytes);
        }
        self.refuses(role, bytes)
    }

    /// As the change says, without the second program.
    fn try_changes(&mut self, role: Role, state: &[u8], changes: Vec<Change>) -> Tried<()> {
        for change in changes {
            let mut bytes = state.to_vec();
            bytes[change.at..change.at + change.bytes.len()].copy_from_slice(&change.bytes);
            let outcome = if change.is_formed {
                self.serves(role, &bytes)
            } else {
                self.refuses(role, &bytes)
            };
            outcome.map_err(|reason| format!("{}, {}: {reason}", role.name(), change.what))?;
        }
        Ok(())
    }

    /// Files of another length, that of the other role among them.
    fn lengths(&mut self, role: Role) -> Tried<()> {
        let state = fresh_state(role, 1, 0)?;
        let whole = state.len();
        for length in [
            0,
            1,
            16,
            4_616,
            32_784,
            whole - 1,
            whole + 1,
            65_536,
            1_000_000,
        ] {
            let mut bytes = state.clone();
            bytes.resize(length, 0);
            let outcome = if length == whole {
                self.serves(role, &bytes)
            } else {
                self.refuses(role, &bytes)
            };
            outcome.map_err(|reason| format!("{} of {length} bytes: {reason}", role.name()))?;
        }
        Ok(())
    }

    /// Every change of one byte of a header.
    fn headers(&mut self, role: Role) -> Tried<()> {
        let length = match role {
            Role::Machine => MACHINE_HEADER_LENGTH,
            Role::Ledger => 16,
        };
        let state = fresh_state(role, 1, 2)?;
        for at in 0..length {
            for value in 0..=255 {
                let mut bytes = state.clone();
                bytes[at] = value;
                self.judge(role, &bytes)
                    .map_err(|reason| format!("{}: byte {at} is {value}: {reason}", role.name()))?;
            }
        }
        Ok(())
    }

    fn machine_headers(&mut self) -> Tried<()> {
        let changes = vec![
            good("f 5 and own number 15", 0, [5, 15]),
            good("f 0 and own number 0", 0, [0, 0]),
            bad("f 6", 0, [6]),
            bad("own number above 3f", 1, [4]),
            bad("own number above 3f, which is 0", 0, [0, 1]),
            good("last index 65,535", 2, [255, 255]),
            bad("byte 4", 4, [1]),
            bad("byte 7", 7, [128]),
        ];
        let state = fresh_state(Role::Machine, 1, 3)?;
        self.try_changes(Role::Machine, &state, changes)
    }

    fn ledger_headers(&mut self) -> Tried<()> {
        let most = LIMIT as u64;
        let changes = vec![
            good("f 5", 0, [5]),
            bad("f 6", 0, [6]),
            bad("byte 1", 1, [1]),
            good("the highest pot", 4, most.to_be_bytes()),
            bad("a pot above it", 4, (most + 1).to_be_bytes()),
            bad("a pot with its highest bit", 4, [128]),
            bad("byte 12", 12, [1]),
            bad("byte 15", 15, [1]),
            good("a log that is full", 16, [255; 512]),
            good("the last bit of the last log", 32_783, [128]),
        ];
        let state = fresh_state(Role::Ledger, 1, 0)?;
        self.try_changes(Role::Ledger, &state, changes)
    }

    fn records(&mut self) -> Tried<()> {
        let state = with_record()?;
        for changes in [record_numbers(), records_out_of_use(), pending_bodies()] {
            self.try_changes(Role::Machine, &state, changes)?;
        }
        Ok(())
    }

    /// Changes of every byte of a record with a pending body.
    fn record_bytes(&mut self) -> Tried<()> {
        let state = with_record()?;
        for at in RECORD..RECORD + RECORD_LENGTH {
            let old = state[at];
            for value in [0, 1, old.wrapping_add(1), old.wrapping_sub(1), 255] {
                let mut bytes = state.clone();
                bytes[at] = value;
                self.judge(Role::Machine, &bytes)
                    .map_err(|reason| format!("byte {at} is {value}: {reason}"))?;
            }
        }
        Ok(())
    }

    /// Changes of one to three bytes in a state that many lines have gone over.
    fn lived_in(&mut self, number: usize) -> Tried<()> {
        let mut chance = self.trial.chance("files", number);
        let role = match number % 6 {
            5 => Role::Ledger,
            _ => Role::Machine,
        };
        let mut desk = Desk {
            role,
            state: fresh_state(role, chance.between(0, 5), 0)?,
        };
        for line in random_lines(&mut chance, &desk, 400) {
            desk.answer(&line);
        }
        for sample in 0..SAMPLES {
            let bytes = changed(&mut chance, &desk.state);
            self.judge(role, &bytes)
                .map_err(|reason| format!("sample {sample}, {}: {reason}", role.name()))?;
        }
        Ok(())
    }
}

fn body(sender: u64, sequence: u64, amount: u64, note: &[u8]) -> Vec<u8> {
    let payment = Payment {
        sender,
        kind: 0,
        recipient: 7,
        amount,
        sequence,
    };
    messages::body(payment, note)
}

/// A record in use.
fn record(next: u16, balance: i64, pending: &[u8]) -> Vec<u8> {
    let mut record = vec![1, pending.len() as u8];
    record.extend_from_slice(&next.to_be_bytes());
    record.extend_from_slice(&balance.to_be_bytes());
    record.extend_from_slice(pending);
    record.resize(RECORD_LENGTH, 0);
    record
}

/// A fresh state, but for one record with the longest body pending.
fn with_record() -> Tried<Vec<u8>> {
    let mut state = fresh_state(Role::Machine, 1, 3)?;
    let pending = body(ACCOUNT as u64, 9, 20, &[3; 32]);
    state[RECORD..RECORD + RECORD_LENGTH].copy_from_slice(&record(9, 7, &pending));
    Ok(state)
}

fn record_numbers() -> Vec<Change> {
    vec![
        good("the highest next", RECORD, record(4_096, 0, &[])),
        good("the highest balance", RECORD, record(0, LIMIT, &[])),
        good("the lowest balance", RECORD, record(0, -LIMIT, &[])),
        bad("next 4,097", RECORD, record(4_097, 0, &[])),
        bad("too high a balance", RECORD, record(0, LIMIT + 1, &[])),
        bad("too low a balance", RECORD, record(0, -LIMIT - 1, &[])),
        bad("the lowest number", RECORD, record(0, i64::MIN, &[])),
    ]
}

/// Records that are neither in use nor out of use, and some out of use that are not empty.
fn records_out_of_use() -> Vec<Change> {
    let next = RECORD + RECORD_LENGTH;
    vec![
        bad("in use 2", RECORD, [2]),
        bad("in use 255", RECORD, [255]),
        bad("out of use with a record", RECORD, [0]),
        bad("out of use with a pending length", next + 1, [25]),
        bad("out of use with a next", next + 3, [1]),
        bad("out of use with a balance", next + 11, [1]),
        bad("out of use with a last byte", next + 71, [1]),
        bad("the last record", record_place(63), [2]),
    ]
}

fn pending_bodies() -> Vec<Change> {
    let own = ACCOUNT as u64;
    let long = body(own, 9, 20, &[3; 32]);
    let short = body(own, 9, 20, &[]);
    let behind = [&record(9, 7, &short)[..40], &[1]].concat();
    let earlier = body(own, 8, 20, &[]);
    vec![
        good("a body with a note", RECORD, record(9, -5, &long)),
        good("a body without one", RECORD, record(9, 7, &short)),
        bad("pending length 58", RECORD + 1, [58]),
        bad("pending length 255", RECORD + 1, [255]),
        bad("pending length 0 with a body", RECORD + 1, [0]),
        bad("pending length one less", RECORD + 1, [56]),
        bad("the first of the last three", RECORD + 69, [1]),
        bad("the last of the last three", RECORD + 71, [1]),
        bad("a byte behind a short body", RECORD, behind),
        bad("another sender", RECORD, record(9, 7, &body(6, 9, 20, &[]))),
        bad("another sequence", RECORD, record(9, 7, &earlier)),
        bad("amount 0", RECORD, record(9, 7, &body(own, 9, 0, &[]))),
        bad("a body of 24 bytes", RECORD, record(9, 7, &short[..24])),
        bad("a wrong tag in the body", RECORD + 12 + 4, [9]),
    ]
}

fn changed(chance: &mut Chance, state: &[u8]) -> Vec<u8> {
    let mut state = state.to_vec();
    for _ in 0..=chance.below(3) {
        let account = *chance.pick(&[0, 2, 7, 31, 63, 40]);
        let at = match chance.below(4) {
            0 => chance.below(state.len()),
            1 => record_place(account) + chance.below(RECORD_LENGTH),
            _ => record_place(account) + chance.below(16),
        };
        state[at] = match chance.below(4) {
            0 => chance.byte(),
            1 => chance.byte() % 4,
            2 => state[at].wrapping_add(1),
            _ => state[at] ^ (1 << chance.below(8)),
        };
    }
    state
}
