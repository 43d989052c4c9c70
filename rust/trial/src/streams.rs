//! Random lines of a small world: a few accounts, so that votes, repeats, confirmations and most refusals come up often.

use crate::desk::{record_place, Desk, Role, LIMIT};
use crate::messages;
use crate::spelling::{self, Word};
use chance::Chance;
use second::{Funding, Payment};

const ACCOUNTS: [u64; 5] = [0, 2, 7, 31, 63];
const HIGHEST_AMOUNT: u64 = 1_000_000_000;

/// Lines that fit what the second program makes of those before them.
pub fn random_lines(chance: &mut Chance, desk: &Desk, count: usize) -> Vec<Vec<u8>> {
    let mut desk = desk.clone();
    let mut sender = Sender::new(&desk);
    let mut lines = Vec::new();
    for _ in 0..count {
        let line = sender.line(chance, &desk);
        desk.answer(&line);
        lines.push(line);
    }
    lines
}

/// A line that changes the state, unless it is close to its limits.
pub fn changing_line(desk: &Desk) -> Vec<u8> {
    match desk.role {
        Role::Machine => {
            let message = messages::funding(Funding {
                index: desk.last_index() + 1,
                account: 2,
                amount: 10,
            });
            format!("funding {} 01", messages::hexadecimal(&message)).into_bytes()
        }
        Role::Ledger => b"fund 2 10".to_vec(),
    }
}

/// A line whose answer shows what that one did.
pub fn showing_line(role: Role) -> Vec<u8> {
    match role {
        Role::Machine => b"account 2".to_vec(),
        Role::Ledger => b"pot".to_vec(),
    }
}

/// A line feed behind each line.
pub fn joined(lines: &[Vec<u8>]) -> Vec<u8> {
    let mut input = Vec::new();
    for line in lines {
        input.extend_from_slice(line);
        input.push(b'\n');
    }
    input
}

/// A state close to all of its limits: no run from a fresh one comes there, and a state file may hold it.
pub fn late(role: Role, f: u64) -> Vec<u8> {
    let mut state = vec![0; role.state_length()];
    state[0] = f as u8;
    state[2..4].copy_from_slice(&65_475_u16.to_be_bytes());
    match role {
        Role::Machine => {
            put_record(&mut state, 0, 4_000, LIMIT - 2_000);
            put_record(&mut state, 2, 4_000, 2_000 - LIMIT);
            put_record(&mut state, 7, 4_096, 500_000);
            put_record(&mut state, 31, 4_094, LIMIT - 2_000);
        }
        Role::Ledger => {
            let pot = LIMIT as u64 - 2_000;
            state[4..12].copy_from_slice(&pot.to_be_bytes());
        }
    }
    state
}

/// Puts an account in use, with nothing pending.
fn put_record(state: &mut [u8], account: usize, next: u16, balance: i64) {
    let place = record_place(account);
    state[place] = 1;
    state[place + 2..place + 4].copy_from_slice(&next.to_be_bytes());
    state[place + 4..place + 12].copy_from_slice(&balance.to_be_bytes());
}

/// Remembers the bodies that it wrote, so that it can order them again and certify them.
struct Sender {
    f: u64,
    bodies: Vec<Vec<u8>>,
}

impl Sender {
    fn new(desk: &Desk) -> Sender {
        Sender {
            f: u64::from(desk.state[0]),
            bodies: Vec::new(),
        }
    }

    fn line(&mut self, chance: &mut Chance, desk: &Desk) -> Vec<u8> {
        if chance.one_in(12) {
            return spelling::nonsense(chance);
        }
        let line = match desk.role {
            Role::Machine => self.machine_line(chance, desk),
            Role::Ledger => self.ledger_line(chance, desk),
        };
        if chance.one_in(8) {
            return spelling::mangled(chance, &line);
        }
        line
    }

    fn machine_line(&mut self, chance: &mut Chance, desk: &Desk) -> Vec<u8> {
        match chance.below(20) {
            0..=2 => {
                let message = messages::funding(funding(chance, desk));
                let message = damaged(chance, message);
                let words = [Word::Bytes(message), Word::Bytes(single_verdict(chance))];
                spelling::line(chance, "funding", &words)
            }
            3..=9 => {
                let message = self.order(chance, desk);
                let words = [Word::Bytes(message), Word::Bytes(single_verdict(chance))];
                spelling::line(chance, "order", &words)
            }
            10..=15 => {
                let words = self.certificate(chance, desk);
                spelling::line(chance, "certificate", &words)
            }
            16..=17 => {
                let account = any_account(chance);
                spelling::line(chance, "account", &[Word::Number(account)])
            }
            _ => {
                let message = self.order(chance, desk);
                spelling::line(chance, "standing", &[Word::Bytes(message)])
            }
        }
    }

    fn ledger_line(&mut self, chance: &mut Chance, desk: &Desk) -> Vec<u8> {
        match chance.below(20) {
            0..=5 => {
                let words = [
                    Word::Number(any_account(chance)),
                    Word::Number(amount(chance)),
                ];
                spelling::line(chance, "fund", &words)
            }
            6..=14 => {
                let words = self.certificate(chance, desk);
                spelling::line(chance, "redeem", &words)
            }
            15..=16 => spelling::line(chance, "pot", &[]),
            _ => {
                let sequence = *chance.pick(&[0, 1, 2, 3, 4, 5, 4_095, 4_096]);
                let words = [Word::Number(any_account(chance)), Word::Number(sequence)];
                spelling::line(chance, "redeemed", &words)
            }
        }
    }

    fn order(&mut self, chance: &mut Chance, desk: &Desk) -> Vec<u8> {
        let body = self.body(chance, desk);
        let signature = chance.bytes(64);
        damaged(chance, messages::order(&body, &signature))
    }

    fn certificate(&mut self, chance: &mut Chance, desk: &Desk) -> [Word; 2] {
        let body = self.body(chance, desk);
        let machines = self.voters(chance);
        let mut verdicts = vec![1; machines.len()];
        match chance.below(24) {
            0 => verdicts.push(1),
            1 => drop(verdicts.pop()),
            2 if !verdicts.is_empty() => {
                let place = chance.below(verdicts.len());
                verdicts[place] = bad_verdict(chance);
            }
            _ => {}
        }
        let message = damaged(chance, messages::certificate(&body, &machines));
        [Word::Bytes(message), Word::Bytes(verdicts)]
    }

    /// A quorum or more, in rising order, most often.
    fn voters(&self, chance: &mut Chance) -> Vec<u8> {
        let last = 3 * self.f as u8;
        let quorum = 2 * self.f as usize + 1;
        let mut voters: Vec<u8> = (0..=last).collect();
        let count = quorum + chance.below(voters.len() - quorum + 1);
        while voters.len() > count {
            voters.remove(chance.below(voters.len()));
        }
        match chance.below(20) {
            0 => voters.truncate(quorum - 1),
            1 => voters.push(last),
            2 => voters.push(last + 1 + chance.byte() % 200),
            3 => voters.reverse(),
            _ => {}
        }
        voters
    }

    /// A body that was written lately, or a new one.
    fn body(&mut self, chance: &mut Chance, desk: &Desk) -> Vec<u8> {
        if !self.bodies.is_empty() && chance.one_in(2) {
            return chance.recent(&self.bodies).clone();
        }
        let length = *chance.pick(&[0, 0, 0, 1, 5, 32]);
        let body = messages::body(payment(chance, desk), &chance.bytes(length));
        self.bodies.push(body.clone());
        body
    }
}

/// Mostly one of the few; now and then any, some of them out of range.
fn any_account(chance: &mut Chance) -> u64 {
    if chance.one_in(8) {
        return chance.between(0, 80);
    }
    *chance.pick(&ACCOUNTS)
}

fn amount(chance: &mut Chance) -> u64 {
    match chance.below(20) {
        0 => *chance.pick(&[0, HIGHEST_AMOUNT, HIGHEST_AMOUNT + 1, 4_294_967_295]),
        _ => chance.between(1, 3_000),
    }
}

fn funding(chance: &mut Chance, desk: &Desk) -> Funding {
    let last = desk.last_index();
    let index = match chance.below(8) {
        0 => *chance.pick(&[last, last + 2, 0, 1, 65_535]),
        _ => last + 1,
    };
    Funding {
        index,
        account: any_account(chance),
        amount: amount(chance),
    }
}

/// A payment that the sender's record would bear, most often.
fn payment(chance: &mut Chance, desk: &Desk) -> Payment {
    let sender = any_account(chance);
    let (next, free) = standing_of(chance, desk, sender);
    let sequence = match chance.below(12) {
        0 => next + 1,
        1 => next.saturating_sub(1),
        _ => next,
    };
    let amount = match chance.below(12) {
        0 if free < HIGHEST_AMOUNT => free,
        1 if free < HIGHEST_AMOUNT => free + 1 + chance.between(0, 30),
        2..=9 if free > 0 => chance.between(1, (free / 4 + 1).min(3_000)),
        _ => amount(chance),
    };
    let to_ledger = match desk.role {
        Role::Machine => chance.one_in(3),
        Role::Ledger => !chance.one_in(10),
    };
    let kind = match chance.below(40) {
        0 => 2,
        _ => u64::from(to_ledger),
    };
    let recipient = match kind {
        0 => any_account(chance),
        _ => chance.between(0, 65_535),
    };
    Payment {
        sender,
        kind,
        recipient,
        amount,
        sequence,
    }
}

/// The sender's next sequence and what is free to spend. The ledger knows of neither: there any low sequence will do, and the pot.
fn standing_of(chance: &mut Chance, desk: &Desk, sender: u64) -> (u64, u64) {
    match desk.role {
        Role::Machine => second::read_account(&desk.state, sender)
            .map_or((0, 0), |reading| (reading.next, reading.free)),
        Role::Ledger => {
            let pot = second::read_pot(&desk.state).map_or(0, |pot| pot.amount);
            (chance.between(0, 40), pot)
        }
    }
}

fn single_verdict(chance: &mut Chance) -> Vec<u8> {
    match chance.below(24) {
        0 => Vec::new(),
        1 => vec![1, 1],
        2 => vec![bad_verdict(chance)],
        _ => vec![1],
    }
}

fn bad_verdict(chance: &mut Chance) -> u8 {
    *chance.pick(&[0, 2, 3, 49, 128, 255])
}

/// Now and then with one change: a byte, the end cut off or more behind it.
fn damaged(chance: &mut Chance, mut message: Vec<u8>) -> Vec<u8> {
    let place = chance.below(message.len());
    match chance.below(40) {
        0 => message[place] = chance.byte(),
        1 => message[place] ^= 1 << chance.below(8),
        2 => message.truncate(place),
        3 => {
            let length = 1 + chance.below(80);
            message.extend(chance.bytes(length));
        }
        _ => {}
    }
    message
}
