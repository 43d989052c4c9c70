//! Calls without a plan: random bytes, messages of random values, damaged ones, and states that drift from valid ones.

use crate::answers::{Funding, Payment};
use crate::calls::Compare;
use crate::damage::written_again;
use crate::laid::{
    self, HIGHEST_ACCOUNT, HIGHEST_AMOUNT, HIGHEST_INDEX, HIGHEST_SEQUENCE, LEDGER_STATE,
    MACHINE_STATE,
};
use crate::pair::Pair;
use crate::scenes;
use chance::Chance;

const ROUNDS: usize = 300;

pub fn run(compare: &mut Compare, chance: &mut Chance) {
    for _ in 0..ROUNDS {
        one_round(compare, chance);
    }
}

/// One machine and one ledger, made valid and then perhaps changed, for a hundred calls.
pub fn one_round(compare: &mut Compare, chance: &mut Chance) {
    let scenes = scenes::all(&scenes::NOTE);
    let machine = &chance.pick(&scenes).machine;
    let mut machine = Pair::of(&changed(machine, 160, MACHINE_STATE, chance), chance);
    let ledger = laid::ledger(1, chance.between(0, HIGHEST_INDEX), chance.near(5_000));
    let mut ledger = Pair::of(&changed(&ledger, 16, LEDGER_STATE, chance), chance);
    for _ in 0..100 {
        let message = message(chance);
        let verdicts = verdicts(chance);
        match chance.below(12) {
            0..=1 => drop(compare.order(&mut machine, &message, &verdicts)),
            2..=4 => drop(compare.certificate(&mut machine, &message, &verdicts)),
            5 => drop(compare.funding_order(&mut machine, &message, &verdicts)),
            6 => drop(compare.redeem(&mut ledger, &message, &verdicts)),
            7 => drop(compare.standing_body(&message, &mut machine)),
            8 => readers(compare, chance, &message, &verdicts),
            9 => writers(compare, chance, &message),
            _ => states(compare, chance, &mut machine, &mut ledger),
        }
    }
}

/// In half of the rounds a valid state; otherwise with some bytes changed, mostly among the first ones, or nearly all, or of
/// another length.
fn changed(state: &[u8], first: usize, length: usize, chance: &mut Chance) -> Vec<u8> {
    let mut state = state.to_vec();
    match chance.below(10) {
        0..=4 => {}
        5 => state.resize(length + chance.below(5) - 2, 0),
        6 => {
            let place = chance.below(length);
            state[place] = chance.byte();
        }
        7 => {
            let kept = chance.below(first);
            state.truncate(kept);
            state.extend(chance.bytes(length - kept));
        }
        _ => {
            for _ in 0..=chance.below(3) {
                let place = chance.below(first);
                state[place] = chance.byte();
            }
        }
    }
    state
}

fn payment(chance: &mut Chance) -> Payment {
    if chance.one_in(2) {
        let sequence = *chance.pick(&[0, 0, 0, 1, 2, 3, 4_095]);
        let amount = *chance.pick(&[1, 2, 1_500, HIGHEST_AMOUNT]);
        return Payment {
            sender: *chance.pick(&[2, 7]),
            kind: chance.between(0, 1),
            recipient: *chance.pick(&[2, 7, 63]),
            amount,
            sequence,
        };
    }
    Payment {
        sender: chance.near(HIGHEST_ACCOUNT),
        kind: chance.near(1),
        recipient: chance.near(HIGHEST_ACCOUNT),
        amount: chance.near(HIGHEST_AMOUNT),
        sequence: chance.near(HIGHEST_SEQUENCE),
    }
}

fn note(chance: &mut Chance) -> Vec<u8> {
    let length = *chance.pick(&[0, 0, 1, 2, 31, 32, 33, 70]);
    chance.bytes(length)
}

fn voters(chance: &mut Chance) -> Vec<u8> {
    let set = chance.number();
    let mut voters: Vec<u8> = (0..4).filter(|own| set >> own & 1 == 1).collect();
    if chance.one_in(3) {
        voters = vec![0, 1, 2];
    }
    if chance.one_in(4) {
        voters.push(chance.byte() % 20);
    }
    voters
}

fn funding(chance: &mut Chance) -> Funding {
    Funding {
        index: *chance.pick(&[0, 1, 8, 9, 10, 11, 12, 65_535]),
        account: chance.near(HIGHEST_ACCOUNT),
        amount: chance.near(HIGHEST_AMOUNT),
    }
}

fn message(chance: &mut Chance) -> Vec<u8> {
    if chance.one_in(12) {
        let length = chance.below(1_300);
        return chance.bytes(length);
    }
    let body = laid::body(payment(chance), &note(chance));
    let message = match chance.below(9) {
        0 => body,
        1..=3 => laid::order(&body),
        4 => laid::funding_order(funding(chance)),
        _ => laid::certificate(&body, &voters(chance)),
    };
    if chance.one_in(3) {
        return damaged(&message, chance);
    }
    message
}

/// One to three changes: a byte, a bit, a part cut out, doubled or put in, an end cut off or lengthened.
pub fn damaged(message: &[u8], chance: &mut Chance) -> Vec<u8> {
    let mut message = message.to_vec();
    for _ in 0..=chance.below(3) {
        if message.is_empty() {
            return message;
        }
        let place = chance.below(message.len());
        let end = (place + chance.below(70)).min(message.len());
        match chance.below(8) {
            0..=1 => message[place] = chance.byte(),
            2 => message[place] ^= 1 << chance.below(8),
            3 => message.insert(place, chance.byte()),
            4 => drop(message.drain(place..end)),
            5 => message = [&message[..end], &message[place..]].concat(),
            6 => message.truncate(place),
            _ => {
                let length = chance.below(80);
                message.extend(chance.bytes(length));
            }
        }
    }
    message
}

fn verdicts(chance: &mut Chance) -> Vec<u8> {
    let mut verdicts = vec![1; *chance.pick(&[0, 1, 1, 1, 2, 3, 3, 3, 3, 4, 5])];
    if !verdicts.is_empty() && chance.one_in(6) {
        let place = chance.below(verdicts.len());
        verdicts[place] = chance.bad_verdict();
    }
    verdicts
}

fn readers(compare: &mut Compare, chance: &mut Chance, message: &[u8], verdicts: &[u8]) {
    written_again(compare, message);
    let f = chance.near(5);
    compare.read_certificate(f, message).ok();
    compare.judge_certificate(f, message, verdicts).ok();
    compare.judge_certificate(1, message, verdicts).ok();
}

fn writers(compare: &mut Compare, chance: &mut Chance, message: &[u8]) {
    let room = chance.below(160);
    let payment = payment(chance);
    let note = note(chance);
    compare.write_body(room, payment, &note).ok();
    let signature = vec![3; *chance.pick(&[64, 64, 64, 63, 65, 0])];
    compare.write_order(room, payment, &note, &signature).ok();
    let funding = funding(chance);
    compare.write_funding_order(room % 24, funding).ok();
    let run = laid::run_of_votes(&voters(chance));
    let body = laid::body(payment, &note);
    let f = chance.near(2);
    compare.write_certificate(f, 4 * room, &body, &run).ok();
    compare.write_certificate(1, 4 * room, message, &run).ok();
}

fn states(compare: &mut Compare, chance: &mut Chance, machine: &mut Pair, ledger: &mut Pair) {
    let account = chance.near(HIGHEST_ACCOUNT);
    match chance.below(6) {
        0 => drop(compare.read_account(machine, account)),
        1 => drop(compare.read_account(machine, 2)),
        2 => {
            let sequence = chance.near(HIGHEST_SEQUENCE);
            compare.is_redeemed(ledger, account, sequence).ok();
        }
        3 => drop(compare.read_pot(ledger)),
        4 => {
            let (room, amount) = (chance.below(24), chance.near(HIGHEST_AMOUNT));
            compare.fund(ledger, room, account, amount).ok();
        }
        _ if chance.one_in(20) => {
            let (f, own) = (chance.near(5), chance.near(15));
            compare.fresh_machine(machine, f, own).ok();
            compare.fresh_ledger(ledger, f).ok();
        }
        _ => {}
    }
}
