//! Every number that is an argument at its boundaries, and everything lent at the lengths around the right ones.

use crate::answers::{Funding, Payment};
use crate::calls::Compare;
use crate::laid::{
    self, HIGHEST_ACCOUNT, HIGHEST_AMOUNT, HIGHEST_INDEX, HIGHEST_SEQUENCE, LEDGER_STATE,
    MACHINE_STATE,
};
use crate::pair::Pair;
use crate::scenes::{NOTE, PAYMENT, TO_LEDGER};
use chance::Chance;

const NOTHING: Payment = Payment {
    amount: 0,
    ..PAYMENT
};

/// The ends of a range and of every type, and what looks like a good number once its upper bits are lost.
fn telling(highest: u64) -> Vec<u64> {
    let mut numbers = vec![0, 1, 2, u64::MAX, u64::MAX - 1, 1 << 63, (1 << 63) - 1];
    for limit in [highest, 255, 65_535, u64::from(u32::MAX)] {
        numbers.extend([limit.wrapping_sub(1), limit, limit + 1, limit + 2]);
    }
    for width in [8, 16, 32, 63] {
        numbers.extend([(1 << width) + highest, (1 << width) + 1]);
    }
    numbers.sort();
    numbers.dedup();
    numbers
}

/// A few of them, where every combination is tried.
fn ends(highest: u64) -> [u64; 6] {
    [0, 1, highest, highest + 1, (1 << 32) + highest, u64::MAX]
}

pub fn run(compare: &mut Compare, chance: &mut Chance) {
    fresh_states(compare, chance);
    account_arguments(compare, chance);
    fund_arguments(compare, chance);
    writer_arguments(compare);
    note_lengths(compare);
    room_lengths(compare);
    committee_arguments(compare);
}

fn fresh_states(compare: &mut Compare, chance: &mut Chance) {
    let mut machine = Pair::of(&chance.bytes(MACHINE_STATE), chance);
    let mut ledger = Pair::of(&chance.bytes(LEDGER_STATE), chance);
    for f in telling(5) {
        for own in telling(f.min(5) * 3) {
            let before = chance.bytes(MACHINE_STATE);
            machine.restore(&before);
            compare.fresh_machine(&mut machine, f, own).ok();
        }
        let before = chance.bytes(LEDGER_STATE);
        ledger.restore(&before);
        compare.fresh_ledger(&mut ledger, f).ok();
    }
}

fn account_arguments(compare: &mut Compare, chance: &mut Chance) {
    let mut machine = laid::machine(1, 0, 3);
    laid::put_record(&mut machine, 0, 1, -5, &[]);
    laid::put_record(&mut machine, HIGHEST_ACCOUNT, 4_096, 5, &[]);
    let mut state = Pair::of(&machine, chance);
    let mut logs = laid::ledger(1, 3, 5);
    for (account, sequence) in [(0, 0), (0, 4_095), (63, 7), (63, 4_095), (5, 8)] {
        logs[laid::log_place(account, sequence)] = laid::log_bit(sequence);
    }
    let mut ledger = Pair::of(&logs, chance);
    for account in (0..80).chain(telling(HIGHEST_ACCOUNT)) {
        compare.read_account(&mut state, account).ok();
        for sequence in (0..20).chain(telling(HIGHEST_SEQUENCE)) {
            compare.is_redeemed(&mut ledger, account, sequence).ok();
        }
    }
    compare.read_pot(&mut ledger).ok();
}

fn fund_arguments(compare: &mut Compare, chance: &mut Chance) {
    let before = laid::ledger(2, 77, 1_000);
    let mut state = Pair::of(&before, chance);
    for account in telling(HIGHEST_ACCOUNT) {
        for amount in telling(HIGHEST_AMOUNT) {
            compare.fund(&mut state, 16, account, amount).ok();
            state.restore(&before);
        }
    }
    for room in 0..40 {
        for (account, amount) in [(5, 7), (64, 7), (5, 0)] {
            compare.fund(&mut state, room, account, amount).ok();
            state.restore(&before);
        }
    }
}

fn write_both(compare: &mut Compare, payment: Payment, note: &[u8]) {
    compare.write_body(25 + note.len(), payment, note).ok();
    let signature = laid::signature(9);
    let room = 95 + note.len();
    compare.write_order(room, payment, note, &signature).ok();
}

fn writer_arguments(compare: &mut Compare) {
    for sender in ends(HIGHEST_ACCOUNT) {
        for kind in [0, 1, 2, 255, 256, (1 << 32) + 1] {
            for recipient in [0, 63, 64, 65_535, 65_536, (1 << 32) + 5] {
                for amount in ends(HIGHEST_AMOUNT) {
                    for sequence in ends(HIGHEST_SEQUENCE) {
                        let payment = Payment {
                            sender,
                            kind,
                            recipient,
                            amount,
                            sequence,
                        };
                        write_both(compare, payment, &[]);
                    }
                }
            }
        }
    }
    each_payment(|payment| write_both(compare, payment, &NOTE));
    for index in telling(HIGHEST_INDEX) {
        for account in telling(HIGHEST_ACCOUNT) {
            for amount in ends(HIGHEST_AMOUNT) {
                write_funding(compare, index, account, amount);
            }
        }
    }
    for amount in telling(HIGHEST_AMOUNT) {
        write_funding(compare, 9, 9, amount);
    }
}

fn write_funding(compare: &mut Compare, index: u64, account: u64, amount: u64) {
    let funding = Funding {
        index,
        account,
        amount,
    };
    compare.write_funding_order(16, funding).ok();
}

/// Payments with one number at a boundary, to an account and to the ledger.
pub fn each_payment(mut visit: impl FnMut(Payment)) {
    for payment in [PAYMENT, TO_LEDGER] {
        for sender in telling(HIGHEST_ACCOUNT) {
            visit(Payment { sender, ..payment });
        }
        for kind in telling(1) {
            visit(Payment { kind, ..payment });
        }
        for recipient in telling(HIGHEST_ACCOUNT) {
            visit(Payment {
                recipient,
                ..payment
            });
        }
        for amount in telling(HIGHEST_AMOUNT) {
            visit(Payment { amount, ..payment });
        }
        for sequence in telling(HIGHEST_SEQUENCE) {
            visit(Payment {
                sequence,
                ..payment
            });
        }
    }
}

/// Notes and signatures of every length around the right one.
fn note_lengths(compare: &mut Compare) {
    let many = vec![0x5A; 70_000];
    let mut lengths: Vec<usize> = (0..70).collect();
    lengths.extend([128, 255, 256, 257, 288, 320, 65_535, 65_536, 65_568, 65_600]);
    for length in lengths {
        let part = &many[..length];
        write_both(compare, PAYMENT, part);
        write_both(compare, NOTHING, part);
        compare.write_body(24 + length, PAYMENT, part).ok();
        for room in [0, 94, 95, 200] {
            compare.write_order(room, PAYMENT, &[], part).ok();
        }
    }
}

/// Outputs of every length up to more than is needed, and runs of votes of every length.
fn room_lengths(compare: &mut Compare) {
    let signature = laid::signature(1);
    let body = laid::body(PAYMENT, &NOTE);
    let run = laid::run_of_votes(&[0, 1, 2, 3, 4]);
    let votes = &run[..3 * laid::VOTE];
    let funding = Funding {
        index: 1,
        account: 2,
        amount: 3,
    };
    for room in 0..300 {
        compare.write_body(room, TO_LEDGER, &NOTE).ok();
        compare.write_order(room, PAYMENT, &NOTE, &signature).ok();
        for note in [[0x5A; 33].as_slice(), &[0x5A; 32]] {
            compare.write_body(room, PAYMENT, note).ok();
            compare.write_order(room, PAYMENT, note, &signature).ok();
        }
        compare.write_funding_order(room, funding).ok();
        compare.write_certificate(1, room, &body, votes).ok();
    }
    for length in 0..=run.len() {
        compare
            .write_certificate(1, 400, &body, &run[..length])
            .ok();
    }
}

fn committee_arguments(compare: &mut Compare) {
    for note in [[].as_slice(), &NOTE] {
        let body = laid::body(TO_LEDGER, note);
        for count in 0..=17 {
            let voters: Vec<u8> = (0..count).collect();
            let verdicts = vec![1; voters.len()];
            let message = laid::certificate(&body, &voters);
            let run = laid::run_of_votes(&voters);
            for f in telling(5) {
                compare.read_certificate(f, &message).ok();
                compare.judge_certificate(f, &message, &verdicts).ok();
                compare.write_certificate(f, 1_300, &body, &run).ok();
            }
        }
    }
    let longest = laid::body(PAYMENT, &[7; 32]);
    let run = laid::run_of_votes(&(0..16).collect::<Vec<u8>>());
    for room in (0..1_300).step_by(97).chain(1_140..1_156) {
        compare.write_certificate(5, room, &longest, &run).ok();
    }
}
