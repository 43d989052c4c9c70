//! Every number in a message or a state at its boundaries, and messages and states at the lengths around the right ones.

use crate::answers::{Funding, Payment};
use crate::arguments::each_payment;
use crate::calls::Compare;
use crate::laid::{
    self, HIGHEST_ACCOUNT, HIGHEST_AMOUNT, HIGHEST_BALANCE, HIGHEST_POT, LEDGER_STATE,
    LONGEST_MESSAGE, MACHINE_STATE,
};
use crate::pair::Pair;
use crate::scenes::{self, F, NOTE, PAYMENT, TO_LEDGER};
use chance::Chance;

pub fn run(compare: &mut Compare, chance: &mut Chance) {
    body_fields(compare, chance);
    length_fields(compare, chance);
    funding_fields(compare, chance);
    message_lengths(compare, chance);
    claimed_lengths(compare, chance);
    machine_values(compare, chance);
    funding_values(compare, chance);
    ledger_values(compare, chance);
    state_lengths(compare, chance);
}

/// A body through every call: alone, as an order and as a certificate.
fn every_call(compare: &mut Compare, pairs: &mut Pairs, body: &[u8]) {
    let order = laid::order(body);
    let certificate = laid::certificate(body, &[0, 1, 3]);
    compare.read_body(body).ok();
    compare.read_order(&order).ok();
    compare.covered(&order);
    compare.covered(&certificate);
    compare.read_certificate(F, &certificate).ok();
    compare.judge_certificate(F, &certificate, &[1; 3]).ok();
    let run = laid::run_of_votes(&[0, 1, 3]);
    compare.write_certificate(F, 400, body, &run).ok();
    compare.standing_body(&order, &mut pairs.machine);
    compare.order(&mut pairs.machine, &order, &[1]).ok();
    compare.standing_body(&order, &mut pairs.machine);
    compare
        .certificate(&mut pairs.machine, &certificate, &[1; 3])
        .ok();
    compare
        .redeem(&mut pairs.ledger, &certificate, &[1; 3])
        .ok();
    pairs.restore();
}

struct Pairs {
    machine: Pair,
    ledger: Pair,
    machine_before: Vec<u8>,
    ledger_before: Vec<u8>,
}

impl Pairs {
    /// All accounts are in use and rich.
    fn new(chance: &mut Chance) -> Pairs {
        let mut machine = laid::machine(F, 0, 0);
        for account in 0..=HIGHEST_ACCOUNT {
            laid::put_record(&mut machine, account, 0, 5_000_000_000, &[]);
        }
        let ledger = laid::ledger(F, 1, 5_000_000_000);
        Pairs {
            machine: Pair::of(&machine, chance),
            ledger: Pair::of(&ledger, chance),
            machine_before: machine,
            ledger_before: ledger,
        }
    }

    fn restore(&mut self) {
        self.machine.restore(&self.machine_before);
        self.ledger.restore(&self.ledger_before);
    }
}

fn body_fields(compare: &mut Compare, chance: &mut Chance) {
    let mut pairs = Pairs::new(chance);
    each_payment(|payment| every_call(compare, &mut pairs, &laid::body(payment, &[])));
    for payment in [PAYMENT, TO_LEDGER] {
        for value in 0..=255 {
            let sender = Payment {
                sender: value,
                ..payment
            };
            every_call(compare, &mut pairs, &laid::body(sender, &[]));
            let recipient = Payment {
                recipient: value,
                ..payment
            };
            every_call(compare, &mut pairs, &laid::body(recipient, &[]));
            for recipient in [0, 63, 64, 65_535] {
                let kind = Payment {
                    kind: value,
                    recipient,
                    ..payment
                };
                every_call(compare, &mut pairs, &laid::body(kind, &[]));
            }
        }
    }
}

/// Notes around the longest; then each length in a body, in an order and in a certificate as another number.
fn length_fields(compare: &mut Compare, chance: &mut Chance) {
    let mut pairs = Pairs::new(chance);
    for length in (0..70).chain([255, 256, 257, 300, 1_000, 1_120, 1_130]) {
        let note = chance.bytes(length);
        every_call(compare, &mut pairs, &laid::body(PAYMENT, &note));
    }
    for note in [[].as_slice(), &NOTE, &[1; 31], &[1; 32], &[1; 33]] {
        for place in [1, 5, 11, 18, 23] {
            let body = laid::body(PAYMENT, note);
            let length = u16::from_be_bytes([body[place], body[place + 1]]);
            for other in other_lengths(length) {
                let mut body = body.clone();
                body[place..place + 2].copy_from_slice(&other.to_be_bytes());
                every_call(compare, &mut pairs, &body);
            }
        }
    }
    outer_lengths(compare, &mut pairs);
}

fn other_lengths(length: u16) -> [u16; 12] {
    [
        0,
        1,
        length.wrapping_sub(1),
        length,
        length + 1,
        length + 68,
        length + 256,
        24,
        58,
        255,
        u16::MAX - 2,
        u16::MAX,
    ]
}

fn outer_lengths(compare: &mut Compare, pairs: &mut Pairs) {
    let body = laid::body(TO_LEDGER, &NOTE);
    let body_end = laid::BODY_PLACE + body.len();
    for (message, places) in [
        (laid::order(&body), vec![1, body_end + 1]),
        (
            laid::certificate(&body, &[0, 1, 3]),
            vec![1, body_end + 1, body_end + 1 + laid::VOTE_FIELD],
        ),
    ] {
        for place in places {
            let length = u16::from_be_bytes([message[place], message[place + 1]]);
            for other in other_lengths(length) {
                let mut changed = message.clone();
                changed[place..place + 2].copy_from_slice(&other.to_be_bytes());
                compare.read_order(&changed).ok();
                compare.covered(&changed);
                compare.order(&mut pairs.machine, &changed, &[1]).ok();
                compare.read_certificate(F, &changed).ok();
                compare
                    .certificate(&mut pairs.machine, &changed, &[1; 3])
                    .ok();
                compare.redeem(&mut pairs.ledger, &changed, &[1; 3]).ok();
                pairs.restore();
            }
        }
    }
}

fn funding_fields(compare: &mut Compare, chance: &mut Chance) {
    let mut pairs = Pairs::new(chance);
    for index in [0, 1, 2, 255, 256, 65_534, 65_535] {
        for account in 0..=255 {
            for amount in [
                0,
                1,
                5,
                HIGHEST_AMOUNT,
                HIGHEST_AMOUNT + 1,
                u64::from(u32::MAX),
            ] {
                let message = laid::funding_order(Funding {
                    index,
                    account,
                    amount,
                });
                compare.read_funding_order(&message).ok();
                compare
                    .funding_order(&mut pairs.machine, &message, &[1])
                    .ok();
                pairs.restore();
            }
        }
    }
}

/// Messages of every sort of length through every call, up to more than the longest.
fn message_lengths(compare: &mut Compare, chance: &mut Chance) {
    let mut pairs = Pairs::new(chance);
    let voters: Vec<u8> = (0..=20).collect();
    let message = laid::certificate(&laid::body(TO_LEDGER, &[1; 32]), &voters);
    for length in (0..LONGEST_MESSAGE + 80)
        .step_by(11)
        .chain(1_140..1_156)
        .chain([1_300])
    {
        let part = &message[..length];
        let votes = length.saturating_sub(60) / laid::VOTE_FIELD;
        compare.read_body(part).ok();
        compare.read_order(part).ok();
        compare.read_funding_order(part).ok();
        compare.covered(part);
        compare.read_certificate(5, part).ok();
        compare.judge_certificate(5, part, &vec![1; votes]).ok();
        compare
            .certificate(&mut pairs.machine, part, &vec![1; votes])
            .ok();
        compare
            .redeem(&mut pairs.ledger, part, &vec![1; votes])
            .ok();
        compare.order(&mut pairs.machine, part, &[1]).ok();
        compare.funding_order(&mut pairs.machine, part, &[1]).ok();
        compare.standing_body(part, &mut pairs.machine);
        pairs.restore();
    }
}

/// Messages cut at every place, with every value of their first long length: short ones that claim to be long, and long ones
/// that claim to be short.
fn claimed_lengths(compare: &mut Compare, chance: &mut Chance) {
    let mut pairs = Pairs::new(chance);
    let body = laid::body(TO_LEDGER, &NOTE);
    let order = laid::order(&body);
    let certificate = laid::certificate(&body, &[0]);
    for claimed in 0..=255 {
        for length in 0..=order.len().max(certificate.len()) {
            let message = claiming(&body, 24, claimed, length);
            compare.read_body(&message).ok();
            let message = claiming(&order, 2, claimed, length);
            compare.read_order(&message).ok();
            compare.covered(&message);
            compare.order(&mut pairs.machine, &message, &[1]).ok();
            let message = claiming(&certificate, 2, claimed, length);
            compare.read_certificate(0, &message).ok();
            compare.covered(&message);
            compare
                .certificate(&mut pairs.machine, &message, &[1; 1])
                .ok();
            pairs.restore();
        }
    }
}

fn claiming(message: &[u8], place: usize, claimed: u8, length: usize) -> Vec<u8> {
    let mut message = message.to_vec();
    message[place] = claimed;
    message.truncate(length);
    message
}

fn balances_around(amount: u64) -> Vec<i64> {
    let mut balances = vec![0, i64::MIN, i64::MIN + 1, i64::MAX];
    for middle in [
        0,
        amount as i64,
        HIGHEST_BALANCE,
        -HIGHEST_BALANCE,
        HIGHEST_BALANCE - amount as i64,
        amount as i64 - HIGHEST_BALANCE,
    ] {
        balances.extend([middle - 1, middle, middle + 1]);
    }
    balances
}

/// Balances of sender and recipient and next sequences around their limits, with the least and the greatest amount.
fn machine_values(compare: &mut Compare, chance: &mut Chance) {
    for amount in [1, 1_500, HIGHEST_AMOUNT] {
        for balance in balances_around(amount) {
            for other in balances_around(amount) {
                let payment = Payment { amount, ..PAYMENT };
                values_of(compare, chance, payment, 0, balance, other);
            }
            for recipient in [PAYMENT.sender, 0, HIGHEST_ACCOUNT] {
                let payment = Payment {
                    amount,
                    recipient,
                    ..PAYMENT
                };
                values_of(compare, chance, payment, 0, balance, balance);
            }
            let payment = Payment {
                amount,
                ..TO_LEDGER
            };
            values_of(compare, chance, payment, 0, balance, 0);
        }
    }
    for next in [0, 1, 255, 256, 4_094, 4_095, 4_096, 4_097, 65_535] {
        for sequence in [0, 1, 255, 256, 4_094, 4_095] {
            let payment = Payment {
                sequence,
                ..PAYMENT
            };
            values_of(compare, chance, payment, next, 2_000, 0);
        }
    }
}

fn values_of(
    compare: &mut Compare,
    chance: &mut Chance,
    payment: Payment,
    next: u64,
    balance: i64,
    other: i64,
) {
    let body = laid::body(payment, &[]);
    let mut machine = laid::machine(F, 0, 0);
    if payment.kind == 0 {
        laid::put_record(&mut machine, payment.recipient, 0, other, &[]);
    }
    laid::put_record(&mut machine, payment.sender, next, balance, &[]);
    let mut state = Pair::of(&machine, chance);
    compare.read_account(&mut state, payment.sender).ok();
    let order = laid::order(&body);
    compare.order(&mut state, &order, &[1]).ok();
    compare.standing_body(&order, &mut state);
    let certificate = laid::certificate(&body, &[0, 1, 2]);
    compare.certificate(&mut state, &certificate, &[1; 3]).ok();
    compare.read_account(&mut state, payment.sender).ok();
    compare.certificate(&mut state, &certificate, &[1; 3]).ok();
}

fn funding_values(compare: &mut Compare, chance: &mut Chance) {
    for amount in [1, HIGHEST_AMOUNT] {
        for balance in balances_around(amount) {
            for last in [0, 1, 255, 256, 65_533, 65_534, 65_535] {
                let mut machine = laid::machine(F, 0, last);
                laid::put_record(&mut machine, 3, 7, balance, &[]);
                let mut state = Pair::of(&machine, chance);
                for index in [last, last + 1, last + 2, 1, 65_535] {
                    let message = laid::funding_order(Funding {
                        index,
                        account: 3,
                        amount,
                    });
                    compare.funding_order(&mut state, &message, &[1]).ok();
                    state.restore(&machine);
                }
            }
        }
    }
}

fn ledger_values(compare: &mut Compare, chance: &mut Chance) {
    let mut state = Pair::of(&laid::ledger(F, 0, 0), chance);
    for amount in [1, 1_500, HIGHEST_AMOUNT] {
        let payment = Payment {
            amount,
            ..TO_LEDGER
        };
        let certificate = laid::certificate(&laid::body(payment, &[]), &[0, 1, 2]);
        for index in [0, 1, 255, 256, 65_533, 65_534, 65_535] {
            let mut pots = vec![0, u64::MAX, 1 << 63, HIGHEST_POT + 1];
            for middle in [amount, HIGHEST_POT, HIGHEST_POT - amount] {
                pots.extend([middle - 1, middle, middle + 1]);
            }
            for pot in pots {
                let ledger = laid::ledger(F, index, pot);
                state.restore(&ledger);
                compare.read_pot(&mut state).ok();
                compare.is_redeemed(&mut state, 2, 0).ok();
                for room in [15, 16] {
                    compare.fund(&mut state, room, 2, amount).ok();
                    state.restore(&ledger);
                }
                compare.redeem(&mut state, &certificate, &[1; 3]).ok();
            }
        }
    }
    each_log_place(compare, chance);
}

/// The first and last sequences of the first and last logs, each alone and all one after another.
fn each_log_place(compare: &mut Compare, chance: &mut Chance) {
    let fresh = laid::ledger(F, 1, HIGHEST_POT);
    let mut alone = Pair::of(&fresh, chance);
    let mut all = Pair::of(&fresh, chance);
    for sender in [0, 1, 31, 62, 63] {
        for sequence in (0..18).chain([2_047, 2_048]).chain(4_080..4_096) {
            let payment = Payment {
                sender,
                sequence,
                ..TO_LEDGER
            };
            let certificate = laid::certificate(&laid::body(payment, &[]), &[0, 1, 2]);
            compare.redeem(&mut alone, &certificate, &[1; 3]).ok();
            alone.restore(&fresh);
            for _ in 0..2 {
                compare.redeem(&mut all, &certificate, &[1; 3]).ok();
                compare.is_redeemed(&mut all, sender, sequence).ok();
            }
        }
    }
}

/// States of every sort of wrong length, also a ledger's where a machine's is wanted and the other way round.
fn state_lengths(compare: &mut Compare, chance: &mut Chance) {
    let scene = scenes::pending(&[]);
    let certificate = laid::certificate(&laid::body(TO_LEDGER, &[]), &[0, 1, 2]);
    let mut lengths: Vec<usize> = (0..20).chain([71, 72, 255, 256, 4_096, 65_536]).collect();
    for right in [MACHINE_STATE, LEDGER_STATE] {
        lengths.extend(right - 3..right + 4);
    }
    for length in lengths {
        for from in [scene.machine.clone(), laid::ledger(F, 1, 2_000)] {
            let mut bytes = from;
            bytes.resize(length, 0);
            let mut state = Pair::of(&bytes, chance);
            compare.fresh_machine(&mut state, 1, 1).ok();
            state.restore(&bytes);
            compare.fresh_machine(&mut state, 6, 1).ok();
            compare.fresh_ledger(&mut state, 1).ok();
            state.restore(&bytes);
            compare.fresh_ledger(&mut state, 6).ok();
            compare.standing_body(&scene.order(), &mut state);
            compare.order(&mut state, &scene.order(), &[1]).ok();
            compare.certificate(&mut state, &certificate, &[1; 3]).ok();
            state.restore(&bytes);
            let funding = scene.funding_order();
            compare.funding_order(&mut state, &funding, &[1]).ok();
            state.restore(&bytes);
            compare.redeem(&mut state, &certificate, &[1; 3]).ok();
            compare.fund(&mut state, 16, 1, 1).ok();
            compare.read_pot(&mut state).ok();
            for account in [2, 64] {
                compare.read_account(&mut state, account).ok();
                compare.is_redeemed(&mut state, account, 0).ok();
            }
        }
    }
}
