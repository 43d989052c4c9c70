//! The order of checks: every set of faults at once. The first of them in document 01's order is answered.

use crate::answers::{Confirmation, Funding, Payment, Stretch};
use crate::calls::Compare;
use crate::laid::{
    self, HIGHEST_AMOUNT, HIGHEST_BALANCE, HIGHEST_POT, LEDGER_STATE, MACHINE_STATE,
};
use crate::pair::Pair;
use crate::scenes::{F, NOTE, PAYMENT, TO_LEDGER};
use chance::Chance;

/// A set of faults, numbered by their places in a list of refusals.
#[derive(Clone, Copy)]
struct Faults(u32);

impl Faults {
    fn has(self, fault: usize) -> bool {
        self.0 >> fault & 1 == 1
    }

    /// What a call must refuse that tests for its faults in this order.
    fn first(self, refusals: &[u8]) -> Option<u8> {
        let place = (0..refusals.len()).find(|fault| self.has(*fault))?;
        Some(refusals[place])
    }

    /// The whole answer of such a call.
    fn answer<T>(self, refusals: &[u8], accepted: T) -> Result<T, u8> {
        self.first(refusals).map_or(Ok(accepted), Err)
    }
}

fn each_set(refusals: &[u8], mut visit: impl FnMut(Faults)) {
    for set in 0..1 << refusals.len() {
        visit(Faults(set));
    }
}

pub fn run(compare: &mut Compare, chance: &mut Chance) {
    orders(compare, chance);
    certificates(compare, chance);
    old_certificates(compare, chance);
    funding_orders(compare, chance);
    redeeming(compare, chance);
    funding(compare, chance);
    judging(compare);
    writing_certificates(compare);
    writing_bodies(compare);
    writing_funding_orders(compare);
    reading_states(compare, chance);
    fresh_states(compare, chance);
    standing_bodies(compare, chance);
}

fn spoil_header(state: &mut [u8]) {
    state[5] = 1;
}

fn spoil_record(state: &mut [u8], account: u64) {
    state[laid::record_place(account) + 70] = 1;
}

fn orders(compare: &mut Compare, chance: &mut Chance) {
    // Header, layout, value, verdict count, verdict, record, in use, pending, sequence, balance.
    let refusals = [16, 1, 2, 3, 4, 16, 8, 9, 10, 11];
    let mut state = Pair::of(&laid::machine(F, 1, 0), chance);
    each_set(&refusals, |faults| {
        let payment = Payment {
            amount: if faults.has(2) { 0 } else { 1_500 },
            sequence: if faults.has(8) { 6 } else { 5 },
            ..PAYMENT
        };
        let mut message = laid::order(&laid::body(payment, &[]));
        if faults.has(1) {
            message.push(0);
        }
        let verdict = if faults.has(4) { 2 } else { 1 };
        let verdicts = vec![verdict; if faults.has(3) { 2 } else { 1 }];
        state.restore(&machine_of_orders(faults));
        let answer = compare.order(&mut state, &message, &verdicts);
        compare
            .record
            .expect("order", answer.err(), faults.first(&refusals));
    });
}

fn machine_of_orders(faults: Faults) -> Vec<u8> {
    let mut machine = laid::machine(F, 1, 0);
    let other = Payment {
        sequence: 5,
        amount: 9,
        ..PAYMENT
    };
    let mut pending = Vec::new();
    if faults.has(7) {
        pending = laid::body(other, &[]);
    }
    let balance = if faults.has(9) { 1_499 } else { 1_500 };
    // A record out of use has neither a pending body nor a balance.
    if !faults.has(6) {
        laid::put_record(&mut machine, PAYMENT.sender, 5, balance, &pending);
    }
    if faults.has(5) {
        spoil_record(&mut machine, PAYMENT.sender);
    }
    if faults.has(0) {
        spoil_header(&mut machine);
    }
    machine
}

/// A certificate's message and verdicts with faults from the given place on: layout, value, verdict count, unknown machine,
/// not rising, verdict, too few.
fn certificate(payment: Payment, faults: Faults, from: usize) -> (Vec<u8>, Vec<u8>) {
    let has = |fault: usize| faults.has(from + fault);
    let amount = if has(1) {
        HIGHEST_AMOUNT + 1
    } else {
        payment.amount
    };
    let body = laid::body(Payment { amount, ..payment }, &[]);
    let mut voters = if has(6) { vec![0, 1] } else { vec![0, 1, 2] };
    let last = voters.len() - 1;
    if has(3) {
        voters[last] = 4;
    }
    if has(4) {
        voters[last - 1] = voters[last];
    }
    let mut message = laid::certificate(&body, &voters);
    if has(0) {
        message.pop();
    }
    let mut verdicts = vec![1; voters.len()];
    if has(5) {
        verdicts[0] = 0;
    }
    if has(2) {
        verdicts.push(1);
    }
    (message, verdicts)
}

/// Header, the message, sender's record, recipient's record, sequence, sender's limit, recipient's limit.
const OF_CERTIFICATES: [u8; 13] = [16, 1, 2, 3, 5, 6, 4, 7, 16, 16, 10, 16, 16];

fn machine_of_certificates(faults: Faults) -> Vec<u8> {
    let mut machine = laid::machine(F, 1, 0);
    let amount = PAYMENT.amount as i64;
    let balance = if faults.has(11) {
        amount - 1 - HIGHEST_BALANCE
    } else {
        -20
    };
    let other = if faults.has(12) { HIGHEST_BALANCE } else { 20 };
    laid::put_record(&mut machine, PAYMENT.sender, 5, balance, &[]);
    laid::put_record(&mut machine, PAYMENT.recipient, 9, other, &[]);
    if faults.has(8) {
        spoil_record(&mut machine, PAYMENT.sender);
    }
    if faults.has(9) {
        spoil_record(&mut machine, PAYMENT.recipient);
    }
    if faults.has(0) {
        spoil_header(&mut machine);
    }
    machine
}

fn certificates(compare: &mut Compare, chance: &mut Chance) {
    let mut state = Pair::of(&laid::machine(F, 1, 0), chance);
    each_set(&OF_CERTIFICATES, |faults| {
        let payment = Payment {
            sequence: if faults.has(10) { 6 } else { 5 },
            ..PAYMENT
        };
        let (message, verdicts) = certificate(payment, faults, 1);
        state.restore(&machine_of_certificates(faults));
        let answer = compare.certificate(&mut state, &message, &verdicts);
        let expected = faults.first(&OF_CERTIFICATES);
        compare.record.expect("certificate", answer.err(), expected);
    });
}

/// Below the next sequence every fault before it is refused, and none behind it: *already*, whatever the limits.
fn old_certificates(compare: &mut Compare, chance: &mut Chance) {
    let before_sequence = &OF_CERTIFICATES[..10];
    let mut state = Pair::of(&laid::machine(F, 1, 0), chance);
    each_set(&OF_CERTIFICATES, |faults| {
        let payment = Payment {
            sequence: if faults.has(10) { 0 } else { 4 },
            ..PAYMENT
        };
        let machine = machine_of_certificates(faults);
        // Too few votes are refused, so there are three where one is answered.
        let expected = faults.answer(before_sequence, Confirmation::Already(3));
        let (message, verdicts) = certificate(payment, faults, 1);
        state.restore(&machine);
        let answer = compare.certificate(&mut state, &message, &verdicts);
        compare.record.expect("old certificate", answer, expected);
        let changed = state.bytes() != machine;
        compare.record.expect("old certificate", changed, false);
    });
}

fn funding_orders(compare: &mut Compare, chance: &mut Chance) {
    // Header, layout, value, verdict count, verdict, record, index, limit.
    let refusals = [16, 1, 2, 3, 4, 16, 12, 16];
    let mut state = Pair::of(&laid::machine(F, 1, 0), chance);
    each_set(&refusals, |faults| {
        let mut machine = laid::machine(F, 1, 7);
        let balance = if faults.has(7) { HIGHEST_BALANCE } else { -3 };
        laid::put_record(&mut machine, 9, 4, balance, &[]);
        if faults.has(5) {
            spoil_record(&mut machine, 9);
        }
        if faults.has(0) {
            spoil_header(&mut machine);
        }
        let mut message = laid::funding_order(Funding {
            index: if faults.has(6) { 7 } else { 8 },
            account: 9,
            amount: if faults.has(2) { 0 } else { 5 },
        });
        if faults.has(1) {
            message[9] = 0x33;
        }
        let verdict = if faults.has(4) { 0 } else { 1 };
        let verdicts = vec![verdict; if faults.has(3) { 3 } else { 1 }];
        state.restore(&machine);
        let answer = compare.funding_order(&mut state, &message, &verdicts);
        compare
            .record
            .expect("funding order", answer.err(), faults.first(&refusals));
    });
}

fn redeeming(compare: &mut Compare, chance: &mut Chance) {
    // Header, the message, to an account, in the log, pot.
    let refusals = [16, 1, 2, 3, 5, 6, 4, 7, 13, 14, 15];
    let mut state = Pair::of(&laid::ledger(F, 1, 0), chance);
    each_set(&refusals, |faults| {
        let pot = if faults.has(10) { 1_499 } else { 1_500 };
        let payment = if faults.has(8) { PAYMENT } else { TO_LEDGER };
        let mut ledger = laid::ledger(F, 1, pot);
        if faults.has(9) {
            let place = laid::log_place(payment.sender, payment.sequence);
            ledger[place] = laid::log_bit(payment.sequence);
        }
        if faults.has(0) {
            ledger[1] = 1;
        }
        let (message, verdicts) = certificate(payment, faults, 1);
        state.restore(&ledger);
        let answer = compare.redeem(&mut state, &message, &verdicts);
        compare
            .record
            .expect("redeem", answer.err(), faults.first(&refusals));
    });
}

fn funding(compare: &mut Compare, chance: &mut Chance) {
    // Header, account, amount, index, room, pot.
    let refusals = [16, 2, 2, 17, 18, 16];
    let mut state = Pair::of(&laid::ledger(F, 1, 0), chance);
    each_set(&refusals, |faults| {
        let index = if faults.has(3) { 65_535 } else { 65_534 };
        let pot = HIGHEST_POT - if faults.has(5) { 4 } else { 5 };
        let mut ledger = laid::ledger(F, index, pot);
        if faults.has(0) {
            ledger[15] = 1;
        }
        let account = if faults.has(1) { 64 } else { 63 };
        let amount = if faults.has(2) { HIGHEST_AMOUNT + 1 } else { 5 };
        let room = if faults.has(4) { 15 } else { 16 };
        state.restore(&ledger);
        let answer = compare.fund(&mut state, room, account, amount);
        compare
            .record
            .expect("fund", answer.err(), faults.first(&refusals));
    });
}

/// The certificate's reader and its judge.
fn judging(compare: &mut Compare) {
    let refusals = [2, 1, 2, 3, 5, 6, 4, 7];
    each_set(&refusals, |faults| {
        let f = if faults.has(0) { 6 } else { F };
        let (message, verdicts) = certificate(PAYMENT, faults, 1);
        let answer = compare.judge_certificate(f, &message, &verdicts);
        compare
            .record
            .expect("judge", answer.err(), faults.first(&refusals));
        // Without verdicts there is neither 3 nor 4.
        let without = Faults(faults.0 & !(1 << 3 | 1 << 6));
        let answer = compare.read_certificate(f, &message);
        compare
            .record
            .expect("read", answer.err(), without.first(&refusals));
    });
}

fn writing_certificates(compare: &mut Compare) {
    // f, body, run, value, unknown machine, not rising, too few, room.
    let refusals = [2, 1, 1, 2, 5, 6, 7, 18];
    each_set(&refusals, |faults| {
        let f = if faults.has(0) { 6 } else { F };
        let sender = if faults.has(3) { 64 } else { 2 };
        let mut body = laid::body(Payment { sender, ..PAYMENT }, &[]);
        if faults.has(1) {
            body[24] = 1;
        }
        let mut voters = if faults.has(6) {
            vec![0, 1]
        } else {
            vec![0, 1, 2]
        };
        let last = voters.len() - 1;
        if faults.has(4) {
            voters[last] = 16;
        }
        if faults.has(5) {
            voters[0] = voters[last];
        }
        let mut run = laid::run_of_votes(&voters);
        if faults.has(2) {
            run.pop();
        }
        let room = if faults.has(7) { 163 } else { 232 };
        let answer = compare.write_certificate(f, room, &body, &run);
        compare
            .record
            .expect("write", answer.err(), faults.first(&refusals));
    });
}

/// Faults from 0 to 4: sender, kind, recipient, amount, sequence.
fn payment_of(faults: Faults) -> Payment {
    Payment {
        sender: if faults.has(0) { 64 } else { 63 },
        kind: if faults.has(1) { 2 } else { 1 },
        recipient: if faults.has(2) { 65_536 } else { 65_535 },
        amount: if faults.has(3) { 0 } else { 7 },
        sequence: if faults.has(4) { 4_096 } else { 4_095 },
    }
}

/// The writers of a body and of an order.
fn writing_bodies(compare: &mut Compare) {
    // The payment, note, signature, room.
    let refusals = [2, 2, 2, 2, 2, 2, 2, 18];
    each_set(&refusals, |faults| {
        let payment = payment_of(faults);
        let note = vec![1; if faults.has(5) { 33 } else { 32 }];
        let signature = vec![1; if faults.has(6) { 65 } else { 64 }];
        let short = usize::from(faults.has(7));
        let answer = compare.write_order(127 - short, payment, &note, &signature);
        let expected = faults.answer(&refusals, 127);
        compare.record.expect("write order", answer, expected);
        // A body has no signature.
        let without = Faults(faults.0 & !(1 << 6));
        let answer = compare.write_body(57 - short, payment, &note);
        let expected = without.answer(&refusals, 57);
        compare.record.expect("write body", answer, expected);
    });
}

fn writing_funding_orders(compare: &mut Compare) {
    // Index, account, amount, room.
    let refusals = [2, 2, 2, 18];
    each_set(&refusals, |faults| {
        let funding = Funding {
            index: if faults.has(0) { 0 } else { 1 },
            account: if faults.has(1) { 64 } else { 63 },
            amount: HIGHEST_AMOUNT + u64::from(faults.has(2)),
        };
        let room = if faults.has(3) { 15 } else { 16 };
        let answer = compare.write_funding_order(room, funding);
        let expected = faults.answer(&refusals, 16);
        compare.record.expect("write funding", answer, expected);
    });
}

fn reading_states(compare: &mut Compare, chance: &mut Chance) {
    // Header, account, record.
    let refusals = [16, 2, 16];
    each_set(&refusals, |faults| {
        let mut machine = laid::machine(F, 1, 0);
        if faults.has(0) {
            spoil_header(&mut machine);
        }
        if faults.has(2) {
            spoil_record(&mut machine, 63);
        }
        let account = if faults.has(1) { 64 } else { 63 };
        let mut state = Pair::of(&machine, chance);
        let answer = compare.read_account(&mut state, account);
        compare
            .record
            .expect("account", answer.err(), faults.first(&refusals));
    });
    // Header, account, sequence.
    let refusals = [16, 2, 2];
    each_set(&refusals, |faults| {
        let mut ledger = laid::ledger(F, 1, 0);
        if faults.has(0) {
            ledger[0] = 6;
        }
        let account = if faults.has(1) { 64 } else { 63 };
        let sequence = if faults.has(2) { 4_096 } else { 4_095 };
        let mut state = Pair::of(&ledger, chance);
        let answer = compare.is_redeemed(&mut state, account, sequence);
        compare
            .record
            .expect("log", answer.err(), faults.first(&refusals));
    });
}

fn fresh_states(compare: &mut Compare, chance: &mut Chance) {
    // Length, f, own number.
    let refusals = [16, 2, 2];
    each_set(&refusals, |faults| {
        let f = if faults.has(1) { 6 } else { 5 };
        // No machine of any committee has the number 19.
        let own = if faults.has(2) { 19 } else { 15 };
        for (shorter, longer) in [(1, 0), (0, 1), (MACHINE_STATE, 0)] {
            let wrong = |right: usize| right.saturating_sub(shorter) + longer;
            let mut lengths = (MACHINE_STATE, LEDGER_STATE);
            if faults.has(0) {
                lengths = (wrong(lengths.0), wrong(lengths.1));
            }
            let mut machine = Pair::of(&chance.bytes(lengths.0), chance);
            let answer = compare.fresh_machine(&mut machine, f, own);
            let expected = faults.answer(&refusals, ());
            compare.record.expect("fresh machine", answer, expected);
            let mut ledger = Pair::of(&chance.bytes(lengths.1), chance);
            let answer = compare.fresh_ledger(&mut ledger, f);
            let expected = faults.answer(&refusals[..2], ());
            compare.record.expect("fresh ledger", answer, expected);
        }
    });
}

/// An empty part on any of the first five; without them the pending body, otherwise the message's.
fn standing_bodies(compare: &mut Compare, chance: &mut Chance) {
    // Length, header, layout, value, record, nothing pending, out of use.
    let empty = [16, 16, 1, 2, 16];
    for set in 0..1 << 7 {
        let faults = Faults(set);
        let payment = Payment {
            amount: if faults.has(3) { 0 } else { 1_500 },
            ..PAYMENT
        };
        let mut message = laid::order(&laid::body(payment, &[]));
        if faults.has(2) {
            message.push(0);
        }
        let mut state = Pair::of(&machine_of_standing(faults), chance);
        let found = compare.standing_body(&message, &mut state);
        let expected = faults.answer(&empty, standing(faults));
        compare
            .record
            .expect("standing body", found, expected.unwrap_or(NO_PART));
    }
}

const NO_PART: Stretch = Stretch {
    in_state: false,
    place: 0,
    length: 0,
};

/// Where the body stands if nothing is refused: 25 bytes in the message, or 32 in the state.
fn standing(faults: Faults) -> Stretch {
    let in_state = !faults.has(5) && !faults.has(6);
    let in_record = laid::record_place(PAYMENT.sender) + 12;
    Stretch {
        in_state,
        place: if in_state {
            in_record
        } else {
            laid::BODY_PLACE
        },
        length: if in_state { 32 } else { 25 },
    }
}

fn machine_of_standing(faults: Faults) -> Vec<u8> {
    let mut machine = laid::machine(F, 1, 0);
    let mut pending = Vec::new();
    if !faults.has(5) {
        pending = laid::body(PAYMENT, &NOTE);
    }
    if !faults.has(6) {
        laid::put_record(&mut machine, PAYMENT.sender, 0, 2_000, &pending);
    }
    if faults.has(4) {
        spoil_record(&mut machine, PAYMENT.sender);
    }
    if faults.has(1) {
        spoil_header(&mut machine);
    }
    if faults.has(0) {
        machine.push(0);
    }
    machine
}
