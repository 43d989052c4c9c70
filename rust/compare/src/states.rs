//! Ill-formed states: every byte of a header and of a touched record as every value, records that contradict themselves,
//! own numbers at the end of every committee, and logs with every byte.

use crate::answers::Payment;
use crate::calls::Compare;
use crate::laid::{self, HIGHEST_BALANCE};
use crate::pair::Pair;
use crate::scenes::{self, Scene, F, NOTE, PAYMENT, TO_LEDGER};
use chance::Chance;

pub fn run(compare: &mut Compare, chance: &mut Chance) {
    let mut scenes = scenes::daily(&[]);
    scenes.extend(scenes::limits(&[]));
    for note in [NOTE.as_slice(), &[0; 7], &[5; 32]] {
        scenes.push(scenes::pending(note));
    }
    for scene in scenes {
        each_byte(compare, chance, &scene);
    }
    committees(compare, chance);
    records(compare, chance);
    untouched_records(compare, chance);
    ledger_headers(compare, chance);
    logs(compare, chance);
}

/// The messages of a scene, made once, and its state.
struct Bench {
    state: Pair,
    order: Vec<u8>,
    certificate: Vec<u8>,
    verdicts: Vec<u8>,
    funding_order: Vec<u8>,
    payment: Payment,
}

impl Bench {
    fn new(scene: &Scene, chance: &mut Chance) -> Bench {
        Bench {
            state: Pair::of(&scene.machine, chance),
            order: scene.order(),
            certificate: scene.certificate(),
            verdicts: scene.verdicts(),
            funding_order: scene.funding_order(),
            payment: scene.payment,
        }
    }

    /// The calls that touch the recipient's record.
    fn recipient(&mut self, compare: &mut Compare, before: &[u8]) {
        let state = &mut self.state;
        compare.read_account(state, self.payment.recipient).ok();
        compare
            .certificate(state, &self.certificate, &self.verdicts)
            .ok();
        state.restore(before);
    }

    /// The calls that touch the sender's record.
    fn sender(&mut self, compare: &mut Compare, before: &[u8]) {
        let state = &mut self.state;
        compare.read_account(state, self.payment.sender).ok();
        compare.standing_body(&self.order, state);
        compare.order(state, &self.order, &[1]).ok();
        state.restore(before);
        compare
            .certificate(state, &self.certificate, &self.verdicts)
            .ok();
        state.restore(before);
        compare.funding_order(state, &self.funding_order, &[1]).ok();
        state.restore(before);
    }
}

fn each_byte(compare: &mut Compare, chance: &mut Chance, scene: &Scene) {
    let mut bench = Bench::new(scene, chance);
    let mut before = scene.machine.clone();
    let sender = laid::record_place(scene.payment.sender);
    for place in (0..8).chain(sender..sender + 72) {
        each_value(compare, &mut bench, &mut before, place, Bench::sender);
    }
    // A ledger account has no record; its place is then an account's that is not touched.
    let recipient = laid::record_place(scene.payment.recipient % 64);
    for place in recipient..recipient + 72 {
        each_value(compare, &mut bench, &mut before, place, Bench::recipient);
    }
}

fn each_value(
    compare: &mut Compare,
    bench: &mut Bench,
    before: &mut [u8],
    place: usize,
    calls: fn(&mut Bench, &mut Compare, &[u8]),
) {
    let right = before[place];
    for other in 1..=255 {
        before[place] = right.wrapping_add(other);
        bench.state.put(place, before[place]);
        calls(bench, compare, before);
    }
    before[place] = right;
    bench.state.put(place, right);
}

/// Own numbers at the end of every committee, with as many votes as it can give.
fn committees(compare: &mut Compare, chance: &mut Chance) {
    for f in 0..=5 {
        for own in [3 * f, 3 * f + 1, 255] {
            let mut made = Pair::of(&chance.bytes(laid::MACHINE_STATE), chance);
            let refusal = compare.fresh_machine(&mut made, f, own).err();
            let expected = (own > 3 * f).then_some(2);
            compare.record.expect("fresh machine", refusal, expected);
            for note in [[].as_slice(), &[5; 32]] {
                for scene in scenes::all(note) {
                    in_committee(compare, chance, &scene, f, own);
                }
            }
        }
    }
}

/// Every call on the machine of a scene that has this header.
fn in_committee(compare: &mut Compare, chance: &mut Chance, scene: &Scene, f: u64, own: u64) {
    let mut before = scene.machine.clone();
    before[0] = f as u8;
    before[1] = own as u8;
    let mut bench = Bench::new(scene, chance);
    bench.state.restore(&before);
    for votes in 2 * f..=3 * f + 2 {
        let voters: Vec<u8> = (0..votes as u8).collect();
        bench.certificate = laid::certificate(&scene.body, &voters);
        bench.verdicts = vec![1; voters.len()];
        bench.sender(compare, &before);
        bench.recipient(compare, &before);
    }
    let sender = scene.payment.sender;
    let refusal = compare.read_account(&mut bench.state, sender).err();
    let expected = (own > 3 * f).then_some(16);
    compare.record.expect("own number", refusal, expected);
}

/// Records in which several things are wrong at once, or seem so.
fn records(compare: &mut Compare, chance: &mut Chance) {
    let scene = scenes::fresh(&[]);
    let mut bench = Bench::new(&scene, chance);
    let mut before = scene.machine.clone();
    let place = laid::record_place(PAYMENT.sender);
    let incoming = Payment {
        sender: 7,
        recipient: PAYMENT.sender,
        ..PAYMENT
    };
    let incoming = laid::certificate(&laid::body(incoming, &[]), &[0, 1, 2]);
    for pending in pending_bodies() {
        for in_use in [0, 1, 2, 255] {
            for length in [0, 24, 25, 26, pending.len(), 57, 58, 255] {
                for next in [0, 1, 4_095, 4_096, 4_097] {
                    for balance in [0, 2_000, -1, HIGHEST_BALANCE, -HIGHEST_BALANCE - 1] {
                        let sender = PAYMENT.sender;
                        laid::put_record(&mut before, sender, next, balance, &pending);
                        before[place] = in_use;
                        before[place + 1] = length as u8;
                        bench.state.restore(&before);
                        bench.sender(compare, &before);
                        let state = &mut bench.state;
                        compare.certificate(state, &incoming, &[1; 3]).ok();
                    }
                }
            }
        }
    }
}

/// Right ones and ones that the body reader refuses, or that belong to another account or sequence.
fn pending_bodies() -> Vec<Vec<u8>> {
    let last = Payment {
        sequence: 4_095,
        ..PAYMENT
    };
    let mut bodies = vec![Vec::new(), laid::body(PAYMENT, &[0; 32])];
    for payment in [
        PAYMENT,
        TO_LEDGER,
        last,
        Payment {
            sender: 3,
            ..PAYMENT
        },
        Payment {
            amount: 0,
            ..PAYMENT
        },
        Payment { kind: 2, ..PAYMENT },
        Payment {
            recipient: 64,
            ..PAYMENT
        },
        Payment {
            sequence: 4_096,
            ..PAYMENT
        },
    ] {
        bodies.push(laid::body(payment, &[]));
    }
    bodies
}

/// What stands in records that a call does not touch is nothing to it.
fn untouched_records(compare: &mut Compare, chance: &mut Chance) {
    for scene in scenes::all(&NOTE) {
        let mut before = chance.bytes(laid::MACHINE_STATE);
        before[..8].copy_from_slice(&scene.machine[..8]);
        for account in [scene.payment.sender, 7] {
            let place = laid::record_place(account);
            before[place..place + 72].copy_from_slice(&scene.machine[place..place + 72]);
        }
        let mut bench = Bench::new(&scene, chance);
        bench.state.restore(&before);
        bench.sender(compare, &before);
        for account in 0..=63 {
            compare.read_account(&mut bench.state, account).ok();
        }
    }
}

fn ledger_headers(compare: &mut Compare, chance: &mut Chance) {
    let certificate = laid::certificate(&laid::body(TO_LEDGER, &[]), &[0, 1, 2]);
    for ledger in scenes::ledgers(TO_LEDGER) {
        let mut state = Pair::of(&ledger, chance);
        let mut before = ledger.clone();
        for place in 0..16 {
            for value in 0..=255 {
                before[place] = value;
                state.put(place, value);
                compare.read_pot(&mut state).ok();
                compare.is_redeemed(&mut state, 2, 0).ok();
                compare.redeem(&mut state, &certificate, &[1; 3]).ok();
                state.restore(&before);
                compare.fund(&mut state, 16, 2, 5).ok();
                state.restore(&before);
            }
            before[place] = ledger[place];
            state.put(place, ledger[place]);
        }
    }
}

/// Every value of a log's byte, with all others set or clear, for each of its eight sequences.
fn logs(compare: &mut Compare, chance: &mut Chance) {
    for (sender, first) in [(2, 8), (0, 0), (63, 4_088)] {
        for rest in [0, 255] {
            let mut ledger = laid::ledger(F, 1, 2_000);
            ledger[16..].fill(rest);
            let mut state = Pair::of(&ledger, chance);
            let place = laid::log_place(sender, first);
            for value in 0..=255 {
                ledger[place] = value;
                for sequence in first..first + 8 {
                    state.restore(&ledger);
                    log_byte(compare, &mut state, sender, sequence);
                }
            }
        }
    }
}

fn log_byte(compare: &mut Compare, state: &mut Pair, sender: u64, sequence: u64) {
    let payment = Payment {
        sender,
        sequence,
        ..TO_LEDGER
    };
    let certificate = laid::certificate(&laid::body(payment, &[]), &[0, 1, 2]);
    compare.is_redeemed(state, sender, sequence).ok();
    compare.redeem(state, &certificate, &[1; 3]).ok();
    compare.is_redeemed(state, sender, sequence).ok();
}
