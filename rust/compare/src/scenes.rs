//! States in which one payment meets every rule: as an order, as a certificate, and its sender as the account of a funding order.

use crate::answers::{Funding, Payment};
use crate::laid::{self, HIGHEST_BALANCE};

pub const F: u64 = 1;
const OWN: u64 = 2;
const LAST_INDEX: u64 = 8;
const AMOUNT: i64 = 1_500;
const LOWEST_BALANCE: i64 = -HIGHEST_BALANCE;

pub const PAYMENT: Payment = Payment {
    sender: 2,
    kind: 0,
    recipient: 7,
    amount: AMOUNT as u64,
    sequence: 0,
};
pub const TO_LEDGER: Payment = Payment {
    kind: 1,
    recipient: 40_000,
    ..PAYMENT
};
const TO_ONESELF: Payment = Payment {
    recipient: 2,
    ..PAYMENT
};
pub const NOTE: [u8; 7] = [0x05, 0x00, 0x21, 0xFF, 0x00, 0x41, 0x00];

pub struct Scene {
    pub f: u64,
    pub machine: Vec<u8>,
    pub payment: Payment,
    pub body: Vec<u8>,
}

impl Scene {
    pub fn order(&self) -> Vec<u8> {
        laid::order(&self.body)
    }

    pub fn certificate(&self) -> Vec<u8> {
        let voters: &[u8] = if self.f == 0 { &[0] } else { &[0, 1, 3] };
        laid::certificate(&self.body, voters)
    }

    pub fn verdicts(&self) -> Vec<u8> {
        vec![1; 2 * self.f as usize + 1]
    }

    pub fn funding_order(&self) -> Vec<u8> {
        laid::funding_order(Funding {
            index: LAST_INDEX + 1,
            account: self.payment.sender,
            amount: self.payment.amount,
        })
    }
}

#[derive(Clone, Copy)]
enum Pending {
    Nothing,
    /// The scene's own body.
    This,
    /// Another body of the next sequence.
    Other,
}

/// A scene whose sender has this record.
fn scene(payment: Payment, note: &[u8], next: u64, balance: i64, pending: Pending) -> Scene {
    let body = laid::body(payment, note);
    let other = Payment {
        amount: payment.amount + 1,
        sequence: next,
        ..payment
    };
    let pending = match pending {
        Pending::Nothing => Vec::new(),
        Pending::This => body.clone(),
        Pending::Other => laid::body(other, note),
    };
    let mut machine = laid::machine(F, OWN, LAST_INDEX);
    laid::put_record(&mut machine, payment.sender, next, balance, &pending);
    Scene {
        f: F,
        machine,
        payment,
        body,
    }
}

/// A recipient that has a body pending itself.
fn with_recipient(mut scene: Scene, balance: i64) -> Scene {
    let recipient = scene.payment.recipient;
    let own = Payment {
        sender: recipient,
        sequence: 5,
        ..TO_LEDGER
    };
    let pending = laid::body(own, &NOTE);
    laid::put_record(&mut scene.machine, recipient, 5, balance, &pending);
    scene
}

fn of_sequence(sequence: u64) -> Payment {
    Payment {
        sequence,
        ..PAYMENT
    }
}

pub fn fresh(note: &[u8]) -> Scene {
    Scene {
        f: F,
        machine: laid::machine(F, OWN, LAST_INDEX),
        payment: PAYMENT,
        body: laid::body(PAYMENT, note),
    }
}

pub fn pending(note: &[u8]) -> Scene {
    scene(PAYMENT, note, 0, 2_000, Pending::This)
}

/// A sender whose balance is below zero.
pub fn below_zero(note: &[u8]) -> Scene {
    scene(of_sequence(3), note, 3, -AMOUNT, Pending::Nothing)
}

/// A sender whose record does not end with zeros.
pub fn ill_formed(note: &[u8]) -> Scene {
    let mut scene = pending(note);
    scene.machine[laid::record_place(PAYMENT.sender) + 70] = 1;
    scene
}

/// The states that a day brings: fresh, funded, pending, another pending, settled, settled with the next one pending.
pub fn daily(note: &[u8]) -> Vec<Scene> {
    vec![
        fresh(note),
        scene(PAYMENT, note, 0, 2_000, Pending::Nothing),
        pending(note),
        scene(PAYMENT, note, 0, 2_000, Pending::Other),
        with_recipient(scene(PAYMENT, note, 1, 500, Pending::Nothing), 1_500),
        with_recipient(scene(PAYMENT, note, 1, 500, Pending::Other), 1_500),
    ]
}

/// With f = 0, where certificates are short.
fn alone(mut scene: Scene) -> Scene {
    scene.f = 0;
    scene.machine[..2].fill(0);
    scene
}

/// Balances below zero, the last sequences, and balances at their limits.
pub fn limits(note: &[u8]) -> Vec<Scene> {
    let last = of_sequence(laid::HIGHEST_SEQUENCE);
    let nothing = Pending::Nothing;
    let scenes = vec![
        below_zero(note),
        scene(last, note, 4_095, 2_000, Pending::This),
        scene(last, note, 4_096, 2_000, nothing),
        with_recipient(
            scene(PAYMENT, note, 0, LOWEST_BALANCE + AMOUNT, nothing),
            HIGHEST_BALANCE - AMOUNT,
        ),
        scene(TO_ONESELF, note, 0, LOWEST_BALANCE, nothing),
        scene(TO_LEDGER, note, 0, 2_000, Pending::This),
    ];
    scenes.into_iter().map(alone).collect()
}

/// One step away from a limit, on either side.
pub fn beside_limits(note: &[u8]) -> Vec<Scene> {
    let last = of_sequence(laid::HIGHEST_SEQUENCE);
    let nothing = Pending::Nothing;
    let scenes = vec![
        scene(PAYMENT, note, 0, AMOUNT, nothing),
        scene(PAYMENT, note, 0, AMOUNT - 1, nothing),
        scene(of_sequence(1), note, 0, 2_000, nothing),
        scene(last, note, 4_095, 2_000, nothing),
        scene(PAYMENT, note, 0, LOWEST_BALANCE + AMOUNT - 1, nothing),
        with_recipient(
            scene(PAYMENT, note, 0, HIGHEST_BALANCE, nothing),
            HIGHEST_BALANCE - AMOUNT + 1,
        ),
        scene(TO_ONESELF, note, 0, HIGHEST_BALANCE, Pending::This),
        scene(TO_LEDGER, note, 0, LOWEST_BALANCE + AMOUNT - 1, nothing),
    ];
    scenes.into_iter().map(alone).collect()
}

pub fn all(note: &[u8]) -> Vec<Scene> {
    let mut scenes = daily(note);
    scenes.extend(limits(note));
    scenes.extend(beside_limits(note));
    scenes
}

/// Ledgers that meet the redeeming of a payment: enough, exactly enough, one short, already redeemed, full.
pub fn ledgers(payment: Payment) -> Vec<Vec<u8>> {
    let amount = payment.amount;
    let mut redeemed = laid::ledger(F, LAST_INDEX, 2 * amount);
    let place = laid::log_place(payment.sender, payment.sequence);
    redeemed[place] = laid::log_bit(payment.sequence);
    vec![
        laid::ledger(F, LAST_INDEX, 2 * amount),
        laid::ledger(F, LAST_INDEX, amount),
        laid::ledger(F, LAST_INDEX, amount - 1),
        redeemed,
        laid::ledger(F, laid::HIGHEST_INDEX, laid::HIGHEST_POT),
    ]
}
