//! What is measured: for each call a batch of 64, one for each account, from one starting state.

use second::{Funding, Payment};

/// Calls in a batch.
pub const ACCOUNTS: usize = 64;

/// A state to start from, and the messages of a batch with the verdicts of each.
pub struct Batch {
    pub state: Vec<u8>,
    pub messages: Vec<Vec<u8>>,
    pub verdicts: Vec<u8>,
}

/// The batches of the four calls, for one f.
pub struct Batches {
    pub order: Batch,
    pub certificate: Batch,
    pub funding: Batch,
    pub redeem: Batch,
}

fn payment(sender: usize, kind: u64) -> Payment {
    Payment {
        sender: sender as u64,
        kind,
        recipient: ((sender + 1) % ACCOUNTS) as u64,
        amount: 1_500,
        sequence: 0,
    }
}

fn body(payment: Payment) -> Vec<u8> {
    let mut out = vec![0; cartlozenge::LONGEST_BODY];
    let written = second::write_body(&mut out, payment, b"car 12").unwrap();
    out.truncate(written);
    out
}

fn order(payment: Payment) -> Vec<u8> {
    let mut out = vec![0; cartlozenge::LONGEST_ORDER];
    let written = second::write_order(&mut out, payment, b"car 12", &[7; 64]).unwrap();
    out.truncate(written);
    out
}

/// The votes of exactly a quorum.
pub fn quorum(f: u64) -> Vec<u8> {
    let mut votes = Vec::new();
    for machine in 0..=2 * f as u8 {
        votes.push(machine);
        votes.extend([9; 64]);
    }
    votes
}

/// A certificate with these votes.
pub fn certificate(f: u64, sender: usize, kind: u64) -> Vec<u8> {
    let mut out = vec![0; cartlozenge::LONGEST_MESSAGE];
    let written =
        second::write_certificate(f, &mut out, &body(payment(sender, kind)), &quorum(f)).unwrap();
    out.truncate(written);
    out
}

/// One good verdict for each vote of a quorum.
pub fn good(f: u64) -> Vec<u8> {
    vec![1; 2 * f as usize + 1]
}

pub fn funding_order(account: usize, index: u64) -> Vec<u8> {
    let mut out = vec![0; cartlozenge::FUNDING_ORDER];
    let funding = Funding {
        index,
        account: account as u64,
        amount: 2_000,
    };
    second::write_funding_order(&mut out, funding).unwrap();
    out
}

/// Accounts are funded in the order of their numbers.
fn next_funding(account: usize) -> Vec<u8> {
    funding_order(account, account as u64 + 1)
}

/// A machine on which every account has 2,000.
fn funded(f: u64) -> Vec<u8> {
    let mut state = fresh(f);
    for account in 0..ACCOUNTS {
        second::funding_order(&mut state, &next_funding(account), &[1]).unwrap();
    }
    state
}

/// And on which every account has an order pending.
fn pending(f: u64) -> Vec<u8> {
    let mut state = funded(f);
    for account in 0..ACCOUNTS {
        second::order(&mut state, &order(payment(account, 0)), &[1]).unwrap();
    }
    state
}

fn fresh(f: u64) -> Vec<u8> {
    let mut state = vec![0; cartlozenge::MACHINE_STATE];
    second::fresh_machine(&mut state, f, 0).unwrap();
    state
}

fn full_pot(f: u64) -> Vec<u8> {
    let mut state = vec![0; cartlozenge::LEDGER_STATE];
    second::fresh_ledger(&mut state, f).unwrap();
    for account in 0..ACCOUNTS {
        second::fund(&mut state, &mut [0; 16], account as u64, 2_000).unwrap();
    }
    state
}

fn each(message: impl Fn(usize) -> Vec<u8>) -> Vec<Vec<u8>> {
    (0..ACCOUNTS).map(message).collect()
}

pub fn batches(f: u64) -> Batches {
    Batches {
        order: Batch {
            state: funded(f),
            messages: each(|account| order(payment(account, 0))),
            verdicts: vec![1],
        },
        certificate: Batch {
            state: pending(f),
            messages: each(|account| certificate(f, account, 0)),
            verdicts: good(f),
        },
        funding: Batch {
            state: fresh(f),
            messages: each(next_funding),
            verdicts: vec![1],
        },
        redeem: Batch {
            state: full_pot(f),
            messages: each(|account| certificate(f, account, 1)),
            verdicts: good(f),
        },
    }
}
