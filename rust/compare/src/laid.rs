//! Messages and states laid down by hand, after document 01 and with neither program, so that any value can stand in them.

use crate::answers::{Funding, Payment};

pub const MACHINE_STATE: usize = 4_616;
pub const LEDGER_STATE: usize = 32_784;
pub const LONGEST_MESSAGE: usize = 1_148;
pub const HIGHEST_ACCOUNT: u64 = 63;
pub const HIGHEST_AMOUNT: u64 = 1_000_000_000;
pub const HIGHEST_SEQUENCE: u64 = 4_095;
pub const HIGHEST_INDEX: u64 = 65_535;
pub const HIGHEST_BALANCE: i64 = 1_000_000_000_000_000;
pub const HIGHEST_POT: u64 = 1_000_000_000_000_000;
/// The body is the value of an order's and a certificate's first field.
pub const BODY_PLACE: usize = 3;
pub const VOTE_FIELD: usize = 68;
pub const VOTE: usize = 65;

fn put_field(message: &mut Vec<u8>, tag: u8, value: &[u8]) {
    message.push(tag);
    message.extend_from_slice(&(value.len() as u16).to_be_bytes());
    message.extend_from_slice(value);
}

pub fn body(payment: Payment, note: &[u8]) -> Vec<u8> {
    let recipient = (payment.recipient as u16).to_be_bytes();
    let mut body = Vec::new();
    put_field(&mut body, 0x01, &[payment.sender as u8]);
    put_field(
        &mut body,
        0x02,
        &[payment.kind as u8, recipient[0], recipient[1]],
    );
    put_field(&mut body, 0x03, &(payment.amount as u32).to_be_bytes());
    put_field(&mut body, 0x04, &(payment.sequence as u16).to_be_bytes());
    put_field(&mut body, 0x05, note);
    body
}

/// Bytes that stand for a signature; no two places of it are alike, so that none can be mistaken for another.
pub fn signature(of: u8) -> Vec<u8> {
    (0..64)
        .map(|place: u8| of.wrapping_mul(31) ^ (3 * place + 64))
        .collect()
}

pub fn order(body: &[u8]) -> Vec<u8> {
    let mut order = Vec::new();
    put_field(&mut order, 0x10, body);
    put_field(&mut order, 0x11, &signature(200));
    order
}

/// Votes as the certificate writer takes them.
pub fn run_of_votes(machines: &[u8]) -> Vec<u8> {
    let mut run = Vec::new();
    for machine in machines {
        run.push(*machine);
        run.extend_from_slice(&signature(*machine));
    }
    run
}

pub fn certificate(body: &[u8], machines: &[u8]) -> Vec<u8> {
    certificate_of_run(body, &run_of_votes(machines))
}

pub fn certificate_of_run(body: &[u8], run: &[u8]) -> Vec<u8> {
    let mut certificate = Vec::new();
    put_field(&mut certificate, 0x20, body);
    for vote in run.chunks(VOTE) {
        put_field(&mut certificate, 0x21, vote);
    }
    certificate
}

pub fn funding_order(funding: Funding) -> Vec<u8> {
    let mut order = Vec::new();
    put_field(&mut order, 0x30, &(funding.index as u16).to_be_bytes());
    put_field(&mut order, 0x31, &[funding.account as u8]);
    put_field(&mut order, 0x32, &(funding.amount as u32).to_be_bytes());
    order
}

pub fn machine(f: u64, own: u64, last_index: u64) -> Vec<u8> {
    let mut state = vec![0; MACHINE_STATE];
    state[0] = f as u8;
    state[1] = own as u8;
    state[2..4].copy_from_slice(&(last_index as u16).to_be_bytes());
    state
}

pub fn record_place(account: u64) -> usize {
    8 + 72 * account as usize
}

/// Puts an account in use.
pub fn put_record(state: &mut [u8], account: u64, next: u64, balance: i64, pending: &[u8]) {
    let place = record_place(account);
    let record = &mut state[place..place + 72];
    record.fill(0);
    record[0] = 1;
    record[1] = pending.len() as u8;
    record[2..4].copy_from_slice(&(next as u16).to_be_bytes());
    record[4..12].copy_from_slice(&balance.to_be_bytes());
    record[12..12 + pending.len()].copy_from_slice(pending);
}

pub fn ledger(f: u64, last_index: u64, pot: u64) -> Vec<u8> {
    let mut state = vec![0; LEDGER_STATE];
    state[0] = f as u8;
    state[2..4].copy_from_slice(&(last_index as u16).to_be_bytes());
    state[4..12].copy_from_slice(&pot.to_be_bytes());
    state
}

pub fn log_place(account: u64, sequence: u64) -> usize {
    16 + 512 * account as usize + sequence as usize / 8
}

pub fn log_bit(sequence: u64) -> u8 {
    1 << (sequence % 8)
}
