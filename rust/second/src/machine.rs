//! The settlement machine, on its lent state of 4,616 bytes.

use crate::messages::{
    check_single_verdict, judge_certificate, payment_of, read_body, read_funding_order,
    split_order, Stretch, EMPTY_PART, FIELD_HEAD, LONGEST_BODY,
};
use crate::numbers::{
    all_zero, check_account, check_f, check_payment, eight_bytes, number_of_two, Payment, Refusal,
    HIGHEST_BALANCE, HIGHEST_F, HIGHEST_SEQUENCE, KIND_ACCOUNT, LOWEST_BALANCE,
};

const STATE_LENGTH: usize = 4_616;
const HEADER_LENGTH: usize = 8;
const RECORD_LENGTH: usize = 72;

// Places in a record.
const PENDING_LENGTH: usize = 1;
const NEXT: usize = 2;
const BALANCE: usize = 4;
const PENDING: usize = 12;
const PENDING_END: usize = PENDING + LONGEST_BODY;

/// The answer to an order.
#[derive(Clone, Copy, PartialEq, Eq, Debug)]
pub enum Vote {
    New,
    Repeated,
}

/// The answer to a certificate, with the number of votes counted.
#[derive(Clone, Copy, PartialEq, Eq, Debug)]
pub enum Confirmation {
    Confirmed(u64),
    Already(u64),
}

/// What reading an account answers.
#[derive(Clone, Copy, PartialEq, Eq, Debug)]
pub struct Reading {
    pub in_use: bool,
    pub next: u64,
    pub balance: i64,
    pub free: u64,
}

/// A well-formed record; its pending body stays in the state.
#[derive(Clone, Copy)]
struct Record {
    in_use: bool,
    pending_length: usize,
    next: u64,
    balance: i64,
}

/// Makes a fresh machine state. Refuses 16 for the length, then 2 for f or the own number.
pub fn fresh_machine(state: &mut [u8], f: u64, own: u64) -> Result<(), Refusal> {
    if state.len() != STATE_LENGTH {
        return Err(16);
    }
    check_f(f)?;
    if own > 3 * f {
        return Err(2);
    }
    state.fill(0);
    state[0] = f as u8;
    state[1] = own as u8;
    Ok(())
}

/// Handles an order. Refuses 16, 1, 2, 3, 4, 16 for the sender's record, 8, 9, 10, 11. A new vote
/// stores the body as pending; a repeated one changes nothing.
pub fn order(state: &mut [u8], message: &[u8], verdicts: &[u8]) -> Result<Vote, Refusal> {
    check_header(state)?;
    let body = split_order(message)?.body;
    let payment = payment_of(body);
    check_payment(payment)?;
    check_single_verdict(verdicts)?;
    let sender = read_record(state, payment.sender)?;
    if !sender.in_use {
        return Err(8);
    }
    let place = record_place(payment.sender);
    let pending = place + PENDING;
    if sender.pending_length != 0 {
        if state[pending..pending + sender.pending_length] != *body {
            return Err(9);
        }
        return Ok(Vote::Repeated);
    }
    if payment.sequence != sender.next {
        return Err(10);
    }
    if sender.balance < payment.amount as i64 {
        return Err(11);
    }
    // The bytes after the body are zero already, since nothing was pending.
    state[place + PENDING_LENGTH] = body.len() as u8;
    state[pending..pending + body.len()].copy_from_slice(body);
    Ok(Vote::New)
}

/// Handles a certificate. Refuses 16, 1, 2, 3, 5, 6, 4, 7, 16 for the records of sender and
/// recipient account, 10, and 16 for the new balances. Never refuses for want of balance.
pub fn certificate(
    state: &mut [u8],
    message: &[u8],
    verdicts: &[u8],
) -> Result<Confirmation, Refusal> {
    check_header(state)?;
    let certified = judge_certificate(u64::from(state[0]), message, verdicts)?;
    let payment = certified.payment;
    let sender = read_record(state, payment.sender)?;
    if payment.kind == KIND_ACCOUNT {
        read_record(state, payment.recipient)?;
    }
    if payment.sequence < sender.next {
        return Ok(Confirmation::Already(certified.votes));
    }
    if payment.sequence > sender.next {
        return Err(10);
    }
    settle(state, payment)?;
    Ok(Confirmation::Confirmed(certified.votes))
}

/// Handles a funding order. Refuses 16, 1, 2, 3, 4, 16 for the account's record, 12, and 16 for
/// the new balance.
pub fn funding_order(state: &mut [u8], message: &[u8], verdicts: &[u8]) -> Result<(), Refusal> {
    check_header(state)?;
    let funding = read_funding_order(message)?;
    check_single_verdict(verdicts)?;
    let account = read_record(state, funding.account)?;
    if funding.index != number_of_two(state, 2) + 1 {
        return Err(12);
    }
    let balance = account.balance + funding.amount as i64;
    if balance > HIGHEST_BALANCE {
        return Err(16);
    }
    state[2..4].copy_from_slice(&(funding.index as u16).to_be_bytes());
    put_in_use(state, funding.account, balance);
    Ok(())
}

/// Reads an account. Refuses 16 for length and header, 2, then 16 for the account's record.
pub fn read_account(state: &[u8], account: u64) -> Result<Reading, Refusal> {
    check_header(state)?;
    check_account(account)?;
    let record = read_record(state, account)?;
    let mut free = 0;
    if record.balance > 0 {
        free = record.balance as u64;
    }
    Ok(Reading {
        in_use: record.in_use,
        next: record.next,
        balance: record.balance,
        free,
    })
}

/// Where the sender's pending body lies in the state, or the order's body in the message if none
/// is pending. The empty part on 16, 1 or 2.
pub fn standing_body(message: &[u8], state: &[u8]) -> Stretch {
    match find_standing_body(message, state) {
        Ok(stretch) => stretch,
        Err(_) => EMPTY_PART,
    }
}

fn find_standing_body(message: &[u8], state: &[u8]) -> Result<Stretch, Refusal> {
    check_header(state)?;
    let body = split_order(message)?.body;
    let payment = payment_of(body);
    check_payment(payment)?;
    let sender = read_record(state, payment.sender)?;
    if sender.pending_length != 0 {
        return Ok(Stretch {
            in_state: true,
            place: record_place(payment.sender) + PENDING,
            length: sender.pending_length,
        });
    }
    Ok(Stretch {
        in_state: false,
        place: FIELD_HEAD,
        length: body.len(),
    })
}

/// Confirms a payment whose records are checked and whose sequence is the next. Writes only once
/// every new balance is known to be within its limits.
fn settle(state: &mut [u8], payment: Payment) -> Result<(), Refusal> {
    let amount = payment.amount as i64;
    let old_balance = balance_of(state, payment.sender);
    let to_account = payment.kind == KIND_ACCOUNT;
    // A payment to oneself leaves the balance as it was: it passes no limit on the way.
    if to_account && payment.recipient == payment.sender {
        put_confirmed(state, payment, old_balance);
        return Ok(());
    }
    let new_balance = old_balance - amount;
    if new_balance < LOWEST_BALANCE {
        return Err(16);
    }
    if to_account {
        let credited = balance_of(state, payment.recipient) + amount;
        if credited > HIGHEST_BALANCE {
            return Err(16);
        }
        put_in_use(state, payment.recipient, credited);
    }
    put_confirmed(state, payment, new_balance);
    Ok(())
}

/// Writes the sender's record: in use, new balance, next sequence, nothing pending.
fn put_confirmed(state: &mut [u8], payment: Payment, balance: i64) {
    put_in_use(state, payment.sender, balance);
    let place = record_place(payment.sender);
    let next = payment.sequence as u16 + 1;
    state[place + PENDING_LENGTH] = 0;
    state[place + NEXT..place + BALANCE].copy_from_slice(&next.to_be_bytes());
    state[place + PENDING..place + PENDING_END].fill(0);
}

fn put_in_use(state: &mut [u8], account: u64, balance: i64) {
    let place = record_place(account);
    state[place] = 1;
    state[place + BALANCE..place + PENDING].copy_from_slice(&balance.to_be_bytes());
}

fn balance_of(state: &[u8], account: u64) -> i64 {
    i64::from_be_bytes(eight_bytes(state, record_place(account) + BALANCE))
}

fn record_place(account: u64) -> usize {
    HEADER_LENGTH + account as usize * RECORD_LENGTH
}

fn check_header(state: &[u8]) -> Result<(), Refusal> {
    if state.len() != STATE_LENGTH {
        return Err(16);
    }
    let f = u64::from(state[0]);
    let own = u64::from(state[1]);
    if f > HIGHEST_F || own > 3 * f || !all_zero(&state[4..HEADER_LENGTH]) {
        return Err(16);
    }
    Ok(())
}

/// Reads the record of an account in 0..63, refusing 16 where it is ill-formed.
fn read_record(state: &[u8], account: u64) -> Result<Record, Refusal> {
    let place = record_place(account);
    let bytes = &state[place..place + RECORD_LENGTH];
    let record = Record {
        in_use: bytes[0] == 1,
        pending_length: usize::from(bytes[PENDING_LENGTH]),
        next: number_of_two(bytes, NEXT),
        balance: balance_of(state, account),
    };
    if !record.in_use {
        if !all_zero(bytes) {
            return Err(16);
        }
        return Ok(record);
    }
    if record.pending_length > LONGEST_BODY || record.next > HIGHEST_SEQUENCE + 1 {
        return Err(16);
    }
    if record.balance < LOWEST_BALANCE || record.balance > HIGHEST_BALANCE {
        return Err(16);
    }
    let pending_end = PENDING + record.pending_length;
    if !all_zero(&bytes[pending_end..]) {
        return Err(16);
    }
    if record.pending_length != 0 {
        check_pending(&bytes[PENDING..pending_end], account, record.next)?;
    }
    Ok(record)
}

/// A pending body is one that the body reader accepts, of this sender and its next sequence.
fn check_pending(pending: &[u8], account: u64, next: u64) -> Result<(), Refusal> {
    let Ok(read) = read_body(pending) else {
        return Err(16);
    };
    if read.payment.sender != account || read.payment.sequence != next {
        return Err(16);
    }
    Ok(())
}
