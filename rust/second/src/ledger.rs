//! The ledger's side, on its lent state of 32,784 bytes.

use crate::messages::{judge_certificate, FUNDING_ORDER_LENGTH};
use crate::numbers::{
    all_zero, check_account, check_amount, check_f, check_sequence, eight_bytes, number_of_two,
    Funding, Refusal, HIGHEST_F, HIGHEST_INDEX, HIGHEST_POT, KIND_LEDGER,
};
use crate::writers::write_funding_order;

const STATE_LENGTH: usize = 32_784;
const HEADER_LENGTH: usize = 16;
const LOG_LENGTH: usize = 512;

/// What a redeemed certificate pays, and to which ledger account.
#[derive(Clone, Copy, PartialEq, Eq, Debug)]
pub struct Payout {
    pub account: u64,
    pub amount: u64,
}

/// The last funding index and the amount in the pot.
#[derive(Clone, Copy, PartialEq, Eq, Debug)]
pub struct Pot {
    pub index: u64,
    pub amount: u64,
}

/// Makes a fresh ledger state. Refuses 16 for the length, then 2 for f.
pub fn fresh_ledger(state: &mut [u8], f: u64) -> Result<(), Refusal> {
    if state.len() != STATE_LENGTH {
        return Err(16);
    }
    check_f(f)?;
    state.fill(0);
    state[0] = f as u8;
    Ok(())
}

/// Funds an account: writes the funding order into the first 16 bytes of the output and answers
/// its index. Refuses 16, 2, 17, 18, then 16 for the new pot.
pub fn fund(state: &mut [u8], out: &mut [u8], account: u64, amount: u64) -> Result<u64, Refusal> {
    let pot = read_pot(state)?;
    check_account(account)?;
    check_amount(amount)?;
    if pot.index == HIGHEST_INDEX {
        return Err(17);
    }
    if out.len() < FUNDING_ORDER_LENGTH {
        return Err(18);
    }
    let new_pot = pot.amount + amount;
    if new_pot > HIGHEST_POT {
        return Err(16);
    }
    let index = pot.index + 1;
    let funding = Funding {
        index,
        account,
        amount,
    };
    write_funding_order(out, funding)?;
    state[2..4].copy_from_slice(&(index as u16).to_be_bytes());
    put_pot(state, new_pot);
    Ok(index)
}

/// Redeems a certificate. Refuses 16, 1, 2, 3, 5, 6, 4, 7, 13, 14, 15.
pub fn redeem(state: &mut [u8], message: &[u8], verdicts: &[u8]) -> Result<Payout, Refusal> {
    let pot = read_pot(state)?;
    let certified = judge_certificate(u64::from(state[0]), message, verdicts)?;
    let payment = certified.payment;
    if payment.kind != KIND_LEDGER {
        return Err(13);
    }
    let place = log_place(payment.sender, payment.sequence);
    let bit = log_bit(payment.sequence);
    if state[place] & bit != 0 {
        return Err(14);
    }
    if pot.amount < payment.amount {
        return Err(15);
    }
    state[place] |= bit;
    put_pot(state, pot.amount - payment.amount);
    Ok(Payout {
        account: payment.recipient,
        amount: payment.amount,
    })
}

/// Reads the last funding index and the pot. Refuses 16 for length and header.
pub fn read_pot(state: &[u8]) -> Result<Pot, Refusal> {
    if state.len() != STATE_LENGTH {
        return Err(16);
    }
    let pot = Pot {
        index: number_of_two(state, 2),
        amount: u64::from_be_bytes(eight_bytes(state, 4)),
    };
    if u64::from(state[0]) > HIGHEST_F || state[1] != 0 || pot.amount > HIGHEST_POT {
        return Err(16);
    }
    if !all_zero(&state[12..HEADER_LENGTH]) {
        return Err(16);
    }
    Ok(pot)
}

/// Whether this account's sequence is in its log. Refuses 16 for length and header, then 2.
pub fn is_redeemed(state: &[u8], account: u64, sequence: u64) -> Result<bool, Refusal> {
    read_pot(state)?;
    check_account(account)?;
    check_sequence(sequence)?;
    Ok(state[log_place(account, sequence)] & log_bit(sequence) != 0)
}

fn put_pot(state: &mut [u8], amount: u64) {
    state[4..12].copy_from_slice(&amount.to_be_bytes());
}

fn log_place(account: u64, sequence: u64) -> usize {
    HEADER_LENGTH + account as usize * LOG_LENGTH + sequence as usize / 8
}

fn log_bit(sequence: u64) -> u8 {
    1 << (sequence % 8)
}
