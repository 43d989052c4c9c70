//! The numbers of document 01 and their ranges.

/// The number document 01 gives to a refusal.
pub type Refusal = u8;

pub const HIGHEST_F: u64 = 5;
pub const HIGHEST_ACCOUNT: u64 = 63;
pub const HIGHEST_LEDGER_ACCOUNT: u64 = 65_535;
pub const HIGHEST_AMOUNT: u64 = 1_000_000_000;
pub const HIGHEST_SEQUENCE: u64 = 4_095;
pub const HIGHEST_INDEX: u64 = 65_535;
pub const LOWEST_BALANCE: i64 = -1_000_000_000_000_000;
pub const HIGHEST_BALANCE: i64 = 1_000_000_000_000_000;
pub const HIGHEST_POT: u64 = 1_000_000_000_000_000;

/// The two kinds of recipient.
pub const KIND_ACCOUNT: u64 = 0;
pub const KIND_LEDGER: u64 = 1;

/// The values of a body, the note excepted.
#[derive(Clone, Copy, PartialEq, Eq, Debug)]
pub struct Payment {
    pub sender: u64,
    pub kind: u64,
    pub recipient: u64,
    pub amount: u64,
    pub sequence: u64,
}

/// The values of a funding order.
#[derive(Clone, Copy, PartialEq, Eq, Debug)]
pub struct Funding {
    pub index: u64,
    pub account: u64,
    pub amount: u64,
}

pub fn check_f(f: u64) -> Result<(), Refusal> {
    if f > HIGHEST_F {
        return Err(2);
    }
    Ok(())
}

pub fn check_account(account: u64) -> Result<(), Refusal> {
    if account > HIGHEST_ACCOUNT {
        return Err(2);
    }
    Ok(())
}

pub fn check_amount(amount: u64) -> Result<(), Refusal> {
    if amount == 0 || amount > HIGHEST_AMOUNT {
        return Err(2);
    }
    Ok(())
}

pub fn check_sequence(sequence: u64) -> Result<(), Refusal> {
    if sequence > HIGHEST_SEQUENCE {
        return Err(2);
    }
    Ok(())
}

fn check_recipient(kind: u64, recipient: u64) -> Result<(), Refusal> {
    if kind == KIND_ACCOUNT {
        return check_account(recipient);
    }
    if kind != KIND_LEDGER || recipient > HIGHEST_LEDGER_ACCOUNT {
        return Err(2);
    }
    Ok(())
}

pub fn check_payment(payment: Payment) -> Result<(), Refusal> {
    check_account(payment.sender)?;
    check_recipient(payment.kind, payment.recipient)?;
    check_amount(payment.amount)?;
    check_sequence(payment.sequence)
}

pub fn check_funding(funding: Funding) -> Result<(), Refusal> {
    if funding.index == 0 || funding.index > HIGHEST_INDEX {
        return Err(2);
    }
    check_account(funding.account)?;
    check_amount(funding.amount)
}

/// The two bytes at `place` as a number.
pub fn number_of_two(bytes: &[u8], place: usize) -> u64 {
    u64::from(u16::from_be_bytes([bytes[place], bytes[place + 1]]))
}

/// The four bytes at `place` as a number.
pub fn number_of_four(bytes: &[u8], place: usize) -> u64 {
    number_of_two(bytes, place) * 65_536 + number_of_two(bytes, place + 2)
}

/// The eight bytes at `place`, for a balance or a pot.
pub fn eight_bytes(bytes: &[u8], place: usize) -> [u8; 8] {
    let mut eight = [0; 8];
    eight.copy_from_slice(&bytes[place..place + 8]);
    eight
}

pub fn all_zero(bytes: &[u8]) -> bool {
    for byte in bytes {
        if *byte != 0 {
            return false;
        }
    }
    true
}
