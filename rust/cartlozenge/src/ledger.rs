//! The purchase ledger, on its lent state.

use crate::answers::{accepted, Payout, Pot, Refusal};
use crate::machine::call;
use crate::raw;

/// Makes the fresh state of the ledger for a committee of 3f + 1. Refuses a wrong length, then f above 5.
pub fn fresh_ledger(state: &mut [u8], f: u64) -> Result<(), Refusal> {
    let answer = unsafe { raw::cartlozenge_fresh_ledger(state.as_mut_ptr(), state.len(), f) };
    accepted(answer).map(|_| ())
}

/// Funds an account: the funding order goes into the first 16 bytes of `out`. Answers its index.
/// Refuses 16, 2, 17, 18, 16 on the new pot.
pub fn fund(state: &mut [u8], out: &mut [u8], account: u64, amount: u64) -> Result<u64, Refusal> {
    let answer = unsafe {
        raw::cartlozenge_fund(
            state.as_mut_ptr(),
            state.len(),
            out.as_mut_ptr(),
            out.len(),
            account,
            amount,
        )
    };
    Ok(accepted(answer)?.bits(8, 16))
}

/// A certificate to the ledger with one verdict for each vote: it is paid out, once.
/// Refuses 16, 1, 2, 3, 5, 6, 4, 7, 13, 14, 15.
pub fn redeem(state: &mut [u8], message: &[u8], verdicts: &[u8]) -> Result<Payout, Refusal> {
    let above = unsafe { call(raw::cartlozenge_redeem, state, message, verdicts) }?;
    Ok(Payout {
        account: above.bits(8, 16),
        amount: above.bits(24, 32),
    })
}

/// The last funding index and what the pot holds.
/// Refuses 16.
pub fn read_pot(state: &[u8]) -> Result<Pot, Refusal> {
    let mut values = [0; 2];
    let answer = unsafe { raw::cartlozenge_pot(state.as_ptr(), state.len(), &mut values) };
    accepted(answer)?;
    Ok(Pot {
        index: values[0],
        amount: values[1],
    })
}

/// Whether the payment of an account under a sequence was redeemed.
/// Refuses 16, 2.
pub fn is_redeemed(state: &[u8], account: u64, sequence: u64) -> Result<bool, Refusal> {
    let answer =
        unsafe { raw::cartlozenge_redeemed(state.as_ptr(), state.len(), account, sequence) };
    Ok(accepted(answer)?.flag())
}
