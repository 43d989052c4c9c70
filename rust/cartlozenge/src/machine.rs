//! The settlement machine, on its lent state.

use crate::answers::{accepted, Above, Confirmation, Reading, Refusal, Stretch, Vote};
use crate::raw;

type Call = unsafe extern "C" fn(*mut u8, usize, *const u8, usize, *const u8, usize) -> u64;

/// One of the calls on a state with a message and its verdicts.
///
/// # Safety
///
/// `call` is one of the exported functions of this shape.
pub(crate) unsafe fn call(
    call: Call,
    state: &mut [u8],
    message: &[u8],
    verdicts: &[u8],
) -> Result<Above, Refusal> {
    accepted(call(
        state.as_mut_ptr(),
        state.len(),
        message.as_ptr(),
        message.len(),
        verdicts.as_ptr(),
        verdicts.len(),
    ))
}

/// Makes the fresh state of machine `own` for a committee of 3f + 1. Refuses a wrong length, then f above 5 or `own` above 3f.
pub fn fresh_machine(state: &mut [u8], f: u64, own: u64) -> Result<(), Refusal> {
    let answer = unsafe { raw::cartlozenge_fresh_machine(state.as_mut_ptr(), state.len(), f, own) };
    accepted(answer).map(|_| ())
}

/// An order with its one verdict: a vote for its body, or a refusal.
/// Refuses 16, 1, 2, 3, 4, 16 on the record, 8, 9, 10, 11.
pub fn order(state: &mut [u8], message: &[u8], verdicts: &[u8]) -> Result<Vote, Refusal> {
    let above = unsafe { call(raw::cartlozenge_order, state, message, verdicts) }?;
    Ok(if above.flag() {
        Vote::Repeated
    } else {
        Vote::New
    })
}

/// A certificate with one verdict for each vote: sender and recipient are settled, whatever the balance.
/// Refuses 16, 1, 2, 3, 5, 6, 4, 7, 16 on the records, 10, 16 on new balances.
pub fn certificate(
    state: &mut [u8],
    message: &[u8],
    verdicts: &[u8],
) -> Result<Confirmation, Refusal> {
    let above = unsafe { call(raw::cartlozenge_certificate, state, message, verdicts) }?;
    let votes = above.bits(16, 8);
    Ok(if above.flag() {
        Confirmation::Already(votes)
    } else {
        Confirmation::Confirmed(votes)
    })
}

/// A funding order with its one verdict: the account is credited.
/// Refuses 16, 1, 2, 3, 4, 16 on the record, 12, 16 on the new balance.
pub fn funding_order(state: &mut [u8], message: &[u8], verdicts: &[u8]) -> Result<(), Refusal> {
    unsafe { call(raw::cartlozenge_funding_order, state, message, verdicts) }.map(|_| ())
}

/// What the machine shows of an account.
/// Refuses 16, 2 above account 63, 16 on the record.
pub fn read_account(state: &[u8], account: u64) -> Result<Reading, Refusal> {
    let mut values = [0; 3];
    let mut balance = 0;
    let answer = unsafe {
        raw::cartlozenge_account(
            state.as_ptr(),
            state.len(),
            account,
            &mut values,
            &mut balance,
        )
    };
    accepted(answer)?;
    Ok(Reading {
        in_use: values[0] == 1,
        next: values[1],
        balance,
        free: values[2],
    })
}

/// The body that stands for an order's sender: the one pending in the state, otherwise the message's own. The empty part of the message
/// where state or message are not in order.
pub fn standing_body(message: &[u8], state: &[u8]) -> Stretch {
    let answer = unsafe {
        raw::cartlozenge_standing_body(message.as_ptr(), message.len(), state.as_ptr(), state.len())
    };
    Above::of(answer).stretch()
}
