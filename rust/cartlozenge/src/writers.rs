//! Writers of messages: they write at the start of `out` and answer how many bytes they wrote.

use crate::answers::{accepted, Funding, Payment, Refusal};
use crate::raw;

/// Writes a body.
/// Refuses 2, 18.
pub fn write_body(out: &mut [u8], payment: Payment, note: &[u8]) -> Result<usize, Refusal> {
    let answer = unsafe {
        raw::cartlozenge_write_body(
            out.as_mut_ptr(),
            out.len(),
            payment.sender,
            payment.kind,
            payment.recipient,
            payment.amount,
            payment.sequence,
            note.as_ptr(),
            note.len(),
        )
    };
    Ok(accepted(answer)?.written())
}

/// Writes an order; the signature is the sender's, 64 bytes.
/// Refuses 2, 18.
pub fn write_order(
    out: &mut [u8],
    payment: Payment,
    note: &[u8],
    signature: &[u8],
) -> Result<usize, Refusal> {
    let answer = unsafe {
        raw::cartlozenge_write_order(
            out.as_mut_ptr(),
            out.len(),
            payment.sender,
            payment.kind,
            payment.recipient,
            payment.amount,
            payment.sequence,
            note.as_ptr(),
            note.len(),
            signature.as_ptr(),
            signature.len(),
        )
    };
    Ok(accepted(answer)?.written())
}

/// Writes a funding order.
/// Refuses 2, 18.
pub fn write_funding_order(out: &mut [u8], funding: Funding) -> Result<usize, Refusal> {
    let answer = unsafe {
        raw::cartlozenge_write_funding_order(
            out.as_mut_ptr(),
            out.len(),
            funding.index,
            funding.account,
            funding.amount,
        )
    };
    Ok(accepted(answer)?.written())
}

/// Writes a certificate from a body and votes of 65 bytes each: machine number, 64 signature bytes.
/// Refuses 2 for f, 1, 2, 5, 6, 7, 18.
pub fn write_certificate(
    f: u64,
    out: &mut [u8],
    body: &[u8],
    votes: &[u8],
) -> Result<usize, Refusal> {
    let answer = unsafe {
        raw::cartlozenge_write_certificate(
            f,
            out.as_mut_ptr(),
            out.len(),
            body.as_ptr(),
            body.len(),
            votes.as_ptr(),
            votes.len(),
        )
    };
    Ok(accepted(answer)?.written())
}
