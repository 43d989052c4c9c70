//! Writers of bodies, orders, certificates and funding orders. Each writes at the start of the
//! output, answers the number of bytes written and leaves the bytes beyond them as they were.

use crate::messages::{
    check_body_form, check_machine_numbers, check_rising, count_quorum, payment_of, Votes,
    FIELD_HEAD, FUNDING_ORDER_LENGTH, LONGEST_NOTE, ORDER_AROUND_BODY, SHORTEST_BODY,
    SIGNATURE_LENGTH, VOTE_FIELD_LENGTH, VOTE_LENGTH,
};
use crate::numbers::{check_f, check_funding, check_payment, Funding, Payment, Refusal};

/// Writes a body. Refuses 2 (also for a note above 32 bytes), then 18.
pub fn write_body(out: &mut [u8], payment: Payment, note: &[u8]) -> Result<usize, Refusal> {
    check_payment(payment)?;
    check_note(note)?;
    let length = SHORTEST_BODY + note.len();
    if out.len() < length {
        return Err(18);
    }
    put_body(&mut out[..length], payment, note);
    Ok(length)
}

/// Writes an order. Refuses 2 (also for a note above 32 bytes or a signature not of 64), then 18.
pub fn write_order(
    out: &mut [u8],
    payment: Payment,
    note: &[u8],
    signature: &[u8],
) -> Result<usize, Refusal> {
    check_payment(payment)?;
    check_note(note)?;
    if signature.len() != SIGNATURE_LENGTH {
        return Err(2);
    }
    let body_length = SHORTEST_BODY + note.len();
    let length = ORDER_AROUND_BODY + body_length;
    if out.len() < length {
        return Err(18);
    }
    let body_end = FIELD_HEAD + body_length;
    let signature_start = body_end + FIELD_HEAD;
    out[0..FIELD_HEAD].copy_from_slice(&[0x10, 0, body_length as u8]);
    put_body(&mut out[FIELD_HEAD..body_end], payment, note);
    out[body_end..signature_start].copy_from_slice(&[0x11, 0, SIGNATURE_LENGTH as u8]);
    out[signature_start..length].copy_from_slice(signature);
    Ok(length)
}

/// Writes a funding order. Refuses 2, then 18.
pub fn write_funding_order(out: &mut [u8], funding: Funding) -> Result<usize, Refusal> {
    check_funding(funding)?;
    if out.len() < FUNDING_ORDER_LENGTH {
        return Err(18);
    }
    out[0..3].copy_from_slice(&[0x30, 0, 2]);
    out[3..5].copy_from_slice(&(funding.index as u16).to_be_bytes());
    out[5..9].copy_from_slice(&[0x31, 0, 1, funding.account as u8]);
    out[9..12].copy_from_slice(&[0x32, 0, 4]);
    out[12..16].copy_from_slice(&(funding.amount as u32).to_be_bytes());
    Ok(FUNDING_ORDER_LENGTH)
}

/// Writes a certificate from a body and a run of 65-byte votes. Refuses 2 for f, 1 for an
/// ill-formed body or a run not divisible by 65, 2 for the body's values, then 5, 6, 7, 18.
pub fn write_certificate(
    f: u64,
    out: &mut [u8],
    body: &[u8],
    votes: &[u8],
) -> Result<usize, Refusal> {
    check_f(f)?;
    check_body_form(body)?;
    let left_over = votes.len() % VOTE_LENGTH;
    if left_over != 0 {
        return Err(1);
    }
    check_payment(payment_of(body))?;
    let run = Votes {
        bytes: votes,
        step: VOTE_LENGTH,
        first: 0,
    };
    check_machine_numbers(f, &run)?;
    check_rising(&run)?;
    count_quorum(f, &run)?;
    let body_end = FIELD_HEAD + body.len();
    let length = body_end + votes.len() / VOTE_LENGTH * VOTE_FIELD_LENGTH;
    if out.len() < length {
        return Err(18);
    }
    out[0..FIELD_HEAD].copy_from_slice(&[0x20, 0, body.len() as u8]);
    out[FIELD_HEAD..body_end].copy_from_slice(body);
    put_votes(&mut out[body_end..length], votes);
    Ok(length)
}

fn check_note(note: &[u8]) -> Result<(), Refusal> {
    if note.len() > LONGEST_NOTE {
        return Err(2);
    }
    Ok(())
}

fn put_body(out: &mut [u8], payment: Payment, note: &[u8]) {
    out[0..4].copy_from_slice(&[0x01, 0, 1, payment.sender as u8]);
    out[4..8].copy_from_slice(&[0x02, 0, 3, payment.kind as u8]);
    out[8..10].copy_from_slice(&(payment.recipient as u16).to_be_bytes());
    out[10..13].copy_from_slice(&[0x03, 0, 4]);
    out[13..17].copy_from_slice(&(payment.amount as u32).to_be_bytes());
    out[17..20].copy_from_slice(&[0x04, 0, 2]);
    out[20..22].copy_from_slice(&(payment.sequence as u16).to_be_bytes());
    out[22..25].copy_from_slice(&[0x05, 0, note.len() as u8]);
    out[25..].copy_from_slice(note);
}

fn put_votes(out: &mut [u8], votes: &[u8]) {
    for vote in 0..votes.len() / VOTE_LENGTH {
        let from = vote * VOTE_LENGTH;
        let to = vote * VOTE_FIELD_LENGTH;
        let value = to + FIELD_HEAD;
        out[to..value].copy_from_slice(&[0x21, 0, VOTE_LENGTH as u8]);
        out[value..value + VOTE_LENGTH].copy_from_slice(&votes[from..from + VOTE_LENGTH]);
    }
}
