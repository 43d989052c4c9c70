//! Readers of messages, without a state.

use crate::answers::{
    accepted, Above, BodyRead, Certified, Funding, OrderRead, Payment, Refusal, Stretch,
};
use crate::raw;

fn payment(values: &[u64]) -> Payment {
    Payment {
        sender: values[0],
        kind: values[1],
        recipient: values[2],
        amount: values[3],
        sequence: values[4],
    }
}

fn certified(values: &[u64; 6]) -> Certified {
    Certified {
        payment: payment(&values[1..]),
        votes: values[0],
    }
}

/// Reads a body.
/// Refuses 1, 2.
pub fn read_body(message: &[u8]) -> Result<BodyRead<'_>, Refusal> {
    let mut values = [0; 6];
    let answer =
        unsafe { raw::cartlozenge_read_body(message.as_ptr(), message.len(), &mut values) };
    accepted(answer)?;
    Ok(BodyRead {
        payment: payment(&values),
        note: &message[message.len() - values[5] as usize..],
    })
}

/// Reads an order.
/// Refuses 1, 2.
pub fn read_order(message: &[u8]) -> Result<OrderRead<'_>, Refusal> {
    let mut values = [0; 6];
    let answer =
        unsafe { raw::cartlozenge_read_order(message.as_ptr(), message.len(), &mut values) };
    accepted(answer)?;
    Ok(OrderRead {
        payment: payment(&values),
        note: &message[28..28 + values[5] as usize],
        signature: &message[message.len() - crate::SIGNATURE..],
    })
}

/// Reads a funding order.
/// Refuses 1, 2.
pub fn read_funding_order(message: &[u8]) -> Result<Funding, Refusal> {
    let mut values = [0; 3];
    let answer = unsafe {
        raw::cartlozenge_read_funding_order(message.as_ptr(), message.len(), &mut values)
    };
    accepted(answer)?;
    Ok(Funding {
        index: values[0],
        account: values[1],
        amount: values[2],
    })
}

/// Reads a certificate for a committee of 3f + 1, without verdicts.
/// Refuses 2 for f, 1, 2, 5, 6, 7.
pub fn read_certificate(f: u64, message: &[u8]) -> Result<Certified, Refusal> {
    let mut values = [0; 6];
    let answer = unsafe {
        raw::cartlozenge_read_certificate(f, message.as_ptr(), message.len(), &mut values)
    };
    accepted(answer)?;
    Ok(certified(&values))
}

/// Reads a certificate with one verdict for each vote.
/// Refuses 2 for f, 1, 2, 3, 5, 6, 4, 7.
pub fn judge_certificate(f: u64, message: &[u8], verdicts: &[u8]) -> Result<Certified, Refusal> {
    let mut values = [0; 6];
    let answer = unsafe {
        raw::cartlozenge_judge_certificate(
            f,
            message.as_ptr(),
            message.len(),
            verdicts.as_ptr(),
            verdicts.len(),
            &mut values,
        )
    };
    accepted(answer)?;
    Ok(certified(&values))
}

/// The stretch of an order or a certificate that votes cover: its body. The empty part where the message is neither or has a fault.
pub fn covered(message: &[u8]) -> Stretch {
    let answer = unsafe { raw::cartlozenge_covered(message.as_ptr(), message.len()) };
    Above::of(answer).stretch()
}
