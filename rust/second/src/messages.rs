//! Readers of bodies, orders, certificates and funding orders.

use crate::numbers::{
    check_f, check_funding, check_payment, number_of_four, number_of_two, Funding, Payment, Refusal,
};

/// A field's tag and two-byte length.
pub const FIELD_HEAD: usize = 3;
pub const SHORTEST_BODY: usize = 25;
pub const LONGEST_BODY: usize = 57;
pub const LONGEST_NOTE: usize = 32;
pub const SIGNATURE_LENGTH: usize = 64;
/// An order is this much longer than its body: two field heads and the signature.
pub const ORDER_AROUND_BODY: usize = 70;
/// A vote is a machine number and a signature; its field has a head before it.
pub const VOTE_LENGTH: usize = 65;
pub const VOTE_FIELD_LENGTH: usize = 68;
pub const FUNDING_ORDER_LENGTH: usize = 16;
pub const LONGEST_MESSAGE: usize = 1_148;

/// What a body says.
#[derive(Clone, Copy, PartialEq, Eq, Debug)]
pub struct BodyRead<'a> {
    pub payment: Payment,
    pub note: &'a [u8],
}

/// What an order says.
#[derive(Clone, Copy, PartialEq, Eq, Debug)]
pub struct OrderRead<'a> {
    pub payment: Payment,
    pub note: &'a [u8],
    pub signature: &'a [u8],
}

/// The payment of an accepted certificate and the number of machines that voted for it.
#[derive(Clone, Copy, PartialEq, Eq, Debug)]
pub struct Certified {
    pub payment: Payment,
    pub votes: u64,
}

/// Where an uncopied answer lies: in the lent state, or else in the message.
#[derive(Clone, Copy, PartialEq, Eq, Debug)]
pub struct Stretch {
    pub in_state: bool,
    pub place: usize,
    pub length: usize,
}

/// The answer of the two calls that give a stretch when there is none to give.
pub const EMPTY_PART: Stretch = Stretch {
    in_state: false,
    place: 0,
    length: 0,
};

/// An order taken apart; its values are not yet checked.
pub struct OrderParts<'a> {
    pub body: &'a [u8],
    pub signature: &'a [u8],
}

/// A certificate taken apart; its values and votes are not yet checked.
pub struct CertificateParts<'a> {
    pub body: &'a [u8],
    pub votes: Votes<'a>,
}

/// A run of votes. One vote takes `step` bytes and its machine number is byte `first` of them:
/// a certificate's votes have field heads, the certificate writer's have none.
pub struct Votes<'a> {
    pub bytes: &'a [u8],
    pub step: usize,
    pub first: usize,
}

fn vote_count(votes: &Votes) -> usize {
    votes.bytes.len() / votes.step
}

fn machine_number(votes: &Votes, vote: usize) -> u64 {
    u64::from(votes.bytes[vote * votes.step + votes.first])
}

/// Reads a body's values and note. Refuses 1, then 2.
pub fn read_body(message: &[u8]) -> Result<BodyRead<'_>, Refusal> {
    check_body_form(message)?;
    let payment = payment_of(message);
    check_payment(payment)?;
    Ok(BodyRead {
        payment,
        note: note_of(message),
    })
}

/// Reads an order's values, note and signature. Refuses 1, then 2.
pub fn read_order(message: &[u8]) -> Result<OrderRead<'_>, Refusal> {
    let parts = split_order(message)?;
    let payment = payment_of(parts.body);
    check_payment(payment)?;
    Ok(OrderRead {
        payment,
        note: note_of(parts.body),
        signature: parts.signature,
    })
}

/// Reads a funding order's values. Refuses 1, then 2.
pub fn read_funding_order(message: &[u8]) -> Result<Funding, Refusal> {
    if message.len() != FUNDING_ORDER_LENGTH {
        return Err(1);
    }
    if message[0..3] != [0x30, 0, 2] || message[5..8] != [0x31, 0, 1] {
        return Err(1);
    }
    if message[9..12] != [0x32, 0, 4] {
        return Err(1);
    }
    let funding = Funding {
        index: number_of_two(message, 3),
        account: u64::from(message[8]),
        amount: number_of_four(message, 12),
    };
    check_funding(funding)?;
    Ok(funding)
}

/// Reads a certificate without verdicts. Refuses 2 for f, then 1, 2, 5, 6, 7.
pub fn read_certificate(f: u64, message: &[u8]) -> Result<Certified, Refusal> {
    check_f(f)?;
    let parts = split_certificate(message)?;
    let payment = payment_of(parts.body);
    check_payment(payment)?;
    check_machine_numbers(f, &parts.votes)?;
    check_rising(&parts.votes)?;
    let votes = count_quorum(f, &parts.votes)?;
    Ok(Certified { payment, votes })
}

/// Reads a certificate with one verdict per vote. Refuses 2 for f, then 1, 2, 3, 5, 6, 4, 7.
pub fn judge_certificate(f: u64, message: &[u8], verdicts: &[u8]) -> Result<Certified, Refusal> {
    check_f(f)?;
    let parts = split_certificate(message)?;
    let payment = payment_of(parts.body);
    check_payment(payment)?;
    if verdicts.len() != vote_count(&parts.votes) {
        return Err(3);
    }
    check_machine_numbers(f, &parts.votes)?;
    check_rising(&parts.votes)?;
    check_verdicts(verdicts)?;
    let votes = count_quorum(f, &parts.votes)?;
    Ok(Certified { payment, votes })
}

/// Where the body of an order or a certificate lies in the message: the stretch that votes cover.
/// The empty part if the message is neither of these or has 1 or 2. Nothing is asked of the votes'
/// machine numbers, since no f is known here.
pub fn covered(message: &[u8]) -> Stretch {
    let mut body: &[u8] = &[];
    if let Ok(parts) = split_order(message) {
        body = parts.body;
    } else if let Ok(parts) = split_certificate(message) {
        body = parts.body;
    }
    if read_body(body).is_err() {
        return EMPTY_PART;
    }
    Stretch {
        in_state: false,
        place: FIELD_HEAD,
        length: body.len(),
    }
}

/// The single verdict of an order or a funding order.
pub fn check_single_verdict(verdicts: &[u8]) -> Result<(), Refusal> {
    if verdicts.len() != 1 {
        return Err(3);
    }
    check_verdicts(verdicts)
}

fn check_verdicts(verdicts: &[u8]) -> Result<(), Refusal> {
    for verdict in verdicts {
        if *verdict != 1 {
            return Err(4);
        }
    }
    Ok(())
}

/// Takes an order apart. The lengths leave no choice: what the signature does not take is body.
pub fn split_order(message: &[u8]) -> Result<OrderParts<'_>, Refusal> {
    if message.len() < ORDER_AROUND_BODY + SHORTEST_BODY
        || message.len() > ORDER_AROUND_BODY + LONGEST_BODY
    {
        return Err(1);
    }
    let body_length = message.len() - ORDER_AROUND_BODY;
    let body_end = FIELD_HEAD + body_length;
    let signature_start = body_end + FIELD_HEAD;
    if message[0..FIELD_HEAD] != [0x10, 0, body_length as u8] {
        return Err(1);
    }
    if message[body_end..signature_start] != [0x11, 0, SIGNATURE_LENGTH as u8] {
        return Err(1);
    }
    let body = &message[FIELD_HEAD..body_end];
    check_body_form(body)?;
    Ok(OrderParts {
        body,
        signature: &message[signature_start..],
    })
}

fn split_certificate(message: &[u8]) -> Result<CertificateParts<'_>, Refusal> {
    if message.len() < FIELD_HEAD || message.len() > LONGEST_MESSAGE {
        return Err(1);
    }
    if message[0] != 0x20 {
        return Err(1);
    }
    let body_end = FIELD_HEAD + number_of_two(message, 1) as usize;
    if body_end > message.len() {
        return Err(1);
    }
    let body = &message[FIELD_HEAD..body_end];
    check_body_form(body)?;
    let votes = &message[body_end..];
    check_vote_fields(votes)?;
    Ok(CertificateParts {
        body,
        votes: Votes {
            bytes: votes,
            step: VOTE_FIELD_LENGTH,
            first: FIELD_HEAD,
        },
    })
}

fn check_vote_fields(votes: &[u8]) -> Result<(), Refusal> {
    let left_over = votes.len() % VOTE_FIELD_LENGTH;
    if left_over != 0 {
        return Err(1);
    }
    let mut place = 0;
    while place < votes.len() {
        if votes[place..place + FIELD_HEAD] != [0x21, 0, VOTE_LENGTH as u8] {
            return Err(1);
        }
        place += VOTE_FIELD_LENGTH;
    }
    Ok(())
}

/// Tags, lengths and end of a body. Only the note's length varies, so every field has its place.
pub fn check_body_form(body: &[u8]) -> Result<(), Refusal> {
    if body.len() < SHORTEST_BODY || body.len() > LONGEST_BODY {
        return Err(1);
    }
    let note_length = body.len() - SHORTEST_BODY;
    if body[0..3] != [0x01, 0, 1] || body[4..7] != [0x02, 0, 3] {
        return Err(1);
    }
    if body[10..13] != [0x03, 0, 4] || body[17..20] != [0x04, 0, 2] {
        return Err(1);
    }
    if body[22..25] != [0x05, 0, note_length as u8] {
        return Err(1);
    }
    Ok(())
}

/// The values of a body whose form is already checked.
pub fn payment_of(body: &[u8]) -> Payment {
    Payment {
        sender: u64::from(body[3]),
        kind: u64::from(body[7]),
        recipient: number_of_two(body, 8),
        amount: number_of_four(body, 13),
        sequence: number_of_two(body, 20),
    }
}

fn note_of(body: &[u8]) -> &[u8] {
    &body[SHORTEST_BODY..]
}

/// Takes an f that is already checked.
pub fn check_machine_numbers(f: u64, votes: &Votes) -> Result<(), Refusal> {
    for vote in 0..vote_count(votes) {
        if machine_number(votes, vote) > 3 * f {
            return Err(5);
        }
    }
    Ok(())
}

pub fn check_rising(votes: &Votes) -> Result<(), Refusal> {
    for vote in 1..vote_count(votes) {
        if machine_number(votes, vote) <= machine_number(votes, vote - 1) {
            return Err(6);
        }
    }
    Ok(())
}

/// Counts distinct machines, not votes. Comes after the check of machine numbers: they are at most
/// 15 then, so each has its bit in the mask.
pub fn count_quorum(f: u64, votes: &Votes) -> Result<u64, Refusal> {
    let mut machines: u16 = 0;
    for vote in 0..vote_count(votes) {
        machines |= 1 << machine_number(votes, vote);
    }
    let count = u64::from(machines.count_ones());
    if count < 2 * f + 1 {
        return Err(7);
    }
    Ok(count)
}
