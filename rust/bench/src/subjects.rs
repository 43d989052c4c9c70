//! The calls that are measured: ours and the second program's on a state, and the judged certificate.

use crate::index;
use crate::inputs::{batches, Batch};
use std::hint::black_box;

/// Runs a batch from its starting state and says how many calls were refused.
pub type Run = fn(&mut [u8], &Batch) -> usize;

/// A call on a state: its name, both sides, and the functions to count. Inputs are made with the second program, so its calls that count go
/// through a function of their own.
pub struct Subject {
    pub name: &'static str,
    pub ours: Run,
    pub second: Run,
    pub our_symbol: &'static str,
    pub second_symbol: &'static str,
    pub batch: fn(u64) -> Batch,
}

type Answer<T> = Result<T, second::Refusal>;

#[inline(never)]
fn second_order(state: &mut [u8], message: &[u8], verdicts: &[u8]) -> Answer<second::Vote> {
    second::order(state, message, verdicts)
}

#[inline(never)]
fn second_certificate(
    state: &mut [u8],
    message: &[u8],
    verdicts: &[u8],
) -> Answer<second::Confirmation> {
    second::certificate(state, message, verdicts)
}

#[inline(never)]
fn second_funding_order(state: &mut [u8], message: &[u8], verdicts: &[u8]) -> Answer<()> {
    second::funding_order(state, message, verdicts)
}

#[inline(never)]
fn second_redeem(state: &mut [u8], message: &[u8], verdicts: &[u8]) -> Answer<second::Payout> {
    second::redeem(state, message, verdicts)
}

macro_rules! run {
    ($call:path) => {
        |state, batch| {
            let mut refused = 0;
            for message in &batch.messages {
                let answer = $call(
                    black_box(state),
                    black_box(message),
                    black_box(&batch.verdicts),
                );
                refused += black_box(answer).is_err() as usize;
            }
            refused
        }
    };
}

pub const SUBJECTS: [Subject; 4] = [
    Subject {
        name: "order",
        ours: run!(cartlozenge::order),
        second: run!(second_order),
        our_symbol: "cartlozenge_order",
        second_symbol: "bench::subjects::second_order",
        batch: |f| batches(f).order,
    },
    Subject {
        name: "certificate",
        ours: run!(cartlozenge::certificate),
        second: run!(second_certificate),
        our_symbol: "cartlozenge_certificate",
        second_symbol: "bench::subjects::second_certificate",
        batch: |f| batches(f).certificate,
    },
    Subject {
        name: "funding order",
        ours: run!(cartlozenge::funding_order),
        second: run!(second_funding_order),
        our_symbol: "cartlozenge_funding_order",
        second_symbol: "bench::subjects::second_funding_order",
        batch: |f| batches(f).funding,
    },
    Subject {
        name: "redeem",
        ours: run!(cartlozenge::redeem),
        second: run!(second_redeem),
        our_symbol: "cartlozenge_redeem",
        second_symbol: "bench::subjects::second_redeem",
        batch: |f| batches(f).redeem,
    },
];

/// How many of the messages a judge of certificates refuses.
fn refused(messages: &[Vec<u8>], refuses: impl Fn(&[u8]) -> bool) -> usize {
    let mut refused = 0;
    for message in messages {
        refused += refuses(message) as usize;
    }
    refused
}

pub fn judge_ours(f: u64, messages: &[Vec<u8>], verdicts: &[u8]) -> usize {
    refused(messages, |message| {
        black_box(cartlozenge::judge_certificate(
            black_box(f),
            message,
            verdicts,
        ))
        .is_err()
    })
}

pub fn judge_second(f: u64, messages: &[Vec<u8>], verdicts: &[u8]) -> usize {
    refused(messages, |message| {
        black_box(second::judge_certificate(black_box(f), message, verdicts)).is_err()
    })
}

/// One of the two index-style judges.
pub type Judge = fn(u64, &[u8], &[u8], &mut index::Values) -> u64;

pub fn judge_index(judge: Judge, f: u64, messages: &[Vec<u8>], verdicts: &[u8]) -> usize {
    refused(messages, |message| {
        let mut values = [0; 6];
        let answer = judge(black_box(f), message, verdicts, &mut values);
        black_box(values);
        black_box(answer) != 0
    })
}
