//! What is printed for each answer, after the specs of the crate `wording`.

use crate::messages::hexadecimal;
use second::{Confirmation, Payout, Pot, Reading, Refusal, Vote};

/// A line that is no call.
#[derive(Clone, Copy)]
pub enum Fault {
    Empty,
    TooLong,
    NoCall,
    WordCount,
    NotHexadecimal,
    NoEnd,
}

impl Fault {
    pub fn number(self) -> u8 {
        match self {
            Fault::Empty => 101,
            Fault::TooLong => 102,
            Fault::NoCall => 103,
            Fault::WordCount => 104,
            Fault::NotHexadecimal => 105,
            Fault::NoEnd => 106,
        }
    }
}

fn reason(number: u8) -> &'static str {
    match number {
        1 => "tags, lengths or the end are not as laid down, or the message is too long",
        2 => "a value is out of range or no number",
        3 => "wrong number of verdict bytes",
        4 => "a verdict is not good",
        5 => "a vote is by a machine outside the committee",
        6 => "votes repeat or do not rise",
        7 => "too few votes",
        8 => "the sender is not in use",
        9 => "another body is pending",
        10 => "the sequence is not the next",
        11 => "the balance is below the amount",
        12 => "the funding index is not the next",
        13 => "the recipient is no ledger account",
        14 => "already redeemed",
        15 => "the pot is below the amount",
        16 => "the state is ill-formed, or a limit would be passed",
        17 => "all funding indexes are used",
        18 => "the output is too small",
        101 => "the line is empty",
        102 => "the line is too long",
        103 => "there is no such call here",
        104 => "wrong number of words",
        105 => "not hexadecimal",
        106 => "the line was cut off",
        _ => "a number that no table has",
    }
}

pub fn refused(number: Refusal) -> String {
    format!("refused {number}: {}", reason(number))
}

pub fn vote(vote: Vote) -> String {
    match vote {
        Vote::New => "vote, new".to_string(),
        Vote::Repeated => "vote, repeated".to_string(),
    }
}

pub fn confirmation(confirmation: Confirmation) -> String {
    match confirmation {
        Confirmation::Confirmed(votes) => format!("confirmed by {}", machines(votes)),
        Confirmation::Already(votes) => {
            format!(
                "already: this sequence was confirmed before; votes of {}",
                machines(votes)
            )
        }
    }
}

fn machines(count: u64) -> String {
    if count == 1 {
        return "1 machine".to_string();
    }
    format!("{count} machines")
}

pub fn reading(account: u64, reading: Reading) -> String {
    let negated = if reading.in_use { "" } else { "not " };
    format!(
        "account {account}: {negated}in use, next {}, balance {}, free to spend {}",
        reading.next, reading.balance, reading.free
    )
}

pub fn standing(body: &[u8]) -> String {
    if body.is_empty() {
        return "no standing body".to_string();
    }
    format!("standing body {}", hexadecimal(body))
}

pub fn funded(index: u64, order: &[u8]) -> String {
    format!("funding order {index}: {}", hexadecimal(order))
}

pub fn paid(payout: Payout) -> String {
    format!(
        "paid {} to ledger account {}",
        payout.amount, payout.account
    )
}

pub fn pot(pot: Pot) -> String {
    format!("pot {}, last funding index {}", pot.amount, pot.index)
}

pub fn log(account: u64, sequence: u64, is_redeemed: bool) -> String {
    let negated = if is_redeemed { "" } else { "not " };
    format!("account {account}, sequence {sequence}: {negated}redeemed")
}
