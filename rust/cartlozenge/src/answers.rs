//! What the calls answer.

use std::fmt;

/// Why a call was refused: one case for each number of document 01.
#[derive(Clone, Copy, PartialEq, Eq, Debug, Hash)]
#[repr(u8)]
pub enum Refusal {
    /// Tags, lengths or the end are not as laid down, or the message is too long.
    Malformed = 1,
    /// A value is out of range.
    OutOfRange = 2,
    /// Wrong number of verdict bytes.
    VerdictCount = 3,
    /// A verdict is not 1.
    BadVerdict = 4,
    /// A vote's machine number is above 3f.
    UnknownMachine = 5,
    /// Votes repeat or do not rise.
    VotesNotRising = 6,
    /// Fewer than 2f + 1 votes.
    TooFewVotes = 7,
    /// The order's sender is not in use.
    SenderNotInUse = 8,
    /// Another body is pending.
    AnotherPending = 9,
    /// The sequence is not the next (order), or above it (certificate).
    NotNextSequence = 10,
    /// The balance is below the amount (orders only).
    BalanceTooLow = 11,
    /// The funding index is not the last one plus 1.
    NotNextIndex = 12,
    /// Redeem: the recipient is no ledger account.
    NotToLedger = 13,
    /// Redeem: this sender and sequence are in the log.
    AlreadyRedeemed = 14,
    /// Redeem: the pot is below the amount.
    PotTooLow = 15,
    /// The state is of a wrong length or ill-formed, or a balance or the pot would leave its limits.
    BadState = 16,
    /// The ledger's index is already 65,535.
    IndexExhausted = 17,
    /// The output buffer is too small.
    BufferTooSmall = 18,
}

const REFUSALS: [Refusal; 18] = [
    Refusal::Malformed,
    Refusal::OutOfRange,
    Refusal::VerdictCount,
    Refusal::BadVerdict,
    Refusal::UnknownMachine,
    Refusal::VotesNotRising,
    Refusal::TooFewVotes,
    Refusal::SenderNotInUse,
    Refusal::AnotherPending,
    Refusal::NotNextSequence,
    Refusal::BalanceTooLow,
    Refusal::NotNextIndex,
    Refusal::NotToLedger,
    Refusal::AlreadyRedeemed,
    Refusal::PotTooLow,
    Refusal::BadState,
    Refusal::IndexExhausted,
    Refusal::BufferTooSmall,
];

impl Refusal {
    /// The number of the refusal, 1 to 18.
    pub fn number(self) -> u8 {
        self as u8
    }
}

impl fmt::Display for Refusal {
    fn fmt(&self, out: &mut fmt::Formatter<'_>) -> fmt::Result {
        let words = match self {
            Refusal::Malformed => "the message is not laid out to its end",
            Refusal::OutOfRange => "a value is out of range",
            Refusal::VerdictCount => "wrong number of verdicts",
            Refusal::BadVerdict => "a verdict is bad",
            Refusal::UnknownMachine => "a vote is of no machine of the committee",
            Refusal::VotesNotRising => "votes repeat or do not rise",
            Refusal::TooFewVotes => "too few votes",
            Refusal::SenderNotInUse => "the sender is not in use",
            Refusal::AnotherPending => "another body is pending",
            Refusal::NotNextSequence => "not the next sequence",
            Refusal::BalanceTooLow => "the balance is too low",
            Refusal::NotNextIndex => "not the next funding index",
            Refusal::NotToLedger => "not a payment to the ledger",
            Refusal::AlreadyRedeemed => "already redeemed",
            Refusal::PotTooLow => "more than the pot holds",
            Refusal::BadState => {
                "the state is not well formed, or a balance would leave its limits"
            }
            Refusal::IndexExhausted => "no funding index is left",
            Refusal::BufferTooSmall => "the output is too small",
        };
        write!(out, "refused {}: {}", self.number(), words)
    }
}

impl std::error::Error for Refusal {}

/// The refusal in an answer's lowest byte, or the answer with what stands above it.
pub(crate) fn accepted(answer: u64) -> Result<Above, Refusal> {
    match (answer & 0xff) as usize {
        0 => Ok(Above(answer)),
        number => Err(REFUSALS[number - 1]),
    }
}

/// An answer that is no refusal.
#[derive(Clone, Copy)]
pub(crate) struct Above(u64);

impl Above {
    /// Of the calls that never refuse.
    pub(crate) fn of(answer: u64) -> Above {
        Above(answer)
    }

    /// The value in `width` bits from bit `first` on.
    pub(crate) fn bits(self, first: u32, width: u32) -> u64 {
        self.0 >> first & ((1 << width) - 1)
    }

    /// Whether the value behind the lowest byte is 1.
    pub(crate) fn flag(self) -> bool {
        self.bits(8, 8) == 1
    }

    /// Of a writer: how many bytes were written.
    pub(crate) fn written(self) -> usize {
        self.bits(8, 16) as usize
    }

    /// Of the two calls that point into what was lent.
    pub(crate) fn stretch(self) -> Stretch {
        Stretch {
            in_state: self.flag(),
            place: self.bits(16, 16) as usize,
            length: self.bits(32, 16) as usize,
        }
    }
}

/// What a body says, its note apart. The recipient is an account for kind 0, a ledger account for kind 1.
#[derive(Clone, Copy, PartialEq, Eq, Debug)]
pub struct Payment {
    /// An account, 0 to 63.
    pub sender: u64,
    /// 0 for an account, 1 for the ledger.
    pub kind: u64,
    /// An account, or an account at the ledger, 0 to 65,535.
    pub recipient: u64,
    /// Watt-hours, 1 to 1,000,000,000.
    pub amount: u64,
    /// 0 to 4,095.
    pub sequence: u64,
}

/// What a funding order says.
#[derive(Clone, Copy, PartialEq, Eq, Debug)]
pub struct Funding {
    /// 1 to 65,535.
    pub index: u64,
    /// 0 to 63.
    pub account: u64,
    /// Watt-hours, 1 to 1,000,000,000.
    pub amount: u64,
}

/// A body, read.
#[derive(Clone, Copy, PartialEq, Eq, Debug)]
pub struct BodyRead<'a> {
    pub payment: Payment,
    /// Empty where there is no note.
    pub note: &'a [u8],
}

/// An order, read.
#[derive(Clone, Copy, PartialEq, Eq, Debug)]
pub struct OrderRead<'a> {
    pub payment: Payment,
    /// Empty where there is no note.
    pub note: &'a [u8],
    pub signature: &'a [u8],
}

/// A certificate, read: the payment, and how many machines voted for it.
#[derive(Clone, Copy, PartialEq, Eq, Debug)]
pub struct Certified {
    pub payment: Payment,
    pub votes: u64,
}

/// The answer to an order.
#[derive(Clone, Copy, PartialEq, Eq, Debug)]
pub enum Vote {
    /// The body is pending from now on.
    New,
    /// It was pending already.
    Repeated,
}

/// The answer to a certificate, with the number of votes counted.
#[derive(Clone, Copy, PartialEq, Eq, Debug)]
pub enum Confirmation {
    /// Sender and recipient are settled.
    Confirmed(u64),
    /// It was settled before; nothing changed.
    Already(u64),
}

/// What reading an account gives.
#[derive(Clone, Copy, PartialEq, Eq, Debug)]
pub struct Reading {
    pub in_use: bool,
    /// The next sequence.
    pub next: u64,
    /// Below zero while a credit is on its way.
    pub balance: i64,
    /// Free to spend: the balance, or 0 if it is negative.
    pub free: u64,
}

/// Part of what was lent, uncopied: in the state, or else in the message.
#[derive(Clone, Copy, PartialEq, Eq, Debug)]
pub struct Stretch {
    pub in_state: bool,
    pub place: usize,
    /// 0 for the empty part.
    pub length: usize,
}

impl Stretch {
    /// The bytes, out of the message and the state that were lent to the call.
    pub fn of<'a>(self, message: &'a [u8], state: &'a [u8]) -> &'a [u8] {
        let lent = if self.in_state { state } else { message };
        &lent[self.place..self.place + self.length]
    }
}

/// What the ledger pays out, to an account at the ledger.
#[derive(Clone, Copy, PartialEq, Eq, Debug)]
pub struct Payout {
    pub account: u64,
    pub amount: u64,
}

/// The ledger's last funding index, 0 before the first, and its pot.
#[derive(Clone, Copy, PartialEq, Eq, Debug)]
pub struct Pot {
    pub index: u64,
    pub amount: u64,
}
