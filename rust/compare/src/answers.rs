//! The answers of both programs as one type each, and the kinds that are counted apart.

pub use second::{Certified, Confirmation, Funding, Payment, Payout, Pot, Reading, Stretch, Vote};
use std::fmt::Debug;

/// A body or an order as read; what the readers hand back uncopied is copied here.
#[derive(Clone, PartialEq, Eq, Debug)]
pub struct Read {
    pub payment: Payment,
    pub note: Vec<u8>,
    /// Empty for a body.
    pub signature: Vec<u8>,
}

/// An accepted answer; its kind is the place in the coverage's list for the call.
pub trait Answer: PartialEq + Debug {
    fn kind(&self) -> usize {
        0
    }
}

impl Answer for () {}
impl Answer for u64 {}
impl Answer for usize {}
impl Answer for Payout {}
impl Answer for Pot {}
impl Answer for Funding {}
impl Answer for Certified {}

impl Answer for bool {
    fn kind(&self) -> usize {
        usize::from(*self)
    }
}

impl Answer for Vote {
    fn kind(&self) -> usize {
        match self {
            Vote::New => 0,
            Vote::Repeated => 1,
        }
    }
}

impl Answer for Confirmation {
    fn kind(&self) -> usize {
        match self {
            Confirmation::Confirmed(_) => 0,
            Confirmation::Already(_) => 1,
        }
    }
}

impl Answer for Reading {
    fn kind(&self) -> usize {
        match (self.in_use, self.balance < 0) {
            (false, _) => 0,
            (true, false) => 1,
            (true, true) => 2,
        }
    }
}

impl Answer for Stretch {
    fn kind(&self) -> usize {
        match (self.length, self.in_state) {
            (0, _) => 0,
            (_, false) => 1,
            (_, true) => 2,
        }
    }
}

impl Answer for Read {
    fn kind(&self) -> usize {
        usize::from(!self.note.is_empty())
    }
}

/// Ours, as the common type.
pub mod ours {
    use super::*;

    pub fn payment(payment: cartlozenge::Payment) -> Payment {
        Payment {
            sender: payment.sender,
            kind: payment.kind,
            recipient: payment.recipient,
            amount: payment.amount,
            sequence: payment.sequence,
        }
    }

    pub fn lent_payment(payment: Payment) -> cartlozenge::Payment {
        cartlozenge::Payment {
            sender: payment.sender,
            kind: payment.kind,
            recipient: payment.recipient,
            amount: payment.amount,
            sequence: payment.sequence,
        }
    }

    pub fn funding(funding: cartlozenge::Funding) -> Funding {
        Funding {
            index: funding.index,
            account: funding.account,
            amount: funding.amount,
        }
    }

    pub fn lent_funding(funding: Funding) -> cartlozenge::Funding {
        cartlozenge::Funding {
            index: funding.index,
            account: funding.account,
            amount: funding.amount,
        }
    }

    pub fn vote(vote: cartlozenge::Vote) -> Vote {
        match vote {
            cartlozenge::Vote::New => Vote::New,
            cartlozenge::Vote::Repeated => Vote::Repeated,
        }
    }

    pub fn confirmation(confirmation: cartlozenge::Confirmation) -> Confirmation {
        match confirmation {
            cartlozenge::Confirmation::Confirmed(votes) => Confirmation::Confirmed(votes),
            cartlozenge::Confirmation::Already(votes) => Confirmation::Already(votes),
        }
    }

    pub fn reading(reading: cartlozenge::Reading) -> Reading {
        Reading {
            in_use: reading.in_use,
            next: reading.next,
            balance: reading.balance,
            free: reading.free,
        }
    }

    pub fn stretch(stretch: cartlozenge::Stretch) -> Stretch {
        Stretch {
            in_state: stretch.in_state,
            place: stretch.place,
            length: stretch.length,
        }
    }

    pub fn certified(certified: cartlozenge::Certified) -> Certified {
        Certified {
            payment: payment(certified.payment),
            votes: certified.votes,
        }
    }

    pub fn payout(payout: cartlozenge::Payout) -> Payout {
        Payout {
            account: payout.account,
            amount: payout.amount,
        }
    }

    pub fn pot(pot: cartlozenge::Pot) -> Pot {
        Pot {
            index: pot.index,
            amount: pot.amount,
        }
    }

    pub fn body(read: cartlozenge::BodyRead) -> Read {
        Read {
            payment: payment(read.payment),
            note: read.note.to_vec(),
            signature: Vec::new(),
        }
    }

    pub fn order(read: cartlozenge::OrderRead) -> Read {
        Read {
            payment: payment(read.payment),
            note: read.note.to_vec(),
            signature: read.signature.to_vec(),
        }
    }
}

/// The second program's, where the common type is another.
pub mod theirs {
    use super::*;

    pub fn body(read: second::BodyRead) -> Read {
        Read {
            payment: read.payment,
            note: read.note.to_vec(),
            signature: Vec::new(),
        }
    }

    pub fn order(read: second::OrderRead) -> Read {
        Read {
            payment: read.payment,
            note: read.note.to_vec(),
            signature: read.signature.to_vec(),
        }
    }
}
