//! What was answered in a run, and demand 3 on it.

use crate::answers::Payment;
use std::collections::{BTreeMap, BTreeSet};

const ACCOUNTS: usize = 64;

pub struct History {
    quorum: u32,
    dishonest: u32,
    /// The honest machines that answered a vote for a body, as bits.
    votes: BTreeMap<Vec<u8>, u16>,
    /// The certain payment of a sender and a sequence.
    certain: BTreeMap<(u64, u64), Vec<u8>>,
    redeemed: BTreeSet<Vec<u8>>,
    funding: [u64; ACCOUNTS],
    spent: [u64; ACCOUNTS],
    received: [u64; ACCOUNTS],
    to_ledger: u64,
    paid_out: u64,
}

/// A promise of demand 3 that does not hold.
pub type Broken = String;

impl History {
    pub fn new(f: u64, dishonest: u32) -> History {
        History {
            quorum: 2 * f as u32 + 1,
            dishonest,
            votes: BTreeMap::new(),
            certain: BTreeMap::new(),
            redeemed: BTreeSet::new(),
            funding: [0; ACCOUNTS],
            spent: [0; ACCOUNTS],
            received: [0; ACCOUNTS],
            to_ledger: 0,
            paid_out: 0,
        }
    }

    pub fn funded(&mut self, account: u64, amount: u64) {
        self.funding[account as usize] += amount;
    }

    /// What the ledger must have left.
    pub fn pot(&self) -> u64 {
        self.funding.iter().sum::<u64>() - self.paid_out
    }

    pub fn has_voted(&self, machine: usize, body: &[u8]) -> bool {
        self.votes.get(body).copied().unwrap_or(0) >> machine & 1 == 1
    }

    pub fn is_certain(&self, body: &[u8]) -> bool {
        let votes = self.votes.get(body).copied().unwrap_or(0);
        votes.count_ones() + self.dishonest >= self.quorum
    }

    /// The first sequence of an account without a certain payment.
    pub fn next_of(&self, account: u64) -> u64 {
        let mut next = 0;
        while self.certain.contains_key(&(account, next)) {
            next += 1;
        }
        next
    }

    pub fn certain_payments(&self) -> usize {
        self.certain.len()
    }

    pub fn redeemed_payments(&self) -> usize {
        self.redeemed.len()
    }

    /// An honest machine answered a vote, new or repeated.
    pub fn voted(&mut self, machine: usize, body: &[u8], payment: Payment) -> Result<(), Broken> {
        let before = self.is_certain(body);
        *self.votes.entry(body.to_vec()).or_insert(0) |= 1 << machine;
        if before || !self.is_certain(body) {
            return Ok(());
        }
        let under = (payment.sender, payment.sequence);
        if self.certain.insert(under, body.to_vec()).is_some() {
            return Err(format!(
                "account {} has two certain payments under sequence {}",
                payment.sender, payment.sequence
            ));
        }
        self.spent[payment.sender as usize] += payment.amount;
        if payment.kind == 0 {
            self.received[payment.recipient as usize] += payment.amount;
        } else {
            self.to_ledger += payment.amount;
        }
        self.covered_by_funding()
    }

    fn covered_by_funding(&self) -> Result<(), Broken> {
        for account in 0..ACCOUNTS {
            let covered = self.funding[account] + self.received[account];
            if self.spent[account] > covered {
                return Err(format!(
                    "account {account} has certain payments of {}, funding and certain payments to it of {covered}",
                    self.spent[account]
                ));
            }
        }
        let all: u64 = self.funding.iter().sum();
        if self.to_ledger > all {
            return Err(format!(
                "certain payments to the ledger of {}, funding of {all}",
                self.to_ledger
            ));
        }
        Ok(())
    }

    /// The ledger answered a good certificate to it: what it paid, or its refusal.
    pub fn redeeming(
        &mut self,
        body: &[u8],
        payment: Payment,
        paid: Result<(u64, u64), u8>,
    ) -> Result<(), Broken> {
        if !self.is_certain(body) {
            return Err("a good certificate of a payment that is not certain".to_string());
        }
        let first = self.redeemed.insert(body.to_vec());
        let whole = Ok((payment.recipient, payment.amount));
        if first && paid != whole {
            return Err(format!(
                "a good certificate, not yet redeemed, was answered {paid:?} instead of {whole:?}"
            ));
        }
        if first {
            self.paid_out += payment.amount;
        } else if paid != Err(14) {
            return Err(format!(
                "a body redeemed before was answered {paid:?} instead of 14"
            ));
        }
        Ok(())
    }
}
