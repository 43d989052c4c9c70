//! A machine or the ledger as the second program keeps it, with the line that answers each line, after the specs of the crate `lines`.

use crate::wording::{self, Fault};
use crate::words::{self, LONGEST_LINE};
use second::{Confirmation, Refusal, Vote};

/// No balance lies further from zero, and no pot is higher.
pub const LIMIT: i64 = 1_000_000_000_000_000;

/// A machine's state: a header, and a record for each account.
pub const MACHINE_HEADER_LENGTH: usize = 8;
pub const RECORD_LENGTH: usize = 72;

/// Where an account's record begins in a machine's state.
pub const fn record_place(account: usize) -> usize {
    MACHINE_HEADER_LENGTH + RECORD_LENGTH * account
}

#[derive(Clone, Copy, PartialEq, Eq, Debug)]
pub enum Role {
    Machine,
    Ledger,
}

pub const ROLES: [Role; 2] = [Role::Machine, Role::Ledger];

impl Role {
    /// The program's word for it.
    pub fn name(self) -> &'static str {
        match self {
            Role::Machine => "machine",
            Role::Ledger => "ledger",
        }
    }

    pub fn state_length(self) -> usize {
        match self {
            Role::Machine => 4_616,
            Role::Ledger => 32_784,
        }
    }
}

/// A refusal's number, or the kind of an answer.
#[derive(Clone, Copy, PartialEq, Eq, PartialOrd, Ord, Debug)]
pub enum Outcome {
    Refused(u8),
    Said(&'static str),
}

/// The answer to a line. What is no call at all stands under `line`.
#[derive(Clone, Debug)]
pub struct Reply {
    pub call: &'static str,
    pub outcome: Outcome,
    pub text: String,
}

fn faulty(call: &'static str, fault: Fault) -> Reply {
    refused(call, fault.number())
}

fn refused(call: &'static str, number: Refusal) -> Reply {
    Reply {
        call,
        outcome: Outcome::Refused(number),
        text: wording::refused(number),
    }
}

fn said(call: &'static str, kind: &'static str, text: String) -> Reply {
    Reply {
        call,
        outcome: Outcome::Said(kind),
        text,
    }
}

/// A call that takes a message and its verdicts.
type Handler = fn(&mut Desk, &[u8], &[u8]) -> Result<Reply, Refusal>;

#[derive(Clone)]
pub struct Desk {
    pub role: Role,
    pub state: Vec<u8>,
}

impl Desk {
    /// The ledger has no number of its own.
    pub fn fresh(role: Role, f: u64, own: u64) -> Result<Desk, Refusal> {
        let mut state = vec![0; role.state_length()];
        match role {
            Role::Machine => second::fresh_machine(&mut state, f, own)?,
            Role::Ledger => second::fresh_ledger(&mut state, f)?,
        }
        Ok(Desk { role, state })
    }

    /// Whether the state is one in all of its parts.
    pub fn is_formed(&self) -> bool {
        match self.role {
            Role::Machine => {
                (0..64).all(|account| second::read_account(&self.state, account).is_ok())
            }
            Role::Ledger => second::read_pot(&self.state).is_ok(),
        }
    }

    pub fn last_index(&self) -> u64 {
        u64::from(u16::from_be_bytes([self.state[2], self.state[3]]))
    }

    /// Each line feed ends a line, and each line has one answer. What stands behind the last line feed was cut off, unless it is
    /// too long for a line already.
    pub fn answer_input(&mut self, input: &[u8]) -> Vec<Reply> {
        let mut lines: Vec<&[u8]> = input.split(|byte| *byte == b'\n').collect();
        let rest = lines.pop().unwrap_or_default();
        let mut replies: Vec<Reply> = lines.iter().map(|line| self.answer(line)).collect();
        if rest.len() > LONGEST_LINE {
            replies.push(faulty("line", Fault::TooLong));
        } else if !rest.is_empty() {
            replies.push(faulty("line", Fault::NoEnd));
        }
        replies
    }

    /// Answers a line that stands here without its line feed.
    pub fn answer(&mut self, line: &[u8]) -> Reply {
        if line.len() > LONGEST_LINE {
            return faulty("line", Fault::TooLong);
        }
        let words = words::words(line);
        let Some(name) = words.first() else {
            return faulty("line", Fault::Empty);
        };
        match (self.role, *name) {
            (Role::Machine, b"order") => self.paper("order", &words, Desk::order),
            (Role::Machine, b"certificate") => self.paper("certificate", &words, Desk::certificate),
            (Role::Machine, b"funding") => self.paper("funding", &words, Desk::funding),
            (Role::Machine, b"account") => self.account(&words),
            (Role::Machine, b"standing") => self.standing(&words),
            (Role::Ledger, b"redeem") => self.paper("redeem", &words, Desk::redeem),
            (Role::Ledger, b"fund") => self.fund(&words),
            (Role::Ledger, b"pot") => self.pot(&words),
            (Role::Ledger, b"redeemed") => self.redeemed(&words),
            _ => faulty("line", Fault::NoCall),
        }
    }

    /// A message with its verdicts.
    fn paper(&mut self, call: &'static str, words: &[&[u8]], handle: Handler) -> Reply {
        if words.len() != 3 {
            return faulty(call, Fault::WordCount);
        }
        let (Some(message), Some(verdicts)) = (words::bytes(words[1]), words::bytes(words[2]))
        else {
            return faulty(call, Fault::NotHexadecimal);
        };
        match handle(self, &message, &verdicts) {
            Ok(reply) => reply,
            Err(number) => refused(call, number),
        }
    }

    fn order(&mut self, message: &[u8], verdicts: &[u8]) -> Result<Reply, Refusal> {
        let vote = second::order(&mut self.state, message, verdicts)?;
        let kind = match vote {
            Vote::New => "new",
            Vote::Repeated => "repeated",
        };
        Ok(said("order", kind, wording::vote(vote)))
    }

    fn certificate(&mut self, message: &[u8], verdicts: &[u8]) -> Result<Reply, Refusal> {
        let confirmation = second::certificate(&mut self.state, message, verdicts)?;
        let kind = match confirmation {
            Confirmation::Confirmed(_) => "confirmed",
            Confirmation::Already(_) => "already",
        };
        Ok(said(
            "certificate",
            kind,
            wording::confirmation(confirmation),
        ))
    }

    fn funding(&mut self, message: &[u8], verdicts: &[u8]) -> Result<Reply, Refusal> {
        second::funding_order(&mut self.state, message, verdicts)?;
        Ok(said("funding", "taken", "funding taken".to_string()))
    }

    fn redeem(&mut self, message: &[u8], verdicts: &[u8]) -> Result<Reply, Refusal> {
        let payout = second::redeem(&mut self.state, message, verdicts)?;
        Ok(said("redeem", "paid", wording::paid(payout)))
    }

    fn account(&self, words: &[&[u8]]) -> Reply {
        if words.len() != 2 {
            return faulty("account", Fault::WordCount);
        }
        let account = words::number(words[1]);
        let reading = match second::read_account(&self.state, account) {
            Ok(reading) => reading,
            Err(number) => return refused("account", number),
        };
        let kind = match reading.in_use {
            false => "not in use",
            true if reading.balance < 0 => "below zero",
            true => "in use",
        };
        said("account", kind, wording::reading(account, reading))
    }

    fn standing(&self, words: &[&[u8]]) -> Reply {
        if words.len() != 2 {
            return faulty("standing", Fault::WordCount);
        }
        let Some(message) = words::bytes(words[1]) else {
            return faulty("standing", Fault::NotHexadecimal);
        };
        let stretch = second::standing_body(&message, &self.state);
        let (kind, from) = match stretch.in_state {
            true => ("pending", &self.state),
            false if stretch.length > 0 => ("the order's own", &message),
            false => ("none", &message),
        };
        let body = &from[stretch.place..stretch.place + stretch.length];
        said("standing", kind, wording::standing(body))
    }

    fn fund(&mut self, words: &[&[u8]]) -> Reply {
        if words.len() != 3 {
            return faulty("fund", Fault::WordCount);
        }
        let (account, amount) = (words::number(words[1]), words::number(words[2]));
        let mut order = [0; 16];
        match second::fund(&mut self.state, &mut order, account, amount) {
            Ok(index) => said("fund", "funded", wording::funded(index, &order)),
            Err(number) => refused("fund", number),
        }
    }

    fn pot(&self, words: &[&[u8]]) -> Reply {
        if words.len() != 1 {
            return faulty("pot", Fault::WordCount);
        }
        match second::read_pot(&self.state) {
            Ok(pot) => said("pot", "read", wording::pot(pot)),
            Err(number) => refused("pot", number),
        }
    }

    fn redeemed(&self, words: &[&[u8]]) -> Reply {
        if words.len() != 3 {
            return faulty("redeemed", Fault::WordCount);
        }
        let (account, sequence) = (words::number(words[1]), words::number(words[2]));
        let is_redeemed = match second::is_redeemed(&self.state, account, sequence) {
            Ok(is_redeemed) => is_redeemed,
            Err(number) => return refused("redeemed", number),
        };
        let kind = if is_redeemed { "yes" } else { "no" };
        said(
            "redeemed",
            kind,
            wording::log(account, sequence, is_redeemed),
        )
    }
}
