//! Which answers were seen, and which document 01 makes possible.

#[derive(Clone, Copy, PartialEq, Eq, Debug)]
pub enum Call {
    FreshMachine,
    Order,
    Certificate,
    FundingOrder,
    ReadAccount,
    StandingBody,
    FreshLedger,
    Fund,
    Redeem,
    ReadPot,
    IsRedeemed,
    ReadBody,
    ReadOrder,
    ReadFundingOrder,
    ReadCertificate,
    JudgeCertificate,
    Covered,
    WriteBody,
    WriteOrder,
    WriteFundingOrder,
    WriteCertificate,
}

const CALLS: usize = 21;
const REFUSALS: usize = 18;
const MOST_KINDS: usize = 3;

/// The answers of one call: the refusals, and the kinds of accepted answers.
struct Possible {
    name: &'static str,
    refusals: &'static [u8],
    accepted: &'static [&'static str],
}

const fn possible(
    name: &'static str,
    refusals: &'static [u8],
    accepted: &'static [&'static str],
) -> Possible {
    Possible {
        name,
        refusals,
        accepted,
    }
}

/// In the order of `Call`.
const POSSIBLE: [Possible; CALLS] = [
    possible("fresh_machine", &[2, 16], &["made"]),
    possible(
        "order",
        &[1, 2, 3, 4, 8, 9, 10, 11, 16],
        &["vote, new", "vote, repeated"],
    ),
    possible(
        "certificate",
        &[1, 2, 3, 4, 5, 6, 7, 10, 16],
        &["confirmed", "already"],
    ),
    possible("funding_order", &[1, 2, 3, 4, 12, 16], &["credited"]),
    possible(
        "read_account",
        &[2, 16],
        &["out of use", "in use", "below zero"],
    ),
    possible("standing_body", &[], &["empty", "in message", "in state"]),
    possible("fresh_ledger", &[2, 16], &["made"]),
    possible("fund", &[2, 16, 17, 18], &["funded"]),
    possible("redeem", &[1, 2, 3, 4, 5, 6, 7, 13, 14, 15, 16], &["paid"]),
    possible("read_pot", &[16], &["read"]),
    possible("is_redeemed", &[2, 16], &["not in the log", "in the log"]),
    possible("read_body", &[1, 2], &["without note", "with note"]),
    possible("read_order", &[1, 2], &["without note", "with note"]),
    possible("read_funding_order", &[1, 2], &["read"]),
    possible("read_certificate", &[1, 2, 5, 6, 7], &["read"]),
    possible("judge_certificate", &[1, 2, 3, 4, 5, 6, 7], &["good"]),
    possible("covered", &[], &["empty", "in message"]),
    possible("write_body", &[2, 18], &["written"]),
    possible("write_order", &[2, 18], &["written"]),
    possible("write_funding_order", &[2, 18], &["written"]),
    possible("write_certificate", &[1, 2, 5, 6, 7, 18], &["written"]),
];

impl Call {
    pub fn name(self) -> &'static str {
        POSSIBLE[self as usize].name
    }
}

/// A refusal's number, or the kind of an accepted answer as its place in the list of the call.
pub enum Outcome {
    Refused(u8),
    Accepted(usize),
}

pub struct Coverage {
    refused: [[u64; REFUSALS + 1]; CALLS],
    accepted: [[u64; MOST_KINDS]; CALLS],
}

impl Coverage {
    pub fn new() -> Coverage {
        Coverage {
            refused: [[0; REFUSALS + 1]; CALLS],
            accepted: [[0; MOST_KINDS]; CALLS],
        }
    }

    /// Counts an answer; false where document 01 does not make it possible.
    pub fn count(&mut self, call: Call, outcome: Outcome) -> bool {
        let of = &POSSIBLE[call as usize];
        match outcome {
            Outcome::Refused(number) if of.refusals.contains(&number) => {
                self.refused[call as usize][number as usize] += 1;
                true
            }
            Outcome::Accepted(kind) if kind < of.accepted.len() => {
                self.accepted[call as usize][kind] += 1;
                true
            }
            _ => false,
        }
    }

    /// The possible answers that never came.
    pub fn missing(&self) -> Vec<String> {
        let mut missing = Vec::new();
        for (call, of) in POSSIBLE.iter().enumerate() {
            for number in of.refusals {
                if self.refused[call][*number as usize] == 0 {
                    missing.push(format!("{} never refused {}", of.name, number));
                }
            }
            for (kind, name) in of.accepted.iter().enumerate() {
                if self.accepted[call][kind] == 0 {
                    missing.push(format!("{} never answered \"{}\"", of.name, name));
                }
            }
        }
        missing
    }

    pub fn print(&self) {
        print!("{:20}", "refused");
        for number in 1..=REFUSALS {
            print!("{number:>8}");
        }
        println!();
        for (call, of) in POSSIBLE.iter().enumerate() {
            print!("{:20}", of.name);
            for number in 1..=REFUSALS {
                if of.refusals.contains(&(number as u8)) {
                    print!("{:>8}", self.refused[call][number]);
                } else {
                    print!("{:>8}", ".");
                }
            }
            println!();
        }
        println!("accepted");
        for (call, of) in POSSIBLE.iter().enumerate() {
            print!("{:20}", of.name);
            for (kind, name) in of.accepted.iter().enumerate() {
                print!("  {}: {}", name, self.accepted[call][kind]);
            }
            println!();
        }
    }
}
