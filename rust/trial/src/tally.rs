//! Which answers came, and which can come at all.

use crate::desk::{Outcome, Reply};
use std::collections::BTreeMap;

/// The answers of one call: refusals, and kinds of others.
struct Possible {
    call: &'static str,
    refusals: &'static [u8],
    kinds: &'static [&'static str],
}

const fn possible(
    call: &'static str,
    refusals: &'static [u8],
    kinds: &'static [&'static str],
) -> Possible {
    Possible {
        call,
        refusals,
        kinds,
    }
}

/// 18 cannot come, since the program lends room enough. 16 comes only where a balance or the pot would leave its limits, since no
/// ill-formed state is served; so it cannot come for an order or a reading.
const POSSIBLE: [Possible; 10] = [
    possible("line", &[101, 102, 103, 106], &[]),
    possible(
        "order",
        &[1, 2, 3, 4, 8, 9, 10, 11, 104, 105],
        &["new", "repeated"],
    ),
    possible(
        "certificate",
        &[1, 2, 3, 4, 5, 6, 7, 10, 16, 104, 105],
        &["confirmed", "already"],
    ),
    possible("funding", &[1, 2, 3, 4, 12, 16, 104, 105], &["taken"]),
    possible(
        "account",
        &[2, 104],
        &["not in use", "in use", "below zero"],
    ),
    possible(
        "standing",
        &[104, 105],
        &["none", "the order's own", "pending"],
    ),
    possible(
        "redeem",
        &[1, 2, 3, 4, 5, 6, 7, 13, 14, 15, 104, 105],
        &["paid"],
    ),
    possible("fund", &[2, 16, 17, 104], &["funded"]),
    possible("pot", &[104], &["read"]),
    possible("redeemed", &[2, 104], &["yes", "no"]),
];

impl Possible {
    fn outcomes(&self) -> Vec<Outcome> {
        let refusals = self.refusals.iter().copied().map(Outcome::Refused);
        let kinds = self.kinds.iter().copied().map(Outcome::Said);
        refusals.chain(kinds).collect()
    }
}

#[derive(Default)]
pub struct Tally {
    counts: BTreeMap<(&'static str, Outcome), u64>,
    pub lines: u64,
}

impl Tally {
    pub fn count(&mut self, replies: &[Reply]) {
        for reply in replies {
            *self.counts.entry((reply.call, reply.outcome)).or_default() += 1;
        }
        self.lines += replies.len() as u64;
    }

    /// One line for each call, or what is wrong with the counts.
    pub fn shown(&self) -> Result<String, String> {
        let mut shown = String::new();
        let mut left = self.counts.clone();
        for of in &POSSIBLE {
            shown.push_str(&format!("\n    {:12}", of.call));
            for outcome in of.outcomes() {
                let Some(count) = left.remove(&(of.call, outcome)) else {
                    return Err(format!("{}: {outcome:?} never came", of.call));
                };
                shown.push_str(&match outcome {
                    Outcome::Refused(number) => format!(" {number}: {count} "),
                    Outcome::Said(kind) => format!(" {kind}: {count} "),
                });
            }
        }
        match left.keys().next() {
            Some((call, outcome)) => Err(format!("{call}: {outcome:?} came and is not possible")),
            None => Ok(shown),
        }
    }
}
