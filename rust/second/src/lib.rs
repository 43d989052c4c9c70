//! The settlement machine, the ledger's side and their messages, written a second time from
//! document 01 alone, to be compared call by call with the first program.
//!
//! Every call works in the slices lent to it. A call that refuses answers the refusal's number in
//! document 01 and has changed no lent byte: all checks stand before the first write. The checks
//! of each call stand in document 01's order.
//!
//! Arguments that are numbers are `u64`, so that values out of range can be passed and refused.

#![forbid(unsafe_code)]

mod ledger;
mod machine;
mod messages;
mod numbers;
mod writers;

pub use ledger::{fresh_ledger, fund, is_redeemed, read_pot, redeem, Payout, Pot};
pub use machine::{
    certificate, fresh_machine, funding_order, order, read_account, standing_body, Confirmation,
    Reading, Vote,
};
pub use messages::{
    covered, judge_certificate, read_body, read_certificate, read_funding_order, read_order,
    BodyRead, Certified, OrderRead, Stretch,
};
pub use numbers::{Funding, Payment, Refusal};
pub use writers::{write_body, write_certificate, write_funding_order, write_order};
