//! Prepaid traction energy between tram depots, settled by machines of which some may be dishonest.
//!
//! The functions are those of the proved archive `libdesk.a`, one for one. Each works on bytes that the caller lends: a machine's state is
//! [`MACHINE_STATE`] bytes, the ledger's [`LEDGER_STATE`], a message as it came. Any bytes may be passed: what is not in order is refused by
//! a [`Refusal`], and a refusal changes nothing. The caller checks signatures and lends *verdict bytes*: 1 is good, every other value bad.
//!
//! `docs/INTERFACE.md` of the project says for each function when it refuses, and `docs/PROMISES.md` what is proved.
//!
//! ```
//! use cartlozenge::{fresh_machine, funding_order, read_account, MACHINE_STATE};
//!
//! let mut state = vec![0; MACHINE_STATE];
//! fresh_machine(&mut state, 1, 0).unwrap();
//! // Funding 1 to account 2: 2,000 watt-hours.
//! let message = [0x30, 0, 2, 0, 1, 0x31, 0, 1, 2, 0x32, 0, 4, 0, 0, 0x07, 0xd0];
//! funding_order(&mut state, &message, &[1]).unwrap();
//! assert_eq!(read_account(&state, 2).unwrap().balance, 2000);
//! ```

// Every `unsafe` of this crate lends slices, arrays and numbers as they are to a function of the archive: pointers of slices are never null, a `&mut`
// overlaps nothing, and the functions have no further condition and keep nothing.
mod raw;

mod answers;
mod ledger;
mod machine;
mod readers;
mod writers;

pub use answers::{
    BodyRead, Certified, Confirmation, Funding, OrderRead, Payment, Payout, Pot, Reading, Refusal,
    Stretch, Vote,
};
pub use ledger::{fresh_ledger, fund, is_redeemed, read_pot, redeem};
pub use machine::{certificate, fresh_machine, funding_order, order, read_account, standing_body};
pub use readers::{
    covered, judge_certificate, read_body, read_certificate, read_funding_order, read_order,
};
pub use writers::{write_body, write_certificate, write_funding_order, write_order};

/// Bytes of a machine's state.
pub const MACHINE_STATE: usize = 4_616;
/// Bytes of the ledger's state.
pub const LEDGER_STATE: usize = 32_784;
/// No message is longer.
pub const LONGEST_MESSAGE: usize = 1_148;
/// No body is longer.
pub const LONGEST_BODY: usize = 57;
/// No order is longer.
pub const LONGEST_ORDER: usize = 127;
/// Bytes of every funding order.
pub const FUNDING_ORDER: usize = 16;
/// Bytes of a signature.
pub const SIGNATURE: usize = 64;
/// Bytes of a vote: a machine number and a signature.
pub const VOTE: usize = 65;
