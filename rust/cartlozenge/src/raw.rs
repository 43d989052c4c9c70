//! The exported functions, as `include/cartlozenge.h` declares them. A lent slice is a pointer and a length.

extern "C" {
    pub fn cartlozenge_fresh_machine(state: *mut u8, state_length: usize, f: u64, own: u64) -> u64;
    pub fn cartlozenge_order(
        state: *mut u8,
        state_length: usize,
        message: *const u8,
        message_length: usize,
        verdicts: *const u8,
        verdicts_length: usize,
    ) -> u64;
    pub fn cartlozenge_certificate(
        state: *mut u8,
        state_length: usize,
        message: *const u8,
        message_length: usize,
        verdicts: *const u8,
        verdicts_length: usize,
    ) -> u64;
    pub fn cartlozenge_funding_order(
        state: *mut u8,
        state_length: usize,
        message: *const u8,
        message_length: usize,
        verdicts: *const u8,
        verdicts_length: usize,
    ) -> u64;
    pub fn cartlozenge_account(
        state: *const u8,
        state_length: usize,
        account: u64,
        values: *mut [u64; 3],
        balance: *mut i64,
    ) -> u64;
    pub fn cartlozenge_standing_body(
        message: *const u8,
        message_length: usize,
        state: *const u8,
        state_length: usize,
    ) -> u64;
    pub fn cartlozenge_fresh_ledger(state: *mut u8, state_length: usize, f: u64) -> u64;
    pub fn cartlozenge_fund(
        state: *mut u8,
        state_length: usize,
        out: *mut u8,
        out_length: usize,
        account: u64,
        amount: u64,
    ) -> u64;
    pub fn cartlozenge_redeem(
        state: *mut u8,
        state_length: usize,
        message: *const u8,
        message_length: usize,
        verdicts: *const u8,
        verdicts_length: usize,
    ) -> u64;
    pub fn cartlozenge_pot(state: *const u8, state_length: usize, values: *mut [u64; 2]) -> u64;
    pub fn cartlozenge_redeemed(
        state: *const u8,
        state_length: usize,
        account: u64,
        sequence: u64,
    ) -> u64;
    pub fn cartlozenge_read_body(
        message: *const u8,
        message_length: usize,
        values: *mut [u64; 6],
    ) -> u64;
    pub fn cartlozenge_read_order(
        message: *const u8,
        message_length: usize,
        values: *mut [u64; 6],
    ) -> u64;
    pub fn cartlozenge_read_funding_order(
        message: *const u8,
        message_length: usize,
        values: *mut [u64; 3],
    ) -> u64;
    pub fn cartlozenge_read_certificate(
        f: u64,
        message: *const u8,
        message_length: usize,
        values: *mut [u64; 6],
    ) -> u64;
    pub fn cartlozenge_judge_certificate(
        f: u64,
        message: *const u8,
        message_length: usize,
        verdicts: *const u8,
        verdicts_length: usize,
        values: *mut [u64; 6],
    ) -> u64;
    pub fn cartlozenge_covered(message: *const u8, message_length: usize) -> u64;
    pub fn cartlozenge_write_body(
        out: *mut u8,
        out_length: usize,
        sender: u64,
        kind: u64,
        recipient: u64,
        amount: u64,
        sequence: u64,
        note: *const u8,
        note_length: usize,
    ) -> u64;
    pub fn cartlozenge_write_order(
        out: *mut u8,
        out_length: usize,
        sender: u64,
        kind: u64,
        recipient: u64,
        amount: u64,
        sequence: u64,
        note: *const u8,
        note_length: usize,
        signature: *const u8,
        signature_length: usize,
    ) -> u64;
    pub fn cartlozenge_write_funding_order(
        out: *mut u8,
        out_length: usize,
        index: u64,
        account: u64,
        amount: u64,
    ) -> u64;
    pub fn cartlozenge_write_certificate(
        f: u64,
        out: *mut u8,
        out_length: usize,
        body: *const u8,
        body_length: usize,
        votes: *const u8,
        votes_length: usize,
    ) -> u64;
}
