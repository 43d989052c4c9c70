//! Stack of each exported function: it is called on a painted stack, and the deepest byte that lost its paint counts. The return address
//! (8 bytes) counts in. Several paints, since a byte may be written with the paint's own value.

use crate::inputs::{batches, certificate, funding_order, good, quorum};
use std::arch::asm;
use std::collections::BTreeMap;

const SIZE: usize = 1 << 16;
const PAINTS: [u8; 4] = [0xa5, 0x5a, 0x00, 0xff];

#[repr(align(4096))]
struct Painted([u8; SIZE]);

/// A C function and the words of its arguments: six go in registers, the others on the stack.
struct Call {
    name: &'static str,
    function: usize,
    words: Vec<usize>,
}

/// Bytes of stack that a call used under one paint.
fn used(call: &Call, paint: u8) -> usize {
    let mut registers = [0; 6];
    let many = call.words.len().min(6);
    registers[..many].copy_from_slice(&call.words[..many]);
    let others = &call.words[many..];
    // The stack pointer is divisible by 16 at a call.
    let top = SIZE - 16 - (others.len() * 8).next_multiple_of(16);
    let mut stack = Box::new(Painted([paint; SIZE]));
    for (i, word) in others.iter().enumerate() {
        stack.0[top + 8 * i..top + 8 * i + 8].copy_from_slice(&word.to_ne_bytes());
    }
    // The function is one of the archive's, the words are lent slices and numbers as it takes them, and the stack that it gets is larger
    // than any that it uses: the lowest bytes keep their paint, as is tested below.
    unsafe {
        let pointer = stack.0.as_mut_ptr().add(top);
        asm!(
            "mov r12, rsp", "mov rsp, {pointer}", "call {function}", "mov rsp, r12",
            pointer = in(reg) pointer, function = in(reg) call.function, out("r12") _,
            inout("rdi") registers[0] => _, inout("rsi") registers[1] => _, inout("rdx") registers[2] => _,
            inout("rcx") registers[3] => _, inout("r8") registers[4] => _, inout("r9") registers[5] => _,
            clobber_abi("C"),
        );
    }
    let low = stack.0[..top]
        .iter()
        .position(|byte| *byte != paint)
        .unwrap_or(top);
    assert!(low > 0, "{} needs more stack than was painted", call.name);
    top - low
}

// Only their addresses are taken; the words are passed by hand.
mod exported {
    extern "C" {
        pub fn cartlozenge_fresh_machine();
        pub fn cartlozenge_order();
        pub fn cartlozenge_certificate();
        pub fn cartlozenge_funding_order();
        pub fn cartlozenge_account();
        pub fn cartlozenge_standing_body();
        pub fn cartlozenge_fresh_ledger();
        pub fn cartlozenge_fund();
        pub fn cartlozenge_redeem();
        pub fn cartlozenge_pot();
        pub fn cartlozenge_redeemed();
        pub fn cartlozenge_read_body();
        pub fn cartlozenge_read_order();
        pub fn cartlozenge_read_funding_order();
        pub fn cartlozenge_read_certificate();
        pub fn cartlozenge_judge_certificate();
        pub fn cartlozenge_covered();
        pub fn cartlozenge_write_body();
        pub fn cartlozenge_write_order();
        pub fn cartlozenge_write_funding_order();
        pub fn cartlozenge_write_certificate();
    }
}

/// What the calls are lent: every state, message and list of verdicts is tried with every other, so that refusals are measured too.
struct Lent {
    f: usize,
    machines: Vec<Vec<u8>>,
    ledgers: Vec<Vec<u8>>,
    messages: Vec<Vec<u8>>,
    verdicts: Vec<Vec<u8>>,
    values: Vec<u64>,
    out: Vec<u8>,
    votes: Vec<u8>,
    signature: Vec<u8>,
}

/// Fresh, funded, with orders pending, and with a byte set behind the pending body of account 0.
fn machines(f: u64) -> Vec<Vec<u8>> {
    let all = batches(f);
    let mut damaged = all.certificate.state.clone();
    damaged[8 + 71] = 1;
    vec![
        all.funding.state,
        all.order.state,
        all.certificate.state,
        damaged,
    ]
}

/// With a full pot, and with an empty one.
fn ledgers(f: u64) -> Vec<Vec<u8>> {
    let mut empty = vec![0; cartlozenge::LEDGER_STATE];
    second::fresh_ledger(&mut empty, f).expect("f is in range");
    vec![batches(f).redeem.state, empty]
}

/// The messages of each kind that are good on one of the states, and some that are good on none.
fn messages(f: u64) -> Vec<Vec<u8>> {
    let order = batches(f).order.messages[0].clone();
    let to_account = certificate(f, 0, 0);
    let mut repeated = to_account.clone();
    let last_vote = repeated.len() - 65;
    repeated[last_vote] = 0;
    let mut to_itself = to_account.clone();
    to_itself[12] = 0;
    vec![
        order[3..order.len() - 67].to_vec(),
        order,
        to_account[..to_account.len() / 2].to_vec(),
        to_account,
        repeated,
        to_itself,
        certificate(f, 0, 1),
        funding_order(0, 1),
        funding_order(0, 65),
    ]
}

impl Lent {
    fn new(f: u64) -> Lent {
        let mut bad = good(f);
        bad[0] = 0;
        Lent {
            f: f as usize,
            machines: machines(f),
            ledgers: ledgers(f),
            messages: messages(f),
            verdicts: vec![vec![1], good(f), bad],
            values: vec![0; 8],
            out: vec![0; cartlozenge::LONGEST_MESSAGE],
            votes: quorum(f),
            signature: vec![7; cartlozenge::SIGNATURE],
        }
    }
}

fn lent(bytes: &mut [u8]) -> [usize; 2] {
    [bytes.as_mut_ptr() as usize, bytes.len()]
}

fn each(lists: &mut [Vec<u8>]) -> Vec<[usize; 2]> {
    lists.iter_mut().map(|bytes| lent(bytes)).collect()
}

fn call(name: &'static str, function: unsafe extern "C" fn(), parts: &[&[usize]]) -> Call {
    Call {
        name,
        function: function as usize,
        words: parts.concat(),
    }
}

/// The calls on a state with a message and verdicts.
fn with_messages(with: &mut Lent) -> Vec<Call> {
    use exported::*;
    let (machines, ledgers) = (each(&mut with.machines), each(&mut with.ledgers));
    let (messages, verdicts) = (each(&mut with.messages), each(&mut with.verdicts));
    let mut calls = Vec::new();
    for message in &messages {
        for verdicts in &verdicts {
            for state in &machines {
                let words: [&[usize]; 3] = [state, message, verdicts];
                calls.push(call("order", cartlozenge_order, &words));
                calls.push(call("certificate", cartlozenge_certificate, &words));
                calls.push(call("funding_order", cartlozenge_funding_order, &words));
            }
            for state in &ledgers {
                calls.push(call(
                    "redeem",
                    cartlozenge_redeem,
                    &[state, message, verdicts],
                ));
            }
        }
    }
    calls
}

/// The other calls on a state.
fn on_states(with: &mut Lent) -> Vec<Call> {
    use exported::*;
    let f = with.f;
    let values = with.values.as_mut_ptr() as usize;
    let (out, messages) = (lent(&mut with.out), each(&mut with.messages));
    let mut calls = Vec::new();
    for state in &each(&mut with.machines) {
        calls.push(call(
            "fresh_machine",
            cartlozenge_fresh_machine,
            &[state, &[f, 0]],
        ));
        calls.push(call(
            "account",
            cartlozenge_account,
            &[state, &[0, values, values + 24]],
        ));
        for message in &messages {
            calls.push(call(
                "standing_body",
                cartlozenge_standing_body,
                &[message, state],
            ));
        }
    }
    for state in &each(&mut with.ledgers) {
        calls.push(call(
            "fresh_ledger",
            cartlozenge_fresh_ledger,
            &[state, &[f]],
        ));
        calls.push(call("fund", cartlozenge_fund, &[state, &out, &[0, 2_000]]));
        calls.push(call("pot", cartlozenge_pot, &[state, &[values]]));
        calls.push(call("redeemed", cartlozenge_redeemed, &[state, &[0, 0]]));
    }
    calls
}

/// The readers, each on every message, and the writers.
fn on_messages(with: &mut Lent) -> Vec<Call> {
    use exported::*;
    let f = with.f;
    let values = with.values.as_mut_ptr() as usize;
    let (out, votes, signature) = (
        lent(&mut with.out),
        lent(&mut with.votes),
        lent(&mut with.signature),
    );
    let verdicts = each(&mut with.verdicts);
    let mut calls = Vec::new();
    for message in &each(&mut with.messages) {
        calls.push(call(
            "read_body",
            cartlozenge_read_body,
            &[message, &[values]],
        ));
        calls.push(call(
            "read_order",
            cartlozenge_read_order,
            &[message, &[values]],
        ));
        calls.push(call(
            "read_funding_order",
            cartlozenge_read_funding_order,
            &[message, &[values]],
        ));
        calls.push(call(
            "read_certificate",
            cartlozenge_read_certificate,
            &[&[f], message, &[values]],
        ));
        for verdicts in &verdicts {
            let words: [&[usize]; 4] = [&[f], message, verdicts, &[values]];
            calls.push(call(
                "judge_certificate",
                cartlozenge_judge_certificate,
                &words,
            ));
        }
        calls.push(call("covered", cartlozenge_covered, &[message]));
        calls.push(call(
            "write_certificate",
            cartlozenge_write_certificate,
            &[&[f], &out, message, &votes],
        ));
    }
    let payment = [0, 0, 1, 1_500, 0];
    let note = [signature[0], 32];
    calls.push(call(
        "write_body",
        cartlozenge_write_body,
        &[&out, &payment, &note],
    ));
    calls.push(call(
        "write_order",
        cartlozenge_write_order,
        &[&out, &payment, &note, &signature],
    ));
    calls.push(call(
        "write_funding_order",
        cartlozenge_write_funding_order,
        &[&out, &[1, 0, 2_000]],
    ));
    calls
}

/// Every call anew for each paint, since a call changes what it is lent. The most that each function used.
fn measured() -> BTreeMap<&'static str, usize> {
    let mut most = BTreeMap::new();
    for f in [0, 1, 5] {
        for paint in PAINTS {
            for group in [with_messages, on_states, on_messages] {
                for i in 0..group(&mut Lent::new(f)).len() {
                    let mut with = Lent::new(f);
                    let call = &group(&mut with)[i];
                    let deepest = most.entry(call.name).or_insert(0);
                    *deepest = used(call, paint).max(*deepest);
                }
            }
        }
    }
    most
}

/// The bounds that are stored: a name and a number on each line.
fn bounds() -> BTreeMap<&'static str, usize> {
    include_str!("../stack.txt")
        .lines()
        .filter_map(|line| line.split_once(' '))
        .map(|(name, bound)| (name, bound.trim().parse().expect("a number of bytes")))
        .collect()
}

/// Prints the table. Says whether every function is within its bound, and each bound is of a function that is measured.
pub fn table() -> bool {
    println!("stack of each exported function, in bytes, return address included; at most 'bound'");
    println!("{:<24} {:>6} {:>6}", "function", "used", "bound");
    let (measured, bounds) = (measured(), bounds());
    let mut within = measured.len() == bounds.len();
    for (name, most) in measured {
        let bound = bounds.get(name).copied().unwrap_or(0);
        println!("{name:<24} {most:>6} {bound:>6}");
        within &= most <= bound;
    }
    within
}
