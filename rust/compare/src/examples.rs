//! E1 to E12, with the answers and balances that document 01 gives.

use crate::answers::{Confirmation, Funding, Payment, Read, Vote};
use crate::calls::Compare;
use crate::laid;
use crate::pair::Pair;
use chance::Chance;

const E1: [u8; 25] = [
    0x01, 0x00, 0x01, 0x02, 0x02, 0x00, 0x03, 0x00, 0x00, 0x07, 0x03, 0x00, 0x04, 0x00, 0x00, 0x05,
    0xDC, 0x04, 0x00, 0x02, 0x00, 0x00, 0x05, 0x00, 0x00,
];
const E2: [u8; 16] = [
    0x30, 0x00, 0x02, 0x00, 0x01, 0x31, 0x00, 0x01, 0x02, 0x32, 0x00, 0x04, 0x00, 0x00, 0x07, 0xD0,
];
const PAYMENT: Payment = Payment {
    sender: 2,
    kind: 0,
    recipient: 7,
    amount: 1_500,
    sequence: 0,
};
const FUNDING: Funding = Funding {
    index: 1,
    account: 2,
    amount: 2_000,
};

pub fn run(compare: &mut Compare, chance: &mut Chance) {
    written_and_read(compare);
    orders(compare, chance);
    balance(compare, chance);
    certificates(compare, chance);
    votes(compare, chance);
    certificate_first(compare, chance);
    funding_twice(compare, chance);
    amounts(compare, chance);
}

fn fresh(compare: &mut Compare, chance: &mut Chance) -> Pair {
    let before = chance.bytes(laid::MACHINE_STATE);
    let mut state = Pair::of(&before, chance);
    let answer = compare.fresh_machine(&mut state, 1, 3);
    compare.record.expect("fresh machine", answer, Ok(()));
    compare
        .record
        .expect("fresh bytes", state.bytes() == laid::machine(1, 3, 0), true);
    state
}

fn funded(compare: &mut Compare, chance: &mut Chance) -> Pair {
    let mut state = fresh(compare, chance);
    let answer = compare.funding_order(&mut state, &E2, &[1]);
    compare.record.expect("E2 on a machine", answer, Ok(()));
    state
}

fn order_of(amount: u64, sequence: u64) -> Vec<u8> {
    let payment = Payment {
        amount,
        sequence,
        ..PAYMENT
    };
    laid::order(&laid::body(payment, &[]))
}

fn expect_account(compare: &mut Compare, state: &mut Pair, account: u64, next: u64, balance: i64) {
    let answer = compare.read_account(state, account);
    let seen = answer.map(|reading| (reading.in_use, reading.next, reading.balance, reading.free));
    let free = balance.max(0) as u64;
    compare
        .record
        .expect("account", seen, Ok((true, next, balance, free)));
}

fn written_and_read(compare: &mut Compare) {
    let answer = compare.write_body(57, PAYMENT, &[]);
    compare.record.expect("E1 written", answer, Ok(25));
    compare.record.expect("E1", &compare.out()[..25], &E1);
    let expected = Read {
        payment: PAYMENT,
        note: Vec::new(),
        signature: Vec::new(),
    };
    let answer = compare.read_body(&E1);
    compare.record.expect("E1 read", answer, Ok(expected));
    let answer = compare.write_funding_order(16, FUNDING);
    compare.record.expect("E2 written", answer, Ok(16));
    compare.record.expect("E2", compare.out(), &E2);
    let answer = compare.read_funding_order(&E2);
    compare.record.expect("E2 read", answer, Ok(FUNDING));
}

fn orders(compare: &mut Compare, chance: &mut Chance) {
    let order = order_of(1_500, 0);
    let mut state = fresh(compare, chance);
    let answer = compare.order(&mut state, &order, &[1]);
    compare.record.expect("E3", answer, Err(8));
    let mut state = funded(compare, chance);
    let answer = compare.order(&mut state, &order, &[1]);
    compare.record.expect("E4", answer, Ok(Vote::New));
    let answer = compare.order(&mut state, &order, &[1]);
    compare
        .record
        .expect("E4 again", answer, Ok(Vote::Repeated));
    for sequence in [0, 1] {
        let answer = compare.order(&mut state, &order_of(1_501, sequence), &[1]);
        compare.record.expect("E5", answer, Err(9));
    }
}

fn balance(compare: &mut Compare, chance: &mut Chance) {
    for (amount, expected) in [(2_000, Ok(Vote::New)), (2_001, Err(11))] {
        let mut state = funded(compare, chance);
        let answer = compare.order(&mut state, &order_of(amount, 0), &[1]);
        compare.record.expect("E6", answer, expected);
    }
}

fn certificates(compare: &mut Compare, chance: &mut Chance) {
    for machines in [vec![0, 1, 2], vec![0, 1, 2, 3]] {
        let votes = machines.len() as u64;
        let verdicts = vec![1; machines.len()];
        let certificate = laid::certificate(&E1, &machines);
        let mut state = funded(compare, chance);
        let answer = compare.order(&mut state, &laid::order(&E1), &[1]);
        compare.record.expect("E7 order", answer, Ok(Vote::New));
        let answer = compare.certificate(&mut state, &certificate, &verdicts);
        compare
            .record
            .expect("E7", answer, Ok(Confirmation::Confirmed(votes)));
        expect_account(compare, &mut state, 2, 1, 500);
        expect_account(compare, &mut state, 7, 0, 1_500);
        let after = state.bytes().to_vec();
        let answer = compare.certificate(&mut state, &certificate, &verdicts);
        compare
            .record
            .expect("E7 again", answer, Ok(Confirmation::Already(votes)));
        compare
            .record
            .expect("E7 no change", state.bytes() == after, true);
    }
}

fn votes(compare: &mut Compare, chance: &mut Chance) {
    for (machines, expected) in [(vec![0, 1], 7), (vec![0, 1, 1], 6), (vec![0, 1, 4], 5)] {
        let certificate = laid::certificate(&E1, &machines);
        let mut state = funded(compare, chance);
        let answer = compare.certificate(&mut state, &certificate, &vec![1; machines.len()]);
        compare.record.expect("E8", answer, Err(expected));
    }
}

fn certificate_first(compare: &mut Compare, chance: &mut Chance) {
    let mut state = fresh(compare, chance);
    let certificate = laid::certificate(&E1, &[0, 1, 2]);
    let answer = compare.certificate(&mut state, &certificate, &[1; 3]);
    compare
        .record
        .expect("E9", answer, Ok(Confirmation::Confirmed(3)));
    expect_account(compare, &mut state, 2, 1, -1_500);
    let answer = compare.funding_order(&mut state, &E2, &[1]);
    compare.record.expect("E9 funding", answer, Ok(()));
    expect_account(compare, &mut state, 2, 1, 500);
    let later = Payment {
        sequence: 1,
        ..PAYMENT
    };
    let certificate = laid::certificate(&laid::body(later, &[]), &[0, 1, 2]);
    let mut state = fresh(compare, chance);
    let answer = compare.certificate(&mut state, &certificate, &[1; 3]);
    compare.record.expect("E10", answer, Err(10));
}

fn funding_twice(compare: &mut Compare, chance: &mut Chance) {
    let mut state = funded(compare, chance);
    let answer = compare.funding_order(&mut state, &E2, &[1]);
    compare.record.expect("E11", answer, Err(12));
}

fn amounts(compare: &mut Compare, chance: &mut Chance) {
    for amount in [0, 1_000_000_001] {
        let payment = Payment { amount, ..PAYMENT };
        let funding = Funding { amount, ..FUNDING };
        let body = laid::body(payment, &[]);
        let mut state = funded(compare, chance);
        let mut ledger = Pair::of(&laid::ledger(1, 0, 0), chance);
        let certificate = laid::certificate(&body, &[0, 1, 2]);
        let answers = [
            compare.read_body(&body).err(),
            compare.write_body(57, payment, &[]).err(),
            compare.order(&mut state, &laid::order(&body), &[1]).err(),
            compare.certificate(&mut state, &certificate, &[1; 3]).err(),
            compare.redeem(&mut ledger, &certificate, &[1; 3]).err(),
            compare
                .read_funding_order(&laid::funding_order(funding))
                .err(),
            compare.write_funding_order(16, funding).err(),
            compare
                .funding_order(&mut state, &laid::funding_order(funding), &[1])
                .err(),
            compare.fund(&mut ledger, 16, 2, amount).err(),
        ];
        compare.record.expect("E12", answers, [Some(2); 9]);
    }
}
