//! E1 to E12 of document 01, every refusal at least once, and edges.

use second::*;

const E1_BODY: [u8; 25] = [
    0x01, 0, 1, 2, 0x02, 0, 3, 0, 0, 7, 0x03, 0, 4, 0, 0, 0x05, 0xDC, 0x04, 0, 2, 0, 0, 0x05, 0, 0,
];
const E2_FUNDING: [u8; 16] = [
    0x30, 0, 2, 0, 1, 0x31, 0, 1, 2, 0x32, 0, 4, 0, 0, 0x07, 0xD0,
];
const E1: Payment = Payment {
    sender: 2,
    kind: 0,
    recipient: 7,
    amount: 1_500,
    sequence: 0,
};
const EMPTY: Stretch = Stretch {
    in_state: false,
    place: 0,
    length: 0,
};
const BALANCE_LIMIT: i64 = 1_000_000_000_000_000;

fn with_amount(amount: u64) -> Payment {
    Payment { amount, ..E1 }
}

fn with_sequence(sequence: u64) -> Payment {
    Payment { sequence, ..E1 }
}

fn to_ledger(recipient: u64) -> Payment {
    Payment {
        kind: 1,
        recipient,
        ..E1
    }
}

fn body_of(payment: Payment) -> Vec<u8> {
    let mut out = [0; 57];
    let length = write_body(&mut out, payment, &[]).unwrap();
    out[..length].to_vec()
}

fn order_of(payment: Payment) -> Vec<u8> {
    let mut out = [0; 127];
    let length = write_order(&mut out, payment, &[], &[9; 64]).unwrap();
    out[..length].to_vec()
}

/// Made by hand, so that votes may be wrong.
fn certificate_of(payment: Payment, machines: &[u8]) -> Vec<u8> {
    let body = body_of(payment);
    let mut message = vec![0x20, 0, body.len() as u8];
    message.extend_from_slice(&body);
    for machine in machines {
        message.extend_from_slice(&[0x21, 0, 65, *machine]);
        message.extend_from_slice(&[8; 64]);
    }
    message
}

fn run_of_votes(machines: &[u8]) -> Vec<u8> {
    let mut run = Vec::new();
    for machine in machines {
        run.push(*machine);
        run.extend_from_slice(&[8; 64]);
    }
    run
}

fn machine() -> Vec<u8> {
    let mut state = vec![0xEE; 4_616];
    fresh_machine(&mut state, 1, 3).unwrap();
    state
}

fn funded_machine() -> Vec<u8> {
    let mut state = machine();
    funding_order(&mut state, &E2_FUNDING, &[1]).unwrap();
    state
}

fn ledger() -> Vec<u8> {
    let mut state = vec![0xEE; 32_784];
    fresh_ledger(&mut state, 1).unwrap();
    state
}

fn balance(state: &[u8], account: u64) -> i64 {
    read_account(state, account).unwrap().balance
}

fn set_record(state: &mut [u8], account: usize, next: u16, balance: i64) {
    let place = 8 + 72 * account;
    state[place] = 1;
    state[place + 2..place + 4].copy_from_slice(&next.to_be_bytes());
    state[place + 4..place + 12].copy_from_slice(&balance.to_be_bytes());
}

fn order_refused(state: &[u8], message: &[u8], verdicts: &[u8]) -> Refusal {
    let mut lent = state.to_vec();
    let refusal = order(&mut lent, message, verdicts).unwrap_err();
    assert_eq!(lent, state);
    refusal
}

fn certificate_refused(state: &[u8], message: &[u8], verdicts: &[u8]) -> Refusal {
    let mut lent = state.to_vec();
    let refusal = certificate(&mut lent, message, verdicts).unwrap_err();
    assert_eq!(lent, state);
    refusal
}

fn funding_refused(state: &[u8], message: &[u8], verdicts: &[u8]) -> Refusal {
    let mut lent = state.to_vec();
    let refusal = funding_order(&mut lent, message, verdicts).unwrap_err();
    assert_eq!(lent, state);
    refusal
}

fn redeem_refused(state: &[u8], message: &[u8], verdicts: &[u8]) -> Refusal {
    let mut lent = state.to_vec();
    let refusal = redeem(&mut lent, message, verdicts).unwrap_err();
    assert_eq!(lent, state);
    refusal
}

fn fund_refused(state: &[u8], room: usize, account: u64, amount: u64) -> Refusal {
    let mut lent = state.to_vec();
    let mut out = vec![0xEE; room];
    let refusal = fund(&mut lent, &mut out, account, amount).unwrap_err();
    assert_eq!(lent, state);
    assert_eq!(out, vec![0xEE; room]);
    refusal
}

#[test]
fn e1_body() {
    assert_eq!(body_of(E1), E1_BODY);
    let read = read_body(&E1_BODY).unwrap();
    assert_eq!(read.payment, E1);
    assert_eq!(read.note, &[]);
}

#[test]
fn e2_funding_order() {
    let funding = Funding {
        index: 1,
        account: 2,
        amount: 2_000,
    };
    let mut out = [0xEE; 18];
    assert_eq!(write_funding_order(&mut out, funding), Ok(16));
    assert_eq!(out[..16], E2_FUNDING);
    assert_eq!(out[16..], [0xEE; 2]);
    assert_eq!(read_funding_order(&E2_FUNDING), Ok(funding));
}

#[test]
fn e3_order_on_a_fresh_machine() {
    assert_eq!(order_refused(&machine(), &order_of(E1), &[1]), 8);
}

#[test]
fn e4_e5_pending_body() {
    let mut state = funded_machine();
    assert_eq!(order(&mut state, &order_of(E1), &[1]), Ok(Vote::New));
    let after = state.clone();
    assert_eq!(order(&mut state, &order_of(E1), &[1]), Ok(Vote::Repeated));
    assert_eq!(state, after);
    let other = with_amount(1_501);
    assert_eq!(order_refused(&state, &order_of(other), &[1]), 9);
    let later = Payment {
        sequence: 1,
        ..other
    };
    assert_eq!(order_refused(&state, &order_of(later), &[1]), 9);
}

#[test]
fn e6_balance() {
    let mut state = funded_machine();
    assert_eq!(
        order_refused(&state, &order_of(with_amount(2_001)), &[1]),
        11
    );
    assert_eq!(
        order(&mut state, &order_of(with_amount(2_000)), &[1]),
        Ok(Vote::New)
    );
}

#[test]
fn e7_certificate() {
    let mut state = funded_machine();
    order(&mut state, &order_of(E1), &[1]).unwrap();
    let message = certificate_of(E1, &[0, 1, 2]);
    assert_eq!(
        certificate(&mut state, &message, &[1; 3]),
        Ok(Confirmation::Confirmed(3))
    );
    let mut expected = machine();
    expected[3] = 1;
    set_record(&mut expected, 2, 1, 500);
    set_record(&mut expected, 7, 0, 1_500);
    assert_eq!(state, expected);
    assert_eq!(
        certificate(&mut state, &message, &[1; 3]),
        Ok(Confirmation::Already(3))
    );
    assert_eq!(state, expected);
    let four = certificate_of(E1, &[0, 1, 2, 3]);
    assert_eq!(
        certificate(&mut machine(), &four, &[1; 4]),
        Ok(Confirmation::Confirmed(4))
    );
}

#[test]
fn e8_votes() {
    let state = funded_machine();
    let few = certificate_of(E1, &[0, 1]);
    assert_eq!(certificate_refused(&state, &few, &[1; 2]), 7);
    let twice = certificate_of(E1, &[0, 1, 1]);
    assert_eq!(certificate_refused(&state, &twice, &[1; 3]), 6);
    let above = certificate_of(E1, &[0, 1, 4]);
    assert_eq!(certificate_refused(&state, &above, &[1; 3]), 5);
}

#[test]
fn e9_certificate_before_funding() {
    let mut state = machine();
    let message = certificate_of(E1, &[0, 1, 2]);
    assert_eq!(
        certificate(&mut state, &message, &[1; 3]),
        Ok(Confirmation::Confirmed(3))
    );
    assert_eq!(
        read_account(&state, 2),
        Ok(Reading {
            in_use: true,
            next: 1,
            balance: -1_500,
            free: 0
        })
    );
    funding_order(&mut state, &E2_FUNDING, &[1]).unwrap();
    assert_eq!(balance(&state, 2), 500);
    assert_eq!(read_account(&state, 2).unwrap().free, 500);
}

#[test]
fn e10_certificate_above_the_next() {
    let message = certificate_of(with_sequence(1), &[0, 1, 2]);
    assert_eq!(certificate_refused(&machine(), &message, &[1; 3]), 10);
}

#[test]
fn e11_funding_twice() {
    assert_eq!(funding_refused(&funded_machine(), &E2_FUNDING, &[1]), 12);
}

#[test]
fn e12_amounts() {
    let mut out = [0xEE; 60];
    for amount in [0, 1_000_000_001] {
        assert_eq!(write_body(&mut out, with_amount(amount), &[]), Err(2));
        assert_eq!(fund_refused(&ledger(), 16, 2, amount), 2);
        let mut message = E1_BODY;
        message[13..17].copy_from_slice(&(amount as u32).to_be_bytes());
        assert_eq!(read_body(&message), Err(2));
        let mut message = E2_FUNDING;
        message[12..16].copy_from_slice(&(amount as u32).to_be_bytes());
        assert_eq!(read_funding_order(&message), Err(2));
    }
    assert_eq!(out, [0xEE; 60]);
}

#[test]
fn form_is_refused_before_values() {
    for length in 0..E1_BODY.len() {
        assert_eq!(read_body(&E1_BODY[..length]), Err(1));
    }
    let mut longer = E1_BODY.to_vec();
    longer.push(0);
    assert_eq!(read_body(&longer), Err(1));
    let mut message = certificate_of(E1, &[0, 1, 2]);
    message[3 + 3] = 64;
    assert_eq!(read_certificate(1, &message), Err(2));
    let last_vote_tag = message.len() - 68;
    message[last_vote_tag] = 0x22;
    assert_eq!(read_certificate(1, &message), Err(1));
    assert_eq!(read_certificate(6, &message), Err(2));
    let long = certificate_of(E1, &[0; 17]);
    assert_eq!(long.len(), 1_184);
    assert_eq!(read_certificate(5, &long), Err(1));
    assert_eq!(covered(&long), EMPTY);
}

#[test]
fn every_value_has_its_range() {
    let mut out = [0; 60];
    let wrong = [
        Payment { sender: 64, ..E1 },
        Payment { kind: 2, ..E1 },
        Payment {
            recipient: 64,
            ..E1
        },
        to_ledger(65_536),
        with_sequence(4_096),
        Payment {
            sender: u64::MAX,
            kind: u64::MAX,
            recipient: u64::MAX,
            amount: u64::MAX,
            sequence: u64::MAX,
        },
    ];
    for payment in wrong {
        assert_eq!(write_body(&mut out, payment, &[]), Err(2));
    }
    assert_eq!(write_body(&mut out, to_ledger(65_535), &[7; 32]), Ok(57));
    assert_eq!(read_body(&out[..57]).unwrap().payment, to_ledger(65_535));
    assert_eq!(read_body(&out[..57]).unwrap().note, [7; 32]);
    assert_eq!(write_body(&mut out, E1, &[7; 33]), Err(2));
    assert_eq!(write_order(&mut out, E1, &[], &[9; 63]), Err(2));
    for (index, account) in [(0, 2), (65_536, 2), (1, 64)] {
        let funding = Funding {
            index,
            account,
            amount: 1,
        };
        assert_eq!(write_funding_order(&mut out, funding), Err(2));
    }
}

#[test]
fn writers_want_room() {
    let mut out = [0xEE; 231];
    let run = run_of_votes(&[0, 1, 2]);
    let funding = read_funding_order(&E2_FUNDING).unwrap();
    assert_eq!(write_body(&mut out[..24], E1, &[]), Err(18));
    assert_eq!(write_order(&mut out[..94], E1, &[], &[9; 64]), Err(18));
    assert_eq!(write_funding_order(&mut out[..15], funding), Err(18));
    assert_eq!(write_certificate(1, &mut out, &E1_BODY, &run), Err(18));
    assert_eq!(out, [0xEE; 231]);
}

#[test]
fn certificate_writer() {
    let mut out = [0xEE; 1_149];
    let run = run_of_votes(&[0, 1, 2]);
    assert_eq!(write_certificate(6, &mut out, &[], &run), Err(2));
    assert_eq!(write_certificate(1, &mut out, &[], &run), Err(1));
    assert_eq!(write_certificate(1, &mut out, &E1_BODY, &run[1..]), Err(1));
    let mut body = E1_BODY;
    body[3] = 64;
    assert_eq!(write_certificate(1, &mut out, &body, &run[1..]), Err(1));
    assert_eq!(write_certificate(1, &mut out, &body, &run), Err(2));
    for (machines, refusal) in [
        (vec![1, 1, 4], 5),
        (vec![1, 0], 6),
        (vec![0, 3], 7),
        (vec![0; 17], 6),
        (vec![], 7),
    ] {
        let run = run_of_votes(&machines);
        let answer = write_certificate(1, &mut out, &E1_BODY, &run);
        assert_eq!(answer, Err(refusal));
    }
    assert_eq!(out, [0xEE; 1_149]);
    let machines = [0, 1, 2, 3, 4, 5, 6, 7, 8, 9, 10, 11, 12, 13, 14, 15];
    let mut longest = [0; 57];
    write_body(&mut longest, E1, &[5; 32]).unwrap();
    let run = run_of_votes(&machines);
    assert_eq!(write_certificate(5, &mut out, &longest, &run), Ok(1_148));
    assert_eq!(out[1_148], 0xEE);
    let certified = read_certificate(5, &out[..1_148]).unwrap();
    assert_eq!((certified.payment, certified.votes), (E1, 16));
    assert_eq!(
        write_certificate(1, &mut out, &E1_BODY, &run[..195]),
        Ok(232)
    );
    assert_eq!(out[..232], certificate_of(E1, &[0, 1, 2]));
}

#[test]
fn verdicts() {
    let state = funded_machine();
    let message = order_of(E1);
    assert_eq!(order_refused(&state, &message, &[]), 3);
    assert_eq!(order_refused(&state, &message, &[1, 1]), 3);
    assert_eq!(order_refused(&state, &message, &[2]), 4);
    assert_eq!(funding_refused(&state, &E2_FUNDING, &[0, 0]), 3);
    assert_eq!(funding_refused(&state, &E2_FUNDING, &[0]), 4);
    let message = certificate_of(E1, &[0, 1, 4]);
    assert_eq!(certificate_refused(&state, &message, &[1; 2]), 3);
    assert_eq!(certificate_refused(&state, &message, &[0; 3]), 5);
    let message = certificate_of(E1, &[1, 0]);
    assert_eq!(certificate_refused(&state, &message, &[0; 2]), 6);
    let message = certificate_of(E1, &[0, 1]);
    assert_eq!(certificate_refused(&state, &message, &[1, 0]), 4);
    assert_eq!(judge_certificate(6, &message, &[1; 2]), Err(2));
    assert_eq!(judge_certificate(1, &message, &[1; 2]), Err(7));
    assert_eq!(judge_certificate(0, &message, &[1; 2]), Err(5));
}

#[test]
fn order_of_another_sequence() {
    let state = funded_machine();
    let message = order_of(Payment {
        amount: 2_001,
        ..with_sequence(1)
    });
    assert_eq!(order_refused(&state, &message, &[1]), 10);
}

#[test]
fn fresh_states() {
    let mut short = [0xEE; 5];
    assert_eq!(fresh_machine(&mut short, 9, 9), Err(16));
    assert_eq!(fresh_ledger(&mut short, 9), Err(16));
    assert_eq!(short, [0xEE; 5]);
    let mut state = vec![0xEE; 4_616];
    assert_eq!(fresh_machine(&mut state, 1, 4), Err(2));
    assert_eq!(fresh_machine(&mut state, u64::MAX, 0), Err(2));
    assert_eq!(state, vec![0xEE; 4_616]);
    fresh_machine(&mut state, 5, 15).unwrap();
    assert_eq!(state[..2], [5, 15]);
    assert_eq!(state[2..], vec![0; 4_614]);
    let mut state = vec![0xEE; 32_784];
    assert_eq!(fresh_ledger(&mut state, 6), Err(2));
    fresh_ledger(&mut state, 5).unwrap();
    assert_eq!(state[0], 5);
    assert_eq!(state[1..], vec![0; 32_783]);
}

#[test]
fn ill_formed_headers() {
    for (place, value) in [(0, 6), (1, 4), (4, 1), (7, 1)] {
        let mut state = funded_machine();
        state[place] = value;
        assert_eq!(order_refused(&state, &[], &[]), 16);
        assert_eq!(certificate_refused(&state, &[], &[]), 16);
        assert_eq!(funding_refused(&state, &[], &[]), 16);
        assert_eq!(read_account(&state, 64), Err(16));
        assert_eq!(standing_body(&order_of(E1), &state), EMPTY);
    }
    assert_eq!(read_account(&funded_machine(), 64), Err(2));
    assert_eq!(read_account(&funded_machine()[1..], 64), Err(16));
    assert_eq!(order_refused(&[], &[], &[]), 16);
    assert_eq!(certificate_refused(&ledger(), &[], &[]), 16);
    assert_eq!(funding_refused(&[1; 4_617], &[], &[]), 16);
    assert_eq!(redeem_refused(&machine(), &[], &[]), 16);
    assert_eq!(fund_refused(&[], 0, 64, 0), 16);
    assert_eq!(read_pot(&[]), Err(16));
    assert_eq!(is_redeemed(&[], 64, 0), Err(16));
    for (place, value) in [(0, 6), (1, 1), (4, 1), (12, 1), (15, 1)] {
        let mut state = ledger();
        state[place] = value;
        assert_eq!(fund_refused(&state, 0, 64, 0), 16);
        assert_eq!(redeem_refused(&state, &[], &[]), 16);
        assert_eq!(read_pot(&state), Err(16));
        assert_eq!(is_redeemed(&state, 64, 0), Err(16));
    }
}

#[test]
fn ill_formed_records() {
    let mut voted = funded_machine();
    order(&mut voted, &order_of(E1), &[1]).unwrap();
    let record = 8 + 72 * 2;
    // In use, pending length, next, balance, sender, amount, sequence, zeros after the body.
    for (place, value) in [
        (0, 0),
        (0, 2),
        (1, 0),
        (1, 26),
        (1, 58),
        (1, 255),
        (2, 16),
        (3, 1),
        (4, 1),
        (4, 128),
        (12 + 3, 3),
        (12 + 13, 255),
        (12 + 21, 1),
        (12 + 25, 1),
        (69, 1),
        (71, 1),
    ] {
        let mut state = voted.clone();
        state[record + place] = value;
        assert_eq!(read_account(&state, 2), Err(16), "byte {place} as {value}");
        assert_eq!(order_refused(&state, &order_of(E1), &[1]), 16);
        assert_eq!(standing_body(&order_of(E1), &state), EMPTY);
        assert_eq!(funding_refused(&state, &E2_FUNDING, &[1]), 16);
    }
}

#[test]
fn an_old_certificate_still_touches_both_records() {
    let mut state = funded_machine();
    let message = certificate_of(E1, &[0, 1, 2]);
    certificate(&mut state, &message, &[1; 3]).unwrap();
    state[8 + 72 * 7 + 71] = 1;
    assert_eq!(certificate_refused(&state, &message, &[1; 3]), 16);
    // An order touches its sender alone.
    let next = order_of(Payment {
        amount: 1,
        ..with_sequence(1)
    });
    assert_eq!(order(&mut state, &next, &[1]), Ok(Vote::New));
}

#[test]
fn balances_keep_their_limits() {
    let message = certificate_of(E1, &[0, 1, 2]);
    let mut state = machine();
    set_record(&mut state, 2, 0, 1_499 - BALANCE_LIMIT);
    assert_eq!(certificate_refused(&state, &message, &[1; 3]), 16);
    set_record(&mut state, 2, 0, 1_500 - BALANCE_LIMIT);
    set_record(&mut state, 7, 0, BALANCE_LIMIT - 1_499);
    assert_eq!(certificate_refused(&state, &message, &[1; 3]), 16);
    set_record(&mut state, 7, 0, BALANCE_LIMIT - 1_500);
    certificate(&mut state, &message, &[1; 3]).unwrap();
    assert_eq!(balance(&state, 2), -BALANCE_LIMIT);
    assert_eq!(balance(&state, 7), BALANCE_LIMIT);
    let mut state = machine();
    set_record(&mut state, 2, 0, BALANCE_LIMIT - 1_999);
    assert_eq!(funding_refused(&state, &E2_FUNDING, &[1]), 16);
}

#[test]
fn payment_to_oneself() {
    let payment = Payment { recipient: 2, ..E1 };
    let message = certificate_of(payment, &[0, 1, 2]);
    for before in [-BALANCE_LIMIT, 0, BALANCE_LIMIT] {
        let mut state = machine();
        set_record(&mut state, 2, 0, before);
        let mut expected = machine();
        set_record(&mut expected, 2, 1, before);
        certificate(&mut state, &message, &[1; 3]).unwrap();
        assert_eq!(state, expected);
    }
}

#[test]
fn last_sequence() {
    let mut state = machine();
    set_record(&mut state, 2, 4_095, 2_000);
    let payment = with_sequence(4_095);
    order(&mut state, &order_of(payment), &[1]).unwrap();
    let message = certificate_of(payment, &[1, 2, 3]);
    certificate(&mut state, &message, &[1; 3]).unwrap();
    assert_eq!(read_account(&state, 2).unwrap().next, 4_096);
    assert_eq!(order_refused(&state, &order_of(payment), &[1]), 10);
    assert_eq!(
        certificate(&mut state, &message, &[1; 3]),
        Ok(Confirmation::Already(3))
    );
}

#[test]
fn last_funding_index() {
    let mut state = machine();
    state[2..4].copy_from_slice(&[255, 255]);
    assert_eq!(funding_refused(&state, &E2_FUNDING, &[1]), 12);
    let mut state = ledger();
    state[2..4].copy_from_slice(&[255, 254]);
    let mut out = [0; 16];
    assert_eq!(fund(&mut state, &mut out, 2, 1), Ok(65_535));
    assert_eq!(fund_refused(&state, 0, 64, 1), 2);
    assert_eq!(fund_refused(&state, 0, 2, 1), 17);
}

#[test]
fn uncopied_answers() {
    let in_message = Stretch {
        in_state: false,
        place: 3,
        length: 25,
    };
    let message = order_of(E1);
    assert_eq!(covered(&message), in_message);
    assert_eq!(covered(&certificate_of(E1, &[])), in_message);
    assert_eq!(covered(&certificate_of(E1, &[200, 3])), in_message);
    assert_eq!(covered(&E1_BODY), EMPTY);
    assert_eq!(covered(&E2_FUNDING), EMPTY);
    assert_eq!(covered(&[]), EMPTY);
    let mut wrong = message.clone();
    wrong[3 + 3] = 64;
    assert_eq!(covered(&wrong), EMPTY);

    assert_eq!(standing_body(&message, &machine()), in_message);
    let mut state = funded_machine();
    order(&mut state, &message, &[1]).unwrap();
    let in_state = Stretch {
        in_state: true,
        place: 8 + 72 * 2 + 12,
        length: 25,
    };
    let other = order_of(with_amount(1));
    assert_eq!(standing_body(&other, &state), in_state);
    assert_eq!(state[in_state.place..in_state.place + 25], E1_BODY);
    assert_eq!(standing_body(&wrong, &state), EMPTY);
    assert_eq!(standing_body(&certificate_of(E1, &[0]), &state), EMPTY);
    assert_eq!(standing_body(&message, &state[1..]), EMPTY);
}

fn funded_ledger() -> Vec<u8> {
    let mut state = ledger();
    fund(&mut state, &mut [0; 16], 2, 2_000).unwrap();
    state
}

#[test]
fn ledger_funds() {
    let mut state = ledger();
    let mut out = [0xEE; 17];
    assert_eq!(fund_refused(&state, 15, 2, 2_000), 18);
    assert_eq!(fund(&mut state, &mut out, 2, 2_000), Ok(1));
    assert_eq!(out[..16], E2_FUNDING);
    assert_eq!(out[16], 0xEE);
    let pot = Pot {
        index: 1,
        amount: 2_000,
    };
    assert_eq!(read_pot(&state), Ok(pot));
}

#[test]
fn ledger_redeems() {
    let mut state = funded_ledger();
    let payment = Payment {
        sequence: 13,
        ..to_ledger(40_000)
    };
    let message = certificate_of(payment, &[0, 1, 2]);
    let payout = Payout {
        account: 40_000,
        amount: 1_500,
    };
    let mut expected = state.clone();
    expected[10..12].copy_from_slice(&500u16.to_be_bytes());
    expected[16 + 512 * 2 + 1] = 32;
    assert_eq!(is_redeemed(&state, 2, 13), Ok(false));
    assert_eq!(redeem(&mut state, &message, &[1; 3]), Ok(payout));
    assert_eq!(state, expected);
    assert_eq!(is_redeemed(&state, 2, 13), Ok(true));
    assert_eq!(is_redeemed(&state, 64, 13), Err(2));
    assert_eq!(is_redeemed(&state, 2, 4_096), Err(2));
}

#[test]
fn redeem_refusals() {
    let mut state = funded_ledger();
    let within = certificate_of(E1, &[0, 1, 2]);
    assert_eq!(redeem_refused(&state, &within, &[1; 3]), 13);
    let message = certificate_of(to_ledger(1), &[0, 1, 2]);
    assert_eq!(redeem_refused(&state, &message, &[1, 1, 0]), 4);
    redeem(&mut state, &message, &[1; 3]).unwrap();
    // The same payment under other votes, and another payment under its sequence.
    let again = certificate_of(to_ledger(1), &[1, 2, 3]);
    assert_eq!(redeem_refused(&state, &again, &[1; 3]), 14);
    let other = certificate_of(to_ledger(2), &[0, 1, 2]);
    assert_eq!(redeem_refused(&state, &other, &[1; 3]), 14);
    let more = Payment {
        sequence: 1,
        ..to_ledger(1)
    };
    let more = certificate_of(more, &[0, 1, 2]);
    assert_eq!(redeem_refused(&state, &more, &[1; 3]), 15);
}

#[test]
fn pot_keeps_its_limit() {
    let mut state = ledger();
    state[4..12].copy_from_slice(&(BALANCE_LIMIT as u64).to_be_bytes());
    assert_eq!(fund_refused(&state, 16, 2, 1), 16);
    assert_eq!(fund_refused(&state, 15, 2, 1), 18);
}

#[test]
fn a_ledger_recipient_changes_nothing_more() {
    let mut state = funded_machine();
    let mut expected = state.clone();
    set_record(&mut expected, 2, 1, 500);
    let message = certificate_of(to_ledger(7), &[0, 1, 2]);
    certificate(&mut state, &message, &[1; 3]).unwrap();
    assert_eq!(state, expected);
}

/// A plain generator of random numbers, the same on every run.
fn random(seed: &mut u64) -> usize {
    *seed = seed
        .wrapping_mul(6_364_136_223_846_793_005)
        .wrapping_add(1_442_695_040_888_963_407);
    (*seed >> 33) as usize
}

/// A good message with a few bytes changed and perhaps its end cut or lengthened.
fn damaged(seed: &mut u64) -> Vec<u8> {
    let mut message = match random(seed) % 5 {
        0 => order_of(E1),
        1 => certificate_of(E1, &[0, 1, 2]),
        2 => certificate_of(to_ledger(3), &[0, 1, 2, 3]),
        3 => E2_FUNDING.to_vec(),
        _ => E1_BODY.to_vec(),
    };
    for _ in 0..random(seed) % 3 {
        let place = random(seed) % message.len();
        message[place] = random(seed) as u8;
    }
    if random(seed) % 4 == 1 {
        let length = random(seed) % 1_300;
        message.resize(length, 0);
    }
    message
}

#[test]
fn every_call_answers_and_a_refusal_writes_nothing() {
    let mut seed = 1;
    let mut voted = funded_machine();
    order(&mut voted, &order_of(E1), &[1]).unwrap();
    let pot = funded_ledger();
    for _ in 0..20_000 {
        let message = damaged(&mut seed);
        let verdicts = vec![1; random(&mut seed) % 5];
        let mut before = voted.clone();
        before[random(&mut seed) % 8] = random(&mut seed) as u8 % 2;
        let place = 8 + 72 * 2 + random(&mut seed) % 72;
        if random(&mut seed) % 2 == 1 {
            before[place] = random(&mut seed) as u8;
        }
        let mut state = before.clone();
        if order(&mut state, &message, &verdicts).is_err() {
            assert_eq!(state, before);
        }
        let mut state = before.clone();
        if certificate(&mut state, &message, &verdicts).is_err() {
            assert_eq!(state, before);
        }
        let mut state = before.clone();
        if funding_order(&mut state, &message, &verdicts).is_err() {
            assert_eq!(state, before);
        }
        standing_body(&message, &before);
        let mut state = pot.clone();
        if redeem(&mut state, &message, &verdicts).is_err() {
            assert_eq!(state, pot);
        }
    }
}

#[test]
fn what_a_reader_accepts_is_written_again() {
    let mut seed = 2;
    for _ in 0..20_000 {
        let message = damaged(&mut seed);
        let mut out = [0; 1_148];
        let mut length = 0;
        if let Ok(read) = read_body(&message) {
            length = write_body(&mut out, read.payment, read.note).unwrap();
        }
        if let Ok(read) = read_order(&message) {
            length = write_order(&mut out, read.payment, read.note, read.signature).unwrap();
        }
        if let Ok(funding) = read_funding_order(&message) {
            length = write_funding_order(&mut out, funding).unwrap();
        }
        if read_certificate(1, &message).is_ok() {
            let part = covered(&message);
            let body = &message[part.place..part.place + part.length];
            let mut run = Vec::new();
            for field in message[part.place + part.length..].chunks(68) {
                run.extend_from_slice(&field[3..]);
            }
            length = write_certificate(1, &mut out, body, &run).unwrap();
        }
        if length != 0 {
            assert_eq!(out[..length], message);
        }
    }
}
