//! Every small damage to a valid message, through every call that takes it.

use crate::calls::Compare;
use crate::laid;
use crate::pair::Pair;
use crate::scenes::{self, Scene, F, NOTE, PAYMENT, TO_LEDGER};
use chance::Chance;

/// Each byte as every other value, each cut at both ends, each byte left out, and every byte put in at each place.
fn each_damage(message: &[u8], mut visit: impl FnMut(&[u8])) {
    visit(message);
    let mut changed = message.to_vec();
    for place in 0..message.len() {
        for other in 1..=255 {
            changed[place] = message[place].wrapping_add(other);
            visit(&changed);
        }
        changed[place] = message[place];
        visit(&message[place + 1..]);
        visit(&message[..place]);
        visit(&[&message[..place], &message[place + 1..]].concat());
    }
    for place in 0..=message.len() {
        let mut longer = [&message[..place], &[0], &message[place..]].concat();
        for value in 0..=255 {
            longer[place] = value;
            visit(&longer);
        }
    }
}

pub fn run(compare: &mut Compare, chance: &mut Chance) {
    for scene in scenes::all(&[]) {
        on_machine(compare, chance, &scene);
    }
    for scene in scenes::daily(&NOTE) {
        on_machine(compare, chance, &scene);
    }
    on_machine(compare, chance, &scenes::pending(&[0x05; 32]));
    for (payment, note) in [(PAYMENT, [].as_slice()), (TO_LEDGER, &NOTE)] {
        readers(compare, &laid::body(payment, note));
    }
    for ledger in scenes::ledgers(TO_LEDGER) {
        redeeming(compare, chance, &ledger, &laid::body(TO_LEDGER, &[]));
    }
    let ledger = &scenes::ledgers(TO_LEDGER)[0];
    redeeming(compare, chance, ledger, &laid::body(TO_LEDGER, &NOTE));
    let funding = scenes::fresh(&[]).funding_order();
    each_damage(&funding, |message| {
        funding_order_again(compare, message);
    });
    exchanged(compare, chance);
}

fn on_machine(compare: &mut Compare, chance: &mut Chance, scene: &Scene) {
    let mut state = Pair::of(&scene.machine, chance);
    let verdicts = scene.verdicts();
    each_damage(&scene.order(), |message| {
        compare.standing_body(message, &mut state);
        compare.order(&mut state, message, &[1]).ok();
        state.restore(&scene.machine);
    });
    each_damage(&scene.certificate(), |message| {
        compare.certificate(&mut state, message, &verdicts).ok();
        state.restore(&scene.machine);
    });
    each_damage(&scene.funding_order(), |message| {
        compare.funding_order(&mut state, message, &[1]).ok();
        state.restore(&scene.machine);
    });
}

fn redeeming(compare: &mut Compare, chance: &mut Chance, ledger: &[u8], body: &[u8]) {
    let mut state = Pair::of(ledger, chance);
    each_damage(&laid::certificate(body, &[0, 1, 3]), |message| {
        compare.redeem(&mut state, message, &[1; 3]).ok();
        state.restore(ledger);
    });
}

fn readers(compare: &mut Compare, body: &[u8]) {
    let run = laid::run_of_votes(&[0, 1, 3]);
    each_damage(body, |message| {
        body_again(compare, message);
        compare.write_certificate(F, 300, message, &run).ok();
    });
    each_damage(&laid::order(body), |message| {
        order_again(compare, message);
    });
    each_damage(&laid::certificate(body, &[0, 1, 3]), |message| {
        certificate_again(compare, message);
        compare.judge_certificate(F, message, &[1; 3]).ok();
    });
    each_damage(&run, |votes| {
        compare.write_certificate(F, 300, body, votes).ok();
    });
}

/// Takes a message to every reader. What one of them accepts is written again as the same bytes.
pub fn written_again(compare: &mut Compare, message: &[u8]) {
    body_again(compare, message);
    order_again(compare, message);
    funding_order_again(compare, message);
    certificate_again(compare, message);
}

fn body_again(compare: &mut Compare, message: &[u8]) {
    if let Ok(read) = compare.read_body(message) {
        let answer = compare.write_body(message.len(), read.payment, &read.note);
        same_bytes(compare, answer, message);
    }
}

fn order_again(compare: &mut Compare, message: &[u8]) {
    compare.covered(message);
    if let Ok(read) = compare.read_order(message) {
        let room = message.len();
        let answer = compare.write_order(room, read.payment, &read.note, &read.signature);
        same_bytes(compare, answer, message);
    }
}

fn funding_order_again(compare: &mut Compare, message: &[u8]) {
    if let Ok(funding) = compare.read_funding_order(message) {
        let answer = compare.write_funding_order(message.len(), funding);
        same_bytes(compare, answer, message);
    }
}

fn certificate_again(compare: &mut Compare, message: &[u8]) {
    let covered = compare.covered(message);
    if compare.read_certificate(F, message).is_ok() {
        let end = covered.place + covered.length;
        let mut run = Vec::new();
        for vote in message[end..].chunks(laid::VOTE_FIELD) {
            run.extend_from_slice(&vote[3..]);
        }
        let body = &message[covered.place..end];
        let answer = compare.write_certificate(F, message.len(), body, &run);
        same_bytes(compare, answer, message);
    }
}

fn same_bytes(compare: &mut Compare, answer: Result<usize, u8>, message: &[u8]) {
    compare
        .record
        .expect("written again", answer, Ok(message.len()));
    compare
        .record
        .expect("written again", compare.out(), message);
}

/// Every kind of message to every call that takes another kind.
fn exchanged(compare: &mut Compare, chance: &mut Chance) {
    for note in [[].as_slice(), &NOTE] {
        let scene = scenes::pending(note);
        let ledger = laid::ledger(F, 0, 2_000);
        let mut state = Pair::of(&scene.machine, chance);
        let mut pot = Pair::of(&ledger, chance);
        for message in [
            scene.body.clone(),
            scene.order(),
            scene.certificate(),
            scene.funding_order(),
            [scene.order(), scene.order()].concat(),
            [scene.certificate(), scene.funding_order()].concat(),
            laid::order(&scene.order()),
            laid::certificate(&scene.order(), &[0, 1, 3]),
            laid::certificate(&[], &[0, 1, 3]),
            laid::order(&[]),
        ] {
            for verdicts in [[].as_slice(), &[1], &[1; 3]] {
                compare.order(&mut state, &message, verdicts).ok();
                state.restore(&scene.machine);
                compare.certificate(&mut state, &message, verdicts).ok();
                state.restore(&scene.machine);
                compare.funding_order(&mut state, &message, verdicts).ok();
                state.restore(&scene.machine);
                compare.redeem(&mut pot, &message, verdicts).ok();
                pot.restore(&ledger);
                compare.judge_certificate(F, &message, verdicts).ok();
            }
            compare.standing_body(&message, &mut state);
            written_again(compare, &message);
        }
    }
}
