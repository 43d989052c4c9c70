//! Random runs: 3f + 1 machines, of which at most f lie, and a ledger. Messages come late, repeated, out of order, damaged and
//! forged. Demand 3 is checked on the answers as they come.

use crate::answers::{Funding, Payment};
use crate::calls::Compare;
use crate::laid::{self, HIGHEST_AMOUNT, HIGHEST_SEQUENCE};
use crate::random::damaged;
use crate::world::{body_of, World};
use chance::Chance;

const STEPS: usize = 3_000;
const WORLDS: usize = 5;

/// What the runs of one committee came to.
#[derive(Default)]
pub struct Tally {
    pub steps: usize,
    pub certain: usize,
    pub redeemed: usize,
}

pub fn run(compare: &mut Compare, chance: &mut Chance) {
    for f in 0..=5 {
        let mut tally = Tally::default();
        for _ in 0..WORLDS {
            one_run(compare, chance, f, &mut tally);
        }
        println!(
            "    f = {f}: {} steps, {} certain payments, {} redeemed",
            tally.steps, tally.certain, tally.redeemed
        );
        if tally.certain == 0 || tally.redeemed == 0 {
            compare.record.broken("the runs came to nothing");
        }
    }
}

pub fn one_run(compare: &mut Compare, chance: &mut Chance, f: u64, tally: &mut Tally) {
    let mut world = World::new(compare, chance, f);
    for _ in 0..STEPS {
        step(&mut world, compare, chance);
    }
    close(&mut world, compare, chance);
    tally.steps += STEPS;
    tally.certain += world.history.certain_payments();
    tally.redeemed += world.history.redeemed_payments();
}

fn step(world: &mut World, compare: &mut Compare, chance: &mut Chance) {
    match chance.below(100) {
        0..=3 => fund(world, compare, chance),
        4..=13 => send_funding_order(world, compare, chance),
        14..=27 => give_order(world, compare, chance),
        28..=45 => send_order(world, compare, chance),
        46..=61 => collect_votes(world, compare, chance),
        62..=69 => send_certificate(world, compare, chance),
        70..=79 => catch_up(world, compare, chance),
        80..=86 => redeem(world, compare, chance),
        87..=92 => send_damaged(world, compare, chance),
        93 => forge_funding_order(world, compare, chance),
        94 => forge_certificate(world, compare, chance),
        95 => scribble(world, chance),
        _ => read_something(world, compare, chance),
    }
}

/// One machine, or most of them.
fn receivers(world: &World, chance: &mut Chance) -> Vec<usize> {
    if chance.one_in(2) {
        return vec![chance.below(world.machines.len())];
    }
    let mut most: Vec<usize> = (0..world.machines.len()).collect();
    most.retain(|_| !chance.one_in(8));
    most
}

fn some_account(world: &World, chance: &mut Chance) -> u64 {
    chance.pick(&world.wallets).account
}

fn fund(world: &mut World, compare: &mut Compare, chance: &mut Chance) {
    let account = some_account(world, chance);
    let amount = chance.between(1, world.greatest_funding);
    world.fund(compare, 14 + chance.below(8), account, amount);
}

/// Mostly the one that a machine waits for.
fn send_funding_order(world: &mut World, compare: &mut Compare, chance: &mut Chance) {
    if world.funding_orders.is_empty() {
        return;
    }
    for machine in receivers(world, chance) {
        let bytes = world.machines[machine].bytes();
        let last = usize::from(u16::from_be_bytes([bytes[2], bytes[3]]));
        let mut message = chance.recent(&world.funding_orders).clone();
        if last < world.funding_orders.len() && !chance.one_in(4) {
            message = world.funding_orders[last].clone();
        }
        world.funding_order_to(compare, chance, machine, &message);
    }
}

/// A wallet signs an order. An honest one waits until there is a certificate of its last; the others sign anything.
fn give_order(world: &mut World, compare: &mut Compare, chance: &mut Chance) {
    let chosen = chance.below(world.wallets.len());
    let account = world.wallets[chosen].account;
    let mut payment = wish(world, compare, chance, account);
    if world.wallets[chosen].honest {
        let free = free_everywhere(world, compare, account);
        if free == 0 || !is_certified(world, chosen) {
            return;
        }
        payment.amount = payment.amount.min(free);
        payment.sequence = world.history.next_of(account);
    }
    let length = if chance.one_in(3) {
        chance.below(33)
    } else {
        0
    };
    let note = chance.bytes(length);
    let signature = chance.bytes(64);
    let room = 127 + chance.below(3);
    if let Ok(length) = compare.write_order(room, payment, &note, &signature) {
        let order = compare.out()[..length].to_vec();
        world.orders.push(order.clone());
        world.wallets[chosen].current = Some(order);
    }
}

fn is_certified(world: &World, wallet: usize) -> bool {
    let Some(order) = &world.wallets[wallet].current else {
        return true;
    };
    let mut certificates = world.certificates.iter();
    certificates.any(|message| body_of(message) == body_of(order))
}

/// A payment that some machine's record would bear; now and then one that it would not.
fn wish(world: &mut World, compare: &mut Compare, chance: &mut Chance, sender: u64) -> Payment {
    let machine = chance.below(world.machines.len());
    let reading = compare.read_account(&mut world.machines[machine], sender);
    let (next, free) = reading.map_or((0, 0), |reading| (reading.next, reading.free));
    let sequence = match chance.below(12) {
        0 => next + 1,
        1 => next.saturating_sub(1),
        _ => next,
    };
    let amount = match chance.below(12) {
        0 => free,
        1 => free + chance.between(1, 30),
        _ => chance.between(1, free / 4 + 1),
    };
    let to_ledger = chance.one_in(3);
    let recipient = if to_ledger {
        chance.between(0, 65_535)
    } else {
        some_account(world, chance)
    };
    Payment {
        sender,
        kind: u64::from(to_ledger),
        recipient,
        amount: amount.clamp(1, HIGHEST_AMOUNT),
        sequence: sequence.min(HIGHEST_SEQUENCE),
    }
}

/// What every honest machine would let an account spend.
fn free_everywhere(world: &mut World, compare: &mut Compare, account: u64) -> u64 {
    let mut least = HIGHEST_AMOUNT;
    for machine in 0..world.machines.len() {
        let reading = compare.read_account(&mut world.machines[machine], account);
        if !world.is_liar(machine) {
            least = least.min(reading.map_or(0, |reading| reading.free));
        }
    }
    least
}

/// What a wallet waits for, or any order that was given.
fn some_order(world: &World, chance: &mut Chance) -> Option<Vec<u8>> {
    if world.orders.is_empty() {
        return None;
    }
    match &chance.pick(&world.wallets).current {
        Some(order) if !chance.one_in(4) => Some(order.clone()),
        _ => Some(chance.recent(&world.orders).clone()),
    }
}

fn send_order(world: &mut World, compare: &mut Compare, chance: &mut Chance) {
    let Some(message) = some_order(world, chance) else {
        return;
    };
    for machine in receivers(world, chance) {
        world.order_to(compare, chance, machine, &message);
    }
}

/// A certificate from the votes there are, or from just enough of them, now and then with one more that is forged or repeated.
fn collect_votes(world: &mut World, compare: &mut Compare, chance: &mut Chance) {
    let Some(order) = some_order(world, chance) else {
        return;
    };
    let mut voters: Vec<usize> = (0..world.machines.len()).collect();
    voters.retain(|machine| world.has_vote(*machine, body_of(&order)));
    let quorum = 2 * world.f as usize + 1;
    if chance.one_in(2) {
        while voters.len() > quorum {
            voters.remove(chance.below(voters.len()));
        }
    }
    if chance.one_in(10) {
        voters.push(chance.below(world.machines.len()));
        voters.sort();
    }
    world.certify(compare, chance, &order, &voters);
}

fn send_certificate(world: &mut World, compare: &mut Compare, chance: &mut Chance) {
    let mut from = &world.certificates;
    if from.is_empty() || chance.one_in(6) {
        from = &world.junk;
    }
    if from.is_empty() {
        return;
    }
    let message = chance.recent(from).clone();
    for machine in receivers(world, chance) {
        world.certificate_to(compare, chance, machine, &message);
    }
}

/// A machine that was left behind gets a certificate that it waits for.
fn catch_up(world: &mut World, compare: &mut Compare, chance: &mut Chance) {
    let account = some_account(world, chance);
    for machine in receivers(world, chance) {
        let place = laid::record_place(account) + 2;
        let next = &world.machines[machine].bytes()[place..place + 2];
        let mut fitting: Vec<&Vec<u8>> = world.certificates.iter().collect();
        fitting.retain(|message| {
            let body = body_of(message);
            body[3] == account as u8 && body[20..22] == *next
        });
        if !fitting.is_empty() {
            let message = chance.pick(&fitting).to_vec();
            world.certificate_to(compare, chance, machine, &message);
        }
    }
}

fn redeem(world: &mut World, compare: &mut Compare, chance: &mut Chance) {
    let any = chance.one_in(8);
    let mut fitting: Vec<&Vec<u8>> = world.certificates.iter().collect();
    fitting.retain(|message| any || body_of(message)[7] == 1);
    if !fitting.is_empty() {
        let message = chance.recent(&fitting).to_vec();
        world.redeem_at(compare, chance, &message);
    }
}

fn any_message(world: &World, chance: &mut Chance) -> Vec<u8> {
    let kinds = [&world.orders, &world.certificates, &world.funding_orders];
    let kind = *chance.pick(&kinds);
    if kind.is_empty() {
        let length = chance.below(200);
        return chance.bytes(length);
    }
    chance.recent(kind).clone()
}

fn send_damaged(world: &mut World, compare: &mut Compare, chance: &mut Chance) {
    let message = any_message(world, chance);
    let message = damaged(&message, chance);
    send_anywhere(world, compare, chance, &message);
}

fn send_anywhere(world: &mut World, compare: &mut Compare, chance: &mut Chance, message: &[u8]) {
    let machine = chance.below(world.machines.len());
    match message.first() {
        Some(0x10) => world.order_to(compare, chance, machine, message),
        Some(0x20) if chance.one_in(3) => world.redeem_at(compare, chance, message),
        Some(0x20) => drop(world.certificate_to(compare, chance, machine, message)),
        _ => drop(world.funding_order_to(compare, chance, machine, message)),
    }
}

/// A funding order that the ledger did not give.
fn forge_funding_order(world: &mut World, compare: &mut Compare, chance: &mut Chance) {
    let message = laid::funding_order(Funding {
        index: chance.between(1, world.funding_orders.len() as u64 + 2),
        account: some_account(world, chance),
        amount: chance.between(1, HIGHEST_AMOUNT),
    });
    send_anywhere(world, compare, chance, &message);
}

/// A certificate of a payment that was never ordered.
fn forge_certificate(world: &mut World, compare: &mut Compare, chance: &mut Chance) {
    let sender = some_account(world, chance);
    let body = laid::body(wish(world, compare, chance, sender), &[]);
    let mut voters: Vec<usize> = (0..world.machines.len()).collect();
    voters.retain(|machine| world.is_liar(*machine) || chance.one_in(2));
    let run = world.run_of_votes(chance, &body, &voters);
    let message = laid::certificate_of_run(&body, &run);
    send_anywhere(world, compare, chance, &message);
    world.junk.push(message);
}

/// A liar's state may be anything; both programs have the same.
fn scribble(world: &mut World, chance: &mut Chance) {
    let machine = chance.below(world.machines.len());
    if world.is_liar(machine) && chance.one_in(3) {
        let account = some_account(world, chance);
        let place = laid::record_place(account) + chance.below(12);
        world.machines[machine].put(place, chance.byte());
    }
}

fn read_something(world: &mut World, compare: &mut Compare, chance: &mut Chance) {
    let machine = chance.below(world.machines.len());
    let account = some_account(world, chance);
    let message = any_message(world, chance);
    compare.standing_body(&message, &mut world.machines[machine]);
    compare
        .read_account(&mut world.machines[machine], account)
        .ok();
    compare.covered(&message);
    compare.read_order(&message).ok();
    compare.read_funding_order(&message).ok();
    compare.read_certificate(world.f, &message).ok();
    compare.read_pot(&mut world.ledger).ok();
    let sequence = chance.between(0, 12);
    compare
        .is_redeemed(&mut world.ledger, account, sequence)
        .ok();
}

/// Everything is delivered at last, every account pays what it has to the ledger, and every certificate is redeemed: the pot has
/// to suffice to the last watt-hour.
fn close(world: &mut World, compare: &mut Compare, chance: &mut Chance) {
    deliver_everything(world, compare, chance);
    for place in 0..world.wallets.len() {
        let sender = world.wallets[place].account;
        let amount = free_everywhere(world, compare, sender);
        if amount > 0 {
            let payment = Payment {
                sender,
                kind: 1,
                recipient: sender,
                amount,
                sequence: world.history.next_of(sender),
            };
            let order = laid::order(&laid::body(payment, &[]));
            world.orders.push(order.clone());
            for machine in 0..world.machines.len() {
                world.order_to(compare, chance, machine, &order);
            }
            let mut voters: Vec<usize> = (0..world.machines.len()).collect();
            voters.retain(|machine| world.has_vote(*machine, body_of(&order)));
            world.certify(compare, chance, &order, &voters);
        }
    }
    deliver_everything(world, compare, chance);
    for message in world.certificates.clone() {
        world.redeem_at(compare, chance, &message);
    }
    let pot = compare.read_pot(&mut world.ledger).map(|pot| pot.amount);
    compare.record.expect("pot", pot, Ok(world.history.pot()));
    for machine in &mut world.machines {
        for account in 0..64 {
            compare.read_account(machine, account).ok();
        }
    }
}

/// All funding orders, and all certificates as often as one of them is confirmed.
fn deliver_everything(world: &mut World, compare: &mut Compare, chance: &mut Chance) {
    for machine in 0..world.machines.len() {
        for message in world.funding_orders.clone() {
            // A host that lost the verdict tries again.
            for _ in 0..2 {
                world.funding_order_to(compare, chance, machine, &message);
            }
        }
        let mut confirmed = true;
        while confirmed {
            confirmed = false;
            for message in world.certificates.clone() {
                confirmed |= world.certificate_to(compare, chance, machine, &message);
            }
        }
    }
}
