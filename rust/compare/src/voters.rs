//! Certificates of every committee with voters of every sort, and every kind of verdict list.

use crate::answers::Funding;
use crate::calls::Compare;
use crate::laid;
use crate::pair::Pair;
use crate::scenes::{self, Scene, NOTE, PAYMENT, TO_LEDGER};
use chance::Chance;

const BAD_VERDICTS: [u8; 6] = [0, 2, 3, 0x7F, 0x81, 0xFF];

pub fn run(compare: &mut Compare, chance: &mut Chance) {
    for f in 0..=5 {
        let mut bench = Bench::new(f, chance);
        for voters in families(f, chance) {
            bench.every_call(compare, &voters);
        }
        for voters in [first(2 * f), first(2 * f + 1), first(3 * f + 1)] {
            bench.every_verdict_list(compare, &voters);
        }
        single_verdicts(compare, chance, f);
    }
    for voters in sequences(&[0, 1, 15, 16, 255], 3) {
        Bench::new(0, chance).every_call(compare, &voters);
    }
    let mut bench = Bench::new(1, chance);
    for voters in sequences(&[0, 1, 2, 3, 4], 5) {
        bench.every_call(compare, &voters);
    }
    verdicts_on_states(compare, chance);
}

fn first(count: u64) -> Vec<u8> {
    (0..count as u8).collect()
}

/// Every list of at most `longest` of these numbers.
fn sequences(numbers: &[u8], longest: usize) -> Vec<Vec<u8>> {
    let mut all = vec![Vec::new()];
    let mut from = 0;
    for _ in 0..longest {
        let to = all.len();
        for place in from..to {
            for number in numbers {
                let mut longer = all[place].clone();
                longer.push(*number);
                all.push(longer);
            }
        }
        from = to;
    }
    all
}

fn families(f: u64, chance: &mut Chance) -> Vec<Vec<u8>> {
    let machines = first(3 * f + 1);
    let quorum = 2 * f as usize + 1;
    let mut families = Vec::new();
    for count in 0..=machines.len() {
        families.push(machines[..count].to_vec());
        families.push(machines[machines.len() - count..].to_vec());
    }
    for left_out in 0..machines.len() {
        let mut voters = machines.clone();
        voters.remove(left_out);
        families.push(voters);
    }
    for voters in [
        machines[..quorum - 1].to_vec(),
        machines[..quorum].to_vec(),
        machines[f as usize..].to_vec(),
        machines.clone(),
    ] {
        families.extend(spoilt(f, &voters));
    }
    families.extend(subsets(f, chance));
    for _ in 0..60 {
        let count = chance.below(18);
        families.push((0..count).map(|_| chance.below(18) as u8).collect());
    }
    families
}

/// Rising voters made wrong at each place: repeated, exchanged, of no machine, falling.
fn spoilt(f: u64, voters: &[u8]) -> Vec<Vec<u8>> {
    let last = 3 * f as u8;
    let mut spoilt = Vec::new();
    for place in 0..voters.len() {
        let mut repeated = voters.to_vec();
        repeated.insert(place, voters[place]);
        spoilt.push(repeated);
        let mut again = voters.to_vec();
        again[place] = voters[0];
        spoilt.push(again);
        if place > 0 {
            let mut exchanged = voters.to_vec();
            exchanged.swap(place - 1, place);
            spoilt.push(exchanged);
        }
        for number in [last, last + 1, 15, 16, 31, 255] {
            let mut unknown = voters.to_vec();
            unknown[place] = number;
            spoilt.push(unknown);
        }
    }
    for number in [last, last + 1, 15, 16, 31, 255] {
        spoilt.push([voters, &[number]].concat());
    }
    spoilt.push(voters.iter().rev().copied().collect());
    spoilt.push(vec![0; voters.len()]);
    spoilt
}

/// All sets of machines of a small committee, some of a large one.
fn subsets(f: u64, chance: &mut Chance) -> Vec<Vec<u8>> {
    let machines = 3 * f as usize + 1;
    let mut sets: Vec<u64> = (0..1 << machines.min(10)).collect();
    if machines > 10 {
        sets = (0..600).map(|_| chance.number()).collect();
    }
    let members = |set: &u64| {
        (0..machines as u8)
            .filter(|own| set >> own & 1 == 1)
            .collect()
    };
    sets.iter().map(members).collect()
}

/// The states of one committee.
struct Bench {
    f: u64,
    machine: Vec<u8>,
    ledger: Vec<u8>,
    machine_pair: Pair,
    ledger_pair: Pair,
}

impl Bench {
    fn new(f: u64, chance: &mut Chance) -> Bench {
        let machine = laid::machine(f, 3 * f, 0);
        let ledger = laid::ledger(f, 1, 2_000);
        Bench {
            f,
            machine_pair: Pair::of(&machine, chance),
            ledger_pair: Pair::of(&ledger, chance),
            machine,
            ledger,
        }
    }

    fn on_states(&mut self, compare: &mut Compare, message: &[u8], verdicts: &[u8]) {
        compare
            .certificate(&mut self.machine_pair, message, verdicts)
            .ok();
        self.machine_pair.restore(&self.machine);
        compare
            .redeem(&mut self.ledger_pair, message, verdicts)
            .ok();
        self.ledger_pair.restore(&self.ledger);
        compare.judge_certificate(self.f, message, verdicts).ok();
    }

    fn every_call(&mut self, compare: &mut Compare, voters: &[u8]) {
        // With the longest note the votes of 16 machines make the longest message.
        let body = laid::body(TO_LEDGER, &[0x21; 32]);
        let message = laid::certificate(&body, voters);
        let run = laid::run_of_votes(voters);
        let good = vec![1; voters.len()];
        self.on_states(compare, &message, &good);
        let mut bad = good.clone();
        if let Some(last) = bad.last_mut() {
            *last = 2;
            self.on_states(compare, &message, &bad);
        }
        compare.covered(&message);
        compare.read_certificate(self.f, &message).ok();
        let other = (self.f + 1 + voters.len() as u64) % 7;
        compare.read_certificate(other, &message).ok();
        for room in [message.len() - 1, message.len(), message.len() + 1] {
            compare.write_certificate(self.f, room, &body, &run).ok();
        }
    }

    /// Every number of verdicts up to two more than votes, and each one bad in turn.
    fn every_verdict_list(&mut self, compare: &mut Compare, voters: &[u8]) {
        for payment in [PAYMENT, TO_LEDGER] {
            let message = laid::certificate(&laid::body(payment, &[]), voters);
            for count in 0..=voters.len() + 2 {
                self.on_states(compare, &message, &vec![1; count]);
                self.on_states(compare, &message, &vec![0; count]);
            }
            for place in 0..voters.len() {
                for bad in BAD_VERDICTS {
                    let mut verdicts = vec![1; voters.len()];
                    verdicts[place] = bad;
                    self.on_states(compare, &message, &verdicts);
                }
            }
            if let Some(place) = voters.len().checked_sub(1) {
                for value in 0..=255 {
                    let mut verdicts = vec![1; voters.len()];
                    verdicts[place] = value;
                    self.on_states(compare, &message, &verdicts);
                }
            }
        }
    }
}

/// Every value of the one verdict of an order and a funding order, and every number of them up to three.
fn single_verdicts(compare: &mut Compare, chance: &mut Chance, f: u64) {
    let mut machine = laid::machine(f, f, 0);
    laid::put_record(&mut machine, PAYMENT.sender, 0, 2_000, &[]);
    let order = laid::order(&laid::body(PAYMENT, &[]));
    let funding = laid::funding_order(Funding {
        index: 1,
        account: PAYMENT.sender,
        amount: 5,
    });
    let mut state = Pair::of(&machine, chance);
    let mut lists: Vec<Vec<u8>> = (0..=255).map(|value| vec![value]).collect();
    for count in [0, 2, 3, 256, 257] {
        lists.push(vec![1; count]);
        lists.push(vec![0; count]);
    }
    for verdicts in lists {
        compare.order(&mut state, &order, &verdicts).ok();
        state.restore(&machine);
        compare.funding_order(&mut state, &funding, &verdicts).ok();
        state.restore(&machine);
    }
}

/// Every verdict list on every state: a wrong number and a bad verdict are refused before anything that the state could bring.
fn verdicts_on_states(compare: &mut Compare, chance: &mut Chance) {
    for note in [[].as_slice(), &NOTE] {
        let mut scenes = scenes::all(note);
        scenes.extend([scenes::below_zero(note), scenes::ill_formed(note)]);
        for scene in scenes {
            verdicts_on_machine(compare, chance, &scene);
        }
        for payment in [PAYMENT, TO_LEDGER] {
            let body = laid::body(payment, note);
            for ledger in scenes::ledgers(payment) {
                verdicts_on_ledger(compare, chance, &ledger, &body);
            }
        }
    }
}

fn verdicts_on_machine(compare: &mut Compare, chance: &mut Chance, scene: &Scene) {
    let mut state = Pair::of(&scene.machine, chance);
    let (order, funding) = (scene.order(), scene.funding_order());
    each_verdict_list(1, |verdicts| {
        let answer = compare.order(&mut state, &order, verdicts);
        expect_verdicts(compare, answer.err(), verdicts, 1);
        state.restore(&scene.machine);
        let answer = compare.funding_order(&mut state, &funding, verdicts);
        expect_verdicts(compare, answer.err(), verdicts, 1);
        state.restore(&scene.machine);
    });
    let message = scene.certificate();
    let votes = scene.verdicts().len();
    each_verdict_list(votes, |verdicts| {
        let answer = compare.certificate(&mut state, &message, verdicts);
        expect_verdicts(compare, answer.err(), verdicts, votes);
        state.restore(&scene.machine);
    });
}

fn verdicts_on_ledger(compare: &mut Compare, chance: &mut Chance, ledger: &[u8], body: &[u8]) {
    let mut state = Pair::of(ledger, chance);
    for voters in [first(3), first(4)] {
        let message = laid::certificate(body, &voters);
        each_verdict_list(voters.len(), |verdicts| {
            let answer = compare.redeem(&mut state, &message, verdicts);
            expect_verdicts(compare, answer.err(), verdicts, voters.len());
            state.restore(ledger);
        });
    }
}

/// Every number of verdicts around the right one, all good and all bad, and each verdict as every value.
fn each_verdict_list(right: usize, mut visit: impl FnMut(&[u8])) {
    for count in (0..=right + 3).chain([255, 256, 256 + right]) {
        visit(&vec![1; count]);
        visit(&vec![0; count]);
    }
    for place in 0..right {
        let mut verdicts = vec![1; right];
        for value in 0..=255 {
            verdicts[place] = value;
            visit(&verdicts);
        }
    }
}

/// Of a message that has no other fault before its verdicts. What good ones bring is the state's matter.
fn expect_verdicts(compare: &Compare, refusal: Option<u8>, verdicts: &[u8], right: usize) {
    let expected = if verdicts.len() != right {
        Some(3)
    } else if verdicts.iter().any(|verdict| *verdict != 1) {
        Some(4)
    } else {
        refusal.filter(|number| ![3, 4].contains(number))
    };
    compare.record.expect("verdicts", refusal, expected);
}
