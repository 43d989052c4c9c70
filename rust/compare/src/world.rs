//! A committee with its ledger, and what an able host does: it delivers messages with the verdicts that it finds. Every answer goes
//! into the history, where demand 3 is checked.

use crate::answers::{Confirmation, Payout, Stretch};
use crate::calls::Compare;
use crate::history::{Broken, History};
use crate::laid::{self, BODY_PLACE, HIGHEST_AMOUNT};
use crate::pair::Pair;
use chance::Chance;

pub struct World {
    pub f: u64,
    /// The dishonest machines, as bits.
    liars: u16,
    pub machines: Vec<Pair>,
    pub ledger: Pair,
    pub wallets: Vec<Wallet>,
    pub greatest_funding: u64,
    /// Every message ever sent, by kind; each may come again at any time.
    pub funding_orders: Vec<Vec<u8>>,
    pub orders: Vec<Vec<u8>>,
    pub certificates: Vec<Vec<u8>>,
    /// Certificates that no writer would write, or of payments that were never ordered.
    pub junk: Vec<Vec<u8>>,
    /// Makes the machines' signatures, which nobody else can make.
    secret: u64,
    pub history: History,
}

pub struct Wallet {
    pub account: u64,
    pub honest: bool,
    /// Its last order.
    pub current: Option<Vec<u8>>,
}

impl World {
    pub fn new(compare: &mut Compare, chance: &mut Chance, f: u64) -> World {
        let count = 3 * f as usize + 1;
        let mut liars = 0u16;
        let mut dishonest = f as u32;
        if chance.one_in(3) {
            dishonest = chance.between(0, f) as u32;
        }
        while liars.count_ones() < dishonest {
            liars |= 1 << chance.below(count);
        }
        let mut machines = Vec::new();
        for own in 0..count {
            let mut state = Pair::of(&chance.bytes(laid::MACHINE_STATE), chance);
            compare.fresh_machine(&mut state, f, own as u64).ok();
            machines.push(state);
        }
        let mut ledger = Pair::of(&chance.bytes(laid::LEDGER_STATE), chance);
        compare.fresh_ledger(&mut ledger, f).ok();
        World {
            f,
            liars,
            machines,
            ledger,
            wallets: wallets(chance),
            greatest_funding: *chance.pick(&[20, 5_000, HIGHEST_AMOUNT]),
            funding_orders: Vec::new(),
            orders: Vec::new(),
            certificates: Vec::new(),
            junk: Vec::new(),
            secret: chance.number(),
            history: History::new(f, dishonest),
        }
    }

    pub fn is_liar(&self, machine: usize) -> bool {
        self.liars >> machine & 1 == 1
    }

    /// Whether there is a vote of a machine for a body: an honest one must have answered it, a liar votes for anything.
    pub fn has_vote(&self, machine: usize, body: &[u8]) -> bool {
        self.is_liar(machine) || self.history.has_voted(machine, body)
    }

    fn keep(&self, compare: &Compare, promise: Result<(), Broken>) {
        if let Err(broken) = promise {
            compare.record.broken(&format!(
                "demand 3, f = {}, liars {:b}: {broken}",
                self.f, self.liars
            ));
        }
    }

    /// From a fresh state no call is answered with 16.
    fn not_ill_formed(&self, compare: &Compare, honest: bool, refusal: Option<u8>) {
        if honest && refusal == Some(16) {
            compare
                .record
                .broken("a state that began fresh was answered with 16");
        }
    }

    pub fn fund(&mut self, compare: &mut Compare, room: usize, account: u64, amount: u64) {
        let answer = compare.fund(&mut self.ledger, room, account, amount);
        self.not_ill_formed(compare, true, answer.err());
        if answer.is_ok() {
            self.history.funded(account, amount);
            self.funding_orders.push(compare.out()[..16].to_vec());
        }
    }

    pub fn funding_order_to(
        &mut self,
        compare: &mut Compare,
        chance: &mut Chance,
        machine: usize,
        message: &[u8],
    ) -> bool {
        let really_given = self.funding_orders.iter().any(|given| given == message);
        let verdicts = host(chance, vec![really_given]);
        let answer = compare.funding_order(&mut self.machines[machine], message, &verdicts);
        self.not_ill_formed(compare, !self.is_liar(machine), answer.err());
        answer.is_ok()
    }

    pub fn order_to(
        &mut self,
        compare: &mut Compare,
        chance: &mut Chance,
        machine: usize,
        message: &[u8],
    ) {
        // Demand 3 asks nothing of the verdict on an order: now and then a host takes what nobody signed.
        let taken = chance.one_in(20) || self.orders.iter().any(|given| given == message);
        let verdicts = host(chance, vec![taken]);
        let answer = compare.order(&mut self.machines[machine], message, &verdicts);
        let honest = !self.is_liar(machine);
        self.not_ill_formed(compare, honest, answer.err());
        if answer.is_ok() && honest {
            let body = part(compare.covered(message), message);
            if let Ok(read) = compare.read_body(body) {
                let promise = self.history.voted(machine, body, read.payment);
                self.keep(compare, promise);
            }
        }
    }

    pub fn certificate_to(
        &mut self,
        compare: &mut Compare,
        chance: &mut Chance,
        machine: usize,
        message: &[u8],
    ) -> bool {
        let verdicts = self.verdicts(chance, message);
        let answer = compare.certificate(&mut self.machines[machine], message, &verdicts);
        self.not_ill_formed(compare, !self.is_liar(machine), answer.err());
        if let Ok(Confirmation::Confirmed(votes) | Confirmation::Already(votes)) = answer {
            compare
                .record
                .expect("votes counted", votes, verdicts.len() as u64);
        }
        matches!(answer, Ok(Confirmation::Confirmed(_)))
    }

    pub fn redeem_at(&mut self, compare: &mut Compare, chance: &mut Chance, message: &[u8]) {
        let verdicts = self.verdicts(chance, message);
        let judged = compare.judge_certificate(self.f, message, &verdicts);
        let answer = compare.redeem(&mut self.ledger, message, &verdicts);
        self.not_ill_formed(compare, true, answer.err());
        let paid = answer.map(|Payout { account, amount }| (account, amount));
        match judged {
            Ok(certified) if certified.payment.kind == 1 => {
                let body = part(compare.covered(message), message);
                let promise = self.history.redeeming(body, certified.payment, paid);
                self.keep(compare, promise);
            }
            _ => compare
                .record
                .expect("no good certificate to the ledger", paid.is_err(), true),
        }
    }

    /// A certificate of an order's payment by these voters; a vote that its machine did not give is forged.
    pub fn certify(
        &mut self,
        compare: &mut Compare,
        chance: &mut Chance,
        order: &[u8],
        voters: &[usize],
    ) {
        let body = part(compare.covered(order), order);
        let run = self.run_of_votes(chance, body, voters);
        let answer = compare.write_certificate(self.f, laid::LONGEST_MESSAGE, body, &run);
        if let Ok(length) = answer {
            self.certificates.push(compare.out()[..length].to_vec());
        } else if chance.one_in(4) {
            self.junk.push(laid::certificate_of_run(body, &run));
        }
    }

    pub fn run_of_votes(&self, chance: &mut Chance, body: &[u8], voters: &[usize]) -> Vec<u8> {
        let mut run = Vec::new();
        for machine in voters {
            run.push(*machine as u8);
            if self.has_vote(*machine, body) {
                run.extend(self.signature(*machine, body));
            } else {
                run.extend(chance.bytes(64));
            }
        }
        run
    }

    fn signature(&self, machine: usize, body: &[u8]) -> Vec<u8> {
        let mut seed = self.secret ^ (machine as u64 + 1);
        for byte in body {
            seed = seed.wrapping_mul(0x0100_0000_01B3) ^ u64::from(*byte);
        }
        Chance::new(seed).bytes(64)
    }

    /// What the host finds: a vote is good if there is that vote and the signature is its machine's.
    fn verdicts(&self, chance: &mut Chance, message: &[u8]) -> Vec<u8> {
        let Some((body, votes)) = laid_out(message) else {
            return vec![1; chance.below(6)];
        };
        let mut good = Vec::new();
        for vote in votes.chunks(laid::VOTE_FIELD) {
            let machine = usize::from(vote[3]);
            let given = machine < self.machines.len() && self.has_vote(machine, body);
            good.push(given && vote[4..] == self.signature(machine, body));
        }
        host(chance, good)
    }
}

/// Few accounts of the 64, so that they meet often.
fn wallets(chance: &mut Chance) -> Vec<Wallet> {
    let count = 2 + chance.below(5);
    let all_honest = chance.one_in(3);
    let mut wallets: Vec<Wallet> = Vec::new();
    while wallets.len() < count {
        let account = *chance.pick(&[0, 1, 2, 7, 8, 31, 32, 62, 63]);
        if wallets.iter().all(|wallet| wallet.account != account) {
            wallets.push(Wallet {
                account,
                honest: all_honest || !chance.one_in(4),
                current: None,
            });
        }
    }
    wallets
}

/// Verdict bytes for what was found. A host may also fail: it never calls a bad one good, but loses bytes or doubts good ones.
fn host(chance: &mut Chance, good: Vec<bool>) -> Vec<u8> {
    let mut verdicts = Vec::new();
    for is_good in good {
        if is_good && !chance.one_in(300) {
            verdicts.push(1);
        } else {
            verdicts.push(chance.bad_verdict());
        }
    }
    if chance.one_in(60) {
        verdicts.pop();
    } else if chance.one_in(60) {
        verdicts.push(1);
    }
    verdicts
}

/// Of a message that was written or laid down here.
pub fn body_of(message: &[u8]) -> &[u8] {
    let length = usize::from(message[2]);
    &message[BODY_PLACE..BODY_PLACE + length]
}

fn part(stretch: Stretch, message: &[u8]) -> &[u8] {
    &message[stretch.place..stretch.place + stretch.length]
}

/// Body and vote fields of a message that is laid out as a certificate; a verdict is about a vote only there.
fn laid_out(message: &[u8]) -> Option<(&[u8], &[u8])> {
    if message.len() < BODY_PLACE || message[0] != 0x20 {
        return None;
    }
    let length = usize::from(u16::from_be_bytes([message[1], message[2]]));
    let body = message.get(BODY_PLACE..BODY_PLACE + length)?;
    let votes = &message[BODY_PLACE + length..];
    let mut fields = votes.chunks(laid::VOTE_FIELD);
    if fields.all(|vote| vote.len() == laid::VOTE_FIELD && vote[..3] == [0x21, 0, 65]) {
        Some((body, votes))
    } else {
        None
    }
}
