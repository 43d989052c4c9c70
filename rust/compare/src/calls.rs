//! One function for each call: it lends the same bytes to both programs, has them judged, and gives the common answer.

use crate::answers::{
    ours, theirs, Answer, Certified, Confirmation, Funding, Payment, Payout, Pot, Read, Reading,
    Stretch, Vote,
};
use crate::coverage::Call;
use crate::pair::Pair;
use crate::record::{to_read, to_write, Record, PANICKED};
use chance::Chance;
use std::panic::{catch_unwind, AssertUnwindSafe};

type OnState<T> = fn(&mut [u8], &[u8], &[u8]) -> Result<T, u8>;
type OnMessage<T> = fn(&[u8]) -> Result<T, u8>;

pub struct Compare {
    pub record: Record,
    /// For guards, and for what stands in an output before it is written.
    chance: Chance,
    message: Pair,
    verdicts: Pair,
    note: Pair,
    signature: Pair,
    out: Pair,
}

fn number(refusal: cartlozenge::Refusal) -> u8 {
    refusal.number()
}

/// An answer; a panic is none.
fn said<T>(call: impl FnOnce() -> Result<T, u8>) -> Result<T, u8> {
    catch_unwind(AssertUnwindSafe(call)).unwrap_or(Err(PANICKED))
}

impl Compare {
    pub fn new(record: Record, seed: u64) -> Compare {
        Compare {
            record,
            chance: Chance::new(seed),
            message: Pair::empty(),
            verdicts: Pair::empty(),
            note: Pair::empty(),
            signature: Pair::empty(),
            out: Pair::empty(),
        }
    }

    /// What the last writer left: all bytes of its output.
    pub fn out(&self) -> &[u8] {
        self.out.bytes()
    }

    fn lend_message(&mut self, message: &[u8], verdicts: &[u8]) {
        self.message.lend(message, &mut self.chance);
        self.verdicts.lend(verdicts, &mut self.chance);
    }

    fn lend_room(&mut self, room: usize) {
        let bytes = self.chance.bytes(room);
        self.out.lend(&bytes, &mut self.chance);
    }

    fn on_state<T: Answer>(
        &mut self,
        call: Call,
        state: &mut Pair,
        (message, verdicts): (&[u8], &[u8]),
        ours: OnState<T>,
        second: OnState<T>,
    ) -> Result<T, u8> {
        self.lend_message(message, verdicts);
        let first = said(|| ours(state.ours_mut(), self.message.ours(), self.verdicts.ours()));
        let second = said(|| {
            second(
                state.second_mut(),
                self.message.second(),
                self.verdicts.second(),
            )
        });
        let lent = &mut [
            to_write("state", state),
            to_read("message", &mut self.message),
            to_read("verdicts", &mut self.verdicts),
        ];
        self.record.judge(call, &[], first, second, lent)
    }

    fn on_message<T: Answer>(
        &mut self,
        call: Call,
        message: &[u8],
        ours: OnMessage<T>,
        second: OnMessage<T>,
    ) -> Result<T, u8> {
        self.lend_message(message, &[]);
        let first = said(|| ours(self.message.ours()));
        let second = said(|| second(self.message.second()));
        let lent = &mut [to_read("message", &mut self.message)];
        self.record.judge(call, &[], first, second, lent)
    }

    pub fn fresh_machine(&mut self, state: &mut Pair, f: u64, own: u64) -> Result<(), u8> {
        let first = said(|| cartlozenge::fresh_machine(state.ours_mut(), f, own).map_err(number));
        let second = said(|| second::fresh_machine(state.second_mut(), f, own));
        let numbers = [("f", f), ("own", own)];
        let lent = &mut [to_write("state", state)];
        self.record
            .judge(Call::FreshMachine, &numbers, first, second, lent)
    }

    pub fn order(&mut self, state: &mut Pair, message: &[u8], verdicts: &[u8]) -> Result<Vote, u8> {
        self.on_state(
            Call::Order,
            state,
            (message, verdicts),
            |state, message, verdicts| {
                cartlozenge::order(state, message, verdicts)
                    .map(ours::vote)
                    .map_err(number)
            },
            second::order,
        )
    }

    pub fn certificate(
        &mut self,
        state: &mut Pair,
        message: &[u8],
        verdicts: &[u8],
    ) -> Result<Confirmation, u8> {
        self.on_state(
            Call::Certificate,
            state,
            (message, verdicts),
            |state, message, verdicts| {
                cartlozenge::certificate(state, message, verdicts)
                    .map(ours::confirmation)
                    .map_err(number)
            },
            second::certificate,
        )
    }

    pub fn funding_order(
        &mut self,
        state: &mut Pair,
        message: &[u8],
        verdicts: &[u8],
    ) -> Result<(), u8> {
        self.on_state(
            Call::FundingOrder,
            state,
            (message, verdicts),
            |state, message, verdicts| {
                cartlozenge::funding_order(state, message, verdicts).map_err(number)
            },
            second::funding_order,
        )
    }

    pub fn redeem(
        &mut self,
        state: &mut Pair,
        message: &[u8],
        verdicts: &[u8],
    ) -> Result<Payout, u8> {
        self.on_state(
            Call::Redeem,
            state,
            (message, verdicts),
            |state, message, verdicts| {
                cartlozenge::redeem(state, message, verdicts)
                    .map(ours::payout)
                    .map_err(number)
            },
            second::redeem,
        )
    }

    pub fn read_account(&mut self, state: &mut Pair, account: u64) -> Result<Reading, u8> {
        let first = said(|| {
            cartlozenge::read_account(state.ours(), account)
                .map(ours::reading)
                .map_err(number)
        });
        let second = said(|| second::read_account(state.second(), account));
        let numbers = [("account", account)];
        let lent = &mut [to_read("state", state)];
        self.record
            .judge(Call::ReadAccount, &numbers, first, second, lent)
    }

    /// Never refused: an empty stretch is an answer.
    pub fn standing_body(&mut self, message: &[u8], state: &mut Pair) -> Stretch {
        self.lend_message(message, &[]);
        let first = said(|| {
            let stretch = cartlozenge::standing_body(self.message.ours(), state.ours());
            Ok(ours::stretch(stretch))
        });
        let second = said(|| Ok(second::standing_body(self.message.second(), state.second())));
        let lent = &mut [
            to_read("message", &mut self.message),
            to_read("state", state),
        ];
        answered(
            self.record
                .judge(Call::StandingBody, &[], first, second, lent),
        )
    }

    pub fn fresh_ledger(&mut self, state: &mut Pair, f: u64) -> Result<(), u8> {
        let first = said(|| cartlozenge::fresh_ledger(state.ours_mut(), f).map_err(number));
        let second = said(|| second::fresh_ledger(state.second_mut(), f));
        let lent = &mut [to_write("state", state)];
        self.record
            .judge(Call::FreshLedger, &[("f", f)], first, second, lent)
    }

    /// The funding order is in `out()` afterwards.
    pub fn fund(
        &mut self,
        state: &mut Pair,
        room: usize,
        account: u64,
        amount: u64,
    ) -> Result<u64, u8> {
        self.lend_room(room);
        let first = said(|| {
            cartlozenge::fund(state.ours_mut(), self.out.ours_mut(), account, amount)
                .map_err(number)
        });
        let second =
            said(|| second::fund(state.second_mut(), self.out.second_mut(), account, amount));
        let numbers = [("account", account), ("amount", amount)];
        let lent = &mut [to_write("state", state), to_write("out", &mut self.out)];
        self.record.judge(Call::Fund, &numbers, first, second, lent)
    }

    pub fn read_pot(&mut self, state: &mut Pair) -> Result<Pot, u8> {
        let first = said(|| {
            cartlozenge::read_pot(state.ours())
                .map(ours::pot)
                .map_err(number)
        });
        let second = said(|| second::read_pot(state.second()));
        let lent = &mut [to_read("state", state)];
        self.record.judge(Call::ReadPot, &[], first, second, lent)
    }

    pub fn is_redeemed(
        &mut self,
        state: &mut Pair,
        account: u64,
        sequence: u64,
    ) -> Result<bool, u8> {
        let first =
            said(|| cartlozenge::is_redeemed(state.ours(), account, sequence).map_err(number));
        let second = said(|| second::is_redeemed(state.second(), account, sequence));
        let numbers = [("account", account), ("sequence", sequence)];
        let lent = &mut [to_read("state", state)];
        self.record
            .judge(Call::IsRedeemed, &numbers, first, second, lent)
    }

    pub fn read_body(&mut self, message: &[u8]) -> Result<Read, u8> {
        self.on_message(
            Call::ReadBody,
            message,
            |message| {
                cartlozenge::read_body(message)
                    .map(ours::body)
                    .map_err(number)
            },
            |message| second::read_body(message).map(theirs::body),
        )
    }

    pub fn read_order(&mut self, message: &[u8]) -> Result<Read, u8> {
        self.on_message(
            Call::ReadOrder,
            message,
            |message| {
                cartlozenge::read_order(message)
                    .map(ours::order)
                    .map_err(number)
            },
            |message| second::read_order(message).map(theirs::order),
        )
    }

    pub fn read_funding_order(&mut self, message: &[u8]) -> Result<Funding, u8> {
        self.on_message(
            Call::ReadFundingOrder,
            message,
            |message| {
                cartlozenge::read_funding_order(message)
                    .map(ours::funding)
                    .map_err(number)
            },
            second::read_funding_order,
        )
    }

    /// Never refused: an empty stretch is an answer.
    pub fn covered(&mut self, message: &[u8]) -> Stretch {
        answered(self.on_message(
            Call::Covered,
            message,
            |message| Ok(ours::stretch(cartlozenge::covered(message))),
            |message| Ok(second::covered(message)),
        ))
    }

    pub fn read_certificate(&mut self, f: u64, message: &[u8]) -> Result<Certified, u8> {
        self.lend_message(message, &[]);
        let first = said(|| {
            cartlozenge::read_certificate(f, self.message.ours())
                .map(ours::certified)
                .map_err(number)
        });
        let second = said(|| second::read_certificate(f, self.message.second()));
        let lent = &mut [to_read("message", &mut self.message)];
        self.record
            .judge(Call::ReadCertificate, &[("f", f)], first, second, lent)
    }

    pub fn judge_certificate(
        &mut self,
        f: u64,
        message: &[u8],
        verdicts: &[u8],
    ) -> Result<Certified, u8> {
        self.lend_message(message, verdicts);
        let first = said(|| {
            cartlozenge::judge_certificate(f, self.message.ours(), self.verdicts.ours())
                .map(ours::certified)
                .map_err(number)
        });
        let second =
            said(|| second::judge_certificate(f, self.message.second(), self.verdicts.second()));
        let lent = &mut [
            to_read("message", &mut self.message),
            to_read("verdicts", &mut self.verdicts),
        ];
        self.record
            .judge(Call::JudgeCertificate, &[("f", f)], first, second, lent)
    }

    /// What was written is at the start of `out()` afterwards, as with every writer.
    pub fn write_body(&mut self, room: usize, payment: Payment, note: &[u8]) -> Result<usize, u8> {
        self.lend_room(room);
        self.note.lend(note, &mut self.chance);
        let first = said(|| {
            let payment = ours::lent_payment(payment);
            cartlozenge::write_body(self.out.ours_mut(), payment, self.note.ours()).map_err(number)
        });
        let second =
            said(|| second::write_body(self.out.second_mut(), payment, self.note.second()));
        let lent = &mut [
            to_write("out", &mut self.out),
            to_read("note", &mut self.note),
        ];
        let numbers = numbers_of(payment);
        self.record
            .judge(Call::WriteBody, &numbers, first, second, lent)
    }

    pub fn write_order(
        &mut self,
        room: usize,
        payment: Payment,
        note: &[u8],
        signature: &[u8],
    ) -> Result<usize, u8> {
        self.lend_room(room);
        self.note.lend(note, &mut self.chance);
        self.signature.lend(signature, &mut self.chance);
        let first = said(|| {
            let payment = ours::lent_payment(payment);
            let (note, signature) = (self.note.ours(), self.signature.ours());
            cartlozenge::write_order(self.out.ours_mut(), payment, note, signature).map_err(number)
        });
        let second = said(|| {
            let (note, signature) = (self.note.second(), self.signature.second());
            second::write_order(self.out.second_mut(), payment, note, signature)
        });
        let lent = &mut [
            to_write("out", &mut self.out),
            to_read("note", &mut self.note),
            to_read("signature", &mut self.signature),
        ];
        let numbers = numbers_of(payment);
        self.record
            .judge(Call::WriteOrder, &numbers, first, second, lent)
    }

    pub fn write_funding_order(&mut self, room: usize, funding: Funding) -> Result<usize, u8> {
        self.lend_room(room);
        let first = said(|| {
            let funding = ours::lent_funding(funding);
            cartlozenge::write_funding_order(self.out.ours_mut(), funding).map_err(number)
        });
        let second = said(|| second::write_funding_order(self.out.second_mut(), funding));
        let numbers = [
            ("index", funding.index),
            ("account", funding.account),
            ("amount", funding.amount),
        ];
        let lent = &mut [to_write("out", &mut self.out)];
        self.record
            .judge(Call::WriteFundingOrder, &numbers, first, second, lent)
    }

    pub fn write_certificate(
        &mut self,
        f: u64,
        room: usize,
        body: &[u8],
        votes: &[u8],
    ) -> Result<usize, u8> {
        self.lend_room(room);
        self.lend_message(body, votes);
        let first = said(|| {
            let (body, votes) = (self.message.ours(), self.verdicts.ours());
            cartlozenge::write_certificate(f, self.out.ours_mut(), body, votes).map_err(number)
        });
        let second = said(|| {
            let (body, votes) = (self.message.second(), self.verdicts.second());
            second::write_certificate(f, self.out.second_mut(), body, votes)
        });
        let lent = &mut [
            to_write("out", &mut self.out),
            to_read("body", &mut self.message),
            to_read("votes", &mut self.verdicts),
        ];
        self.record
            .judge(Call::WriteCertificate, &[("f", f)], first, second, lent)
    }
}

/// Of the calls that never refuse: a refusal there was a failure already.
fn answered(answer: Result<Stretch, u8>) -> Stretch {
    answer.unwrap_or(Stretch {
        in_state: false,
        place: 0,
        length: 0,
    })
}

fn numbers_of(payment: Payment) -> [(&'static str, u64); 5] {
    [
        ("sender", payment.sender),
        ("kind", payment.kind),
        ("recipient", payment.recipient),
        ("amount", payment.amount),
        ("sequence", payment.sequence),
    ]
}
