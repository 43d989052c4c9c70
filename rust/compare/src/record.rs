//! Judges a call after both programs have answered, counts it, and tells of a failure.

use crate::answers::Answer;
use crate::coverage::{Call, Coverage, Outcome};
use crate::pair::Pair;
use std::fmt::Debug;
use std::process;

/// Stands for a panic where a refusal's number is expected: 01 has no such number.
pub const PANICKED: u8 = 255;

/// One lent buffer of a call.
pub struct Lent<'a> {
    name: &'static str,
    pair: &'a mut Pair,
    for_writing: bool,
}

pub fn to_read<'a>(name: &'static str, pair: &'a mut Pair) -> Lent<'a> {
    Lent {
        name,
        pair,
        for_writing: false,
    }
}

pub fn to_write<'a>(name: &'static str, pair: &'a mut Pair) -> Lent<'a> {
    Lent {
        name,
        pair,
        for_writing: true,
    }
}

pub struct Record {
    /// The command that repeats this run.
    again: String,
    pub part: &'static str,
    pub calls: u64,
    pub coverage: Coverage,
    last: Last,
}

/// The arguments of the last call, for what is found to be wrong only after it.
#[derive(Default)]
struct Last {
    name: &'static str,
    numbers: Vec<(&'static str, u64)>,
    lent: Vec<(&'static str, Vec<u8>)>,
}

impl Last {
    fn take(&mut self, call: Call, numbers: &[(&'static str, u64)], lent: &[Lent]) {
        self.name = call.name();
        self.numbers.clear();
        self.numbers.extend_from_slice(numbers);
        // Buffers are used again: this is done at every call.
        self.lent.resize_with(lent.len(), Default::default);
        for (kept, buffer) in self.lent.iter_mut().zip(lent) {
            kept.0 = buffer.name;
            kept.1.clear();
            kept.1.extend_from_slice(buffer.pair.bytes());
        }
    }

    fn print(&self) {
        println!("  call {}", self.name);
        for (name, number) in &self.numbers {
            println!("  {name} = {number:#x} ({number})");
        }
        for (name, bytes) in &self.lent {
            print_bytes(name, bytes);
        }
    }
}

impl Record {
    pub fn new(again: String) -> Record {
        Record {
            again,
            part: "",
            calls: 0,
            coverage: Coverage::new(),
            last: Last::default(),
        }
    }

    /// The common answer. Ends the program where the two are not alike, or where bytes changed that must stay.
    pub fn judge<T: Answer>(
        &mut self,
        call: Call,
        numbers: &[(&'static str, u64)],
        ours: Result<T, u8>,
        second: Result<T, u8>,
        lent: &mut [Lent],
    ) -> Result<T, u8> {
        self.calls += 1;
        self.last.take(call, numbers, lent);
        if let Some(reason) = self.fault(call, &ours, &second, lent) {
            self.tell(&reason);
            println!("  ours answered   {}", shown(&ours));
            println!("  second answered {}", shown(&second));
            for buffer in lent.iter() {
                print_differences(buffer);
            }
            process::exit(1);
        }
        if ours.is_ok() {
            for buffer in lent.iter_mut().filter(|buffer| buffer.for_writing) {
                buffer.pair.take_over();
            }
        }
        ours
    }

    fn fault<T: Answer>(
        &mut self,
        call: Call,
        ours: &Result<T, u8>,
        second: &Result<T, u8>,
        lent: &[Lent],
    ) -> Option<String> {
        if ours != second {
            return Some("the answers differ".to_string());
        }
        for buffer in lent {
            let may_change = buffer.for_writing && ours.is_ok();
            if let Some(fault) = buffer.pair.fault(may_change) {
                return Some(format!("{}: {}", buffer.name, fault));
            }
        }
        let outcome = match ours {
            Ok(answer) => Outcome::Accepted(answer.kind()),
            Err(number) => Outcome::Refused(*number),
        };
        if !self.coverage.count(call, outcome) {
            return Some("document 01 does not make this answer possible".to_string());
        }
        None
    }

    /// Ends the program where an answer is not the one that 01 gives.
    pub fn expect<T: PartialEq + Debug>(&self, what: &str, answer: T, expected: T) {
        if answer != expected {
            self.broken(&format!(
                "{what}: answered {answer:?}, expected {expected:?}"
            ));
        }
    }

    /// Ends the program for something that both programs did wrong.
    pub fn broken(&self, reason: &str) -> ! {
        self.tell(reason);
        process::exit(1);
    }

    fn tell(&self, reason: &str) {
        println!("FAILED in part \"{}\": {reason}", self.part);
        println!("  repeat it with the seed: {}", self.again);
        println!("  call number {}", self.calls);
        self.last.print();
    }
}

fn shown<T: Answer>(answer: &Result<T, u8>) -> String {
    match answer {
        Ok(answer) => format!("{answer:x?}"),
        Err(PANICKED) => "nothing: it panicked".to_string(),
        Err(number) => format!("refused {number}"),
    }
}

/// Bytes as they were lent. Of a state, lines of zeros are left out.
fn print_bytes(name: &str, bytes: &[u8]) {
    println!("  {name}, {} bytes as lent", bytes.len());
    for (line, part) in bytes.chunks(32).enumerate() {
        if bytes.len() > 2_000 && part.iter().all(|byte| *byte == 0) {
            continue;
        }
        let mut text = String::new();
        for byte in part {
            text.push_str(&format!("{byte:02x}"));
        }
        println!("    {:5}: {text}", line * 32);
    }
}

/// Every place that is not the same after the call; places before 0 and from the length on are guards.
fn print_differences(buffer: &Lent) {
    let differences = buffer.pair.differences();
    for (place, bytes) in differences.iter().take(40) {
        println!(
            "  {} at {place}: lent {:02x}, ours {:02x}, second {:02x}",
            buffer.name, bytes[0], bytes[1], bytes[2]
        );
    }
    if differences.len() > 40 {
        println!("  {}: {} places differ", buffer.name, differences.len());
    }
}
