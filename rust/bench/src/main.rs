//! Speed, instruction counts and stack of the proved calls. `bench` prints all three tables; `bench counts` and `bench stack` print one and
//! fail where a number is above its bound; `bench times` prints the times alone.

mod counts;
mod index;
mod inputs;
mod stack;
mod subjects;
mod times;

use std::env;
use std::process::ExitCode;

const ROUNDS: usize = 401;

fn counts_within() -> bool {
    match counts::table() {
        Ok(within) => within,
        Err(fault) => {
            eprintln!("bench: {fault}");
            false
        }
    }
}

fn outcome(within: bool) -> ExitCode {
    if within {
        return ExitCode::SUCCESS;
    }
    eprintln!("bench: a number is above its bound");
    ExitCode::FAILURE
}

fn main() -> ExitCode {
    let words: Vec<String> = env::args().skip(1).collect();
    let words: Vec<&str> = words.iter().map(String::as_str).collect();
    match words[..] {
        [] => {
            times::table(ROUNDS);
            println!();
            let counts = counts_within();
            println!();
            outcome(stack::table() && counts)
        }
        ["times"] => {
            times::table(ROUNDS);
            ExitCode::SUCCESS
        }
        ["counts"] => outcome(counts_within()),
        ["stack"] => outcome(stack::table()),
        [counts::COUNTED, name, f] => {
            counts::counted(name, f.parse().expect("f is a number"));
            ExitCode::SUCCESS
        }
        _ => {
            eprintln!("usage: bench [times | counts | stack]");
            ExitCode::from(2)
        }
    }
}
