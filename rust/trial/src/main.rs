//! Tries the program `cartlozenge` from outside: what it prints and what it leaves on disk, against the second program.
//!
//! `trial PROGRAM` takes its seed from the clock, `trial PROGRAM SEED` repeats a run as far as timing allows, and
//! `trial PROGRAM SEED PART` tries one part alone.

#![forbid(unsafe_code)]

mod answers;
mod desk;
mod files;
mod fresh;
mod killed;
mod lines;
mod messages;
mod place;
mod program;
mod room;
mod shared;
mod spelling;
mod streams;
mod tally;
mod trial;
mod wording;
mod words;

use program::Program;
use std::env;
use std::fs;
use std::path::PathBuf;
use std::process;
use std::time::{Instant, SystemTime, UNIX_EPOCH};
use trial::{Trial, Tried};

type Part = (&'static str, fn(&Trial) -> Tried<String>);

const PARTS: [Part; 6] = [
    ("answers", answers::run),
    ("killed", killed::run),
    ("files", files::run),
    ("lines", lines::run),
    ("second program on the same state", shared::run),
    ("no room", room::run),
];

struct Wanted {
    program: PathBuf,
    seed: u64,
    parts: Vec<Part>,
}

fn main() {
    let words: Vec<String> = env::args().skip(1).collect();
    let words: Vec<&str> = words.iter().map(String::as_str).collect();
    if let [room::INSIDE, program, folder] = words.as_slice() {
        room::main_inside(&Trial {
            program: Program {
                path: PathBuf::from(program),
            },
            folder: PathBuf::from(folder),
            seed: 0,
        });
    }
    let Some(wanted) = wanted(&words) else {
        println!("usage: trial PROGRAM [SEED [PART]]");
        for (name, _) in PARTS {
            println!("  part: {name}");
        }
        process::exit(2);
    };
    let start = Instant::now();
    println!("seed {}", wanted.seed);
    if let Err(difference) = try_all(&wanted) {
        println!("FAILED {difference}");
        process::exit(1);
    }
    println!("{:.1} s, no difference", start.elapsed().as_secs_f64());
}

fn wanted(words: &[&str]) -> Option<Wanted> {
    let (program, seed, part) = match words {
        [program] => (program, seed_of_clock(), None),
        [program, seed] => (program, seed.parse().ok()?, None),
        [program, seed, part] => (program, seed.parse().ok()?, Some(*part)),
        _ => return None,
    };
    let parts = PARTS.into_iter();
    let parts: Vec<Part> = parts
        .filter(|(name, _)| part.is_none_or(|part| part == *name))
        .collect();
    (!parts.is_empty()).then(|| Wanted {
        program: PathBuf::from(program),
        seed,
        parts,
    })
}

fn seed_of_clock() -> u64 {
    match SystemTime::now().duration_since(UNIX_EPOCH) {
        Ok(since) => since.as_nanos() as u64,
        Err(_) => 1,
    }
}

/// A folder that goes when it is dropped, however the trial ends.
struct Temporary {
    path: PathBuf,
}

impl Drop for Temporary {
    fn drop(&mut self) {
        if let Err(error) = fs::remove_dir_all(&self.path) {
            println!("{} cannot be removed: {error}", self.path.display());
        }
    }
}

fn try_all(wanted: &Wanted) -> Tried<()> {
    let path = env::temp_dir().join(format!("cartlozenge-trial-{}", process::id()));
    fs::create_dir(&path).map_err(|error| format!("{}: {error}", path.display()))?;
    let temporary = Temporary { path };
    let program = fs::canonicalize(&wanted.program)
        .map_err(|error| format!("{}: {error}", wanted.program.display()))?;
    // No run may leave anything in the folder that the trial was started in.
    env::set_current_dir(&temporary.path)
        .map_err(|error| format!("{}: {error}", temporary.path.display()))?;
    let trial = Trial {
        program: Program { path: program },
        folder: temporary.path.clone(),
        seed: wanted.seed,
    };
    for (name, run) in &wanted.parts {
        let begin = Instant::now();
        let done = run(&trial).map_err(|reason| {
            let program = wanted.program.display();
            let seed = wanted.seed;
            format!("in part {name}: {reason}\nrepeat it: trial {program} {seed} \"{name}\"")
        })?;
        let seconds = begin.elapsed().as_secs_f64();
        let (line, more) = done.split_once('\n').unwrap_or((&done, ""));
        println!("{name}: {line}, {seconds:.1} s");
        if !more.is_empty() {
            println!("{more}");
        }
    }
    Ok(())
}
