//! Instructions of a call, counted by callgrind: this program runs itself under valgrind and reads what was counted for a function.

use crate::index;
use crate::inputs::{batches, ACCOUNTS};
use crate::subjects::{judge_index, judge_ours, judge_second, SUBJECTS};
use std::env;
use std::process::Command;

/// The word on the command line that makes this program run one call for every account, to be counted.
pub const COUNTED: &str = "counted";

const JUDGED: &str = "judged certificate";

/// Runs one of the measured calls, ours and the others'.
pub fn counted(name: &str, f: u64) {
    for subject in &SUBJECTS {
        if subject.name == name {
            let batch = (subject.batch)(f);
            assert_eq!((subject.ours)(&mut batch.state.clone(), &batch), 0);
            assert_eq!((subject.second)(&mut batch.state.clone(), &batch), 0);
        }
    }
    if name == JUDGED {
        let batch = batches(f).certificate;
        assert_eq!(judge_ours(f, &batch.messages, &batch.verdicts), 0);
        assert_eq!(judge_second(f, &batch.messages, &batch.verdicts), 0);
        for judge in [index::judge, index::judge_in_one_pass] {
            assert_eq!(judge_index(judge, f, &batch.messages, &batch.verdicts), 0);
        }
    }
}

/// What callgrind counted: a line for each function, its callees included.
fn profile(name: &str, f: u64) -> Result<String, String> {
    let program = env::current_exe().map_err(|fault| fault.to_string())?;
    let file = env::temp_dir().join(format!("cartlozenge-callgrind-{}", std::process::id()));
    let run = Command::new("valgrind")
        .arg("--tool=callgrind")
        .arg(format!("--callgrind-out-file={}", file.display()))
        .arg(program)
        .args([COUNTED, name, &f.to_string()])
        .output()
        .map_err(|fault| format!("valgrind: {fault}"))?;
    if !run.status.success() {
        let _ = std::fs::remove_file(&file);
        return Err(String::from_utf8_lossy(&run.stderr).into_owned());
    }
    let read = Command::new("callgrind_annotate")
        .args(["--inclusive=yes", "--threshold=100"])
        .arg(&file)
        .output()
        .map_err(|fault| format!("callgrind_annotate: {fault}"))?;
    let _ = std::fs::remove_file(&file);
    if !read.status.success() {
        return Err(String::from_utf8_lossy(&read.stderr).into_owned());
    }
    Ok(String::from_utf8_lossy(&read.stdout).into_owned())
}

/// Instructions of each call of a function.
fn instructions(profile: &str, symbol: &str) -> Result<f64, String> {
    let (inside, last) = (format!(":{symbol} ["), format!(":{symbol}"));
    for line in profile.lines() {
        if line.contains(&inside) || line.ends_with(&last) {
            let count = line.split_whitespace().next().unwrap_or("");
            let digits: String = count.chars().filter(char::is_ascii_digit).collect();
            let total: f64 = digits.parse().map_err(|_| line.to_string())?;
            return Ok(total / ACCOUNTS as f64);
        }
    }
    Err(format!("callgrind counted nothing for {symbol}"))
}

/// A row of the table, and the most that the ratio may be.
struct Row {
    name: &'static str,
    f: u64,
    against: &'static str,
    ours: f64,
    other: f64,
    bound: f64,
}

impl Row {
    fn ratio(&self) -> f64 {
        self.ours / self.other
    }

    fn print(&self) {
        println!(
            "{:<20} {:>2} {:<16} {:>8.1} {:>8.1} {:>8.3} {:>8.2}",
            self.name,
            self.f,
            self.against,
            self.ours,
            self.other,
            self.ratio(),
            self.bound
        );
    }
}

fn rows(f: u64) -> Result<Vec<Row>, String> {
    let mut rows = Vec::new();
    for subject in &SUBJECTS {
        let profile = profile(subject.name, f)?;
        rows.push(Row {
            name: subject.name,
            f,
            against: "second program",
            ours: instructions(&profile, subject.our_symbol)?,
            other: instructions(&profile, subject.second_symbol)?,
            bound: 1.2,
        });
    }
    let profile = profile(JUDGED, f)?;
    let ours = instructions(&profile, "cartlozenge_judge_certificate")?;
    // A committee of one machine has one vote: what is left is the message's layout, where an index is ahead of a reader.
    let plain = if f == 0 { 1.1 } else { 1.0 };
    for (against, symbol, bound) in [
        ("second program", "second::messages::judge_certificate", 1.2),
        ("index-style", "bench::index::judge", plain),
        ("index, one pass", "bench::index::judge_in_one_pass", 1.25),
    ] {
        rows.push(Row {
            name: JUDGED,
            f,
            against,
            ours,
            other: instructions(&profile, symbol)?,
            bound,
        });
    }
    Ok(rows)
}

/// Prints the table. Says whether every ratio is within its bound.
pub fn table() -> Result<bool, String> {
    println!("instructions of a call, counted by callgrind; the ratio may be at most 'bound'");
    println!(
        "{:<20} {:>2} {:<16} {:>8} {:>8} {:>8} {:>8}",
        "call", "f", "against", "ours", "other", "ratio", "bound"
    );
    let mut within = true;
    for f in 0..=5 {
        for row in rows(f)? {
            row.print();
            within &= row.ratio() <= row.bound;
        }
    }
    Ok(within)
}
