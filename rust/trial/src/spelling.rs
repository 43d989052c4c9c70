//! How a line is spelled: with more blanks than one, digits of either case, leading zeros. And how it is spelled wrongly.

use crate::messages::hexadecimal;
use crate::words::LONGEST_LINE;
use chance::Chance;

pub enum Word {
    Bytes(Vec<u8>),
    Number(u64),
}

/// A line that means these words.
pub fn line(chance: &mut Chance, name: &str, words: &[Word]) -> Vec<u8> {
    let mut line = Vec::new();
    if chance.one_in(20) {
        line.extend(blanks(chance));
    }
    line.extend_from_slice(name.as_bytes());
    for word in words {
        if chance.one_in(10) {
            line.extend(blanks(chance));
        } else {
            line.push(b' ');
        }
        match word {
            Word::Bytes(bytes) => line.extend(digits(chance, bytes).bytes()),
            Word::Number(number) => line.extend(numeral(chance, *number).bytes()),
        }
    }
    if chance.one_in(10) {
        line.extend(blanks(chance));
    }
    line
}

/// One blank or more, of all three kinds.
fn blanks(chance: &mut Chance) -> Vec<u8> {
    let count = 1 + chance.below(4);
    (0..count).map(|_| *chance.pick(b" \t\r")).collect()
}

fn digits(chance: &mut Chance, bytes: &[u8]) -> String {
    if bytes.is_empty() {
        return "-".to_string();
    }
    let text = hexadecimal(bytes);
    match chance.below(8) {
        0 => text.to_uppercase(),
        1 => text.chars().map(|digit| any_case(chance, digit)).collect(),
        _ => text,
    }
}

fn any_case(chance: &mut Chance, digit: char) -> char {
    if chance.one_in(2) {
        return digit.to_ascii_uppercase();
    }
    digit
}

/// Mostly the number; now and then something that only looks like it.
fn numeral(chance: &mut Chance, number: u64) -> String {
    match chance.below(24) {
        0 => format!("0{number}"),
        1 => format!("{number:040}"),
        2 => match chance.below(9) {
            0 => format!("-{number}"),
            1 => format!("+{number}"),
            2 => format!("0x{number:x}"),
            3 => format!("{number}.0"),
            4 => (u128::from(number) + (1 << 64)).to_string(),
            5 => (u128::from(number) + (1 << 32)).to_string(),
            6 => u64::MAX.to_string(),
            7 => format!("1{number:018}"),
            _ => "9".repeat(1 + chance.below(60)),
        },
        _ => number.to_string(),
    }
}

/// A line with something wrong in its text, most often.
pub fn mangled(chance: &mut Chance, line: &[u8]) -> Vec<u8> {
    let mut line = line.to_vec();
    let place = chance.below(line.len());
    match chance.below(12) {
        0 => line[place] = odd_byte(chance),
        1 => line.insert(place, odd_byte(chance)),
        2 => drop(line.remove(place)),
        3 => line.truncate(place),
        4 => line.extend_from_slice(b" 01"),
        5 => cut_last_word(&mut line),
        6 => line.extend_from_within(..),
        7 => line = line.to_ascii_uppercase(),
        8 => line[0] = odd_byte(chance),
        9 => line.push(odd_byte(chance)),
        _ => {
            let length = LONGEST_LINE - 1 + chance.below(4);
            let blank = *chance.pick(b" \t\r");
            if line.len() < length {
                line.resize(length, blank);
            }
        }
    }
    line
}

fn cut_last_word(line: &mut Vec<u8>) {
    while line.last().is_some_and(|byte| *byte != b' ') {
        line.pop();
    }
}

/// Anything but a line feed, which would make two lines of one.
fn odd_byte(chance: &mut Chance) -> u8 {
    let byte = match chance.below(4) {
        0 => *chance.pick(b"\0\x0b\x0c\x1b-gG/:@`\x7f"),
        1 => 128 + chance.byte() / 2,
        _ => chance.byte(),
    };
    if byte == b'\n' {
        return b'\r';
    }
    byte
}

/// A line that is no call, or is one of the other role.
pub fn nonsense(chance: &mut Chance) -> Vec<u8> {
    match chance.below(10) {
        0..=1 => Vec::new(),
        2 => blanks(chance),
        3 => {
            let length = 1 + chance.below(40);
            (0..length).map(|_| odd_byte(chance)).collect()
        }
        4 => {
            let length = *chance.pick(&[4_095, 4_096, 4_097, 9_000]);
            vec![*chance.pick(b"a \0\xff"); length]
        }
        _ => chance.pick(&UNKNOWN).to_vec(),
    }
}

const UNKNOWN: [&[u8]; 16] = [
    b"orders",
    b"orde",
    b"ORDER - -",
    b"Order - -",
    b"order",
    b"certificate -",
    b"funding - - -",
    b"account",
    b"standing",
    b"redeem - - -",
    b"fund 1",
    b"pot 1",
    b"redeemed 1",
    b"order\0 - 01",
    b"\xc3\xa4ccount 1",
    b"-",
];
