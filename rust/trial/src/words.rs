//! The words of a line and what they mean, after the specs of the crate `text`.

/// What a word means that is no number: out of every range.
const NO_NUMBER: u64 = u64::MAX;

/// Leading zeros apart, a number has no more places.
const MOST_PLACES: usize = 18;

pub const LONGEST_LINE: usize = 4_096;

pub fn words(line: &[u8]) -> Vec<&[u8]> {
    line.split(|byte| matches!(byte, b' ' | b'\t' | b'\r'))
        .filter(|word| !word.is_empty())
        .collect()
}

pub fn number(word: &[u8]) -> u64 {
    if word.is_empty() || !word.iter().all(u8::is_ascii_digit) {
        return NO_NUMBER;
    }
    let zeros = word.iter().take_while(|digit| **digit == b'0').count();
    let places = &word[zeros..];
    if places.len() > MOST_PLACES {
        return NO_NUMBER;
    }
    let mut number = 0;
    for digit in places {
        number = number * 10 + u64::from(digit - b'0');
    }
    number
}

/// Pairs of hexadecimal digits, or one stroke for no bytes.
pub fn bytes(word: &[u8]) -> Option<Vec<u8>> {
    if word == b"-" {
        return Some(Vec::new());
    }
    let pairs = word.chunks_exact(2);
    if !pairs.remainder().is_empty() {
        return None;
    }
    pairs.map(byte).collect()
}

fn byte(pair: &[u8]) -> Option<u8> {
    let high = char::from(pair[0]).to_digit(16)?;
    let low = char::from(pair[1]).to_digit(16)?;
    Some((high * 16 + low) as u8)
}
