//! Bytes lent to both programs, each copy between guards.

use chance::Chance;
use std::hint::black_box;

const GUARD: usize = 16;

pub struct Pair {
    ours: Vec<u8>,
    second: Vec<u8>,
    /// What both were lent, guards included.
    lent: Vec<u8>,
    start: usize,
    end: usize,
}

impl Pair {
    pub fn empty() -> Pair {
        Pair {
            ours: Vec::new(),
            second: Vec::new(),
            lent: Vec::new(),
            start: 0,
            end: 0,
        }
    }

    pub fn of(bytes: &[u8], chance: &mut Chance) -> Pair {
        let mut pair = Pair::empty();
        pair.lend(bytes, chance);
        pair
    }

    /// Lends other bytes, between new guards. The address is odd as often as even: what is lent need not be aligned.
    pub fn lend(&mut self, bytes: &[u8], chance: &mut Chance) {
        self.start = GUARD + chance.below(8);
        self.end = self.start + bytes.len();
        self.lent.clear();
        put_guard(&mut self.lent, self.start, chance);
        self.lent.extend_from_slice(bytes);
        put_guard(&mut self.lent, GUARD, chance);
        self.ours.clear();
        self.ours.extend_from_slice(&self.lent);
        self.second.clear();
        self.second.extend_from_slice(&self.lent);
    }

    /// Puts back bytes of the same length; a test goes on from the state it began with.
    pub fn restore(&mut self, bytes: &[u8]) {
        if self.bytes() != bytes {
            let place = self.start..self.end;
            self.lent[place.clone()].copy_from_slice(bytes);
            self.ours[place.clone()].copy_from_slice(bytes);
            self.second[place].copy_from_slice(bytes);
        }
    }

    pub fn put(&mut self, place: usize, value: u8) {
        self.lent[self.start + place] = value;
        self.ours[self.start + place] = value;
        self.second[self.start + place] = value;
    }

    /// What both hold.
    pub fn bytes(&self) -> &[u8] {
        &self.lent[self.start..self.end]
    }

    pub fn ours(&self) -> &[u8] {
        &self.ours[self.start..self.end]
    }

    pub fn ours_mut(&mut self) -> &mut [u8] {
        &mut self.ours[self.start..self.end]
    }

    pub fn second(&self) -> &[u8] {
        &self.second[self.start..self.end]
    }

    pub fn second_mut(&mut self) -> &mut [u8] {
        &mut self.second[self.start..self.end]
    }

    /// What is wrong with the bytes after a call.
    pub fn fault(&self, may_change: bool) -> Option<&'static str> {
        // Ours is foreign code: it may have written where the compiler was told that nobody does.
        let ours = black_box(&self.ours);
        let second = black_box(&self.second);
        if ours[..self.start] != self.lent[..self.start] {
            return Some("ours wrote before the lent bytes");
        }
        if ours[self.end..] != self.lent[self.end..] {
            return Some("ours wrote behind the lent bytes");
        }
        if ours != second {
            return Some("the two left different bytes");
        }
        if !may_change && *ours != self.lent {
            return Some("bytes changed that must stay");
        }
        None
    }

    /// From now on what was left by the call is what both hold.
    pub fn take_over(&mut self) {
        if self.lent != self.ours {
            self.lent.copy_from_slice(&self.ours);
        }
    }

    /// Every place where the three copies are not the same, from the first lent byte on: as lent, ours, second's.
    pub fn differences(&self) -> Vec<(isize, [u8; 3])> {
        let mut found = Vec::new();
        for place in 0..self.lent.len() {
            let bytes = [self.lent[place], self.ours[place], self.second[place]];
            if bytes[0] != bytes[1] || bytes[0] != bytes[2] {
                found.push((place as isize - self.start as isize, bytes));
            }
        }
        found
    }
}

fn put_guard(bytes: &mut Vec<u8>, length: usize, chance: &mut Chance) {
    let end = bytes.len() + length;
    while bytes.len() < end {
        bytes.extend_from_slice(&chance.number().to_le_bytes());
    }
    bytes.truncate(end);
}
