//! The judged certificate once more, in plain Rust with an index for every byte: as one would write it down, and with the one pass over votes and
//! verdicts that ours has. Each is one function, though its first lines then stand twice: taken apart it is some instructions dearer, and what we are held
//! against should not be.

/// What the exported judge puts into its array: votes counted, sender, kind, recipient, amount, sequence.
pub type Values = [u64; 6];

fn two(bytes: &[u8], at: usize) -> usize {
    (bytes[at] as usize) << 8 | bytes[at + 1] as usize
}

/// 0, or the number of the refusal.
#[inline(never)]
pub fn judge(f: u64, message: &[u8], verdicts: &[u8], values: &mut Values) -> u64 {
    if f > 5 {
        return 2;
    }
    let end = message.len();
    if end > 1148 || end < 3 || message[0] != 0x20 {
        return 1;
    }
    let size = two(message, 1);
    if size < 25 || size > 57 || end - 3 < size {
        return 1;
    }
    let mut at = size + 3;
    while at < end {
        if end - at < 68 || message[at] != 0x21 || two(message, at + 1) != 65 {
            return 1;
        }
        at += 68;
    }
    let body = &message[3..size + 3];
    if body[0] != 1 || two(body, 1) != 1 || body[4] != 2 || two(body, 5) != 3 {
        return 1;
    }
    if body[10] != 3 || two(body, 11) != 4 || body[17] != 4 || two(body, 18) != 2 {
        return 1;
    }
    if body[22] != 5 || two(body, 23) != size - 25 {
        return 1;
    }
    let sender = body[3] as u64;
    let kind = body[7] as u64;
    let recipient = two(body, 8) as u64;
    let amount = (two(body, 13) << 16 | two(body, 15)) as u64;
    let sequence = two(body, 20) as u64;
    if sender > 63 || kind > 1 || kind == 0 && recipient > 63 {
        return 2;
    }
    if amount < 1 || amount > 1_000_000_000 || sequence > 4095 {
        return 2;
    }
    let votes = (end - 3 - size) / 68;
    if verdicts.len() != votes {
        return 3;
    }
    let (mut known, mut rising, mut least, mut mask) = (true, true, 0, 0u16);
    at = size + 6;
    for _ in 0..votes {
        let machine = message[at] as u64;
        if machine > 3 * f {
            known = false;
        } else {
            mask |= 1 << machine;
        }
        if machine < least {
            rising = false;
        }
        least = machine + 1;
        at += 68;
    }
    if !known {
        return 5;
    }
    if !rising {
        return 6;
    }
    for i in 0..votes {
        if verdicts[i] != 1 {
            return 4;
        }
    }
    let machines = mask.count_ones() as u64;
    if machines < 2 * f + 1 {
        return 7;
    }
    *values = [machines, sender, kind, recipient, amount, sequence];
    0
}

/// The same; votes and verdicts are passed once, and only where one of them is not fine is it asked which refusal comes first.
#[inline(never)]
pub fn judge_in_one_pass(f: u64, message: &[u8], verdicts: &[u8], values: &mut Values) -> u64 {
    if f > 5 {
        return 2;
    }
    let end = message.len();
    if end > 1148 || end < 3 || message[0] != 0x20 {
        return 1;
    }
    let size = two(message, 1);
    if size < 25 || size > 57 || end - 3 < size {
        return 1;
    }
    let mut at = size + 3;
    while at < end {
        if end - at < 68 || message[at] != 0x21 || two(message, at + 1) != 65 {
            return 1;
        }
        at += 68;
    }
    let body = &message[3..size + 3];
    if body[0] != 1 || two(body, 1) != 1 || body[4] != 2 || two(body, 5) != 3 {
        return 1;
    }
    if body[10] != 3 || two(body, 11) != 4 || body[17] != 4 || two(body, 18) != 2 {
        return 1;
    }
    if body[22] != 5 || two(body, 23) != size - 25 {
        return 1;
    }
    let sender = body[3] as u64;
    let kind = body[7] as u64;
    let recipient = two(body, 8) as u64;
    let amount = (two(body, 13) << 16 | two(body, 15)) as u64;
    let sequence = two(body, 20) as u64;
    if sender > 63 || kind > 1 || kind == 0 && recipient > 63 {
        return 2;
    }
    if amount < 1 || amount > 1_000_000_000 || sequence > 4095 {
        return 2;
    }
    if verdicts.len() != (end - 3 - size) / 68 {
        return 3;
    }
    let (mut least, mut mask) = (0, 0u16);
    at = size + 6;
    for verdict in verdicts {
        let machine = message[at] as u64;
        if machine > 3 * f || machine < least || *verdict != 1 {
            return fault(f, message, size + 6, verdicts.len());
        }
        mask |= 1 << machine;
        least = machine + 1;
        at += 68;
    }
    let machines = mask.count_ones() as u64;
    if machines < 2 * f + 1 {
        return 7;
    }
    *values = [machines, sender, kind, recipient, amount, sequence];
    0
}

/// Over all votes 5, then 6; what is left is a bad verdict.
#[cold]
fn fault(f: u64, message: &[u8], first: usize, votes: usize) -> u64 {
    let mut rising = true;
    let mut least = 0;
    for vote in 0..votes {
        let machine = message[first + 68 * vote] as u64;
        if machine > 3 * f {
            return 5;
        }
        rising &= machine >= least;
        least = machine + 1;
    }
    if rising {
        4
    } else {
        6
    }
}
