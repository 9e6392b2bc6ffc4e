//! Keepers, and the keys that are typed to them.
//!
//! A keeper is here what the C interface has, byte for byte: its bytes, then its count, low byte
//! first.

use crate::commands;
use crate::random::Random;
use crate::TEXT;

/// The key that removes the last byte held.
pub const BS: u8 = 8;

/// The key that empties the line.
pub const CAN: u8 = 24;

/// What may be typed by mistake: no `;`, since a line that it makes ready is lost.
const MISTAKES: &[u8] = b"AB\"/*";

/// The bytes that decide whether a line is ready, and a letter.
const DECIDING: &[u8] = b"A;;\"/*";

/// Keys of the same, and those that remove.
const KEYS: &[u8] = b"AA;;\"\"//**\x08\x08\x18";

/// So many bytes are few, in a line and up to its limit.
const FEW: usize = 20;

/// Counts that pass 1,024.
const PAST: &[u32] = &[1025, 1026, 2048, 1 << 16, 1 << 31, u32::MAX];

/// A keeper of these bytes and this count.
pub fn keeper(bytes: &[u8; TEXT], count: u32) -> Vec<u8> {
    [&bytes[..], &count.to_le_bytes()].concat()
}

/// The bytes and the count of a keeper.
pub fn parts(keeper: &[u8]) -> ([u8; TEXT], u32) {
    let mut bytes = [0; TEXT];
    let mut count = [0; size_of::<u32>()];
    bytes.copy_from_slice(&keeper[..TEXT]);
    count.copy_from_slice(&keeper[TEXT..]);
    (bytes, u32::from_le_bytes(count))
}

/// A keeper that holds nothing.
pub fn empty() -> Vec<u8> {
    keeper(&[0; TEXT], 0)
}

/// The line that a keeper holds, whose count does not pass its bytes.
pub fn line(keeper: &[u8]) -> &[u8] {
    let (_, count) = parts(keeper);
    &keeper[..count as usize]
}

/// A keeper, and keys to be typed to it.
pub struct Typed {
    /// The keeper.
    pub keeper: Vec<u8>,
    /// The keys.
    pub keys: Vec<u8>,
}

/// Makes a run of keys: from an empty line, or a few keys to a keeper that no keys made.
pub fn typed(random: &mut Random) -> Typed {
    if random.one_in(2) {
        let bytes = bytes(random);
        let keys = run(random);
        let keeper = keeper(&bytes, 0);
        Typed { keeper, keys }
    } else {
        let keeper = filled(random);
        let length = random.between(1, 4);
        let keys = some_keys(random, length);
        Typed { keeper, keys }
    }
}

/// A run of keys from an empty line.
fn run(random: &mut Random) -> Vec<u8> {
    match random.below(30) {
        0 => to_the_limit(random),
        1..=12 => corrected(random),
        13..=20 => {
            let length = random.between(1, 40);
            some_keys(random, length)
        }
        _ => {
            let length = random.between(1, 60);
            (0..length).map(|_| random.next() as u8).collect()
        }
    }
}

/// Keys that decide and remove, and now and then any other.
fn some_keys(random: &mut Random, length: usize) -> Vec<u8> {
    let any = random.next() as u8;
    let one = |_| match random.below(12) {
        0 => any,
        _ => random.pick(KEYS),
    };
    (0..length).map(one).collect()
}

/// A command, typed with mistakes that are removed, now and then after a beginning that is given
/// up.
fn corrected(random: &mut Random) -> Vec<u8> {
    let mut text = commands::command(random).text;
    text.truncate(TEXT + FEW);
    let mistakes = random.pick(&[4, 10, 50]);
    let mut keys = Vec::new();
    if random.one_in(4) {
        keys.extend_from_slice(&text[..random.below(text.len() + 1)]);
        keys.push(CAN);
    }
    for byte in text {
        if random.one_in(mistakes) {
            let length = random.between(1, 3);
            keys.extend((0..length).map(|_| random.pick(MISTAKES)));
            keys.resize(keys.len() + length, BS);
        }
        keys.push(byte);
    }
    keys
}

/// So many keys that the line is full, and more at the limit.
fn to_the_limit(random: &mut Random) -> Vec<u8> {
    let (opening, inside) = random.pick(&[
        (&b""[..], &b"AB:/ "[..]),
        (b"A:\"", b"A;/*"),
        (b"A/*", b"A;\"/"),
    ]);
    let mut keys = opening.to_vec();
    let length = TEXT - random.below(FEW);
    keys.resize_with(length, || random.pick(inside));
    let more = random.between(10, 60);
    keys.extend(some_keys(random, more));
    keys
}

/// A keeper that no keys made.
fn filled(random: &mut Random) -> Vec<u8> {
    let mut bytes = bytes(random);
    let count = match random.below(8) {
        0 => random.pick(PAST),
        1 => TEXT as u32,
        2 => random.between(TEXT - FEW, TEXT) as u32,
        3 => random.below(TEXT) as u32,
        _ => random.below(FEW) as u32,
    };
    for behind in 1..=2 {
        if random.one_in(2) {
            if let Some(last) = bytes.get_mut((count as usize).wrapping_sub(behind)) {
                *last = b';';
            }
        }
    }
    keeper(&bytes, count)
}

/// The bytes of a keeper: any, a command and what is behind it, letters alone, or the bytes that
/// decide.
fn bytes(random: &mut Random) -> [u8; TEXT] {
    let mut bytes = [0; TEXT];
    match random.below(6) {
        0 => bytes.fill_with(|| random.next() as u8),
        1 => {
            let text = commands::command(random).text;
            let text = &text[..text.len().min(TEXT)];
            bytes[..text.len()].copy_from_slice(text);
        }
        2 | 3 => bytes.fill(b'A'),
        _ => bytes.fill_with(|| random.pick(DECIDING)),
    }
    bytes
}

#[cfg(test)]
mod tests {
    use super::{corrected, empty, keeper, line, parts, to_the_limit};
    use crate::commands::command;
    use crate::compare::Call;
    use crate::random::Random;
    use crate::TEXT;

    #[test]
    fn a_keeper_and_its_parts() {
        let mut bytes = [b'x'; TEXT];
        bytes[..2].copy_from_slice(b"A;");
        let one = keeper(&bytes, 2);
        assert_eq!(one.len(), 1028);
        assert_eq!(one[TEXT..], [2, 0, 0, 0]);
        assert_eq!(parts(&one), (bytes, 2));
        assert_eq!(line(&one), b"A;");
        assert_eq!(line(&empty()), b"");
    }

    /// What the model holds behind these keys, and whether it refused one of them.
    fn held(keys: &[u8]) -> (Vec<u8>, bool) {
        let mut keeper = empty();
        let mut refused = false;
        for &key in keys {
            refused |= Call::Key(&[], key).model(&mut keeper).is_err();
        }
        (line(&keeper).to_vec(), refused)
    }

    #[test]
    fn mistakes_are_removed() {
        for seed in 0..100 {
            let keys = corrected(&mut Random::new(seed));
            let text = command(&mut Random::new(seed)).text;
            if held(&text).0 == text {
                assert_eq!(held(&keys).0, text);
            }
        }
    }

    #[test]
    fn the_limit_is_reached() {
        let mut random = Random::new(1);
        let refused = (0..100).filter(|_| held(&to_the_limit(&mut random)).1);
        assert!(refused.count() > 20);
    }
}
