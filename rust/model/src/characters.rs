//! The classes of bytes: one constant table.
//!
//! A class is a set of bits, each a statement that holds of the byte. The classes of all
//! characters of a word, joined by *and*, tell what holds of the whole word.

/// A digit of base B.
pub const BINARY: u16 = 1 << 0;
/// A digit of base O.
pub const OCTAL: u16 = 1 << 1;
/// A digit of base D.
pub const DECIMAL: u16 = 1 << 2;
/// A digit of base H; its letters may be small.
pub const HEXADECIMAL: u16 = 1 << 3;
/// A digit of base K; its letters may be small.
pub const KEYED: u16 = 1 << 4;
/// A decimal digit or the full stop.
pub const STOPPED: u16 = 1 << 5;
/// A letter or a digit.
pub const ALPHANUMERIC: u16 = 1 << 6;
/// A letter, a digit, or one of `+ # %`.
pub const SYMBOLIC: u16 = 1 << 7;
/// A character of words.
pub const WORD: u16 = 1 << 8;
/// A character of words other than the plus sign.
pub const RUN: u16 = 1 << 9;
/// A character of words other than the apostrophe.
pub const UNMARKED: u16 = 1 << 10;
/// A format effector.
pub const EFFECTOR: u16 = 1 << 11;
/// A letter; in the class of a word: its first character is one.
pub const INITIAL: u16 = 1 << 12;
/// A digit of base K as a record holds it: its letters are capitals.
pub const KEYED_IN_RECORD: u16 = 1 << 13;

/// What holds of every character of no word at all.
pub const ALL: u16 = !0;
/// What an identifier's class has.
pub const IDENTIFIER: u16 = ALPHANUMERIC | INITIAL;

/// The class of each byte; those above 127 have none.
pub static CLASSES: [u16; 256] = classes();

const fn classes() -> [u16; 256] {
    let mut table = [0; 256];
    let mut byte = 0;
    while byte < 128 {
        table[byte] = class_of(byte as u8);
        byte += 1;
    }
    table
}

const fn class_of(byte: u8) -> u16 {
    let digit = byte.is_ascii_digit();
    let capital = byte.to_ascii_uppercase();
    let word = is_word_character(byte);
    bit(BINARY, matches!(byte, b'0' | b'1'))
        | bit(OCTAL, matches!(byte, b'0'..=b'7'))
        | bit(DECIMAL, digit)
        | bit(HEXADECIMAL, digit || matches!(capital, b'A'..=b'F'))
        | bit(KEYED, is_keyed(capital))
        | bit(STOPPED, digit || byte == b'.')
        | bit(ALPHANUMERIC, byte.is_ascii_alphanumeric())
        | bit(SYMBOLIC, is_symbolic(byte))
        | bit(WORD, word)
        | bit(RUN, word && byte != b'+')
        | bit(UNMARKED, word && byte != b'\'')
        | bit(EFFECTOR, matches!(byte, 9..=13 | 32))
        | bit(INITIAL, byte.is_ascii_alphabetic())
        | bit(KEYED_IN_RECORD, is_keyed(byte))
}

const fn bit(bit: u16, holds: bool) -> u16 {
    if holds {
        bit
    } else {
        0
    }
}

/// A keyed digit, its letter a capital.
const fn is_keyed(byte: u8) -> bool {
    byte.is_ascii_digit() || matches!(byte, b'*' | b'#' | b'A'..=b'D')
}

const fn is_symbolic(byte: u8) -> bool {
    byte.is_ascii_alphanumeric() || matches!(byte, b'+' | b'#' | b'%')
}

const fn is_word_character(byte: u8) -> bool {
    is_symbolic(byte) || matches!(byte, b'.' | b'\'' | b'*')
}

/// Whether the byte may stand in a text.
pub const fn is_permitted(byte: u8) -> bool {
    matches!(byte, 9..=13 | 32..=126)
}

/// The class of one byte.
#[inline(always)]
pub fn class(byte: u8) -> u16 {
    CLASSES[byte as usize]
}

/// What holds of all these characters, and [`INITIAL`] if it holds of the first.
#[inline]
pub fn class_of_word(word: &[u8]) -> u16 {
    let all = word.iter().fold(ALL, |all, &byte| all & class(byte));
    let first = word.first().map_or(0, |&byte| class(byte));
    (all & !INITIAL) | (first & INITIAL)
}
