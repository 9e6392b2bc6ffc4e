//! One word under a default base: its kind, its value, the refusals 12 and 13.
//!
//! A base prefix, a hexadecimal digit and a keyed letter may be small. A numeral holds the
//! capital letter of its base, and the content of a keyed one is put into capitals.

use crate::characters::{self, class_of_word};
use crate::limits;
use crate::tokens::{Kind, Token};

/// The refusal of a unit that cannot be read.
pub const UNREADABLE: u8 = 12;
/// The refusal of a numeral that is too big or has too many fraction digits.
pub const TOO_BIG: u8 = 13;

/// The bit that a small letter has and its capital has not.
const SMALL: u8 = b'a' - b'A';

/// A base: its letter, the class of its digits, its radix (none for K).
#[derive(Clone, Copy)]
pub struct Base {
    /// D, H, O, B or K.
    pub letter: u8,
    /// The class that all its digits have.
    pub digits: u16,
    /// How many digits there are.
    pub radix: u32,
}

impl Base {
    /// Base D.
    pub const DECIMAL: Base = Base::new(b'D', characters::DECIMAL, 10);
    const HEXADECIMAL: Base = Base::new(b'H', characters::HEXADECIMAL, 16);
    const OCTAL: Base = Base::new(b'O', characters::OCTAL, 8);
    const BINARY: Base = Base::new(b'B', characters::BINARY, 2);
    const KEYED: Base = Base::new(b'K', characters::KEYED, 0);

    const fn new(letter: u8, digits: u16, radix: u32) -> Base {
        Base {
            letter,
            digits,
            radix,
        }
    }

    /// The base of a letter, which is a capital.
    #[inline]
    pub fn of(letter: u8) -> Option<Base> {
        match letter {
            b'D' => Some(Base::DECIMAL),
            b'H' => Some(Base::HEXADECIMAL),
            b'O' => Some(Base::OCTAL),
            b'B' => Some(Base::BINARY),
            b'K' => Some(Base::KEYED),
            _ => None,
        }
    }
}

/// Reads one unit under its place's base: a word's token becomes that of the unit. A string is
/// a unit already. Refuses with 12 or 13.
#[inline]
pub fn read_unit(token: &mut Token, contents: &mut [u8], base: Base) -> Result<(), u8> {
    if token.kind == Kind::String {
        return Ok(());
    }
    let class = token.class;
    if class & characters::UNMARKED == 0 {
        return read_prefixed(token, contents, base);
    }
    if class & base.digits != 0 {
        read_digits(token, contents, base)
    } else if base.letter == b'D' && class & characters::STOPPED != 0 {
        read_stopped(token, contents)
    } else if class & characters::IDENTIFIER == characters::IDENTIFIER {
        token.kind = Kind::Identifier;
        Ok(())
    } else if class & characters::SYMBOLIC != 0 && class & characters::DECIMAL == 0 {
        token.kind = Kind::SymbolicName;
        Ok(())
    } else {
        Err(UNREADABLE)
    }
}

/// Reads a word that has an apostrophe.
fn read_prefixed(token: &mut Token, contents: &mut [u8], base: Base) -> Result<(), u8> {
    let content = token.content(contents);
    let [letter, b'\'', digits @ ..] = content else {
        return Err(UNREADABLE);
    };
    let own = Base::of(letter.to_ascii_uppercase()).ok_or(UNREADABLE)?;
    if digits.is_empty() || base.letter == b'K' && own.letter != b'K' {
        return Err(UNREADABLE);
    }
    let class = class_of_word(digits);
    token.start += 2;
    token.length -= 2;
    if class & own.digits != 0 {
        read_digits(token, contents, own)
    } else if own.letter == b'D' && class & characters::STOPPED != 0 {
        read_stopped(token, contents)
    } else {
        Err(UNREADABLE)
    }
}

/// Reads a content of nothing but digits of this base; keyed ones become capitals.
#[inline]
fn read_digits(token: &mut Token, contents: &mut [u8], base: Base) -> Result<(), u8> {
    if base.letter == b'K' {
        token.kind = Kind::Keyed;
        token.content_mut(contents).make_ascii_uppercase();
        return Ok(());
    }
    let value = value_of(token.content(contents), base.radix, 0)?;
    become_numeral(token, base.letter, 0, value);
    Ok(())
}

/// Reads a content of decimal digits and at least one full stop.
fn read_stopped(token: &mut Token, contents: &[u8]) -> Result<(), u8> {
    let content = token.content(contents);
    let stop = content.iter().position(|&byte| byte == b'.');
    let (whole, fraction) = content.split_at(stop.ok_or(UNREADABLE)?);
    let fraction = &fraction[1..];
    if whole.is_empty() || fraction.is_empty() || fraction.contains(&b'.') {
        return Err(UNREADABLE);
    }
    if fraction.len() > limits::FRACTION {
        return Err(TOO_BIG);
    }
    let value = value_of(fraction, 10, value_of(whole, 10, 0)?)?;
    let digits = fraction.len() as u8;
    become_numeral(token, b'D', digits, value);
    Ok(())
}

fn become_numeral(token: &mut Token, letter: u8, fraction: u8, value: u32) {
    token.kind = Kind::Numeral;
    token.length = fraction;
    token.class = letter as u16;
    token.value = value;
}

/// The value of these digits behind digits of value `before`.
#[inline]
fn value_of(digits: &[u8], radix: u32, before: u32) -> Result<u32, u8> {
    let mut value = before as u64;
    for &digit in digits {
        value = value * radix as u64 + digit_value(digit) as u64;
        if value > u32::MAX as u64 {
            return Err(TOO_BIG);
        }
    }
    Ok(value as u32)
}

/// The value of one digit 0 to 9, A to F or a to f.
#[inline(always)]
fn digit_value(digit: u8) -> u8 {
    if digit <= b'9' {
        digit - b'0'
    } else {
        (digit | SMALL) - b'a' + 10
    }
}
