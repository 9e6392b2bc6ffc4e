//! The printer: from a record to the command's text.

use crate::fields::{self, Fields, Numeral};
use crate::records::judge;
use crate::{limits, Refusal};

/// Prints a record. On success the command stands at the buffer's start; gives its length.
pub fn print(record: &[u8], out: &mut [u8]) -> Result<usize, Refusal> {
    judge(record, |_| ()).ok_or(Refusal::at(18, 0))?;
    let mut text = Text {
        bytes: [0; limits::TEXT],
        length: 0,
    };
    text.command(record);
    let length = text.length;
    let printed = text.bytes.get(..length);
    let printed = printed.ok_or(Refusal::at(2, limits::TEXT))?;
    let out = out.get_mut(..length).ok_or(Refusal::at(17, length))?;
    out.copy_from_slice(printed);
    Ok(length)
}

/// The text as far as it goes; its length counts also what has no room.
struct Text {
    bytes: [u8; limits::TEXT],
    length: usize,
}

impl Text {
    /// Room for the next bytes.
    #[inline(always)]
    fn room(&mut self, length: usize) -> Option<&mut [u8]> {
        let start = self.length;
        self.length += length;
        self.bytes.get_mut(start..start + length)
    }

    #[inline(always)]
    fn byte(&mut self, byte: u8) {
        if let Some(slot) = self.bytes.get_mut(self.length) {
            *slot = byte;
        }
        self.length += 1;
    }

    #[inline]
    fn bytes(&mut self, bytes: &[u8]) {
        if let Some(room) = self.room(bytes.len()) {
            room.copy_from_slice(bytes);
        }
    }

    /// Prints a record that is well formed.
    fn command(&mut self, record: &[u8]) {
        let mut walk = Fields {
            rest: &record[fields::COUNT_SIZE..],
        };
        self.pieces(fields::CODE_PIECE, &mut walk);
        while walk.tag() == fields::BLOCK {
            walk.take();
            let mut separator = b':';
            while walk.tag() == fields::PLACE {
                self.byte(separator);
                self.place(&mut walk);
                separator = b',';
            }
        }
        self.byte(b';');
    }

    /// Prints pieces joined by `-`.
    fn pieces(&mut self, tag: u8, walk: &mut Fields) {
        loop {
            self.bytes(walk.take().unwrap_or(&[]));
            if walk.tag() != tag {
                return;
            }
            self.byte(b'-');
        }
    }

    fn place(&mut self, walk: &mut Fields) {
        let base = match walk.take() {
            Some([letter]) => *letter,
            _ => b'D',
        };
        if walk.tag() == fields::NAME_PIECE {
            self.pieces(fields::NAME_PIECE, walk);
            self.byte(b'=');
        }
        self.value(walk, base);
    }

    /// Prints the elements of a value, in the short form where the leading units repeat.
    fn value(&mut self, walk: &mut Fields, base: u8) {
        let mut before = None;
        while matches!(walk.tag(), fields::SINGLE | fields::RANGE) {
            let range = fields::range(walk.take().unwrap_or(&[]));
            let argument = Argument::take(walk);
            let short = !argument.leading.is_empty() && before == Some(argument.leading);
            match (short, before) {
                (true, _) => self.bytes(b"&-"),
                (false, Some(_)) => self.byte(b'&'),
                (false, None) => (),
            }
            if !short {
                self.leading(argument.leading, base);
            }
            before = Some(argument.leading);
            self.unit(argument.last_tag, argument.last, base);
            if let Some((upper, increment)) = range {
                self.range(&argument, upper, increment, base);
            }
        }
    }

    /// Prints the leading units of an argument, each with its `-`.
    fn leading(&mut self, leading: &[u8], base: u8) {
        let mut walk = Fields { rest: leading };
        while fields::is_unit(walk.tag()) {
            let tag = walk.tag();
            self.unit(tag, walk.take().unwrap_or(&[]), base);
            self.byte(b'-');
        }
    }

    /// Prints upper end and increment in the lower end's base.
    fn range(&mut self, argument: &Argument, upper: u32, increment: u32, base: u8) {
        let letter = argument.last.first().map_or(b'D', |letter| *letter);
        let plain = |value| Numeral {
            letter,
            fraction: 0,
            value,
        };
        self.bytes(b"&&");
        if !argument.leading.is_empty() {
            self.byte(b'-');
        }
        self.numeral(&plain(upper), base);
        if increment != 1 {
            self.bytes(b"++");
            self.numeral(&plain(increment), base);
        }
    }

    fn unit(&mut self, tag: u8, content: &[u8], base: u8) {
        match tag {
            fields::NUMERAL => {
                if let Some(numeral) = fields::numeral(content) {
                    self.numeral(&numeral, base);
                }
            }
            fields::STRING => self.string(content),
            fields::KEYED => {
                self.prefix(b'K', base);
                self.bytes(content);
            }
            _ => self.bytes(content),
        }
    }

    /// Prints a base prefix where the base is not the place's.
    #[inline(always)]
    fn prefix(&mut self, letter: u8, base: u8) {
        if letter != base {
            self.bytes(&[letter, b'\'']);
        }
    }

    fn string(&mut self, content: &[u8]) {
        self.byte(b'"');
        for &byte in content {
            if byte == b'"' {
                self.byte(b'"');
            }
            self.byte(byte);
        }
        self.byte(b'"');
    }

    fn numeral(&mut self, numeral: &Numeral, base: u8) {
        self.prefix(numeral.letter, base);
        match numeral.letter {
            b'D' if numeral.fraction > 0 => self.stopped(numeral),
            b'D' => self.digits::<10>(numeral.value),
            b'H' => self.digits::<16>(numeral.value),
            b'O' => self.digits::<8>(numeral.value),
            _ => self.digits::<2>(numeral.value),
        }
    }

    /// Prints a value without leading zeros.
    #[inline]
    fn digits<const RADIX: u32>(&mut self, value: u32) {
        if let Some(room) = self.room(digit_count::<RADIX>(value)) {
            write_digits::<RADIX>(value, room);
        }
    }

    /// Prints a decimal numeral with a full stop, a digit at least on each side.
    fn stopped(&mut self, numeral: &Numeral) {
        let fraction = numeral.fraction as usize;
        let digits = digit_count::<10>(numeral.value).max(fraction + 1);
        let Some(room) = self.room(digits + 1) else {
            return;
        };
        write_digits::<10>(numeral.value, &mut room[..digits]);
        room.copy_within(digits - fraction..digits, digits - fraction + 1);
        room[digits - fraction] = b'.';
    }
}

/// How many digits a value has in this base.
#[inline]
fn digit_count<const RADIX: u32>(value: u32) -> usize {
    let mut count = 1;
    let mut left = value / RADIX;
    while left > 0 {
        left /= RADIX;
        count += 1;
    }
    count
}

/// Fills the room with the last digits of the value.
#[inline]
fn write_digits<const RADIX: u32>(value: u32, room: &mut [u8]) {
    let mut left = value;
    for slot in room.iter_mut().rev() {
        *slot = b"0123456789ABCDEF"[(left % RADIX) as usize];
        left /= RADIX;
    }
}

/// The fields of an argument's units.
struct Argument<'r> {
    /// All fields but the last.
    leading: &'r [u8],
    last_tag: u8,
    /// The last field's content.
    last: &'r [u8],
}

impl<'r> Argument<'r> {
    /// The units that the walk stands before; it goes past them.
    fn take(walk: &mut Fields<'r>) -> Argument<'r> {
        let units = walk.rest;
        loop {
            let leading = &units[..units.len() - walk.rest.len()];
            let last_tag = walk.tag();
            let last = walk.take().unwrap_or(&[]);
            if !fields::is_unit(walk.tag()) {
                return Argument {
                    leading,
                    last_tag,
                    last,
                };
            }
        }
    }
}
