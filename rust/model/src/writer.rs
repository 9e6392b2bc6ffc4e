//! Writing the tagged fields of a record.

use crate::fields;
use crate::tokens::{Kind, Token};

/// The bytes of tag and length.
pub const HEAD: usize = 3;
/// The bytes of a block's or a place's field.
pub const LETTER_SIZE: usize = HEAD + 1;
/// The bytes of a single element's field.
pub const SINGLE_SIZE: usize = HEAD;
/// The bytes of a range element's field.
pub const RANGE_SIZE: usize = HEAD + 8;
/// The bytes of a numeral's field.
pub const NUMERAL_SIZE: usize = HEAD + 6;

/// Writes fields one behind the other into a buffer that has room for all of them.
pub struct Writer<'o> {
    out: &'o mut [u8],
    at: usize,
}

impl<'o> Writer<'o> {
    /// A writer from the buffer's start.
    pub fn new(out: &'o mut [u8]) -> Writer<'o> {
        Writer { out, at: 0 }
    }

    /// Where the next byte goes, counted from the buffer's start.
    #[inline]
    pub fn offset(&self) -> usize {
        self.at
    }

    #[inline(always)]
    fn bytes<const N: usize>(&mut self, bytes: [u8; N]) {
        self.out[self.at..][..N].copy_from_slice(&bytes);
        self.at += N;
    }

    /// The number of orders.
    #[inline]
    pub fn count(&mut self, orders: u32) {
        self.bytes(fields::count(orders));
    }

    /// The length of an order, before it.
    #[inline]
    pub fn length(&mut self, bytes: usize) {
        self.bytes(fields::length(bytes as u32));
    }

    /// Fields, or parts of them, as they stand elsewhere.
    #[inline]
    pub fn copy(&mut self, fields: &[u8]) {
        self.out[self.at..][..fields.len()].copy_from_slice(fields);
        self.at += fields.len();
    }

    /// A number of four bytes.
    #[inline]
    pub fn number(&mut self, number: u32) {
        self.bytes(number.to_be_bytes());
    }

    /// A field of any content; no content is longer than 80 bytes.
    #[inline]
    pub fn field(&mut self, tag: u8, content: &[u8]) {
        let room = &mut self.out[self.at..][..HEAD + content.len()];
        room[0] = tag;
        room[1] = 0;
        room[2] = content.len() as u8;
        room[HEAD..].copy_from_slice(content);
        self.at += HEAD + content.len();
    }

    /// A block or a place: one letter.
    #[inline]
    pub fn letter(&mut self, tag: u8, letter: u8) {
        self.bytes([tag, 0, 1, letter]);
    }

    /// A single element.
    #[inline]
    pub fn single(&mut self) {
        self.bytes([fields::SINGLE, 0, 0]);
    }

    /// A range element.
    #[inline]
    pub fn range(&mut self, upper: u32, increment: u32) {
        self.bytes([fields::RANGE, 0, 8]);
        self.number(upper);
        self.number(increment);
    }

    /// A unit that has been read.
    #[inline]
    pub fn unit(&mut self, unit: &Token, contents: &[u8]) {
        if unit.kind == Kind::Numeral {
            let [a, b, c, d] = unit.value.to_be_bytes();
            let letter = unit.class as u8;
            self.bytes([fields::NUMERAL, 0, 6, letter, unit.length, a, b, c, d]);
        } else {
            self.field(unit.kind as u8, unit.content(contents));
        }
    }
}
