//! An independent model of the MML command translator.
//!
//! It does what the proved library does, by the wording of document 01 and of the requests of
//! document 02 that have landed, in plain Rust without allocation: [`key`] takes what is typed to
//! the line of a [`Keeper`], [`read`] makes a record of a command, [`print`] a command of a record,
//! [`count`] tells how many orders a record has, [`order`] gives one of them, [`list`] all, and
//! [`member`] tells where an argument stands in a place. [`read_row`] and [`order_row`] fill a row
//! with the offsets of the places beside, and [`place`] gives the fields of one by it. A call that
//! refuses writes nothing; a call that succeeds writes exactly the bytes it answers and one slot for
//! each place, and a key that is held one byte.
//!
//! The model is what the library is compared with, in its answers and in its speed.

#![no_std]
#![forbid(unsafe_code)]
#![warn(missing_docs)]

mod characters;
mod fields;
mod groups;
mod keeper;
mod lists;
mod members;
mod names;
mod orders;
mod printer;
mod reader;
mod records;
mod rows;
mod tokens;
mod units;
mod writer;

pub use keeper::{key, Keeper};
pub use lists::list;
pub use members::member;
pub use orders::{count, order, order_row};
pub use printer::print;
pub use reader::{read, read_row};
pub use rows::place;

/// A refusal: its number and its place, as the documents list them.
#[derive(Clone, Copy, Debug, PartialEq, Eq)]
pub struct Refusal {
    /// 1 to 21, or 26 to 28.
    pub number: u8,
    /// A place in the text, an index of the base letters, a size, or the number of a place of the
    /// record, which is that of its slot too: by the number.
    pub place: u32,
}

impl Refusal {
    /// The refusal `number` at `place`.
    const fn at(number: u8, place: usize) -> Refusal {
        Refusal {
            number,
            place: place as u32,
        }
    }
}

/// The limits of document 01.
mod limits {
    /// Base letters of a command, and so its places.
    pub const PLACES: usize = 32;
    /// Bytes of a text, and of a line that is kept.
    pub const TEXT: usize = 1024;
    /// Characters of a word without prefix, and of a keyed numeral after it.
    pub const WORD: usize = 32;
    /// Characters of a word whose second is the apostrophe.
    pub const PREFIXED_WORD: usize = 34;
    /// Characters of a string's content.
    pub const STRING: usize = 80;
    /// Pieces of a command code.
    pub const CODE_PIECES: usize = 3;
    /// Pieces of a name.
    pub const NAME_PIECES: usize = 4;
    /// Blocks of a command.
    pub const BLOCKS: usize = 8;
    /// Units of an argument.
    pub const UNITS: usize = 4;
    /// Elements of a value.
    pub const ELEMENTS: usize = 64;
    /// Arguments of a value.
    pub const ARGUMENTS: u64 = 4096;
    /// Orders of a command.
    pub const ORDERS: u32 = 65_535;
    /// Fraction digits of a decimal numeral.
    pub const FRACTION: usize = 9;
}
