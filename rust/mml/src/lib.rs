//! A safe wrapper over the C interface of the proved MML command translator.
//!
//! A [`Keeper`] takes what an operator types, one key at a time, and tells when its line is
//! ready. [`read`] makes a record of a command's text, [`print`] a command's text of a record,
//! [`count`] tells how many orders a record has, [`order`] gives order number `k` as a record, and
//! [`list`] writes all of them, for [`pieces`] to walk over. [`member`] tells whether a place of a
//! record has an argument, and where. [`read_row`] and [`order_row`] also fill a row with the
//! offsets of the record's places, by which [`place`] gives the fields of one. The library keeps no
//! state: a line is held by its keeper alone. The calls allocate nothing and may run on any number
//! of threads at once. A call that refuses writes nothing; a call that succeeds writes the bytes
//! that it answers at the buffer's start and leaves the rest of the buffer as it was.
//!
//! ```
//! let mut record = [0; 128];
//! let length = mml::read(b"SET-ATT:LIN=7-1&&-3,LEV=3.5;", b"DD", &mut record)?;
//! assert_eq!(length, 84);
//! assert_eq!(mml::count(&record[..length])?, 3);
//!
//! let mut order = [0; 128];
//! let size = mml::order(&record[..length], 2, &mut order)?;
//! let mut text = [0; mml::TEXT_MAX];
//! let size = mml::print(&order[..size], &mut text)?;
//! assert_eq!(&text[..size], b"SET-ATT:LIN=7-3,LEV=3.5;");
//!
//! let refused = mml::read(b"SET-ATT:LIN=7,LEV=3,5;", b"DD", &mut record);
//! assert_eq!(refused, Err(mml::Refusal::Kind(20)));
//! # Ok::<(), mml::Refusal>(())
//! ```

#![no_std]
#![warn(missing_docs)]

use core::error::Error;
use core::fmt;
use core::iter::FusedIterator;

/// No text is longer, and no line that is kept: a buffer of this size always suffices for
/// [`print`].
pub const TEXT_MAX: usize = 1024;

/// No record is longer: a buffer of this size always suffices for [`read`] and [`order`].
pub const RECORD_MAX: usize = 65_536;

/// The most base letters, and so the most places of a command.
pub const BASES_MAX: usize = 32;

/// The most places of a command: a row of so many slots always suffices for [`read_row`] and
/// [`order_row`].
pub const PLACES_MAX: usize = 32;

/// The key that removes the last byte held.
pub const KEY_BS: u8 = 8;

/// The key that empties the line.
pub const KEY_CAN: u8 = 24;

/// The tag of an order's length in a list.
const TAG_LENGTH: u8 = 14;

/// Makes the refusals of one table: what is said of each, its number, its name, its sentence.
macro_rules! refusals {
    ($($(#[$about:meta])* $number:literal $name:ident $sentence:literal;)*) => {
        /// Why a call refused, and where: each refusal holds its place.
        ///
        /// A place is counted in bytes of the text from 0 unless said otherwise. The names are
        /// those of `include/mml.h`.
        #[derive(Clone, Copy, Debug, PartialEq, Eq, Hash)]
        pub enum Refusal {
            $($(#[$about])* $name(u32),)*
            /// The answer's number is neither 0 nor a refusal's: number and value as they came.
            /// The library does not answer so; what is linked is not the library, or another one.
            Unknown(u32, u32),
        }

        impl Refusal {
            /// The refusal with this number at this place.
            pub const fn new(number: u32, place: u32) -> Refusal {
                match number {
                    $($number => Refusal::$name(place),)*
                    _ => Refusal::Unknown(number, place),
                }
            }

            /// The refusal's number.
            pub const fn number(self) -> u32 {
                match self {
                    $(Refusal::$name(_) => $number,)*
                    Refusal::Unknown(number, _) => number,
                }
            }

            /// The refusal's place.
            pub const fn place(self) -> u32 {
                match self {
                    $(Refusal::$name(place) => place,)*
                    Refusal::Unknown(_, place) => place,
                }
            }

            /// What the refusal means, in one sentence.
            pub const fn sentence(self) -> &'static str {
                match self {
                    $(Refusal::$name(_) => $sentence,)*
                    Refusal::Unknown(..) => "no refusal has this number",
                }
            }
        }
    };
}

refusals! {
    /// A base letter is none of D, H, O, B, K, or there is a 33rd. Place: its index.
    1 BaseLetter "a base letter is none of D, H, O, B, K, or there are more than 32";
    /// The text is longer than 1,024 bytes; of [`print`]: it would be. Place: 1,024.
    2 TextTooLong "the text is longer than 1,024 bytes";
    /// A byte is not permitted: only 9 to 13 and 32 to 126 are. Place: the byte.
    3 ByteNotPermitted "a byte is not permitted in a text";
    /// A string or a comment is not closed. Place: its opening.
    4 NotClosed "a string or a comment is not closed";
    /// A byte starts no token, as a slash alone. Place: the byte.
    5 NoToken "a byte starts no token";
    /// The command has no `;`. Place: the length of the text.
    6 NoEnd "the command has no `;`";
    /// Something stands after the `;`. Place: it.
    7 AfterEnd "something stands after the `;`";
    /// The code is not 1 to 3 identifiers joined by `-`. Place: the first token that does not
    /// fit.
    8 Code "the command code is wrong";
    /// The place is named and its block's first place is not, or the other way round. Place:
    /// the place's first token.
    9 Kind "the place is named and its block is not, or the other way round";
    /// The name is not 1 to 4 pieces joined by `-`, an identifier first. Place: the first token
    /// that does not fit.
    10 Name "the name is wrong";
    /// In a value, units and joining separators do not alternate, or a named value is empty.
    /// Place: the first token that does not fit.
    11 Alternation "units and separators do not alternate, or a named value is empty";
    /// A unit cannot be read under the base of its place. Place: the unit.
    12 Unit "the unit cannot be read";
    /// A numeral is above 4,294,967,295 or has more than 9 fraction digits. Place: the unit.
    13 NumeralTooBig "the numeral is too big or has more than 9 fraction digits";
    /// A rule of grouping is broken. Place: the separator or unit that breaks it.
    14 Group "a rule of grouping is broken";
    /// A limit is passed: a word of 32 characters, a string of 80, 8 blocks, 32 places, 64
    /// elements of a value. Place: what passes it.
    15 Limit "too long a word or string, or too many blocks, places or elements";
    /// A value has over 4,096 arguments, or the command over 65,535 orders. Place: the value
    /// with which it does.
    16 TooMany "the value has over 4,096 arguments or the command over 65,535 orders";
    /// The buffer is too short. Place: the bytes needed. Of [`read_row`] and [`order_row`] also,
    /// where the buffer suffices: the row is too short. Place: the slots needed. A place above the
    /// buffer's length is bytes, any other slots.
    17 BufferTooShort "the buffer or the row is too short";
    /// The record is not well formed; one that does not begin with the number of its orders is
    /// none. Place: 0.
    18 Record "the record is not well formed";
    /// There is no order `k`. Place: the number of orders.
    19 NoOrder "there is no order with this number";
    /// The key is not taken: it was to be held, and 1,024 bytes of a line not ready are held; or
    /// the keeper's count passes 1,024, and then no key is taken. Place: 1,024.
    20 NoKey "the line is full, or the keeper's count passes 1,024";
    /// The name stands already in its block, all pieces equal byte for byte; in another block it
    /// may stand again. Place: the second name's first token.
    21 NameTwice "the name stands already in its block";
    /// The record has no such place; of [`member`] also: the place is omitted. Place: the number
    /// asked for.
    26 NoPlace "there is no place with this number, or it is omitted";
    /// The argument is not 1 to 4 unit fields that could stand under the base of its place.
    /// Place: 0.
    27 Argument "the argument is not 1 to 4 unit fields that could stand in its place";
    /// The row is not the record's: it is shorter than the places, or a slot differs from the
    /// offset of its place. Place: the first slot that is missing or differs.
    28 Row "the row is shorter than the places, or a slot differs";
}

impl fmt::Display for Refusal {
    fn fmt(&self, f: &mut fmt::Formatter<'_>) -> fmt::Result {
        let (number, place) = (self.number(), self.place());
        write!(f, "refusal {number} at {place}: {}", self.sentence())
    }
}

impl Error for Refusal {}

extern "C" {
    fn mml_read(
        text: *const u8,
        text_len: usize,
        bases: *const u8,
        bases_len: usize,
        out: *mut u8,
        out_len: usize,
    ) -> u64;
    fn mml_print(record: *const u8, record_len: usize, out: *mut u8, out_len: usize) -> u64;
    fn mml_order(record: *const u8, record_len: usize, k: u64, out: *mut u8, out_len: usize)
        -> u64;
    fn mml_count(record: *const u8, record_len: usize) -> u64;
    fn mml_list(record: *const u8, record_len: usize, out: *mut u8, out_len: usize) -> u64;
    fn mml_member(
        record: *const u8,
        record_len: usize,
        place: u32,
        argument: *const u8,
        argument_len: usize,
    ) -> u64;
    fn mml_read_row(
        text: *const u8,
        text_len: usize,
        bases: *const u8,
        bases_len: usize,
        out: *mut u8,
        out_len: usize,
        row: *mut u32,
        row_len: usize,
    ) -> u64;
    fn mml_order_row(
        record: *const u8,
        record_len: usize,
        k: u64,
        out: *mut u8,
        out_len: usize,
        row: *mut u32,
        row_len: usize,
    ) -> u64;
    fn mml_place(
        record: *const u8,
        record_len: usize,
        row: *const u32,
        row_len: usize,
        place: u32,
    ) -> u64;
    fn mml_key(keeper: *mut Keeper, key: u8) -> u64;
}

/// Takes an answer apart: number times 2^32 plus value. Every bit of both counts.
const fn value_of(answer: u64) -> Result<u32, Refusal> {
    let value = answer as u32;
    match (answer >> 32) as u32 {
        0 => Ok(value),
        number => Err(Refusal::new(number, value)),
    }
}

/// Reads one command; the n-th base letter, a capital, is the default base of the n-th place. A
/// numeral's base prefix and letters may be typed small: the record holds capitals. It begins with
/// the number of its orders. Gives the length of the record.
pub fn read(text: &[u8], bases: &[u8], out: &mut [u8]) -> Result<usize, Refusal> {
    // SAFETY: each pointer and length are those of one slice, and only `out` is written.
    let answer = unsafe {
        mml_read(
            text.as_ptr(),
            text.len(),
            bases.as_ptr(),
            bases.len(),
            out.as_mut_ptr(),
            out.len(),
        )
    };
    value_of(answer).map(|length| length as usize)
}

/// Prints a record as a command. Gives the length of the text.
pub fn print(record: &[u8], out: &mut [u8]) -> Result<usize, Refusal> {
    // SAFETY: each pointer and length are those of one slice, and only `out` is written.
    let answer = unsafe { mml_print(record.as_ptr(), record.len(), out.as_mut_ptr(), out.len()) };
    value_of(answer).map(|length| length as usize)
}

/// Gives order `k` of a record, counted from 0, as a record of one order. Gives its length, which
/// is never more than the length of `record`.
pub fn order(record: &[u8], k: u64, out: &mut [u8]) -> Result<usize, Refusal> {
    // SAFETY: each pointer and length are those of one slice, and only `out` is written.
    let answer = unsafe {
        mml_order(
            record.as_ptr(),
            record.len(),
            k,
            out.as_mut_ptr(),
            out.len(),
        )
    };
    value_of(answer).map(|length| length as usize)
}

/// Gives the number of orders of a record: it is judged, and the number that it begins with is the
/// answer.
pub fn count(record: &[u8]) -> Result<u32, Refusal> {
    // SAFETY: pointer and length are those of one slice, and nothing is written.
    let answer = unsafe { mml_count(record.as_ptr(), record.len()) };
    value_of(answer)
}

/// Writes all orders of a record, one behind the other from order 0 on, each behind its length;
/// [`pieces`] walks over them. Gives the length of the list. Refuses with [`Refusal::Record`], then
/// with [`Refusal::BufferTooShort`], whose place is the length of the whole list: a call with an
/// empty buffer tells it.
///
/// ```
/// use mml::Refusal;
///
/// let mut record = [0; 128];
/// let length = mml::read(b"SET-ATT:LIN=7-1&&-3,LEV=3.5;", b"DD", &mut record)?;
/// let record = &record[..length];
///
/// let Err(Refusal::BufferTooShort(needed)) = mml::list(record, &mut []) else { panic!() };
/// let mut list = vec![0; needed as usize];
/// assert_eq!(mml::list(record, &mut list)?, list.len());
/// assert_eq!(mml::pieces(&list).count(), 3);
///
/// let mut text = [0; mml::TEXT_MAX];
/// for (order, expected) in mml::pieces(&list).zip([
///     b"SET-ATT:LIN=7-1,LEV=3.5;",
///     b"SET-ATT:LIN=7-2,LEV=3.5;",
///     b"SET-ATT:LIN=7-3,LEV=3.5;",
/// ]) {
///     let length = mml::print(order, &mut text)?;
///     assert_eq!(&text[..length], expected);
/// }
/// # Ok::<(), Refusal>(())
/// ```
pub fn list(record: &[u8], out: &mut [u8]) -> Result<usize, Refusal> {
    // SAFETY: each pointer and length are those of one slice, and only `out` is written.
    let answer = unsafe { mml_list(record.as_ptr(), record.len(), out.as_mut_ptr(), out.len()) };
    value_of(answer).map(|length| length as usize)
}

/// The orders of a list that [`list`] wrote, each as a record. Any other bytes are walked as far
/// as they are whole pieces; what an order holds is not judged.
pub const fn pieces(list: &[u8]) -> Pieces<'_> {
    Pieces { rest: list }
}

/// The orders of a list, from the first on; [`pieces`] makes it.
#[derive(Clone, Debug)]
pub struct Pieces<'l> {
    rest: &'l [u8],
}

impl<'l> Pieces<'l> {
    /// The bytes of the list that are not walked over. Behind the last order these are none, or
    /// those that begin no whole piece.
    pub const fn rest(&self) -> &'l [u8] {
        self.rest
    }
}

impl<'l> Iterator for Pieces<'l> {
    type Item = &'l [u8];

    fn next(&mut self) -> Option<&'l [u8]> {
        let [TAG_LENGTH, 0, 4, a, b, c, d, behind @ ..] = self.rest else {
            return None;
        };
        let length = u32::from_be_bytes([*a, *b, *c, *d]) as usize;
        let (order, rest) = behind.split_at_checked(length)?;
        self.rest = rest;
        Some(order)
    }
}

impl FusedIterator for Pieces<'_> {}

/// Tells where an argument stands first in a place of a record; none where it does not. Places
/// count from 0 through all blocks, omitted ones included; positions count from 0 the arguments of
/// the place, ranges written out. The argument is given as a record has it, by its unit fields, one
/// behind the other, without the field of the element; it is the place's where all of them are
/// equal. Refuses with [`Refusal::Record`], then [`Refusal::NoPlace`], then [`Refusal::Argument`].
///
/// ```
/// let mut record = [0; 128];
/// let length = mml::read(b"SET-ATT:LIN=7-1&&-3&-100&&-120,LEV=3.5;", b"DD", &mut record)?;
/// let record = &record[..length];
///
/// let amplifier = |number| {
///     let unit = |value| [7, 0, 6, b'D', 0, 0, 0, 0, value];
///     [unit(7), unit(number)].concat()
/// };
/// assert_eq!(mml::member(record, 0, &amplifier(117))?, Some(20));
/// assert_eq!(mml::member(record, 0, &amplifier(4))?, None);
/// assert_eq!(mml::member(record, 2, &amplifier(117)), Err(mml::Refusal::NoPlace(2)));
/// # Ok::<(), mml::Refusal>(())
/// ```
///
/// Of an argument as it is typed, [`read`] makes the unit fields: in the record of `A:7-117;` read
/// with the base letter of the place, they stand behind the field of the single element, from byte
/// 22 on.
pub fn member(record: &[u8], place: u32, argument: &[u8]) -> Result<Option<u32>, Refusal> {
    // SAFETY: each pointer and length are those of one slice, and nothing is written.
    let answer = unsafe {
        mml_member(
            record.as_ptr(),
            record.len(),
            place,
            argument.as_ptr(),
            argument.len(),
        )
    };
    value_of(answer).map(|value| value.checked_sub(1))
}

/// Reads one command as [`read`] does, and fills a row with the offsets of its places: slot n is
/// where the field of place n begins, in bytes from the record's start. Places count from 0 through
/// all blocks, omitted ones included. Slots beyond the places keep their numbers; no offset is 0.
/// Gives the length of the record. Refuses as [`read`] does, then with [`Refusal::BufferTooShort`]
/// where the row has fewer slots than the command has places; its place is the slots needed. A
/// refusal writes neither the buffer nor the row.
///
/// ```
/// let mut record = [0; 128];
/// let mut row = [0; mml::PLACES_MAX];
/// let length = mml::read_row(b"SET-ATT:LIN=7-1&&-3,LEV=3.5;", b"DD", &mut record, &mut row)?;
/// assert_eq!(length, 84);
/// assert_eq!(row[..3], [23, 62, 0]);
/// # Ok::<(), mml::Refusal>(())
/// ```
pub fn read_row(
    text: &[u8],
    bases: &[u8],
    out: &mut [u8],
    row: &mut [u32],
) -> Result<usize, Refusal> {
    // SAFETY: each pointer and length are those of one slice, and only `out` and `row` are written.
    let answer = unsafe {
        mml_read_row(
            text.as_ptr(),
            text.len(),
            bases.as_ptr(),
            bases.len(),
            out.as_mut_ptr(),
            out.len(),
            row.as_mut_ptr(),
            row.len(),
        )
    };
    value_of(answer).map(|length| length as usize)
}

/// Gives order `k` of a record as [`order`] does, and fills a row with the offsets of the order's
/// places as [`read_row`] does. Gives the order's length.
pub fn order_row(record: &[u8], k: u64, out: &mut [u8], row: &mut [u32]) -> Result<usize, Refusal> {
    // SAFETY: each pointer and length are those of one slice, and only `out` and `row` are written.
    let answer = unsafe {
        mml_order_row(
            record.as_ptr(),
            record.len(),
            k,
            out.as_mut_ptr(),
            out.len(),
            row.as_mut_ptr(),
            row.len(),
        )
    };
    value_of(answer).map(|length| length as usize)
}

/// Gives the fields of a place, as part of the record itself, by the row of the record's offsets:
/// the place's own field, its name pieces if it has a name, and its value if it is not omitted.
/// Record and row may be anything: all of both is judged, whatever place is asked for. Slots behind
/// the places are not looked at. Refuses with [`Refusal::Record`], then [`Refusal::Row`], then
/// [`Refusal::NoPlace`].
///
/// ```
/// let mut record = [0; 128];
/// let mut row = [0; mml::PLACES_MAX];
/// let length = mml::read_row(b"A:,UP;", b"", &mut record, &mut row)?;
/// let record = &record[..length];
///
/// assert_eq!(mml::place(record, &row, 0)?, b"\x03\0\x01D");
/// assert_eq!(mml::place(record, &row, 1)?, b"\x03\0\x01D\x05\0\0\x09\0\x02UP");
/// assert_eq!(mml::place(record, &row, 2), Err(mml::Refusal::NoPlace(2)));
/// row[1] += 1;
/// assert_eq!(mml::place(record, &row, 0), Err(mml::Refusal::Row(1)));
/// # Ok::<(), mml::Refusal>(())
/// ```
///
/// A record and its row that one call wrote, unchanged since, need no judging: there `row[n]` is
/// the offset of place n, and `record[row[n] as usize..]` begins with its fields.
pub fn place<'r>(record: &'r [u8], row: &[u32], place: u32) -> Result<&'r [u8], Refusal> {
    // SAFETY: each pointer and length are those of one slice, and nothing is written.
    let answer = unsafe {
        mml_place(
            record.as_ptr(),
            record.len(),
            row.as_ptr(),
            row.len(),
            place,
        )
    };
    let length = value_of(answer)? as usize;
    // The row was let pass: it has this slot, and so many bytes of the record stand behind it.
    let offset = row[place as usize] as usize;
    Ok(&record[offset..offset + length])
}

/// A line keeper: takes what an operator types, one key at a time.
///
/// [`KEY_BS`] removes the last byte held, and does nothing on an empty line. [`KEY_CAN`] empties
/// the line. Any other key is held, as it is. A `;` outside string and comment makes the line
/// ready; the next key starts an empty line. What a string and a comment are, the rules of
/// [`read`] say, of the bytes held. [`read`] may refuse a ready line, but not for its end: never
/// with [`Refusal::NotClosed`], [`Refusal::NoEnd`] or [`Refusal::AfterEnd`].
///
/// ```
/// let mut keeper = mml::Keeper::new();
/// for key in *b"SET-ATT:LIN=8" {
///     assert!(!keeper.key(key)?);
/// }
/// keeper.key(mml::KEY_BS)?;
/// assert_eq!(keeper.line(), b"SET-ATT:LIN=");
/// assert!(!keeper.key(b'7')?);
/// assert!(keeper.key(b';')?);
///
/// let mut record = [0; 128];
/// let length = mml::read(keeper.line(), b"D", &mut record)?;
/// let mut text = [0; mml::TEXT_MAX];
/// let length = mml::print(&record[..length], &mut text)?;
/// assert_eq!(&text[..length], b"SET-ATT:LIN=7;");
///
/// assert!(!keeper.key(b'A')?);
/// assert_eq!(keeper.line(), b"A");
/// # Ok::<(), mml::Refusal>(())
/// ```
///
/// Whether a line is ready depends on the bytes held alone: the last of them is a `;` outside
/// string and comment, and the first such one. So a keeper that the program filled by itself is as
/// good as one that keys filled.
#[derive(Clone, Debug)]
#[repr(C)]
pub struct Keeper {
    /// The line, and behind it bytes of no account: a key changes none of them but the one that
    /// it is held in.
    pub bytes: [u8; TEXT_MAX],
    /// How many of the bytes are the line.
    pub count: u32,
}

impl Keeper {
    /// A keeper that holds nothing.
    pub const fn new() -> Keeper {
        Keeper {
            bytes: [0; TEXT_MAX],
            count: 0,
        }
    }

    /// The line that is held. Where the count passes 1,024 these are all the bytes.
    pub fn line(&self) -> &[u8] {
        let held = self.bytes.get(..self.count as usize);
        held.unwrap_or(&self.bytes)
    }

    /// Takes one key to the line. Gives whether the line is ready then. Refuses with
    /// [`Refusal::NoKey`], and the keeper stays as it was.
    pub fn key(&mut self, key: u8) -> Result<bool, Refusal> {
        // SAFETY: the pointer is that of a keeper, laid out as in C, and only that is written.
        let answer = unsafe { mml_key(self, key) };
        value_of(answer).map(|ready| ready != 0)
    }
}

impl Default for Keeper {
    fn default() -> Keeper {
        Keeper::new()
    }
}

#[cfg(test)]
mod tests {
    use super::{value_of, Refusal};

    #[test]
    fn an_answer_is_taken_apart_whole() {
        assert_eq!(value_of(77), Ok(77));
        assert_eq!(value_of(0xFFFF_FFFF), Ok(u32::MAX));
        assert_eq!(value_of((14 << 32) + 5), Err(Refusal::Group(5)));
        assert_eq!(value_of((19 << 32) + 3), Err(Refusal::NoOrder(3)));
        assert_eq!(value_of((20 << 32) + 1024), Err(Refusal::NoKey(1024)));
        assert_eq!(value_of((21 << 32) + 8), Err(Refusal::NameTwice(8)));
        assert_eq!(value_of((26 << 32) + 2), Err(Refusal::NoPlace(2)));
        assert_eq!(value_of(27 << 32), Err(Refusal::Argument(0)));
        assert_eq!(value_of((28 << 32) + 3), Err(Refusal::Row(3)));
    }

    #[test]
    fn high_bits_of_the_number_are_not_cut() {
        for number in [22, 25, 29, 256, 256 + 14, 1 << 16, 1 << 31, u32::MAX] {
            let answer = (u64::from(number) << 32) + 5;
            assert_eq!(value_of(answer), Err(Refusal::Unknown(number, 5)));
        }
    }
}
