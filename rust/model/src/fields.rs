//! The tagged fields of a record, and the walk over them.

/// A piece of the command code.
pub const CODE_PIECE: u8 = 1;
/// A block: P or N.
pub const BLOCK: u8 = 2;
/// A place: its default base letter.
pub const PLACE: u8 = 3;
/// A piece of a name.
pub const NAME_PIECE: u8 = 4;
/// A single element: empty.
pub const SINGLE: u8 = 5;
/// A range element: upper end and increment.
pub const RANGE: u8 = 6;
/// A D, H, O or B numeral.
pub const NUMERAL: u8 = 7;
/// A keyed numeral: its letters are capitals.
pub const KEYED: u8 = 8;
/// An identifier.
pub const IDENTIFIER: u8 = 9;
/// A symbolic name.
pub const SYMBOLIC_NAME: u8 = 10;
/// A string.
pub const STRING: u8 = 11;
/// The number of orders: the field that a record begins with.
pub const COUNT: u8 = 12;

/// The length of an order, in a list: the field that stands before the order. No record has it.
pub const LENGTH: u8 = 14;

/// The bytes of a number in a field's content.
pub const NUMBER_SIZE: usize = 4;

/// The bytes that stand before an order in a list.
pub const LENGTH_SIZE: usize = 7;

/// The bytes that stand before the code.
pub const COUNT_SIZE: usize = 7;

/// The field that stands before the code.
#[inline(always)]
pub fn count(orders: u32) -> [u8; COUNT_SIZE] {
    let [a, b, c, d] = orders.to_be_bytes();
    [COUNT, 0, 4, a, b, c, d]
}

/// The field that stands before an order in a list.
#[inline(always)]
pub fn length(bytes: u32) -> [u8; LENGTH_SIZE] {
    let [a, b, c, d] = bytes.to_be_bytes();
    [LENGTH, 0, 4, a, b, c, d]
}

/// The number in the field before the code, and the fields from the code on; none if the record
/// does not begin with that field.
#[inline(always)]
pub fn counted(record: &[u8]) -> Option<(u32, Fields<'_>)> {
    match record {
        [COUNT, 0, 4, a, b, c, d, rest @ ..] => {
            Some((u32::from_be_bytes([*a, *b, *c, *d]), Fields { rest }))
        }
        _ => None,
    }
}

/// The fields of a record from some field on.
#[derive(Clone, Copy)]
pub struct Fields<'r> {
    /// The bytes that are left.
    pub rest: &'r [u8],
}

impl<'r> Fields<'r> {
    /// The tag of the next field; 0, which no field has, if nothing is left.
    #[inline(always)]
    pub fn tag(&self) -> u8 {
        match self.rest {
            [tag, ..] => *tag,
            [] => 0,
        }
    }

    /// The content of the next field, and the walk goes past it; none if the bytes that are
    /// left are no whole field.
    #[inline(always)]
    pub fn take(&mut self) -> Option<&'r [u8]> {
        let [_, high, low, rest @ ..] = self.rest else {
            return None;
        };
        let length = u16::from_be_bytes([*high, *low]) as usize;
        let (content, rest) = rest.split_at_checked(length)?;
        self.rest = rest;
        Some(content)
    }
}

/// Whether the tag is that of a unit.
#[inline(always)]
pub fn is_unit(tag: u8) -> bool {
    tag.wrapping_sub(NUMERAL) <= STRING - NUMERAL
}

/// Whether the tag is that of an element.
#[inline(always)]
pub fn is_element(tag: u8) -> bool {
    tag == SINGLE || tag == RANGE
}

/// Whether a field with this tag belongs to the place that stands before it: its name and value.
#[inline(always)]
pub fn goes_on(tag: u8) -> bool {
    tag == NAME_PIECE || is_element(tag) || is_unit(tag)
}

/// Upper end and increment from the content of a range element.
#[inline(always)]
pub fn range(content: &[u8]) -> Option<(u32, u32)> {
    let content: &[u8; 8] = content.try_into().ok()?;
    let [a, b, c, d, e, f, g, h] = *content;
    Some((
        u32::from_be_bytes([a, b, c, d]),
        u32::from_be_bytes([e, f, g, h]),
    ))
}

/// A D, H, O or B numeral.
#[derive(Clone, Copy)]
pub struct Numeral {
    /// D, H, O or B.
    pub letter: u8,
    /// How many of its digits are fraction digits.
    pub fraction: u8,
    /// The whole number without the stop.
    pub value: u32,
}

/// The numeral from its field's content.
#[inline(always)]
pub fn numeral(content: &[u8]) -> Option<Numeral> {
    let content: &[u8; 6] = content.try_into().ok()?;
    let [letter, fraction, a, b, c, d] = *content;
    Some(Numeral {
        letter,
        fraction,
        value: u32::from_be_bytes([a, b, c, d]),
    })
}
