//! Whether an argument stands in a place of a record, and where it does first.
//!
//! The arguments of the place are written out one after the other, each as its unit fields, and
//! compared with those that are asked for. A range is stepped through from its lower end; nothing
//! is worked out from its ends.

use crate::fields::{self, Fields};
use crate::records::{is_argument, judge};
use crate::units::Base;
use crate::{limits, writer, Refusal};

/// The unit fields of an argument have no more bytes: they are strings then.
const ARGUMENT_SIZE: usize = limits::UNITS * (writer::HEAD + limits::STRING);

/// Where an argument, given as unit fields, stands first among the arguments of a place; none if
/// it is none of them. Places count from 0 through all blocks, omitted ones included, and positions
/// count from 0.
pub fn member(record: &[u8], place: u32, argument: &[u8]) -> Result<Option<u32>, Refusal> {
    judge(record, |_| ()).ok_or(Refusal::at(18, 0))?;
    let (base, value) = find(record, place).ok_or(Refusal { number: 26, place })?;
    if !is_argument(argument, base) {
        return Err(Refusal::at(27, 0));
    }
    Ok(first_position(value, argument))
}

/// The base of a place, and the fields from its value on; none if there is no such place or it is
/// omitted.
fn find(record: &[u8], place: u32) -> Option<(Base, Fields<'_>)> {
    let mut walk = Fields { rest: record };
    for _ in 0..place {
        next_place(&mut walk)?;
    }
    let base = next_place(&mut walk)?;
    while walk.tag() == fields::NAME_PIECE {
        walk.take()?;
    }
    fields::is_element(walk.tag()).then_some((base, walk))
}

/// Goes past the field of the next place; gives its base, none if there is no place any more.
fn next_place(walk: &mut Fields) -> Option<Base> {
    loop {
        let tag = walk.tag();
        let content = walk.take()?;
        if tag == fields::PLACE {
            return content.first().and_then(|&letter| Base::of(letter));
        }
    }
}

/// Where an argument stands first among those of the value that the walk is at.
fn first_position(mut walk: Fields, argument: &[u8]) -> Option<u32> {
    let mut position = 0;
    while fields::is_element(walk.tag()) {
        let mut written = Written::first(&mut walk);
        loop {
            if written.fields() == argument {
                return Some(position);
            }
            position += 1;
            if !written.next() {
                break;
            }
        }
    }
    None
}

/// An argument of an element, written out.
struct Written {
    bytes: [u8; ARGUMENT_SIZE],
    length: usize,
    /// Upper end and increment if the element is a range.
    range: Option<(u32, u32)>,
}

impl Written {
    /// The first argument of the element that the walk is at; the walk goes past the element.
    fn first(walk: &mut Fields) -> Written {
        let range = fields::range(walk.take().unwrap_or(&[]));
        let units = walk.rest;
        while fields::is_unit(walk.tag()) {
            walk.take();
        }
        let length = units.len() - walk.rest.len();
        let mut bytes = [0; ARGUMENT_SIZE];
        bytes[..length].copy_from_slice(&units[..length]);
        Written {
            bytes,
            length,
            range,
        }
    }

    /// Its unit fields.
    fn fields(&self) -> &[u8] {
        &self.bytes[..self.length]
    }

    /// Writes the next argument of the element in place of this one; gives false if this is the
    /// last.
    fn next(&mut self) -> bool {
        let Some((upper, increment)) = self.range else {
            return false;
        };
        let Some(value) = self.bytes[..self.length].last_chunk_mut() else {
            return false;
        };
        match u32::from_be_bytes(*value).checked_add(increment) {
            Some(next) if next <= upper => {
                *value = next.to_be_bytes();
                true
            }
            _ => false,
        }
    }
}
