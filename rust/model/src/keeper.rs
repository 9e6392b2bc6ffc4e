//! The line keeper: what an operator types, one key at a time.

use crate::{limits, Refusal};

/// The key that removes the last byte held.
const BS: u8 = 8;
/// The key that empties the line.
const CAN: u8 = 24;

/// A line keeper.
#[derive(Clone, Debug, PartialEq, Eq)]
pub struct Keeper {
    /// The line, and behind it bytes of no account.
    pub bytes: [u8; limits::TEXT],
    /// How many of the bytes are the line.
    pub count: u32,
}

impl Keeper {
    /// A keeper that holds nothing.
    pub const fn new() -> Keeper {
        Keeper {
            bytes: [0; limits::TEXT],
            count: 0,
        }
    }
}

impl Default for Keeper {
    fn default() -> Keeper {
        Keeper::new()
    }
}

/// Takes one key to the line that the keeper holds; gives whether the line is ready then. Refuses
/// with 20, and the keeper stays.
pub fn key(keeper: &mut Keeper, key: u8) -> Result<bool, Refusal> {
    let no_room = Refusal::at(20, limits::TEXT);
    let line = keeper.bytes.get(..keeper.count as usize).ok_or(no_room)?;
    let found = if is_ready(line) { 0 } else { line.len() };
    let held = match key {
        BS => found.saturating_sub(1),
        CAN => 0,
        _ => {
            *keeper.bytes.get_mut(found).ok_or(no_room)? = key;
            found + 1
        }
    };
    keeper.count = held as u32;
    Ok(is_ready(&keeper.bytes[..held]))
}

/// Whether a line is ready: its last byte is a `;` outside string and comment, the first such one.
fn is_ready(line: &[u8]) -> bool {
    line.ends_with(b";") && behind_end(line) == Some(&[])
}

/// What stands behind the first `;` outside string and comment. Of a string with a doubled mark
/// each half counts as a string: nothing stands between them.
fn behind_end(line: &[u8]) -> Option<&[u8]> {
    let mut rest = line;
    loop {
        rest = match rest {
            [] => return None,
            [b';', behind @ ..] => return Some(behind),
            [b'"', inside @ ..] => behind_first(inside, b"\""),
            [b'/', b'*', inside @ ..] => behind_first(inside, b"*/"),
            [_, behind @ ..] => behind,
        }
    }
}

/// What stands behind the first such closing; nothing where there is none.
fn behind_first<'l>(inside: &'l [u8], closing: &[u8]) -> &'l [u8] {
    let found = inside
        .windows(closing.len())
        .position(|bytes| bytes == closing);
    found.map_or(&[], |at| &inside[at + closing.len()..])
}
