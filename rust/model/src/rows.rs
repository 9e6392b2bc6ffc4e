//! Where the places of a record begin, and the fields of a place by a row of these offsets.

use crate::fields::{self, Fields};
use crate::records::judge;
use crate::Refusal;

/// The fields of a place, as part of the record itself, by the row of the record's offsets. Places
/// count from 0 through all blocks, omitted ones included. Slots behind the places are not looked
/// at.
pub fn place<'r>(record: &'r [u8], row: &[u32], place: u32) -> Result<&'r [u8], Refusal> {
    judge(record, |_| ()).ok_or(Refusal::at(18, 0))?;
    let mut asked = None;
    for (number, one) in places(record).enumerate() {
        if row.get(number) != Some(&one.offset) {
            return Err(Refusal::at(28, number));
        }
        if number == place as usize {
            asked = Some(one.fields);
        }
    }
    asked.ok_or(Refusal { number: 26, place })
}

/// The places of a record that is well formed, from the first to the last.
pub fn places(record: &[u8]) -> Places<'_> {
    Places {
        record,
        walk: Fields { rest: record },
    }
}

/// A place of a record.
pub struct Place<'r> {
    /// Where its first field begins in the record.
    pub offset: u32,
    /// All of its fields.
    pub fields: &'r [u8],
}

/// A walk from place to place.
pub struct Places<'r> {
    record: &'r [u8],
    walk: Fields<'r>,
}

impl Places<'_> {
    /// Where the walk is in the record.
    fn offset(&self) -> usize {
        self.record.len() - self.walk.rest.len()
    }
}

impl<'r> Iterator for Places<'r> {
    type Item = Place<'r>;

    fn next(&mut self) -> Option<Place<'r>> {
        while self.walk.tag() != fields::PLACE {
            self.walk.take()?;
        }
        let start = self.offset();
        self.walk.take()?;
        while fields::goes_on(self.walk.tag()) {
            self.walk.take()?;
        }
        Some(Place {
            offset: start as u32,
            fields: &self.record[start..self.offset()],
        })
    }
}
