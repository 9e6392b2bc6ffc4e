//! Where the places of a record begin, rows that are lent, and questions for a place by a row.

use std::ops::Range;

use crate::arguments::place_number;
use crate::random::Random;
use crate::records::{fields, join};

/// So many questions are asked of a record that has places.
const SOME: usize = 6;

/// The most slots that a row has beyond the places.
const SPARE: usize = 4;

/// The bytes of a field before its content.
const HEAD: usize = 3;

/// Where each place of a record begins; of one that is not well formed what can be made of its
/// fields.
pub fn offsets(record: &[u8]) -> Vec<u32> {
    let starts = pages(record).into_iter();
    starts.map(|page| page.start as u32).collect()
}

/// Where the fields of each place stand in a record: from the place's own to the next that is a
/// place's or a block's.
pub fn pages(record: &[u8]) -> Vec<Range<usize>> {
    let mut pages: Vec<Range<usize>> = Vec::new();
    let mut inside = false;
    let mut at = 0;
    for (tag, content) in fields(record) {
        let end = at + HEAD + content.len();
        match (tag, pages.last_mut()) {
            (3, _) => pages.push(at..end),
            (1 | 2 | 12, _) => inside = false,
            (_, Some(page)) if inside => page.end = end,
            _ => (),
        }
        inside |= tag == 3;
        at = end;
    }
    pages
}

/// Whether pages, and what is between them, are a whole record: before the first page are the
/// number of orders, the code and a block, between two a block or nothing, and nothing behind the
/// last.
pub fn are_whole(record: &[u8], pages: &[Range<usize>]) -> bool {
    let Some((first, others)) = pages.split_first() else {
        return fields(record).iter().all(|(tag, _)| *tag != 3);
    };
    let mut end = first.end;
    for page in others {
        let between = record.get(end..page.start);
        if !matches!(between, Some([] | [2, 0, 1, b'P' | b'N'])) {
            return false;
        }
        end = page.end;
    }
    let start = fields(&record[..first.start]);
    matches!(&start[..], [(12, _), (1, _), .., (2, _)])
        && join(&start).len() == first.start
        && end == record.len()
}

/// Rooms and slots to lend to a call whose record has so many bytes and places: more than enough,
/// just enough, a slot too few if there are places, and a byte too few with any slots.
pub fn rooms(random: &mut Random, bytes: usize, places: usize) -> Vec<(usize, usize)> {
    let more = (bytes + random.below(50), places + random.between(1, SPARE));
    let any = random.below(places + SPARE);
    let mut rooms = vec![more, (bytes, places), (bytes - 1, any)];
    if places > 0 {
        let fewer = match random.below(2) {
            0 => places - 1,
            _ => random.below(places),
        };
        rooms.push((bytes + random.below(2), fewer));
    }
    rooms
}

/// A question for the fields of a place by a row.
#[derive(Debug)]
pub struct Question {
    /// Any row.
    pub row: Vec<u32>,
    /// Any number.
    pub place: u32,
}

/// Questions about a record whose places begin so.
pub fn questions(random: &mut Random, offsets: &[u32]) -> Vec<Question> {
    let some = if offsets.is_empty() { 2 } else { SOME };
    (0..some).map(|_| question(random, offsets)).collect()
}

/// A question by the record's row, or by one that is like it.
fn question(random: &mut Random, offsets: &[u32]) -> Question {
    let mut row = offsets.to_vec();
    for _ in 0..random.pick(&[0, 0, 1, 1, 2]) {
        change(random, &mut row);
    }
    match random.below(5) {
        0 => row.truncate(random.below(row.len() + 1)),
        1 | 2 => {
            let spare = random.between(1, SPARE);
            row.extend((0..spare).map(|_| random.pick(&[0, 15, u32::MAX])));
        }
        _ => (),
    }
    Question {
        row,
        place: place_number(random, offsets.len()),
    }
}

/// Changes a slot.
fn change(random: &mut Random, row: &mut [u32]) {
    if row.is_empty() {
        return;
    }
    let (at, other) = (random.below(row.len()), random.below(row.len()));
    let offset = row[at];
    row[at] = match random.below(8) {
        0 => offset.wrapping_add(1),
        1 => offset.wrapping_sub(1),
        2 => offset.wrapping_sub(7),
        3 => offset.wrapping_add(4),
        4 => row[other],
        5 => offset ^ 1 << random.below(32),
        6 => random.next() as u32,
        _ => 0,
    };
}

#[cfg(test)]
mod tests {
    use super::{are_whole, offsets, pages, questions, rooms};
    use crate::random::Random;

    /// The record of a command.
    fn record(text: &str) -> Vec<u8> {
        let mut record = vec![0; 1000];
        let length = model::read(text.as_bytes(), b"", &mut record).unwrap_or(0);
        record.truncate(length);
        record
    }

    #[test]
    fn the_pages_of_a_record() {
        let record = record("A:5,:N=7&&9;");
        assert_eq!(pages(&record), [15..31, 31..35, 39..67]);
        assert_eq!(offsets(&record), [15, 31, 39]);
        assert!(pages(b"").is_empty());
        assert!(pages(b"\x05\0\0").is_empty());
        let broken = b"\x03\0\x01D\x05\0\0\x01\0\0\x05\0\0\x03\0\0";
        assert_eq!(pages(broken), [0..7, 13..16]);
    }

    #[test]
    fn pages_that_join_and_pages_that_do_not() {
        let record = record("A:5,:N=7&&9;");
        let right = pages(&record);
        assert!(are_whole(&record, &right));
        assert!(are_whole(&record[..11], &[]));
        assert!(!are_whole(&record, &[]));
        assert!(!are_whole(&record, &right[1..]));
        assert!(!are_whole(&record, &right[..2]));
        for at in 0..right.len() {
            let mut wrong = right.clone();
            wrong[at].end -= 1;
            assert!(!are_whole(&record, &wrong));
            let mut wrong = right.clone();
            wrong[at].start += 1;
            assert!(!are_whole(&record, &wrong));
        }
    }

    #[test]
    fn every_kind_of_room() {
        let mut random = Random::new(1);
        for places in [0, 1, 32] {
            let rooms = rooms(&mut random, 200, places);
            assert!(rooms.contains(&(200, places)));
            assert!(rooms.iter().any(|room| room.0 == 199));
            assert!(rooms.iter().any(|room| room.0 >= 200 && room.1 > places));
            let fewer = rooms.iter().any(|room| room.0 >= 200 && room.1 < places);
            assert_eq!(fewer, places > 0);
        }
    }

    #[test]
    fn some_rows_are_the_records_own() {
        let mut random = Random::new(1);
        let own = [15, 31, 39];
        let questions: Vec<_> = (0..100)
            .flat_map(|_| questions(&mut random, &own))
            .collect();
        let begins = questions.iter().filter(|one| one.row.starts_with(&own));
        assert!((150..450).contains(&begins.count()));
        assert!(questions.iter().any(|one| one.row.len() < own.len()));
        assert!(questions.iter().any(|one| one.row.len() > own.len()));
    }
}
