//! What all tests use: calls with buffers that are watched, records written by hand.

#![allow(dead_code)]

use model::Refusal;

/// The buffer that is tried first.
const ROOM: usize = 2048;

const FILL: u8 = 0xA5;

/// Runs a call that writes, with a buffer of this size, and gives what it wrote. A refused call
/// must write nothing, a call that succeeds nothing past its answer.
fn watched(
    size: usize,
    call: impl FnOnce(&mut [u8]) -> Result<usize, Refusal>,
) -> Result<Vec<u8>, (u8, u32)> {
    let mut out = vec![FILL; size];
    match call(&mut out) {
        Ok(length) => {
            assert!(out[length..].iter().all(|&byte| byte == FILL));
            out.truncate(length);
            Ok(out)
        }
        Err(refusal) => {
            assert!(out.iter().all(|&byte| byte == FILL));
            Err((refusal.number, refusal.place))
        }
    }
}

/// Like [`watched`], and tries the sizes that just fit and just do not.
fn watched_all(call: impl Fn(&mut [u8]) -> Result<usize, Refusal>) -> Result<Vec<u8>, (u8, u32)> {
    let mut answer = watched(ROOM, &call);
    if let Err((17, needed)) = answer {
        assert!(needed as usize > ROOM);
        answer = watched(needed as usize + 1, &call);
    }
    match &answer {
        Ok(bytes) => {
            let needed = bytes.len();
            assert_eq!(watched(needed, &call).as_ref(), Ok(bytes));
            assert_eq!(watched(needed - 1, &call), Err((17, needed as u32)));
            assert_eq!(watched(0, &call), Err((17, needed as u32)));
        }
        Err(refusal) => assert_eq!(watched(0, &call), Err(*refusal)),
    }
    answer
}

/// The record of a command, or the refusal.
pub fn read_bytes(text: &[u8], bases: &[u8]) -> Result<Vec<u8>, (u8, u32)> {
    watched_all(|out| model::read(text, bases, out))
}

/// The record of a command, or the refusal.
pub fn read(text: &str, bases: &str) -> Result<Vec<u8>, (u8, u32)> {
    read_bytes(text.as_bytes(), bases.as_bytes())
}

/// The record of a command that must be accepted.
#[track_caller]
pub fn record(text: &str, bases: &str) -> Vec<u8> {
    match read(text, bases) {
        Ok(record) => record,
        Err(refusal) => panic!("{text} with {bases}: refused {refusal:?}"),
    }
}

/// Expects a command to be refused.
#[track_caller]
pub fn refused(text: &str, bases: &str, number: u8, place: usize) {
    assert_eq!(
        read(text, bases),
        Err((number, place as u32)),
        "{text} with {bases}"
    );
}

/// Expects a command to be read as if it were this other one.
#[track_caller]
pub fn same(text: &str, other: &str, bases: &str) {
    assert_eq!(record(text, bases), record(other, bases), "{text}");
}

/// The text of a record, or the refusal.
pub fn print(record: &[u8]) -> Result<String, (u8, u32)> {
    let text = watched_all(|out| model::print(record, out))?;
    Ok(String::from_utf8(text).unwrap())
}

/// Expects a command to be printed as this.
#[track_caller]
pub fn prints(text: &str, bases: &str, expected: &str) {
    assert_eq!(
        print(&record(text, bases)).as_deref(),
        Ok(expected),
        "{text}"
    );
}

/// The number of orders of a record, or the refusal.
pub fn count(record: &[u8]) -> Result<u32, (u8, u32)> {
    model::count(record).map_err(|refusal| (refusal.number, refusal.place))
}

/// Order `k` of a record, or the refusal.
pub fn order(record: &[u8], k: u64) -> Result<Vec<u8>, (u8, u32)> {
    watched_all(|out| model::order(record, k, out))
}

/// The texts of all orders of a command.
#[track_caller]
pub fn orders(text: &str, bases: &str) -> Vec<String> {
    let record = record(text, bases);
    let count = count(&record).unwrap();
    assert_eq!(order(&record, count as u64), Err((19, count)));
    assert_eq!(order(&record, u64::MAX), Err((19, count)));
    (0..count as u64)
        .map(|k| print(&order(&record, k).unwrap()).unwrap())
        .collect()
}

/// The list of a record's orders, or the refusal.
pub fn list(record: &[u8]) -> Result<Vec<u8>, (u8, u32)> {
    watched_all(|out| model::list(record, out))
}

/// The orders of a list, each behind its length, and nothing else.
#[track_caller]
pub fn pieces(mut list: &[u8]) -> Vec<&[u8]> {
    let mut pieces = Vec::new();
    while let [14, 0, 4, a, b, c, d, rest @ ..] = list {
        let length = u32::from_be_bytes([*a, *b, *c, *d]) as usize;
        pieces.push(&rest[..length]);
        list = &rest[length..];
    }
    assert_eq!(list, b"");
    pieces
}

/// Where an argument stands first in a place of a record, or the refusal.
pub fn member(record: &[u8], place: u32, argument: &[u8]) -> Result<Option<u32>, (u8, u32)> {
    let answer = model::member(record, place, argument);
    answer.map_err(|refusal| (refusal.number, refusal.place))
}

/// A record and the row of its offsets, or the refusal.
pub type Rowed = Result<(Vec<u8>, Vec<u32>), (u8, u32)>;

/// The number that a slot is soiled with before a call.
pub const fn soil(slot: usize) -> u32 {
    0xA5A5_0000 + slot as u32
}

/// Runs a call that fills a row, with a buffer of this size and so many slots, and gives record and
/// offsets. A refused call must write nothing, a call that succeeds nothing past its answer, and no
/// slot beyond the places.
fn watched_row(
    size: usize,
    slots: usize,
    call: impl FnOnce(&mut [u8], &mut [u32]) -> Result<usize, Refusal>,
) -> Rowed {
    let soiled: Vec<u32> = (0..slots).map(soil).collect();
    let mut row = soiled.clone();
    let answer = watched(size, |out| call(out, &mut row));
    let filled = answer.as_ref().map_or(0, |record| bases_of(record).len());
    assert_eq!(row[filled..], soiled[filled..]);
    row.truncate(filled);
    answer.map(|record| (record, row))
}

/// Like [`watched_row`], and tries the sizes and the rows that just fit and just do not.
fn watched_rows(call: impl Fn(&mut [u8], &mut [u32]) -> Result<usize, Refusal>) -> Rowed {
    let mut room = ROOM;
    let mut answer = watched_row(room, 40, &call);
    if let Err((17, needed)) = answer {
        room = needed as usize + 1;
        answer = watched_row(room, 40, &call);
    }
    let Ok((record, row)) = &answer else {
        assert_eq!(watched_row(0, 0, &call), answer);
        return answer;
    };
    let (bytes, places) = (record.len(), row.len());
    assert_eq!(watched_row(bytes, places, &call), answer);
    for slots in 0..places {
        let too_short = Err((17, places as u32));
        assert_eq!(watched_row(bytes, slots, &call), too_short);
        assert_eq!(watched_row(room, slots, &call), too_short);
    }
    for slots in [0, places, places + 1] {
        let too_short = Err((17, bytes as u32));
        assert_eq!(watched_row(bytes - 1, slots, &call), too_short);
        assert_eq!(watched_row(0, slots, &call), too_short);
    }
    answer
}

/// The record of a command and the row of its offsets, or the refusal: as [`read`] answers.
#[track_caller]
pub fn read_row(text: &str, bases: &str) -> Rowed {
    let (bytes, letters) = (text.as_bytes(), bases.as_bytes());
    let answer = watched_rows(|out, row| model::read_row(bytes, letters, out, row));
    let alone = answer.clone().map(|(record, _)| record);
    assert_eq!(alone, read(text, bases), "{text}");
    answer
}

/// Order `k` of a record and the row of its offsets, or the refusal: as [`order`] answers.
#[track_caller]
pub fn order_row(record: &[u8], k: u64) -> Rowed {
    let answer = watched_rows(|out, row| model::order_row(record, k, out, row));
    let alone = answer.clone().map(|(order, _)| order);
    assert_eq!(alone, order(record, k), "{record:?}");
    answer
}

/// The fields of a place by a row, or the refusal. They must be a part of the record itself, and
/// begin where the slot says.
#[track_caller]
pub fn place<'r>(record: &'r [u8], row: &[u32], place: u32) -> Result<&'r [u8], (u8, u32)> {
    let answer = model::place(record, row, place);
    if let Ok(fields) = answer {
        let offset = fields.as_ptr() as usize - record.as_ptr() as usize;
        assert_eq!(row[place as usize], offset as u32);
        assert!(offset + fields.len() <= record.len());
    }
    answer.map_err(|refusal| (refusal.number, refusal.place))
}

/// The unit fields of an argument as it is typed in a place of this base.
#[track_caller]
pub fn argument(text: &str, base: &str) -> Vec<u8> {
    let before = group_in_place(1, b'D', &[single()]).len();
    record(&format!("A:{text};"), base).split_off(before)
}

/// Expects a value, in the one place of the command `A`, to name these arguments.
#[track_caller]
pub fn names(value: &str, arguments: &[&str]) {
    let expected: Vec<String> = arguments.iter().map(|a| format!("A:{a};")).collect();
    assert_eq!(orders(&format!("A:{value};"), ""), expected, "{value}");
}

/// Expects a record not to be well formed, whatever the call.
#[track_caller]
pub fn not_well_formed(record: &[u8]) {
    assert_eq!(print(record), Err((18, 0)), "{record:?}");
    assert_eq!(count(record), Err((18, 0)), "{record:?}");
    assert_eq!(order(record, 0), Err((18, 0)), "{record:?}");
    assert_eq!(list(record), Err((18, 0)), "{record:?}");
    assert_eq!(order_row(record, 0), Err((18, 0)), "{record:?}");
    for number in [0, u32::MAX] {
        assert_eq!(member(record, number, b""), Err((18, 0)), "{record:?}");
        assert_eq!(place(record, &[], number), Err((18, 0)), "{record:?}");
    }
}

/// The letters of a record's places.
pub fn bases_of(record: &[u8]) -> Vec<u8> {
    fields(record)
        .into_iter()
        .filter(|(tag, _)| *tag == 3)
        .map(|(_, content)| content[0])
        .collect()
}

/// The fields of a record, tag and content.
pub fn fields(mut record: &[u8]) -> Vec<(u8, Vec<u8>)> {
    let mut fields = Vec::new();
    while let [tag, high, low, rest @ ..] = record {
        let length = *high as usize * 256 + *low as usize;
        fields.push((*tag, rest[..length].to_vec()));
        record = &rest[length..];
    }
    fields
}

/// One field.
pub fn field(tag: u8, content: &[u8]) -> Vec<u8> {
    let mut field = vec![tag, (content.len() >> 8) as u8, content.len() as u8];
    field.extend_from_slice(content);
    field
}

/// A numeral's field.
pub fn numeral(letter: u8, fraction: u8, value: u32) -> Vec<u8> {
    let mut content = vec![letter, fraction];
    content.extend_from_slice(&value.to_be_bytes());
    field(7, &content)
}

/// A range element's field.
pub fn range(upper: u32, increment: u32) -> Vec<u8> {
    let mut content = upper.to_be_bytes().to_vec();
    content.extend_from_slice(&increment.to_be_bytes());
    field(6, &content)
}

/// A single element's field.
pub fn single() -> Vec<u8> {
    field(5, b"")
}

/// A record that says so many orders before these fields.
pub fn counted(orders: u32, rest: &[Vec<u8>]) -> Vec<u8> {
    [field(12, &orders.to_be_bytes()), rest.concat()].concat()
}

/// A record that says one order before these fields.
pub fn one(rest: &[Vec<u8>]) -> Vec<u8> {
    counted(1, rest)
}

/// The command `A` with one place of this base, its fields behind the place's, and one order.
pub fn in_place(base: u8, rest: &[Vec<u8>]) -> Vec<u8> {
    group_in_place(1, base, rest)
}

/// The command `A` with one place of this base, its fields behind the place's, and so many
/// orders.
pub fn group_in_place(orders: u32, base: u8, rest: &[Vec<u8>]) -> Vec<u8> {
    let start = [field(1, b"A"), field(2, b"P"), field(3, &[base])];
    counted(orders, &[start.concat(), rest.concat()])
}

/// The command `A` with one place of this base whose value is this one unit.
pub fn with_unit(base: u8, unit: Vec<u8>) -> Vec<u8> {
    in_place(base, &[single(), unit])
}

/// Bytes from hexadecimal digits; spaces are nothing.
pub fn hex(digits: &str) -> Vec<u8> {
    let digits: Vec<u32> = digits.chars().filter_map(|c| c.to_digit(16)).collect();
    digits.chunks(2).map(|d| (d[0] * 16 + d[1]) as u8).collect()
}
