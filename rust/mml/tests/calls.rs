//! The ten calls through the wrapper.

use std::mem::{align_of, offset_of, size_of};

use mml::{Keeper, Refusal, KEY_BS, KEY_CAN};

const TEXT: &[u8] = b"SET-ATT:LIN=7-1&&-3,LEV=3.5;";

fn record() -> Vec<u8> {
    let mut out = vec![0; mml::RECORD_MAX];
    let length = mml::read(TEXT, b"DD", &mut out).unwrap();
    out.truncate(length);
    out
}

#[test]
fn read_and_print() {
    let record = record();
    assert_eq!(record.len(), 84);
    assert_eq!(&record[..7], &[12, 0, 4, 0, 0, 0, 3]);
    assert_eq!(&record[7..13], &[1, 0, 3, b'S', b'E', b'T']);
    let mut text = [0; mml::TEXT_MAX];
    let length = mml::print(&record, &mut text).unwrap();
    assert_eq!(&text[..length], TEXT);
}

#[test]
fn numerals_in_small_letters() {
    let mut record = [0; 128];
    let length = mml::read(b"A:h'ff&k'1d#*&cafe;", b"", &mut record).unwrap();
    let mut text = [0; mml::TEXT_MAX];
    let length = mml::print(&record[..length], &mut text).unwrap();
    assert_eq!(&text[..length], b"A:H'FF&K'1D#*&cafe;");
    let small_base = mml::read(b"A:ff;", b"h", &mut record);
    assert_eq!(small_base, Err(Refusal::BaseLetter(0)));
}

#[test]
fn count_and_order() {
    let record = record();
    assert_eq!(mml::count(&record), Ok(3));
    let mut order = vec![0; record.len()];
    let mut text = [0; mml::TEXT_MAX];
    for k in 0..3 {
        let length = mml::order(&record, k, &mut order).unwrap();
        assert_eq!(mml::count(&order[..length]), Ok(1));
        let length = mml::print(&order[..length], &mut text).unwrap();
        let expected = format!("SET-ATT:LIN=7-{},LEV=3.5;", k + 1);
        assert_eq!(&text[..length], expected.as_bytes());
    }
}

/// The list of a record, in a buffer that just fits.
fn list(record: &[u8]) -> Vec<u8> {
    let Err(Refusal::BufferTooShort(needed)) = mml::list(record, &mut []) else {
        panic!("the list needs no byte");
    };
    let mut out = vec![0; needed as usize];
    assert_eq!(mml::list(record, &mut out), Ok(out.len()));
    out
}

#[test]
fn the_pieces_of_a_list_are_the_orders() {
    let record = record();
    let list = list(&record);
    let mut order = vec![0; record.len()];
    let mut at = 0;
    let mut pieces = mml::pieces(&list);
    for k in 0..3 {
        let length = mml::order(&record, k, &mut order).unwrap();
        let head = [14, 0, 4, 0, 0, 0, length as u8];
        assert_eq!(list[at..at + 7], head);
        assert_eq!(pieces.next(), Some(&order[..length]));
        at += 7 + length;
        assert_eq!(pieces.rest(), &list[at..]);
    }
    assert_eq!(pieces.next(), None);
    assert_eq!(at, list.len());
}

#[test]
fn a_list_of_many_orders() {
    let mut record = [0; 128];
    let length = mml::read(b"A:0&&4094,0&&15;", b"", &mut record).unwrap();
    let record = &record[..length];
    let list = list(record);
    assert_eq!(list.len(), 65_520 * 54);
    let mut order = [0; 128];
    for (k, piece) in mml::pieces(&list).enumerate() {
        let length = mml::order(record, k as u64, &mut order).unwrap();
        assert_eq!(piece, &order[..length]);
    }
    assert_eq!(mml::pieces(&list).count(), 65_520);
}

#[test]
fn a_list_leaves_the_rest_of_the_buffer() {
    let record = record();
    let list = list(&record);
    let mut out = vec![7; list.len() + 5];
    assert_eq!(mml::list(&record, &mut out), Ok(list.len()));
    assert_eq!(out[..list.len()], list);
    assert_eq!(out[list.len()..], [7; 5]);
}

#[test]
fn bytes_that_are_no_pieces_end_the_walk() {
    let list = list(&record());
    let first = mml::pieces(&list).next().unwrap();
    let behind = 7 + first.len();
    for length in behind..2 * behind {
        let mut pieces = mml::pieces(&list[..length]);
        assert_eq!(pieces.next(), Some(first));
        assert_eq!(pieces.next(), None);
        assert_eq!(pieces.next(), None);
        assert_eq!(pieces.rest(), &list[behind..length]);
    }
    for at in 0..7 {
        let mut broken = list.clone();
        broken[behind + at] ^= 0x80;
        let mut pieces = mml::pieces(&broken);
        assert_eq!(pieces.next(), Some(first));
        assert_eq!(pieces.next(), None);
    }
    assert_eq!(mml::pieces(b"").next(), None);
    assert_eq!(mml::pieces(&record()).next(), None);
    let empty = [14, 0, 4, 0, 0, 0, 0];
    assert_eq!(mml::pieces(&empty).next(), Some(&b""[..]));
    assert_eq!(mml::pieces(&empty).count(), 1);
}

/// The unit fields of an argument of decimal numerals.
fn numerals(values: &[u32]) -> Vec<u8> {
    let unit = |value: &u32| [&[7, 0, 6, b'D', 0][..], &value.to_be_bytes()].concat();
    values.iter().flat_map(unit).collect()
}

#[test]
fn where_an_argument_stands_in_a_place() {
    let record = record();
    for (number, position) in [
        (0, None),
        (1, Some(0)),
        (2, Some(1)),
        (3, Some(2)),
        (4, None),
    ] {
        let argument = numerals(&[7, number]);
        assert_eq!(mml::member(&record, 0, &argument), Ok(position));
        assert_eq!(mml::member(&record, 1, &argument), Ok(None));
    }
    assert_eq!(mml::member(&record, 0, &numerals(&[2])), Ok(None));
    let level = &record[record.len() - 9..];
    assert_eq!(mml::member(&record, 1, level), Ok(Some(0)));
    assert_eq!(mml::member(&record, 1, &numerals(&[35])), Ok(None));
}

#[test]
fn the_last_of_as_many_arguments_as_there_may_be() {
    let mut record = [0; 128];
    let length = mml::read(b"A:,0&&4095;", b"", &mut record).unwrap();
    let record = &record[..length];
    assert_eq!(mml::member(record, 1, &numerals(&[4095])), Ok(Some(4095)));
    assert_eq!(mml::member(record, 1, &numerals(&[4096])), Ok(None));
}

#[test]
fn every_refusal_of_member() {
    let mut record = record();
    let argument = numerals(&[7, 1]);
    for place in [2, 32, 1 << 16, u32::MAX] {
        let answer = mml::member(&record, place, b"");
        assert_eq!(answer, Err(Refusal::NoPlace(place)));
    }
    for argument in [&b""[..], b"x", &argument[..17], &argument.repeat(3)] {
        let answer = mml::member(&record, 0, argument);
        assert_eq!(answer, Err(Refusal::Argument(0)));
    }
    record[6] = 4;
    assert_eq!(mml::member(&record, 2, b""), Err(Refusal::Record(0)));
    let mut omitted = [0; 128];
    let length = mml::read(b"A:,5;", b"", &mut omitted).unwrap();
    let answer = mml::member(&omitted[..length], 0, &numerals(&[5]));
    assert_eq!(answer, Err(Refusal::NoPlace(0)));
}

/// The record of a command without base letters, and its row.
fn rowed(text: &[u8]) -> (Vec<u8>, Vec<u32>) {
    let mut out = vec![0; mml::RECORD_MAX];
    let mut row = vec![0; mml::PLACES_MAX];
    let length = mml::read_row(text, b"", &mut out, &mut row).unwrap();
    out.truncate(length);
    row.retain(|&offset| offset > 0);
    (out, row)
}

#[test]
fn a_command_is_read_with_its_row() {
    let (record, row) = rowed(TEXT);
    assert_eq!(record, self::record());
    assert_eq!(row, [23, 62]);
    let (record, row) = rowed(b"A;");
    assert_eq!((record.len(), row.len()), (11, 0));
}

#[test]
fn an_order_is_given_with_its_row() {
    let record = record();
    let mut alone = vec![0; record.len()];
    for k in 0..3 {
        let mut order = vec![0; record.len()];
        let mut row = [7; 3];
        let length = mml::order_row(&record, k, &mut order, &mut row).unwrap();
        assert_eq!(mml::order(&record, k, &mut alone), Ok(length));
        assert_eq!(order, alone);
        assert_eq!(row, [23, 54, 7]);
        assert_eq!(&order[54..58], &[3, 0, 1, b'D']);
    }
}

#[test]
fn as_many_places_as_there_may_be() {
    let text = format!("A:{};", ",".repeat(mml::PLACES_MAX - 1));
    let (record, row) = rowed(text.as_bytes());
    assert_eq!(row.len(), mml::PLACES_MAX);
    assert_eq!(mml::place(&record, &row, 31), Ok(&b"\x03\0\x01D"[..]));
    let mut out = [7; 200];
    let mut short = [9; mml::PLACES_MAX - 1];
    let read = mml::read_row(text.as_bytes(), b"", &mut out, &mut short);
    assert_eq!(read, Err(Refusal::BufferTooShort(32)));
    let order = mml::order_row(&record, 0, &mut out, &mut short);
    assert_eq!(order, Err(Refusal::BufferTooShort(32)));
    assert_eq!((out, short), ([7; 200], [9; mml::PLACES_MAX - 1]));
}

#[test]
fn the_fields_of_a_place_are_a_part_of_the_record() {
    let (record, row) = rowed(TEXT);
    let long = [&row[..], &[0, u32::MAX]].concat();
    for row in [&row, &long] {
        let line = mml::place(&record, row, 0).unwrap();
        let level = mml::place(&record, row, 1).unwrap();
        assert_eq!(line.as_ptr_range(), record[23..62].as_ptr_range());
        assert_eq!(level.as_ptr_range(), record[62..].as_ptr_range());
    }
    let (record, row) = rowed(b"A:,5:;");
    let lengths = [0, 1, 2].map(|place| mml::place(&record, &row, place).map(<[u8]>::len));
    assert_eq!(lengths, [Ok(4), Ok(16), Ok(4)]);
}

/// The part lives as long as the record, not as the row.
#[test]
fn a_row_may_go_before_the_part() {
    let record = record();
    let level = {
        let row = [23, 62];
        mml::place(&record, &row, 1).unwrap()
    };
    assert_eq!(level[4..10], [4, 0, 3, b'L', b'E', b'V']);
}

#[test]
fn every_refusal_of_place() {
    let (mut record, row) = rowed(b"A:5,6:,N;");
    for slots in 0..row.len() {
        let answer = mml::place(&record, &row[..slots], 4);
        assert_eq!(answer, Err(Refusal::Row(slots as u32)));
        let mut wrong = row.clone();
        wrong[slots] ^= 1 << 31;
        wrong[3] = 0;
        let answer = mml::place(&record, &wrong, 0);
        assert_eq!(answer, Err(Refusal::Row(slots as u32)));
    }
    for place in [4, 32, 1 << 16, u32::MAX] {
        let answer = mml::place(&record, &row, place);
        assert_eq!(answer, Err(Refusal::NoPlace(place)));
    }
    record[6] = 2;
    assert_eq!(mml::place(&record, &row, 0), Err(Refusal::Record(0)));
    assert_eq!(mml::place(&record, &[], 4), Err(Refusal::Record(0)));
}

#[test]
fn the_bytes_needed_go_before_the_slots_needed() {
    let record = record();
    let mut out = [7; 84];
    let mut row = [9; 2];
    for (room, slots, needed) in [(0, 0, 84), (83, 1, 84), (83, 2, 84), (84, 0, 2), (84, 1, 2)] {
        let (out, row) = (&mut out[..room], &mut row[..slots]);
        let too_short = Err(Refusal::BufferTooShort(needed));
        assert_eq!(mml::read_row(TEXT, b"DD", out, row), too_short);
    }
    for (room, slots, needed) in [(0, 0, 76), (75, 2, 76), (76, 1, 2)] {
        let (out, row) = (&mut out[..room], &mut row[..slots]);
        let too_short = Err(Refusal::BufferTooShort(needed));
        assert_eq!(mml::order_row(&record, 2, out, row), too_short);
    }
    let order = mml::order_row(&record, 3, &mut [], &mut []);
    assert_eq!(order, Err(Refusal::NoOrder(3)));
    let read = mml::read_row(b"A:9&&5;", b"", &mut out, &mut row);
    assert_eq!(read, Err(Refusal::Group(5)));
    assert_eq!((out, row), ([7; 84], [9; 2]));
}

#[test]
fn the_number_of_orders_that_a_record_begins_with() {
    let mut record = record();
    let mut text = [0; mml::TEXT_MAX];
    assert_eq!(mml::count(&record[7..]), Err(Refusal::Record(0)));
    for wrong in [0, 2, 4] {
        record[6] = wrong;
        assert_eq!(mml::count(&record), Err(Refusal::Record(0)));
        assert_eq!(mml::print(&record, &mut text), Err(Refusal::Record(0)));
        assert_eq!(mml::order(&record, 0, &mut text), Err(Refusal::Record(0)));
        assert_eq!(mml::list(&record, &mut text), Err(Refusal::Record(0)));
        assert_eq!(mml::member(&record, 0, &[]), Err(Refusal::Record(0)));
        let order = mml::order_row(&record, 0, &mut text, &mut []);
        assert_eq!(order, Err(Refusal::Record(0)));
        assert_eq!(mml::place(&record, &[], 0), Err(Refusal::Record(0)));
    }
}

#[test]
fn a_refused_call_writes_nothing() {
    let mut out = [7; 83];
    let read = mml::read(TEXT, b"DD", &mut out);
    assert_eq!(read, Err(Refusal::BufferTooShort(84)));
    assert_eq!(mml::print(b"", &mut out), Err(Refusal::Record(0)));
    let order = mml::order(&record(), 3, &mut out);
    assert_eq!(order, Err(Refusal::NoOrder(3)));
    assert_eq!(mml::count(b"x"), Err(Refusal::Record(0)));
    let needed = list(&record()).len() as u32;
    let list = mml::list(&record(), &mut out);
    assert_eq!(list, Err(Refusal::BufferTooShort(needed)));
    assert_eq!(mml::list(b"x", &mut out), Err(Refusal::Record(0)));
    assert_eq!(out, [7; 83]);
}

/// The reader's answer to a text without base letters, in a buffer of no bytes.
fn refusal(text: &str) -> Refusal {
    mml::read(text.as_bytes(), b"", &mut []).unwrap_err()
}

#[test]
fn every_refusal_of_the_reader() {
    let bases = [b'D'; mml::BASES_MAX + 1];
    let base_letter = mml::read(b"A;", &bases, &mut []);
    assert_eq!(base_letter, Err(Refusal::BaseLetter(32)));
    let long = " ".repeat(mml::TEXT_MAX + 1);
    assert_eq!(refusal(&long), Refusal::TextTooLong(1024));
    for key in ["\u{1}", "\u{8}", "\u{18}"] {
        let text = format!("A{key};");
        assert_eq!(refusal(&text), Refusal::ByteNotPermitted(1));
    }
    assert_eq!(refusal("A:\"x;"), Refusal::NotClosed(2));
    assert_eq!(refusal("A/B;"), Refusal::NoToken(1));
    assert_eq!(refusal(""), Refusal::NoEnd(0));
    assert_eq!(refusal("A;B"), Refusal::AfterEnd(2));
    assert_eq!(refusal("1;"), Refusal::Code(0));
    assert_eq!(refusal("A:B=3,5;"), Refusal::Kind(6));
    assert_eq!(refusal("A:=1;"), Refusal::Name(2));
    assert_eq!(refusal("A:LEV=3,LEV=4;"), Refusal::NameTwice(8));
    assert_eq!(refusal("A:1&;"), Refusal::Alternation(4));
    assert_eq!(refusal("A:1.;"), Refusal::Unit(2));
    assert_eq!(refusal("A:4294967296;"), Refusal::NumeralTooBig(2));
    assert_eq!(refusal("A:9&&5;"), Refusal::Group(5));
    assert_eq!(refusal("A:::::::::;"), Refusal::Limit(9));
    assert_eq!(refusal("A:0&&4096;"), Refusal::TooMany(2));
    assert_eq!(refusal("A;"), Refusal::BufferTooShort(11));
}

#[test]
fn every_number_has_its_refusal() {
    let mut sentences = Vec::new();
    for number in (1..=21).chain(26..=28) {
        let refusal = Refusal::new(number, 5);
        assert!(!matches!(refusal, Refusal::Unknown(..)));
        assert_eq!((refusal.number(), refusal.place()), (number, 5));
        assert!(!sentences.contains(&refusal.sentence()));
        sentences.push(refusal.sentence());
    }
    for number in [0, 22, 25, 29, 270, u32::MAX] {
        let refusal = Refusal::new(number, 5);
        assert_eq!(refusal, Refusal::Unknown(number, 5));
        assert_eq!((refusal.number(), refusal.place()), (number, 5));
    }
}

#[test]
fn a_refusal_is_shown() {
    let shown = Refusal::Group(5).to_string();
    assert_eq!(shown, "refusal 14 at 5: a rule of grouping is broken");
    let shown = Refusal::Unknown(270, 5).to_string();
    assert_eq!(shown, "refusal 270 at 5: no refusal has this number");
    let error: Box<dyn std::error::Error> = Box::new(Refusal::NoEnd(0));
    assert_eq!(error.to_string(), "refusal 6 at 0: the command has no `;`");
}

#[test]
fn empty_slices_may_stand_anywhere() {
    assert_eq!(mml::read(&[], &[], &mut []), Err(Refusal::NoEnd(0)));
    assert_eq!(mml::print(&[], &mut []), Err(Refusal::Record(0)));
    assert_eq!(mml::order(&[], 0, &mut []), Err(Refusal::Record(0)));
    assert_eq!(mml::count(&[]), Err(Refusal::Record(0)));
    assert_eq!(mml::list(&[], &mut []), Err(Refusal::Record(0)));
    assert_eq!(mml::member(&[], 0, &[]), Err(Refusal::Record(0)));
    assert_eq!(mml::member(&record(), 0, &[]), Err(Refusal::Argument(0)));
    let read = mml::read_row(&[], &[], &mut [], &mut []);
    assert_eq!(read, Err(Refusal::NoEnd(0)));
    let order = mml::order_row(&[], 0, &mut [], &mut []);
    assert_eq!(order, Err(Refusal::Record(0)));
    assert_eq!(mml::place(&[], &[], 0), Err(Refusal::Record(0)));
    assert_eq!(mml::place(&record(), &[], 0), Err(Refusal::Row(0)));
}

/// Takes keys to a keeper, all of which must be taken; gives whether the line is ready behind the
/// last.
fn takes(keeper: &mut Keeper, keys: &[u8]) -> bool {
    let mut ready = false;
    for &key in keys {
        ready = keeper.key(key).unwrap();
    }
    ready
}

#[test]
fn a_keeper_is_laid_out_as_in_c() {
    assert_eq!(size_of::<Keeper>(), 1028);
    assert_eq!(align_of::<Keeper>(), align_of::<u32>());
    assert_eq!(offset_of!(Keeper, bytes), 0);
    assert_eq!(offset_of!(Keeper, count), 1024);
}

#[test]
fn a_new_keeper_holds_nothing() {
    static KEEPER: Keeper = Keeper::new();
    assert_eq!(KEEPER.line(), b"");
    assert_eq!(Keeper::default().line(), b"");
    let mut keeper = KEEPER.clone();
    assert_eq!(keeper.key(KEY_BS), Ok(false));
    assert_eq!(keeper.key(KEY_CAN), Ok(false));
    assert_eq!(keeper.line(), b"");
}

#[test]
fn keys_correct_a_line() {
    let mut keeper = Keeper::new();
    assert!(!takes(&mut keeper, b"SETT"));
    assert_eq!(keeper.key(KEY_BS), Ok(false));
    assert_eq!(keeper.line(), b"SET");
    assert_eq!(keeper.key(KEY_CAN), Ok(false));
    assert_eq!(keeper.line(), b"");
    assert!(takes(&mut keeper, TEXT));
    assert_eq!(keeper.line(), TEXT);
    let mut out = vec![0; mml::RECORD_MAX];
    let length = mml::read(keeper.line(), b"DD", &mut out).unwrap();
    assert_eq!(out[..length], record());
}

#[test]
fn the_key_behind_a_ready_line_starts_an_empty_one() {
    for (key, line) in [
        (b'B', &b"B"[..]),
        (b';', b";"),
        (KEY_BS, b""),
        (KEY_CAN, b""),
    ] {
        let mut keeper = Keeper::new();
        assert!(takes(&mut keeper, b"A:1;"));
        assert_eq!(keeper.key(key), Ok(key == b';'));
        assert_eq!(keeper.line(), line);
    }
}

#[test]
fn string_and_comment_are_judged_on_the_bytes_held() {
    for (keys, ready) in [
        (&b"\"\x08;"[..], true),
        (b"/x\x08*;", false),
        (b"/ *;", true),
        (b"/*/;", false),
        (b"A:\"x;\"\"y\";", true),
        (b"$@)/;", true),
    ] {
        assert_eq!(takes(&mut Keeper::new(), keys), ready);
    }
}

#[test]
fn a_keeper_that_the_program_filled() {
    let mut keeper = Keeper::new();
    keeper.bytes[..4].copy_from_slice(b"A;B;");
    keeper.count = 4;
    assert!(!takes(&mut keeper, b"C"));
    assert_eq!(keeper.line(), b"A;B;C");
    assert!(!takes(&mut keeper, &[KEY_BS; 2]));
    assert_eq!(keeper.key(KEY_BS), Ok(true));
    assert_eq!(keeper.line(), b"A;");
}

#[test]
fn a_key_that_is_not_taken_changes_nothing() {
    let mut keeper = Keeper::new();
    assert!(!takes(&mut keeper, &[b'A'; mml::TEXT_MAX]));
    for key in *b"A;\"" {
        assert_eq!(keeper.key(key), Err(Refusal::NoKey(1024)));
        assert_eq!(keeper.line(), [b'A'; mml::TEXT_MAX]);
    }
    assert_eq!(keeper.key(KEY_BS), Ok(false));
    assert_eq!(keeper.key(b';'), Ok(true));
    assert_eq!(keeper.line().len(), mml::TEXT_MAX);
    assert_eq!(keeper.key(b'B'), Ok(false));
    assert_eq!(keeper.line(), b"B");
}

#[test]
fn a_keeper_whose_count_passes_its_bytes_takes_no_key() {
    for count in [1025, 1 << 16, u32::MAX] {
        let mut keeper = Keeper::new();
        keeper.count = count;
        for key in [b'A', b';', KEY_BS, KEY_CAN] {
            assert_eq!(keeper.key(key), Err(Refusal::NoKey(1024)));
            assert_eq!(keeper.count, count);
            assert_eq!(keeper.line(), [0; mml::TEXT_MAX]);
        }
    }
}
