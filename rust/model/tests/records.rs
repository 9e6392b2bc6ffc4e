//! Which records are well formed.

mod common;

use common::*;

#[track_caller]
fn well_formed(record: &[u8]) {
    assert!(count(record).is_ok(), "{record:?}");
    let text = print(record).unwrap();
    let bases = bases_of(record);
    let again = read_bytes(text.as_bytes(), &bases);
    assert_eq!(again.as_deref(), Ok(record), "{text}");
}

fn code(pieces: usize) -> Vec<u8> {
    field(1, b"A").repeat(pieces)
}

fn named(rest: &[Vec<u8>]) -> Vec<u8> {
    let start = [field(1, b"A"), field(2, b"N"), field(3, b"D")];
    one(&[start.concat(), rest.concat()])
}

fn five() -> Vec<u8> {
    numeral(b'D', 0, 5)
}

#[test]
fn codes() {
    not_well_formed(b"");
    not_well_formed(&one(&[]));
    for pieces in 1..=3 {
        well_formed(&one(&[code(pieces)]));
    }
    not_well_formed(&one(&[code(4)]));
    for piece in [&b""[..], b"1", b"A#", b"A ", b"+", b"A'1", &[b'A'; 33]] {
        not_well_formed(&one(&[field(1, piece)]));
    }
    well_formed(&one(&[field(1, &[b'A'; 32])]));
    not_well_formed(&in_place(b'D', &[field(1, b"A")]));
}

#[test]
fn fields_cut_off_or_left_over() {
    let whole = record("SET-ATT:LIN=7-1&&-3,LEV=3.5;", "DD");
    let mut ends = vec![0];
    for (_, content) in fields(&whole) {
        ends.push(ends[ends.len() - 1] + 3 + content.len());
    }
    for length in 0..whole.len() {
        let cut = &whole[..length];
        if !ends.contains(&length) {
            not_well_formed(cut);
        }
    }
    not_well_formed(&[&whole[..], &[0]].concat());
    not_well_formed(&[&whole[..], &whole[..]].concat());
}

#[test]
fn tags() {
    for tag in (0..=255u8).filter(|tag| *tag != 1) {
        not_well_formed(&one(&[field(tag, b"A")]));
        if tag != 2 {
            not_well_formed(&one(&[field(1, b"A"), field(tag, b"P")]));
        }
    }
    for tag in (0..=255u8).filter(|tag| !(7..=11).contains(tag)) {
        not_well_formed(&with_unit(b'D', field(tag, b"D\0\0\0\0\x05")));
    }
}

#[test]
fn lengths_use_both_bytes() {
    let mut long = field(1, b"A");
    long[1] = 1;
    not_well_formed(&one(&[long]));
    not_well_formed(&one(&[field(1, &[b'A'; 257])]));
    not_well_formed(&with_unit(b'D', field(11, &[b'x'; 257])));
}

#[test]
fn blocks() {
    not_well_formed(&one(&[code(1), field(2, b"P")]));
    for letter in [&b""[..], b"p", b"n", b"D", b"PP"] {
        not_well_formed(&one(&[code(1), field(2, letter), field(3, b"D")]));
    }
    let block = [field(2, b"P"), field(3, b"D")].concat();
    well_formed(&one(&[code(1), block.repeat(8)]));
    not_well_formed(&one(&[code(1), block.repeat(9)]));
}

#[test]
fn places() {
    for letter in *b"DHOBK" {
        well_formed(&in_place(letter, &[]));
    }
    for letter in [&b""[..], b"d", b"P", b"DD"] {
        not_well_formed(&one(&[code(1), field(2, b"P"), field(3, letter)]));
    }
    let places = |number| one(&[code(1), field(2, b"P"), field(3, b"D").repeat(number)]);
    well_formed(&places(32));
    not_well_formed(&places(33));
}

#[test]
fn names_of_places() {
    well_formed(&named(&[field(4, b"N"), single(), five()]));
    let four = [field(4, b"N"), field(4, b"1").repeat(3), single(), five()];
    well_formed(&named(&four));
    let five_pieces = [field(4, b"N"), field(4, b"1").repeat(4), single(), five()];
    not_well_formed(&named(&five_pieces));
    not_well_formed(&named(&[field(4, b"N")]));
    not_well_formed(&named(&[single(), five()]));
    not_well_formed(&named(&[]));
    not_well_formed(&named(&[field(4, b"1"), single(), five()]));
    not_well_formed(&in_place(b'D', &[field(4, b"N"), single(), five()]));
    for piece in [&b""[..], b"1A", b"#", b"1.5", b"H'1", &[b'1'; 33]] {
        let pieces = [field(4, b"N"), field(4, piece), single(), five()];
        not_well_formed(&named(&pieces));
    }
    let zeros = [field(4, b"N"), field(4, &[b'0'; 32]), single(), five()];
    well_formed(&named(&zeros));
}

#[test]
fn elements() {
    not_well_formed(&in_place(b'D', &[single()]));
    not_well_formed(&in_place(b'D', &[five()]));
    not_well_formed(&in_place(b'D', &[field(5, b"x"), five()]));
    let elements = |number| {
        let elements = [single(), five()].concat().repeat(number);
        group_in_place(number as u32, b'D', &[elements])
    };
    well_formed(&elements(64));
    not_well_formed(&elements(65));
}

#[test]
fn units_of_arguments() {
    let units = |number| in_place(b'D', &[single(), five().repeat(number)]);
    for number in 1..=4 {
        well_formed(&units(number));
    }
    not_well_formed(&units(5));
    let two = |first, second| {
        let first = [single(), five().repeat(first)].concat();
        let second = [single(), five().repeat(second)].concat();
        group_in_place(2, b'D', &[first, second])
    };
    well_formed(&two(2, 2));
    not_well_formed(&two(1, 2));
    not_well_formed(&two(2, 1));
}

#[test]
fn ranges() {
    let ranged = |orders, upper, increment, lower| {
        group_in_place(orders, b'D', &[range(upper, increment), lower])
    };
    well_formed(&ranged(1, 5, 1, five()));
    well_formed(&ranged(1, 9, 7, five()));
    well_formed(&ranged(1, u32::MAX, u32::MAX, five()));
    well_formed(&ranged(1, 9, 7, numeral(b'B', 0, 5)));
    not_well_formed(&ranged(0, 4, 1, five()));
    not_well_formed(&ranged(1, 4, 1, five()));
    not_well_formed(&ranged(1, 9, 0, five()));
    not_well_formed(&ranged(5, 9, 1, numeral(b'D', 1, 5)));
    not_well_formed(&ranged(1, 9, 1, field(9, b"A")));
    not_well_formed(&group_in_place(5, b'K', &[range(9, 1), field(8, b"5")]));
    let ended = |units: [Vec<u8>; 2]| group_in_place(5, b'D', &[range(9, 1), units.concat()]);
    not_well_formed(&ended([five(), field(9, b"A")]));
    well_formed(&ended([field(9, b"A"), five()]));
    for length in [0, 4, 7, 9] {
        let field = field(6, &vec![1; length]);
        not_well_formed(&in_place(b'D', &[field, numeral(b'D', 0, 0)]));
    }
    well_formed(&ranged(4096, 4100, 1, five()));
    not_well_formed(&ranged(4097, 4101, 1, five()));
    not_well_formed(&ranged(0, u32::MAX, 1, numeral(b'D', 0, 0)));
}

#[test]
fn numerals() {
    for letter in 0..=255u8 {
        let record = with_unit(b'D', numeral(letter, 0, 5));
        if b"DHOB".contains(&letter) {
            well_formed(&record);
        } else {
            not_well_formed(&record);
        }
    }
    for value in [0, 1, 9, 10, 255, 256, 4_294_967_295] {
        for base in *b"DHOB" {
            for letter in *b"DHOB" {
                well_formed(&with_unit(base, numeral(letter, 0, value)));
            }
            for fraction in 1..=9 {
                well_formed(&with_unit(base, numeral(b'D', fraction, value)));
            }
        }
    }
    for letter in *b"DHOB" {
        not_well_formed(&with_unit(b'K', numeral(letter, 0, 5)));
    }
    for length in [0, 5, 7] {
        not_well_formed(&with_unit(b'D', field(7, &b"D\0\0\0\0\0\0"[..length])));
    }
}

#[test]
fn words() {
    for base in *b"DHOBK" {
        for byte in 0..=255u8 {
            for word in [
                vec![byte],
                vec![b'G', byte],
                vec![b'0', byte],
                vec![b'A', byte],
            ] {
                for tag in 8..=10 {
                    word_under(base, tag, &word);
                }
            }
        }
        for tag in 8..=10 {
            not_well_formed(&with_unit(base, field(tag, b"")));
        }
        well_formed(&with_unit(base, field(9, &[b'G'; 32])));
        not_well_formed(&with_unit(base, field(9, &[b'G'; 33])));
        well_formed(&with_unit(base, field(10, &[b'%'; 32])));
        not_well_formed(&with_unit(base, field(10, &[b'%'; 33])));
    }
}

/// A word's field is well formed under a base if and only if the word is read so.
#[track_caller]
fn word_under(base: u8, tag: u8, word: &[u8]) {
    let record = with_unit(base, field(tag, word));
    let prefix: &[u8] = if tag == 8 && base != b'K' { b"K'" } else { b"" };
    let text = [b"A:", prefix, word, b";"].concat();
    if read_bytes(&text, &[base]).as_ref() == Ok(&record) {
        well_formed(&record);
    } else {
        not_well_formed(&record);
    }
}

#[test]
fn symbolic_names_with_plus_plus() {
    well_formed(&with_unit(b'D', field(10, b"+A+B+")));
    for name in [&b"++"[..], b"A++", b"++A", b"A++B", b"+++"] {
        not_well_formed(&with_unit(b'D', field(10, name)));
    }
}

#[test]
fn strings() {
    for byte in 0..=255u8 {
        let record = with_unit(b'D', field(11, &[b'a', byte]));
        if matches!(byte, 9..=13 | 32..=126) {
            well_formed(&record);
        } else {
            not_well_formed(&record);
        }
    }
    well_formed(&with_unit(b'D', field(11, b"")));
    well_formed(&with_unit(b'D', field(11, &[b'"'; 80])));
    not_well_formed(&with_unit(b'D', field(11, &[b'x'; 81])));
}

#[test]
fn sizes() {
    let ranged = |upper| [range(upper, 1), numeral(b'D', 0, 0)].concat();
    let places = |orders, uppers: &[u32]| {
        let mut parts = vec![code(1), field(2, b"P")];
        for &upper in uppers {
            parts.extend([field(3, b"D"), ranged(upper)]);
        }
        counted(orders, &parts)
    };
    well_formed(&places(4096, &[4095]));
    not_well_formed(&places(4097, &[4096]));
    well_formed(&places(65_535, &[254, 256]));
    not_well_formed(&places(65_536, &[255, 255]));
    not_well_formed(&places(0, &[4095; 32]));
    let two = [range(4094, 1), numeral(b'D', 0, 0), single(), five()];
    well_formed(&group_in_place(4096, b'D', &two));
    let two = [range(4095, 1), numeral(b'D', 0, 0), single(), five()];
    not_well_formed(&group_in_place(4097, b'D', &two));
}

/// No record is longer than this one, and the calls take it.
#[test]
fn the_longest_record() {
    let piece = field(1, &[b'A'; 32]);
    let index = |place: usize| field(4, format!("{place:032}").as_bytes());
    let name = |place| [field(4, &[b'N'; 32]).repeat(3), index(place)].concat();
    let element = [single(), field(11, &[b'x'; 80]).repeat(4)].concat();
    let mut record = counted(61_440, &[piece.repeat(3)]);
    for place in 0..32 {
        if place < 8 {
            record.extend_from_slice(&field(2, b"N"));
        }
        let elements = match place {
            29 | 30 => 64,
            31 => 15,
            _ => 1,
        };
        record.extend_from_slice(&field(3, b"D"));
        record.extend_from_slice(&name(place));
        record.extend_from_slice(&element.repeat(elements));
    }
    assert_eq!(record.len(), 62_372);
    assert_eq!(count(&record), Ok(61_440));
    assert_eq!(print(&record), Err((2, 1024)));
    let order = order(&record, 61_439).unwrap();
    assert_eq!(order.len(), 62_372 - (63 + 63 + 14) * 335);
    let refusal = model::list(&record, &mut []).unwrap_err();
    let needed = 61_440 * (7 + order.len() as u32);
    assert_eq!((refusal.number, refusal.place), (17, needed));
    let argument = &element[single().len()..];
    for place in 0..32 {
        assert_eq!(member(&record, place, argument), Ok(Some(0)));
        assert_eq!(member(&record, place, &argument[83..]), Ok(None));
    }
    assert_eq!(member(&record, 32, argument), Err((26, 32)));
}
