//! Generated records: those of commands, changed in their bytes and in their fields, spliced,
//! and grown past what a text can give. Before most of them stands the number of orders that they
//! have, whatever else is wrong with them.

use std::ops::Range;

use crate::commands::damage;
use crate::names::{self, Name};
use crate::random::Random;

/// A field: tag and content.
pub type Field = (u8, Vec<u8>);

/// The tag of the number of orders, which a record begins with.
pub const COUNT: u8 = 12;

/// A record made of one or two others.
pub fn record(random: &mut Random, one: &[u8], other: &[u8]) -> Vec<u8> {
    match random.below(8) {
        0 => one.to_vec(),
        1 if random.one_in(3) => {
            let mut record = one.to_vec();
            damage(random, &mut record);
            record
        }
        1 => {
            let mut rest = join(&uncounted(one));
            damage(random, &mut rest);
            let count = count(orders(&fields(&rest)));
            [join(&[count]), rest].concat()
        }
        2 => {
            let fields = grown(random);
            counted(random, fields)
        }
        _ => {
            let mut fields = uncounted(one);
            for _ in 0..random.pick(&[1, 1, 1, 2, 3]) {
                change(random, &mut fields, other);
            }
            let mut record = counted(random, fields);
            if random.one_in(20) {
                damage(random, &mut record);
            }
            record
        }
    }
}

/// The field of the number of orders.
pub fn count(orders: u32) -> Field {
    (COUNT, orders.to_be_bytes().to_vec())
}

/// The fields of a record but the number of its orders.
pub fn uncounted(record: &[u8]) -> Vec<Field> {
    let mut fields = fields(record);
    fields.retain(|field| field.0 != COUNT);
    fields
}

/// The record of these fields behind the number of their orders, which is now and then wrong.
fn counted(random: &mut Random, mut fields: Vec<Field>) -> Vec<u8> {
    fields.insert(0, count(orders(&fields)));
    if random.one_in(6) {
        change_count(random, &mut fields);
    }
    join(&fields)
}

/// Changes the number of orders, the first of the fields, or where and how often it stands.
fn change_count(random: &mut Random, fields: &mut Vec<Field>) {
    match random.below(10) {
        0 | 1 => {
            let wrong = random.pick(&[1, u32::MAX]);
            let orders = orders(&fields[1..]);
            fields[0] = count(orders.wrapping_add(wrong));
        }
        2 => change_number(random, &mut fields[0].1),
        3 => {
            fields.remove(0);
        }
        4 | 5 => {
            let count = fields.remove(0);
            let to = random.below(fields.len() + 1);
            fields.insert(to, count);
        }
        6 => fields[0].0 = random.pick(&[0, 1, 2, 3, 7, 11, 13, 14, 255]),
        7 => {
            let length = random.pick(&[0, 1, 2, 3, 5, 6, 8]);
            fields[0].1.resize(length, 1);
        }
        8 => {
            let last = random.pick(&[1, fields.len()]);
            let to = random.between(1, last);
            fields.insert(to, fields[0].clone());
        }
        _ => fields.truncate(1),
    }
}

/// The number of orders of a record with these fields, if it is well formed; of others what can
/// be made of their elements.
pub fn orders(fields: &[Field]) -> u32 {
    let mut orders = 1_u64;
    let mut arguments = 0;
    for (at, (tag, content)) in fields.iter().enumerate() {
        match tag {
            3 => {
                orders = orders.saturating_mul(arguments.max(1));
                arguments = 0;
            }
            5 => arguments += 1,
            6 => arguments += terms(content, &fields[at + 1..]),
            _ => (),
        }
    }
    orders.saturating_mul(arguments.max(1)) as u32
}

/// The number of terms of a range with this content and these fields behind it; 1 if it is none.
fn terms(content: &[u8], behind: &[Field]) -> u64 {
    let units = behind.iter().take_while(|field| is_unit(field));
    let (Ok([a, b, c, d, e, f, g, h]), Some((7, last))) =
        (<[u8; 8]>::try_from(content), units.last())
    else {
        return 1;
    };
    let &[_, _, i, j, k, l] = &last[..] else {
        return 1;
    };
    let upper = u32::from_be_bytes([a, b, c, d]);
    let increment = u32::from_be_bytes([e, f, g, h]);
    let lower = u32::from_be_bytes([i, j, k, l]);
    match upper.checked_sub(lower) {
        Some(span) if increment > 0 => u64::from(span / increment) + 1,
        _ => 1,
    }
}

/// The fields of a record as far as they are whole.
pub fn fields(mut record: &[u8]) -> Vec<Field> {
    let mut fields = Vec::new();
    while let [tag, high, low, rest @ ..] = record {
        let length = u16::from_be_bytes([*high, *low]) as usize;
        if length > rest.len() {
            break;
        }
        fields.push((*tag, rest[..length].to_vec()));
        record = &rest[length..];
    }
    fields
}

/// The record of these fields.
pub fn join(fields: &[Field]) -> Vec<u8> {
    let mut record = Vec::new();
    for (tag, content) in fields {
        record.push(*tag);
        record.extend((content.len() as u16).to_be_bytes());
        record.extend(content);
    }
    record
}

/// Changes the fields in one way.
fn change(random: &mut Random, fields: &mut Vec<Field>, other: &[u8]) {
    if fields.is_empty() {
        fields.push((1, b"A".to_vec()));
    }
    let at = random.below(fields.len());
    match random.below(23) {
        0 => {
            fields.remove(at);
        }
        1 => fields.insert(at, fields[at].clone()),
        2 if at > 0 => fields.swap(at - 1, at),
        3 => {
            let new = field(random);
            fields.insert(at + 1, new);
        }
        4 => fields[at] = field(random),
        5 => fields[at].0 = random.pick(&[0, 1, 2, 3, 4, 5, 6, 7, 8, 9, 10, 11, 12, 13, 255]),
        6 => {
            let mut other = uncounted(other);
            let from = random.below(other.len() + 1);
            other.drain(..from);
            fields.truncate(at + 1);
            fields.extend(other);
        }
        7 => fields.truncate(at + 1),
        8 => repeat_element(random, fields, at),
        9 | 14 => each(random, fields, 3),
        15 => retag(random, fields),
        16 => add_places(random, fields),
        17..=19 => rename(random, fields),
        20..=22 => small_letters(random, fields),
        10 => each(random, fields, 7),
        11 => each(random, fields, 6),
        _ => change_content(random, &mut fields[at]),
    }
}

/// Changes the content of one field with this tag.
fn each(random: &mut Random, fields: &mut [Field], tag: u8) {
    let found: Vec<usize> = (0..fields.len()).filter(|&n| fields[n].0 == tag).collect();
    if !found.is_empty() {
        let at = random.pick(&found);
        change_content(random, &mut fields[at]);
    }
}

/// Gives a place the name of another, or one that is like it.
fn rename(random: &mut Random, fields: &mut Vec<Field>) {
    let names: Vec<Range<usize>> = (0..fields.len())
        .filter(|&at| fields[at].0 == 3)
        .map(|place| name_behind(fields, place))
        .filter(|name| !name.is_empty())
        .collect();
    if names.is_empty() {
        return;
    }
    let (one, other) = (random.below(names.len()), random.below(names.len()));
    let mut name: Name = fields[names[one].clone()]
        .iter()
        .map(|piece| piece.1.clone())
        .collect();
    let usual = name.iter().all(|piece| !piece.is_empty());
    if usual && random.one_in(2) {
        names::change(random, &mut name);
    }
    fields.splice(
        names[other].clone(),
        name.into_iter().map(|piece| (4, piece)),
    );
}

/// Where the pieces of a name stand behind the field of a place.
fn name_behind(fields: &[Field], place: usize) -> Range<usize> {
    let start = place + 1;
    let length = fields[start..]
        .iter()
        .take_while(|field| field.0 == 4)
        .count();
    start..start + length
}

/// Adds a block of omitted places, so that the places are about as many as there may be.
fn add_places(random: &mut Random, fields: &mut Vec<Field>) {
    let places = fields.iter().filter(|field| field.0 == 3).count();
    let wanted = random.between(31, 33);
    fields.push((2, b"P".to_vec()));
    for _ in places..wanted {
        fields.push((3, vec![random.pick(b"DHOBK")]));
    }
}

/// Makes a unit one of another kind, with a word that bases read in different ways.
pub fn retag(random: &mut Random, fields: &mut [Field]) {
    let words: [&[u8]; 14] = [
        b"1A", b"CAFE", b"A1", b"10", b"#", b"A#", b"12", b"G", b"0B", b"1+", b"1a", b"cafe",
        b"ab", b"#a",
    ];
    if let Some(at) = any_unit(random, fields) {
        let word = if fields[at].0 == 7 || random.one_in(2) {
            random.pick(&words).to_vec()
        } else {
            fields[at].1.clone()
        };
        fields[at] = (random.between(8, 11) as u8, word);
    }
}

/// Gives a unit small letters: makes its own small, or makes it a word that has some.
pub fn small_letters(random: &mut Random, fields: &mut [Field]) {
    let units: [(u8, &[u8]); 14] = [
        (8, b"a"),
        (8, b"1d#*"),
        (8, b"Ab"),
        (9, b"cafe"),
        (9, b"ab"),
        (9, b"a1"),
        (9, b"d"),
        (9, b"Fe"),
        (9, b"go"),
        (10, b"1a"),
        (10, b"#a"),
        (10, b"1e"),
        (10, b"0f"),
        (10, b"9d"),
    ];
    if let Some(at) = any_unit(random, fields) {
        if (8..=10).contains(&fields[at].0) && random.one_in(2) {
            fields[at].1.make_ascii_lowercase();
        } else {
            let (tag, word) = random.pick(&units);
            fields[at] = (tag, word.to_vec());
        }
    }
}

/// Where one of the units stands, if there are any.
fn any_unit(random: &mut Random, fields: &[Field]) -> Option<usize> {
    let found: Vec<usize> = (0..fields.len()).filter(|&n| is_unit(&fields[n])).collect();
    (!found.is_empty()).then(|| random.pick(&found))
}

/// Whether the field is a unit's.
pub fn is_unit(field: &Field) -> bool {
    (7..=11).contains(&field.0)
}

/// Repeats the element at or behind `at` some times.
fn repeat_element(random: &mut Random, fields: &mut Vec<Field>, at: usize) {
    let is_element = |field: &Field| field.0 == 5 || field.0 == 6;
    let Some(start) = (at..fields.len()).find(|&n| is_element(&fields[n])) else {
        return;
    };
    let mut end = start + 1;
    while end < fields.len() && is_unit(&fields[end]) {
        end += 1;
    }
    let element = fields[start..end].to_vec();
    for _ in 0..random.pick(&[1, 1, 2, 3, 62, 63, 64]) {
        fields.splice(end..end, element.clone());
    }
}

/// Changes a content in a way that its tag understands.
pub fn change_content(random: &mut Random, field: &mut Field) {
    let content = &mut field.1;
    match field.0 {
        2 => *content = vec![random.pick(b"PNPNPNXp")],
        3 => *content = vec![random.pick(b"DHOBKDHOBKDHOBKXdhobk")],
        6 if content.len() == 8 => {
            let half = 4 * random.below(2);
            change_number(random, &mut content[half..half + 4]);
        }
        7 if content.len() == 6 => match random.below(3) {
            0 => content[0] = random.pick(b"DHOBDHOBDHOBKXdhob"),
            1 => content[1] = random.pick(&[0, 0, 1, 2, 8, 9, 10, 255]),
            _ => change_number(random, &mut content[2..6]),
        },
        _ => match random.below(6) {
            0 => content.resize(random.pick(&[0, 1, 31, 32, 33, 80, 81, 256]), b'A'),
            1 => content.push(random.pick(b"A1+#%.'*\" ")),
            2 => content.reverse(),
            3 => {
                if let Some(first) = content.first_mut() {
                    *first = random.pick(b"AZa19+#%*'.\"\0 ");
                }
            }
            4 => {
                let plus = random.below(content.len() + 1);
                content.insert(plus, b'+');
            }
            _ => damage(random, content),
        },
    }
}

fn change_number(random: &mut Random, bytes: &mut [u8]) {
    let old = u32::from_be_bytes([bytes[0], bytes[1], bytes[2], bytes[3]]);
    let new = match random.below(8) {
        0 => 0,
        1 => u32::MAX,
        2 => old.wrapping_add(1),
        3 => old.wrapping_sub(1),
        4 => random.below(5000) as u32,
        5 => random.next() as u32,
        6 => old.wrapping_add(4096),
        _ => 1,
    };
    bytes.copy_from_slice(&new.to_be_bytes());
}

/// Any field, most times one that could stand in a record.
fn field(random: &mut Random) -> Field {
    match random.below(12) {
        0 => (1, b"A".to_vec()),
        1 => (2, vec![random.pick(b"PN")]),
        2 => (3, vec![random.pick(b"DHOBK")]),
        3 => (4, random.pick(&[&b"N"[..], b"07", b"N1"]).to_vec()),
        4 => (5, Vec::new()),
        5 => (6, range(random)),
        _ => unit(random),
    }
}

fn range(random: &mut Random) -> Vec<u8> {
    let upper = random.pick(&[0, 5, 9, 255, 4095, 4096, u32::MAX]);
    let increment = random.pick(&[0, 1, 1, 1, 2, 7, u32::MAX]);
    [upper.to_be_bytes(), increment.to_be_bytes()].concat()
}

/// Any unit's field.
pub fn unit(random: &mut Random) -> Field {
    let words: [&[u8]; 17] = [
        b"A", b"CAFE", b"G1", b"1A", b"#", b"12", b"*", b"+", b"A+B", b"A++", b"10%", b"", b"E",
        b"a", b"cafe", b"1a", b"#a",
    ];
    match random.below(8) {
        0..=2 => {
            let letter = random.pick(b"DDDHOB");
            let fraction = if letter == b'D' && random.one_in(3) {
                random.between(1, 9) as u8
            } else {
                0
            };
            let value = random.pick(&[0, 1, 5, 9, 10, 255, 4096, u32::MAX]);
            let mut content = vec![letter, fraction];
            content.extend(value.to_be_bytes());
            (7, content)
        }
        3 => (11, vec![b'x'; random.pick(&[0, 1, 5, 79, 80, 81])]),
        4 => (11, vec![b'"'; random.pick(&[1, 2, 80])]),
        tag => (tag as u8 + 3, random.pick(&words).to_vec()),
    }
}

/// A record that may be well formed and need not fit any text.
fn grown(random: &mut Random) -> Vec<Field> {
    let mut fields = Vec::new();
    for _ in 0..random.between(1, 3) {
        fields.push((1, vec![b'A'; random.pick(&[1, 2, 31, 32])]));
    }
    let blocks = random.pick(&[0, 1, 1, 2, 3, 8, 9]);
    let most = random.pick(&[1, 2, 3, 5, 12]);
    let plain = random.one_in(2);
    for _ in 0..blocks {
        let named = random.one_in(2);
        fields.push((2, vec![if named { b'N' } else { b'P' }]));
        let mut number = 10;
        for _ in 0..random.between(1, most) {
            let base = random.pick(b"DDDHOBK");
            fields.push((3, vec![base]));
            if named {
                number += usize::from(!random.one_in(40));
                grow_name(random, &mut fields, number);
            } else if random.one_in(4) {
                continue;
            }
            grow_value(random, &mut fields, plain);
        }
    }
    fields
}

/// A name that ends with a number.
fn grow_name(random: &mut Random, fields: &mut Vec<Field>, number: usize) {
    for _ in 0..random.pick(&[0, 0, 1, 3]) {
        fields.push((4, vec![b'N'; random.pick(&[1, 3, 32])]));
    }
    let letters = random.pick(&[1, 3, 30]);
    let piece = [vec![b'N'; letters], number.to_string().into_bytes()];
    fields.push((4, piece.concat()));
}

fn grow_value(random: &mut Random, fields: &mut Vec<Field>, plain: bool) {
    let units = random.pick(&[1, 1, 2, 3, 4]);
    let elements = random.pick(&[1, 1, 1, 1, 2, 3, 12, 63, 64]);
    let leading: Vec<Field> = (1..units).map(|_| safe_unit(random, plain)).collect();
    for _ in 0..elements {
        let ranged = random.one_in(4);
        if ranged {
            let lower = random.pick(&[0, 1, 7, u32::MAX - 3]);
            let upper = lower + random.pick(&[0, 1, 2, 3]);
            let increment = random.pick(&[1u32, 1, 2, u32::MAX]);
            let content = [upper.to_be_bytes(), increment.to_be_bytes()].concat();
            fields.push((6, content));
            fields.extend(leading.iter().cloned());
            let mut content = vec![random.pick(b"DHOB"), 0];
            content.extend(lower.to_be_bytes());
            fields.push((7, content));
        } else {
            fields.push((5, Vec::new()));
            if random.one_in(4) {
                fields.extend((1..units).map(|_| safe_unit(random, plain)));
            } else {
                fields.extend(leading.iter().cloned());
            }
            fields.push(safe_unit(random, plain));
        }
    }
}

/// A unit that is right under most bases.
fn safe_unit(random: &mut Random, plain: bool) -> Field {
    match random.below(if plain { 3 } else { 6 }) {
        0 => (9, b"GO".to_vec()),
        1 => (11, vec![b'"'; random.pick(&[0, 1, 40, 80])]),
        2 => (8, vec![b'*'; random.pick(&[1, 31, 32])]),
        3 => (10, vec![b'%'; random.pick(&[1, 32])]),
        _ => unit(random),
    }
}
