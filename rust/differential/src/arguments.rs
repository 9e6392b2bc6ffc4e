//! The arguments of a record's places, all written out, and questions whether an argument stands in
//! a place: those that do, and others that are like them.

use crate::commands::damage;
use crate::random::Random;
use crate::records::{self, change_content, fields, join, unit, Field};

/// No value of a well-formed record has more arguments.
const MOST: usize = 4096;

/// Where a record has no more arguments, all of them are asked for.
const FEW: usize = 12;

/// So many arguments are asked for besides, and so many where there are more.
const SOME: usize = 6;

/// An element of a value.
pub struct Element {
    /// Whether it is a range.
    pub is_range: bool,
    /// Its arguments, each as its unit fields.
    pub arguments: Vec<Vec<u8>>,
}

/// A place: the elements of its value, none where it is omitted.
#[derive(Default)]
pub struct Place {
    /// From the first to the last.
    pub elements: Vec<Element>,
}

impl Place {
    /// Its arguments, all written out.
    pub fn arguments(&self) -> impl Iterator<Item = &[u8]> {
        let elements = self.elements.iter();
        elements.flat_map(|element| element.arguments.iter().map(Vec::as_slice))
    }

    /// How many arguments an order chooses from: an omitted place counts one.
    pub fn choices(&self) -> u64 {
        self.arguments().count().max(1) as u64
    }
}

/// The places of a record; of one that is not well formed what can be made of its fields.
pub fn places(record: &[u8]) -> Vec<Place> {
    let fields = fields(record);
    let mut places: Vec<Place> = Vec::new();
    for (at, (tag, _)) in fields.iter().enumerate() {
        match (tag, places.last_mut()) {
            (3, _) => places.push(Place::default()),
            (5 | 6, Some(place)) => place.elements.push(element(&fields[at..])),
            _ => (),
        }
    }
    places
}

/// The element that these fields begin with.
fn element(fields: &[Field]) -> Element {
    let units = fields[1..]
        .iter()
        .take_while(|field| records::is_unit(field));
    let first = join(&units.cloned().collect::<Vec<Field>>());
    let mut arguments = vec![first];
    if let Ok([a, b, c, d, e, f, g, h]) = <[u8; 8]>::try_from(&fields[0].1[..]) {
        let upper = u32::from_be_bytes([a, b, c, d]);
        let increment = u32::from_be_bytes([e, f, g, h]);
        while let Some(next) = next_term(&arguments[arguments.len() - 1], upper, increment) {
            if arguments.len() == MOST {
                break;
            }
            arguments.push(next);
        }
    }
    Element {
        is_range: fields[0].0 == 6,
        arguments,
    }
}

/// The argument of a range behind this one, if there is one.
fn next_term(argument: &[u8], upper: u32, increment: u32) -> Option<Vec<u8>> {
    let (before, value) = argument.split_last_chunk()?;
    let next = u32::from_be_bytes(*value).checked_add(increment)?;
    (next <= upper).then(|| [before, &next.to_be_bytes()].concat())
}

/// Whether an argument, given as unit fields, stands in the place with this number.
#[derive(Debug)]
pub struct Question {
    /// Any number.
    pub place: u32,
    /// Any bytes.
    pub argument: Vec<u8>,
}

/// Questions about a record with these places: for all of its arguments, or for some where there
/// are many, and for other ones.
pub fn questions(random: &mut Random, places: &[Place]) -> Vec<Question> {
    let some = if places.is_empty() { 1 } else { SOME };
    let mut questions: Vec<Question> = (0..some).map(|_| question(random, places)).collect();
    let all = places.iter().enumerate();
    let all = all.flat_map(|(at, place)| place.arguments().map(move |one| (at, one)));
    let mut asked: Vec<(usize, &[u8])> = all.collect();
    if asked.len() > FEW {
        asked = (0..SOME).map(|_| random.pick(&asked)).collect();
    }
    questions.extend(asked.into_iter().map(|(place, one)| Question {
        place: place as u32,
        argument: one.to_vec(),
    }));
    questions
}

/// A question for an argument that is like one of the place's, or of another place.
fn question(random: &mut Random, places: &[Place]) -> Question {
    let place = place_number(random, places.len());
    let like = if random.one_in(6) && !places.is_empty() {
        random.below(places.len())
    } else {
        place as usize
    };
    let arguments: Vec<&[u8]> = match places.get(like) {
        Some(place) => place.arguments().collect(),
        None => Vec::new(),
    };
    let mut units = match arguments.len() {
        0 => vec![unit(random)],
        _ => fields(random.pick(&arguments)),
    };
    for _ in 0..random.pick(&[0, 1, 1, 1, 1, 2]) {
        change(random, &mut units);
    }
    let mut argument = join(&units);
    if random.one_in(8) {
        spoil(random, &mut argument);
    }
    Question { place, argument }
}

/// The number of a place, most times of one that a record with so many places has.
pub fn place_number(random: &mut Random, places: usize) -> u32 {
    let past = places as u32;
    match random.below(12) {
        0 => random.pick(&[past + 1, 31, 32, 33, 256, 1 << 16, 1 << 31, u32::MAX]),
        1 => past,
        _ => random.below(places.max(1)) as u32,
    }
}

/// Changes an argument in one way.
fn change(random: &mut Random, units: &mut Vec<Field>) {
    if units.is_empty() {
        units.push(unit(random));
    }
    let at = random.below(units.len());
    match random.below(14) {
        0..=4 => change_numeral(random, units),
        5 => change_content(random, &mut units[at]),
        6 => units[at] = unit(random),
        7 => records::retag(random, units),
        8 => records::small_letters(random, units),
        9 => units.insert(at, unit(random)),
        10 => units.insert(at, units[at].clone()),
        11 => {
            units.remove(at);
        }
        12 => units.resize(random.pick(&[0, 3, 4, 4, 5, 5, 6]), unit(random)),
        _ => {
            let other = random.pick(&[0, 1, 2, 3, 4, 5, 6, 12, 13, 14, 255]);
            let content = random.pick(&[&b""[..], b"D", b"\0\0\0\x09\0\0\0\x01"]);
            units.insert(at, (other, content.to_vec()));
        }
    }
}

/// Changes a numeral, most times the last unit: its value, its base letter or its fraction digits.
fn change_numeral(random: &mut Random, units: &mut [Field]) {
    let at = match random.below(4) {
        0 => random.below(units.len()),
        _ => units.len() - 1,
    };
    let (7, content) = &mut units[at] else {
        return;
    };
    let Ok([letter, fraction, value @ ..]) = <&mut [u8; 6]>::try_from(&mut content[..]) else {
        return;
    };
    let number = u32::from_be_bytes(*value);
    match random.below(8) {
        0 | 1 => *value = number.wrapping_add(1).to_be_bytes(),
        2 | 3 => *value = number.wrapping_sub(1).to_be_bytes(),
        4 => *value = (number ^ 1 << random.below(32)).to_be_bytes(),
        5 => *value = number.wrapping_add(random.below(20) as u32).to_be_bytes(),
        6 => *letter = random.pick(b"DHOB"),
        _ => *fraction = random.pick(&[0, 1, 2, 9, 10]),
    }
}

/// Spoils the bytes of an argument: cuts them, changes a length, or damages them in another way.
fn spoil(random: &mut Random, bytes: &mut Vec<u8>) {
    match random.below(4) {
        0 => bytes.truncate(random.below(bytes.len() + 1)),
        1 if bytes.len() > 2 => bytes[1] = random.pick(&[1, 255]),
        2 if bytes.len() > 2 => bytes[2] = bytes[2].wrapping_add(random.pick(&[1, 2, 255])),
        _ => damage(random, bytes),
    }
}

#[cfg(test)]
mod tests {
    use super::{places, questions, Place};
    use crate::random::Random;

    /// The places of a command.
    fn places_of(text: &str) -> Vec<Place> {
        let mut record = vec![0; 1000];
        let length = model::read(text.as_bytes(), b"", &mut record).unwrap_or(0);
        places(&record[..length])
    }

    /// A decimal numeral's field.
    fn numeral(value: u8) -> Vec<u8> {
        vec![7, 0, 6, b'D', 0, 0, 0, 0, value]
    }

    #[test]
    fn places_are_written_out() {
        let places = places_of("A:5&&9++2&10,,7-1&&-3:N=X;");
        let counts: Vec<usize> = places.iter().map(|one| one.arguments().count()).collect();
        assert_eq!(counts, [4, 0, 3, 1]);
        let choices: Vec<u64> = places.iter().map(Place::choices).collect();
        assert_eq!(choices, [4, 1, 3, 1]);
        let first: Vec<&[u8]> = places[0].arguments().collect();
        assert_eq!(first, [5, 7, 9, 10].map(numeral));
        let third: Vec<&[u8]> = places[2].arguments().collect();
        let compound = [1, 2, 3].map(|last| [numeral(7), numeral(last)].concat());
        assert_eq!(third, compound);
        assert!(places[0].elements[0].is_range && !places[0].elements[1].is_range);
        assert_eq!(places[3].elements[0].arguments, [b"\x09\0\x01X"]);
    }

    #[test]
    fn the_last_terms_that_fit_the_width() {
        let places = places_of("A:4294967290&&4294967295++4;");
        assert_eq!(places[0].arguments().count(), 2);
    }

    #[test]
    fn a_record_that_is_not_well_formed_is_not_unrolled_on_and_on() {
        for range in [b"\xff\xff\xff\xff\0\0\0\x01", b"\xff\xff\xff\xff\0\0\0\0"] {
            let record = [b"\x03\0\x01D\x06\0\x08", &range[..], &numeral(0)].concat();
            assert_eq!(places(&record)[0].arguments().count(), 4096);
        }
        assert!(places(b"\x05\0\0").is_empty());
        assert_eq!(places(b"\x03\0\0\x06\0\0").len(), 1);
    }

    #[test]
    fn few_arguments_are_all_asked_for() {
        let mut random = Random::new(1);
        let places = places_of("A:5&&9++2&10,,7-1&&-3:N=X;");
        let questions = questions(&mut random, &places);
        for (at, place) in places.iter().enumerate() {
            for argument in place.arguments() {
                assert!(questions
                    .iter()
                    .any(|one| one.place == at as u32 && one.argument == *argument));
            }
        }
    }
}
