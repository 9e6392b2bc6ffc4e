//! What a run must have seen of questions whether an argument stands in a place.

use crate::arguments::{Place, Question};
use crate::compare::Answer;
use crate::coverage::{self, Sight};
use crate::records::{fields, is_unit, join, Field};

/// The refusal of a place that there is not, or that is omitted.
const NO_PLACE: u32 = 26;

/// The refusal of an argument that could not stand in its place.
const ARGUMENT: u32 = 27;

/// The most units of an argument.
const UNITS: usize = 4;

/// The bytes of a numeral's value, which end its field.
const VALUE: usize = 4;

/// How often questions were answered so.
#[derive(Default)]
pub struct Members {
    first: u64,
    later: u64,
    inside: u64,
    repeated: u64,
    none: u64,
    between: u64,
    units: u64,
    missing_place: u64,
    omitted: u64,
    before_27: u64,
    empty: u64,
    too_many: u64,
    base: u64,
    tags: u64,
    cut: u64,
}

impl Members {
    /// Counts what a question about a record with these places, and its answer, show.
    pub fn note(&mut self, places: &[Place], question: &Question, answer: Answer) {
        let place = places.get(question.place as usize);
        match (answer, place) {
            (Ok(0), Some(place)) => self.note_no(place, &question.argument),
            (Ok(found), Some(place)) => {
                self.note_yes(place, &question.argument, found as usize - 1);
            }
            (Err((NO_PLACE, _)), _) => {
                self.missing_place += u64::from(place.is_none());
                self.omitted += u64::from(place.is_some());
                self.before_27 += u64::from(question.argument.is_empty());
            }
            (Err((ARGUMENT, _)), _) => self.note_27(&question.argument),
            _ => (),
        }
    }

    /// Counts an argument that stands in a place at this position.
    fn note_yes(&mut self, place: &Place, argument: &[u8], position: usize) {
        self.first += u64::from(position == 0);
        self.later += u64::from(position > 0);
        let equal = place.arguments().filter(|other| *other == argument);
        self.repeated += u64::from(equal.count() > 1);
        let mut before = 0;
        for element in &place.elements {
            let inner = before + 1..before + element.arguments.len() - 1;
            self.inside += u64::from(element.is_range && inner.contains(&position));
            before += element.arguments.len();
        }
    }

    /// Counts an argument that does not stand in a place.
    fn note_no(&mut self, place: &Place, argument: &[u8]) {
        let units = |argument: &[u8]| fields(argument).len();
        let own = place.arguments().next().map(units);
        let mut elements = place.elements.iter();
        let kind = if own != Some(units(argument)) {
            &mut self.units
        } else if elements.any(|one| spans(&one.arguments, argument)) {
            &mut self.between
        } else {
            &mut self.none
        };
        *kind += 1;
    }

    /// Counts an argument that could not stand in its place.
    fn note_27(&mut self, argument: &[u8]) {
        let units = fields(argument);
        let kind = if argument.is_empty() {
            &mut self.empty
        } else if join(&units) != argument {
            &mut self.cut
        } else if !units.iter().all(is_unit) {
            &mut self.tags
        } else if units.len() > UNITS {
            &mut self.too_many
        } else if could_stand_elsewhere(&units) {
            &mut self.base
        } else {
            return;
        };
        *kind += 1;
    }

    /// What a run must have seen, and how often it was.
    fn sights(&self) -> [Sight; 15] {
        [
            ("yes at position 0", self.first),
            ("yes at a later position", self.later),
            ("yes inside a range", self.inside),
            ("yes of equal arguments", self.repeated),
            ("no", self.none),
            ("no between two terms of a range", self.between),
            ("no for another number of units", self.units),
            ("26 for no such place", self.missing_place),
            ("26 for an omitted place", self.omitted),
            ("26 with an empty argument", self.before_27),
            ("27 for an empty argument", self.empty),
            ("27 for more than 4 units", self.too_many),
            ("27 for the base of the place alone", self.base),
            ("27 for a field that is no unit's", self.tags),
            ("27 for bytes that are no fields", self.cut),
        ]
    }

    /// What was never seen.
    pub fn missing(&self) -> Vec<String> {
        coverage::unseen(&self.sights())
    }

    /// A line with what was seen.
    pub fn show(&self) {
        coverage::show(&self.sights());
    }
}

/// Whether an argument lies between the first and the last of an element's: it differs from them
/// in the value that ends it alone.
fn spans(arguments: &[Vec<u8>], argument: &[u8]) -> bool {
    let (Some(lower), Some(upper)) = (arguments.first(), arguments.last()) else {
        return false;
    };
    let at = argument.len().saturating_sub(VALUE);
    lower.len() == argument.len()
        && lower[..at] == argument[..at]
        && lower[at..] < argument[at..]
        && argument[at..] < upper[at..]
}

/// Whether these units could stand under some base.
fn could_stand_elsewhere(units: &[Field]) -> bool {
    b"DHOBK".iter().any(|&base| {
        let start = [
            (12, vec![0, 0, 0, 1]),
            (1, b"A".to_vec()),
            (2, b"P".to_vec()),
        ];
        let place = [(3, vec![base]), (5, Vec::new())];
        model::count(&join(&[&start[..], &place, units].concat())).is_ok()
    })
}

#[cfg(test)]
mod tests {
    use super::Members;
    use crate::arguments::{places, questions, Question};
    use crate::commands::command;
    use crate::compare::Call;
    use crate::random::Random;
    use crate::ROOM;

    /// The record of a command.
    fn read(text: &[u8], bases: &[u8]) -> Vec<u8> {
        let mut record = vec![0; ROOM];
        let length = model::read(text, bases, &mut record).unwrap_or(0);
        record.truncate(length);
        record
    }

    /// The number of the one sight that a question shows, from 0.
    fn seen(text: &str, place: u32, argument: &[u8]) -> Vec<usize> {
        let mut members = Members::default();
        let record = read(text.as_bytes(), b"");
        let question = Question {
            place,
            argument: argument.to_vec(),
        };
        let answer = Call::Member(&record, place, argument).model(&mut []);
        members.note(&places(&record), &question, answer);
        let sights = members.sights();
        (0..sights.len()).filter(|&at| sights[at].1 > 0).collect()
    }

    /// A decimal numeral's field.
    fn numeral(value: u8) -> Vec<u8> {
        vec![7, 0, 6, b'D', 0, 0, 0, 0, value]
    }

    #[test]
    fn each_sight() {
        let five = numeral(5);
        assert_eq!(seen("A:5;", 0, &five), [0]);
        assert_eq!(seen("A:1&5;", 0, &five), [1]);
        assert_eq!(seen("A:1&&5;", 0, &five), [1]);
        assert_eq!(seen("A:5&&9;", 0, &five), [0]);
        assert_eq!(seen("A:1&4&&6;", 0, &five), [1, 2]);
        assert_eq!(seen("A:5&1&5;", 0, &five), [0, 3]);
        assert_eq!(seen("A:6;", 0, &five), [4]);
        assert_eq!(seen("A:6&&9++2;", 0, &five), [4]);
        assert_eq!(seen("A:4&&9++2;", 0, &five), [5]);
        assert_eq!(seen("A:7-5;", 0, &five), [6]);
        assert_eq!(seen("A:5;", 1, &five), [7]);
        assert_eq!(seen("A:,5;", 0, &five), [8]);
        assert_eq!(seen("A:,5;", 0, b""), [8, 9]);
        assert_eq!(seen("A:5;", 0, b""), [10]);
        assert_eq!(seen("A:5;", 0, &five.repeat(5)), [11]);
        assert_eq!(seen("A:5;", 0, b"\x09\0\x01a"), [4]);
        assert_eq!(seen("A:5;", 0, b"\x0a\0\x02#a"), [4]);
        assert_eq!(seen("A:5;", 0, b"\x0a\0\x0212"), []);
        assert_eq!(seen("A:5;", 0, &[b"\x05\0\0", &five[..]].concat()), [13]);
        assert_eq!(seen("A:5;", 0, &five[..8]), [14]);
        assert_eq!(Members::default().missing().len(), 15);
    }

    #[test]
    fn an_argument_that_another_base_lets_in() {
        let mut members = Members::default();
        let record = read(b"A:1F;", b"H");
        let argument = b"\x09\0\x04CAFE".to_vec();
        let answer = Call::Member(&record, 0, &argument).model(&mut []);
        let question = Question { place: 0, argument };
        members.note(&places(&record), &question, answer);
        assert_eq!(members.base, 1);
    }

    #[test]
    fn generated_questions_show_everything() {
        let mut random = Random::new(1);
        let mut members = Members::default();
        for _ in 0..5000 {
            let command = command(&mut random);
            let record = read(&command.text, &command.bases);
            let places = places(&record);
            for question in questions(&mut random, &places) {
                let call = Call::Member(&record, question.place, &question.argument);
                members.note(&places, &question, call.model(&mut []));
            }
        }
        assert_eq!(members.missing(), [""; 0]);
    }
}
