//! What a run must have seen of small letters in numerals.

use crate::compare::{Call, Outcome};
use crate::coverage::{self, Sight};
use crate::records::{fields, join, Field};

/// The refusal of a record that is not well formed.
const NOT_WELL_FORMED: u32 = 18;

/// The tag of a D, H, O or B numeral, whose first byte is that letter.
const NUMERAL: u8 = 7;
/// The tag of a keyed numeral.
const KEYED: u8 = 8;
/// The tag of an identifier.
const IDENTIFIER: u8 = 9;
/// The tag of a symbolic name.
const SYMBOLIC_NAME: u8 = 10;

/// How often small letters were seen where they belong to a numeral.
#[derive(Default)]
pub struct SmallLetters {
    prefixes: u64,
    hexadecimal_digits: u64,
    keyed_letters: u64,
    /// Records refused for a small keyed letter alone.
    keyed_in_records: u64,
    /// Records refused for an identifier or symbolic name alone that is a numeral in small letters.
    words_in_records: u64,
}

impl SmallLetters {
    /// Counts what a call and its outcome show.
    pub fn note(&mut self, call: Call, outcome: &Outcome) {
        match (call, outcome.answer) {
            (Call::Read(text, bases), Ok(_)) => self.note_text(text, bases, &outcome.bytes),
            (Call::Count(record), Err((NOT_WELL_FORMED, _))) => self.note_record(record),
            _ => (),
        }
    }

    /// Counts the small letters of a text that belong to numerals: with any of them made a
    /// capital the record is the same. In comments that holds of every letter, so no text counts
    /// that may have one.
    fn note_text(&mut self, text: &[u8], bases: &[u8], record: &[u8]) {
        if text.contains(&b'/') {
            return;
        }
        let mut changed = text.to_vec();
        let mut again = vec![0; record.len()];
        for at in (0..text.len()).filter(|&at| text[at].is_ascii_lowercase()) {
            changed[at].make_ascii_uppercase();
            let answer = model::read(&changed, bases, &mut again);
            changed[at] = text[at];
            if answer == Ok(record.len()) && again == record {
                self.note_letter(&text[at + 1..], record);
            }
        }
    }

    /// Counts a small letter of a numeral by what stands behind it and by the record, unless
    /// these leave open which it is.
    fn note_letter(&mut self, behind: &[u8], record: &[u8]) {
        let fields = fields(record);
        let is_hexadecimal = |field: &Field| field.0 == NUMERAL && field.1[0] == b'H';
        let hexadecimal = fields.iter().any(is_hexadecimal);
        let keyed = fields.iter().any(|field| field.0 == KEYED);
        let next = behind.iter().find(|&&byte| !is_format_effector(byte));
        if next == Some(&b'\'') {
            self.prefixes += 1;
        } else if !keyed {
            self.hexadecimal_digits += 1;
        } else if !hexadecimal {
            self.keyed_letters += 1;
        }
    }

    /// Counts a record that is well formed but for small letters.
    fn note_record(&mut self, record: &[u8]) {
        let fields = fields(record);
        if join(&fields) != record {
            return;
        }
        let is_mended =
            |mended: Vec<Field>| mended != fields && model::count(&join(&mended)).is_ok();
        self.keyed_in_records += u64::from(is_mended(with_capitals(&fields)));
        self.words_in_records += u64::from(is_mended(without_small_digits(&fields)));
    }

    /// What a run must have seen, and how often it was.
    fn sights(&self) -> [Sight; 5] {
        [
            ("small prefix read", self.prefixes),
            ("small hexadecimal digit read", self.hexadecimal_digits),
            ("small keyed letter read", self.keyed_letters),
            ("18 for a small keyed letter", self.keyed_in_records),
            ("18 for a small numeral as a word", self.words_in_records),
        ]
    }

    /// What was never seen.
    pub fn missing(&self) -> Vec<String> {
        coverage::unseen(&self.sights())
    }

    /// A line with what was seen.
    pub fn show(&self) {
        coverage::show(&self.sights());
    }
}

/// Whether the byte is nothing outside strings.
fn is_format_effector(byte: u8) -> bool {
    matches!(byte, 9..=13 | 32)
}

/// The fields with their keyed numerals in capitals.
fn with_capitals(fields: &[Field]) -> Vec<Field> {
    let mut mended = fields.to_vec();
    for (_, content) in mended.iter_mut().filter(|field| field.0 == KEYED) {
        content.make_ascii_uppercase();
    }
    mended
}

/// The fields with `z`, which is a digit of no base, for the small letters of identifiers and
/// symbolic names.
fn without_small_digits(fields: &[Field]) -> Vec<Field> {
    let mut mended = fields.to_vec();
    for (_, content) in mended.iter_mut().filter(|field| is_word(field)) {
        for letter in content.iter_mut().filter(|byte| byte.is_ascii_lowercase()) {
            *letter = b'z';
        }
    }
    mended
}

/// Whether the field is an identifier's or a symbolic name's.
fn is_word(field: &Field) -> bool {
    field.0 == IDENTIFIER || field.0 == SYMBOLIC_NAME
}

#[cfg(test)]
mod tests {
    use super::SmallLetters;
    use crate::commands::command;
    use crate::compare::{Call, Outcome};
    use crate::random::Random;
    use crate::records::{count, join, record};
    use crate::ROOM;

    /// What the model makes of a call.
    fn outcome(call: Call) -> Outcome {
        let mut bytes = vec![0; ROOM];
        let answer = call.model(&mut bytes);
        bytes.truncate(answer.map_or(0, |length| length as usize));
        let row = Vec::new();
        Outcome { answer, bytes, row }
    }

    /// What one call shows, and how often.
    fn seen(call: Call) -> [u64; 5] {
        let mut small = SmallLetters::default();
        small.note(call, &outcome(call));
        small.sights().map(|(_, times)| times)
    }

    #[test]
    fn texts() {
        assert_eq!(seen(Call::Read(b"A:h'ff;", b"")), [1, 2, 0, 0, 0]);
        assert_eq!(seen(Call::Read(b"A:9&&fF;", b"H")), [0, 1, 0, 0, 0]);
        assert_eq!(seen(Call::Read(b"A:k'1d#*;", b"")), [1, 0, 1, 0, 0]);
        assert_eq!(seen(Call::Read(b"A:ab;", b"K")), [0, 0, 2, 0, 0]);
        assert_eq!(seen(Call::Read(b"a:b=cafe&1a;", b"")), [0; 5]);
        assert_eq!(seen(Call::Read(b"A:H'FF,\"h'ff\";", b"")), [0; 5]);
        assert_eq!(seen(Call::Read(b"A:h'g;", b"")), [0; 5]);
        assert_eq!(seen(Call::Read(b"A:h\x0b'f;", b"")), [1, 1, 0, 0, 0]);
        assert_eq!(seen(Call::Read(b"A:ff/*ff*/;", b"H")), [0; 5]);
        assert_eq!(seen(Call::Read(b"A:ff&K'1;", b"H")), [0; 5]);
    }

    /// The command `A` with one place of this base whose value is this one unit.
    fn with_unit(base: u8, tag: u8, content: &[u8]) -> Vec<u8> {
        join(&[
            count(1),
            (1, b"A".to_vec()),
            (2, b"P".to_vec()),
            (3, vec![base]),
            (5, Vec::new()),
            (tag, content.to_vec()),
        ])
    }

    #[test]
    fn records() {
        for (base, tag, word, expected) in [
            (b'D', 8, &b"1d"[..], [0, 0, 0, 1, 0]),
            (b'K', 8, b"a", [0, 0, 0, 1, 0]),
            (b'H', 9, b"cafe", [0, 0, 0, 0, 1]),
            (b'K', 10, b"#a", [0, 0, 0, 0, 1]),
            (b'D', 8, b"1e", [0; 5]),
            (b'D', 9, b"cafe", [0; 5]),
            (b'H', 9, b"CAFE", [0; 5]),
            (b'H', 10, b"ab", [0; 5]),
            (b'H', 9, &[b'f'; 33], [0; 5]),
        ] {
            let record = with_unit(base, tag, word);
            assert_eq!(seen(Call::Count(&record)), expected);
        }
    }

    #[test]
    fn generated_inputs_show_everything() {
        let mut random = Random::new(1);
        let mut small = SmallLetters::default();
        assert_eq!(small.missing().len(), 5);
        for _ in 0..5000 {
            let command = command(&mut random);
            let call = Call::Read(&command.text, &command.bases);
            let read = outcome(call);
            small.note(call, &read);
            let record = record(&mut random, &read.bytes, &read.bytes);
            let call = Call::Count(&record);
            small.note(call, &outcome(call));
        }
        assert!(small.missing().is_empty());
    }
}
