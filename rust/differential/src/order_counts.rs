//! What a run must have seen of the number of orders that a record begins with.

use crate::compare::{Answer, Call};
use crate::coverage::{self, Sight};
use crate::records::{count, fields, join, orders, uncounted, Field, COUNT};
use crate::NOT_WELL_FORMED;

/// How often a record was refused for the number of its orders alone.
#[derive(Default)]
pub struct OrderCounts {
    too_many: u64,
    too_few: u64,
    others: u64,
    missing: u64,
    elsewhere: u64,
    twice: u64,
    lengths: u64,
    tags: u64,
}

impl OrderCounts {
    /// Counts what a call and its answer show.
    pub fn note(&mut self, call: Call, answer: Answer) {
        if let (Call::Count(record), Err((NOT_WELL_FORMED, _))) = (call, answer) {
            self.note_record(record);
        }
    }

    /// Counts a record that is well formed but for the number of its orders.
    fn note_record(&mut self, record: &[u8]) {
        let fields = fields(record);
        if join(&fields) != record {
            return;
        }
        let rest = uncounted(record);
        if let [first, behind @ ..] = &fields[..] {
            let other_tag = rest.len() == fields.len() && first.1.len() == 4;
            self.tags += u64::from(other_tag && is_whole(behind));
        }
        if is_whole(&rest) {
            self.note_count(&fields, orders(&rest));
        }
    }

    /// Counts what is wrong with the number where so many orders are right.
    fn note_count(&mut self, fields: &[Field], orders: u32) {
        let counts = fields.iter().filter(|field| field.0 == COUNT).count();
        let kind = match (fields, counts) {
            (_, 0) => &mut self.missing,
            ([(COUNT, content), ..], 1) => match <[u8; 4]>::try_from(&content[..]) {
                Ok(number) if u32::from_be_bytes(number) == orders + 1 => &mut self.too_many,
                Ok(number) if u32::from_be_bytes(number) == orders - 1 => &mut self.too_few,
                Ok(_) => &mut self.others,
                Err(_) => &mut self.lengths,
            },
            (_, 1) => &mut self.elsewhere,
            _ => &mut self.twice,
        };
        *kind += 1;
    }

    /// What a run must have seen, and how often it was.
    fn sights(&self) -> [Sight; 8] {
        [
            ("18 for one order too many", self.too_many),
            ("18 for one order too few", self.too_few),
            ("18 for another number of orders", self.others),
            ("18 for no number of orders", self.missing),
            ("18 for a number of orders elsewhere", self.elsewhere),
            ("18 for two numbers of orders", self.twice),
            ("18 for the length of that number", self.lengths),
            ("18 for its tag", self.tags),
        ]
    }

    /// What was never seen.
    pub fn missing(&self) -> Vec<String> {
        coverage::unseen(&self.sights())
    }

    /// A line with what was seen.
    pub fn show(&self) {
        coverage::show(&self.sights());
    }
}

/// Whether these fields are a record behind the number of their orders.
fn is_whole(fields: &[Field]) -> bool {
    let counted = [join(&[count(orders(fields))]), join(fields)].concat();
    model::count(&counted).is_ok()
}

#[cfg(test)]
mod tests {
    use super::OrderCounts;
    use crate::commands::command;
    use crate::compare::Call;
    use crate::random::Random;
    use crate::records::{count, join, orders, record, uncounted, Field};
    use crate::ROOM;

    /// The record of a command.
    fn read(text: &[u8], bases: &[u8]) -> Vec<u8> {
        let mut record = vec![0; ROOM];
        let length = model::read(text, bases, &mut record).unwrap_or(0);
        record.truncate(length);
        record
    }

    /// What one record shows, and how often.
    fn seen(fields: &[Field]) -> [u64; 8] {
        let mut counts = OrderCounts::default();
        let record = join(fields);
        let call = Call::Count(&record);
        counts.note(call, call.model(&mut []));
        counts.sights().map(|(_, times)| times)
    }

    #[test]
    fn orders_of_fields() {
        for text in [
            "A;",
            "A:;",
            "A:5&&9++7;",
            "A:1&2,,X:N=3&&7,M=0&1&9;",
            "A:7-1&&-3,7-1&-3&&-5;",
            "A:0&&254,0&&256;",
        ] {
            let record = read(text.as_bytes(), b"");
            let number = orders(&uncounted(&record));
            assert_eq!(model::count(&record), Ok(number), "{text}");
        }
    }

    #[test]
    fn records() {
        let rest = uncounted(&read(b"A:1&2;", b""));
        let with = |first: &[Field]| [first, &rest].concat();
        assert_eq!(seen(&with(&[count(2)])), [0; 8]);
        assert_eq!(seen(&with(&[count(3)])), [1, 0, 0, 0, 0, 0, 0, 0]);
        assert_eq!(seen(&with(&[count(1)])), [0, 1, 0, 0, 0, 0, 0, 0]);
        assert_eq!(seen(&with(&[count(0)])), [0, 0, 1, 0, 0, 0, 0, 0]);
        assert_eq!(seen(&with(&[])), [0, 0, 0, 1, 0, 0, 0, 0]);
        let behind = [&rest[..], &[count(2)]].concat();
        assert_eq!(seen(&behind), [0, 0, 0, 0, 1, 0, 0, 0]);
        assert_eq!(seen(&with(&[count(2), count(2)])), [0, 0, 0, 0, 0, 1, 0, 0]);
        let short = (12, vec![0, 0, 2]);
        assert_eq!(seen(&with(&[short])), [0, 0, 0, 0, 0, 0, 1, 0]);
        let other = (13, vec![0, 0, 0, 2]);
        assert_eq!(seen(&with(&[other])), [0, 0, 0, 0, 0, 0, 0, 1]);
        assert_eq!(seen(&[count(1)]), [0; 8]);
    }

    #[test]
    fn generated_inputs_show_everything() {
        let mut random = Random::new(1);
        let mut counts = OrderCounts::default();
        assert_eq!(counts.missing().len(), 8);
        for _ in 0..5000 {
            let command = command(&mut random);
            let read = read(&command.text, &command.bases);
            let record = record(&mut random, &read, &read);
            let call = Call::Count(&record);
            counts.note(call, call.model(&mut []));
        }
        assert!(counts.missing().is_empty());
    }
}
