//! What a run must have seen of rows: rows that were filled, and questions for a place by a row.

use crate::compare::{Answer, Lent};
use crate::coverage::{self, Sight};
use crate::offsets::{offsets, pages, Question};

/// The refusal of a buffer or a row that is too short.
const TOO_SHORT: u32 = 17;

/// The refusal of a place that there is not.
const NO_PLACE: u32 = 26;

/// The refusal of a row that is not the record's.
const ROW: u32 = 28;

/// The most places of a record.
const MOST: usize = 32;

/// How often rows were filled, and questions answered, so.
#[derive(Default)]
pub struct Rows {
    just_enough: u64,
    left_over: u64,
    most: u64,
    no_slots: u64,
    too_few: u64,
    bytes_first: u64,
    named: u64,
    omitted: u64,
    other_block: u64,
    not_looked_at: u64,
    missing_slot: u64,
    first_slot: u64,
    later_slot: u64,
    before_another: u64,
    before_26: u64,
    no_place: u64,
}

impl Rows {
    /// Counts what the answer of a call that fills a row shows, which was lent so much and has this
    /// record to write.
    pub fn note_filled(&mut self, record: &[u8], lent: &Lent, answer: Answer) {
        let (places, slots) = (offsets(record).len(), lent.row.len());
        let kind = match answer {
            Ok(_) if places == 0 && slots == 0 => &mut self.no_slots,
            Ok(_) if slots > places => &mut self.left_over,
            Ok(_) => {
                self.most += u64::from(places == MOST);
                &mut self.just_enough
            }
            Err((TOO_SHORT, _)) if lent.out.len() >= record.len() => &mut self.too_few,
            Err((TOO_SHORT, _)) if slots < places => &mut self.bytes_first,
            _ => return,
        };
        *kind += 1;
    }

    /// Counts what a question about a record, and its answer, show.
    pub fn note_asked(&mut self, record: &[u8], question: &Question, answer: Answer) {
        let own = offsets(record);
        match answer {
            Ok(_) => self.note_page(record, question),
            Err((ROW, slot)) => self.note_28(&own, question, slot as usize),
            Err((NO_PLACE, _)) => self.no_place += 1,
            _ => (),
        }
    }

    /// Counts a place whose fields are handed back.
    fn note_page(&mut self, record: &[u8], question: &Question) {
        let pages = pages(record);
        let place = question.place as usize;
        let page = pages[place].clone();
        self.named += u64::from(record.get(page.start + 4) == Some(&4));
        self.omitted += u64::from(page.len() == 4);
        self.other_block += u64::from(place > 0 && pages[place - 1].end < page.start);
        self.not_looked_at += u64::from(question.row.len() > pages.len());
    }

    /// Counts a row that is not the record's, whose offsets are these.
    fn note_28(&mut self, own: &[u32], question: &Question, slot: usize) {
        let kind = match (question.row.get(slot), slot) {
            (None, _) => &mut self.missing_slot,
            (_, 0) => &mut self.first_slot,
            _ => &mut self.later_slot,
        };
        *kind += 1;
        let differs = |at: usize| question.row.get(at) != own.get(at);
        self.before_another += u64::from((slot + 1..own.len()).any(differs));
        self.before_26 += u64::from(question.place as usize >= own.len());
    }

    /// What a run must have seen, and how often it was.
    fn sights(&self) -> [Sight; 16] {
        [
            ("row that just suffices", self.just_enough),
            ("row with slots beyond the places", self.left_over),
            ("row of 32 places", self.most),
            ("row of no slots and no places", self.no_slots),
            ("17 for the slots", self.too_few),
            ("17 for the bytes before the slots", self.bytes_first),
            ("fields of a named place", self.named),
            ("fields of an omitted place", self.omitted),
            ("fields of a place that begins a block", self.other_block),
            ("slots that are not looked at", self.not_looked_at),
            ("28 for a missing slot", self.missing_slot),
            ("28 for the first slot", self.first_slot),
            ("28 for a later slot", self.later_slot),
            ("28 before another such slot", self.before_another),
            ("28 before 26", self.before_26),
            ("26 by the record's row", self.no_place),
        ]
    }

    /// What was never seen.
    pub fn missing(&self) -> Vec<String> {
        coverage::unseen(&self.sights())
    }

    /// A line with what was seen.
    pub fn show(&self) {
        coverage::show(&self.sights());
    }
}

#[cfg(test)]
mod tests {
    use super::Rows;
    use crate::commands::command;
    use crate::compare::{Call, Lent};
    use crate::offsets::{offsets, questions, rooms, Question};
    use crate::random::Random;
    use crate::ROOM;

    /// The record of a command.
    fn read(text: &[u8], bases: &[u8]) -> Vec<u8> {
        let mut record = vec![0; ROOM];
        let length = model::read(text, bases, &mut record).unwrap_or(0);
        record.truncate(length);
        record
    }

    /// The numbers of the sights that were seen, from 0.
    fn seen(rows: &Rows) -> Vec<usize> {
        let sights = rows.sights();
        (0..sights.len()).filter(|&at| sights[at].1 > 0).collect()
    }

    /// What a command shows that is lent so many bytes less than it needs, and so many slots.
    fn filled(text: &str, less: usize, slots: usize) -> Vec<usize> {
        let mut rows = Rows::default();
        let record = read(text.as_bytes(), b"");
        let lent = Lent::soiled(&mut Random::new(1), record.len() - less, slots);
        let (mut out, mut row) = (lent.out.clone(), lent.row.clone());
        let answer = Call::ReadRow(text.as_bytes(), b"").model_row(&mut out, &mut row);
        rows.note_filled(&record, &lent, answer);
        seen(&rows)
    }

    /// What a question about a command shows, by a row whose first slots are the command's own but
    /// for these changes.
    fn asked(text: &str, slots: usize, changed: &[usize], place: u32) -> Vec<usize> {
        let mut rows = Rows::default();
        let record = read(text.as_bytes(), b"");
        let mut row = offsets(&record);
        row.resize(slots, 0);
        for &at in changed {
            row[at] += 1;
        }
        let answer = Call::Place(&record, &row, place).model(&mut []);
        rows.note_asked(&record, &Question { row, place }, answer);
        seen(&rows)
    }

    #[test]
    fn each_sight_of_rows_that_are_filled() {
        assert_eq!(filled("A:5,6;", 0, 2), [0]);
        assert_eq!(filled("A:5,6;", 0, 3), [1]);
        let most = format!("A:{};", ",".repeat(31));
        assert_eq!(filled(&most, 0, 32), [0, 2]);
        assert_eq!(filled("A;", 0, 0), [3]);
        assert_eq!(filled("A;", 0, 1), [1]);
        assert_eq!(filled("A:5,6;", 0, 1), [4]);
        assert_eq!(filled("A:5,6;", 1, 1), [5]);
        assert_eq!(filled("A:5,6;", 1, 2), []);
    }

    #[test]
    fn each_sight_of_questions() {
        let text = "A:5,:N=7;";
        assert_eq!(asked(text, 3, &[], 0), []);
        assert_eq!(asked(text, 3, &[], 1), [7]);
        assert_eq!(asked(text, 3, &[], 2), [6, 8]);
        assert_eq!(asked(text, 4, &[], 0), [9]);
        assert_eq!(asked(text, 2, &[], 0), [10]);
        assert_eq!(asked(text, 3, &[0], 0), [11]);
        assert_eq!(asked(text, 3, &[2], 0), [12]);
        assert_eq!(asked(text, 3, &[0, 2], 0), [11, 13]);
        assert_eq!(asked(text, 2, &[1], 0), [12, 13]);
        assert_eq!(asked(text, 3, &[2], 3), [12, 14]);
        assert_eq!(asked(text, 3, &[], 3), [15]);
        assert_eq!(Rows::default().missing().len(), 16);
    }

    #[test]
    fn generated_commands_show_everything() {
        let mut random = Random::new(1);
        let mut rows = Rows::default();
        for _ in 0..5000 {
            let command = command(&mut random);
            let record = read(&command.text, &command.bases);
            if record.is_empty() {
                continue;
            }
            let own = offsets(&record);
            for (room, slots) in rooms(&mut random, record.len(), own.len()) {
                let lent = Lent::soiled(&mut random, room, slots);
                let (mut out, mut row) = (lent.out.clone(), lent.row.clone());
                let call = Call::ReadRow(&command.text, &command.bases);
                rows.note_filled(&record, &lent, call.model_row(&mut out, &mut row));
            }
            for question in questions(&mut random, &own) {
                let call = Call::Place(&record, &question.row, question.place);
                rows.note_asked(&record, &question, call.model(&mut []));
            }
        }
        assert_eq!(rows.missing(), [""; 0]);
    }
}
