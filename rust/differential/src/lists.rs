//! The pieces of a list, and what a run must have seen of lists.

use crate::compare::{Call, Outcome};
use crate::coverage::{self, Sight};
use crate::ROOM;

/// The orders of a list, each behind its length; none if the bytes are anything else.
pub fn pieces(mut list: &[u8]) -> Option<Vec<&[u8]>> {
    let mut pieces = Vec::new();
    while let [14, 0, 4, a, b, c, d, rest @ ..] = list {
        let length = u32::from_be_bytes([*a, *b, *c, *d]) as usize;
        let (order, behind) = rest.split_at_checked(length)?;
        pieces.push(order);
        list = behind;
    }
    list.is_empty().then_some(pieces)
}

/// How often lists of each kind were written.
#[derive(Default)]
pub struct Lists {
    sole: u64,
    alike: u64,
    uneven: u64,
    long: u64,
}

impl Lists {
    /// Counts what a call and its outcome show.
    pub fn note(&mut self, call: Call, outcome: &Outcome) {
        if let (Call::List(_), Ok(_)) = (call, outcome.answer) {
            self.note_list(&outcome.bytes);
        }
    }

    /// Counts a list that was written.
    fn note_list(&mut self, list: &[u8]) {
        let pieces = pieces(list).unwrap_or_default();
        let alike = pieces.windows(2).all(|pair| pair[0].len() == pair[1].len());
        let kind = match pieces.len() {
            0 | 1 => &mut self.sole,
            _ if alike => &mut self.alike,
            _ => &mut self.uneven,
        };
        *kind += 1;
        self.long += u64::from(list.len() > ROOM);
    }

    /// What a run must have seen, and how often it was.
    fn sights(&self) -> [Sight; 4] {
        [
            ("list of one order", self.sole),
            ("list of orders equally long", self.alike),
            ("list of orders that differ in length", self.uneven),
            ("list of over 65,536 bytes", self.long),
        ]
    }

    /// What was never seen.
    pub fn missing(&self) -> Vec<String> {
        coverage::unseen(&self.sights())
    }

    /// A line with what was seen.
    pub fn show(&self) {
        coverage::show(&self.sights());
    }
}

#[cfg(test)]
mod tests {
    use super::{pieces, Lists};
    use crate::compare::{Call, Outcome};

    /// The list of a command, by the model.
    fn list(text: &str) -> Vec<u8> {
        let mut record = vec![0; 1000];
        let length = model::read(text.as_bytes(), b"", &mut record).unwrap_or(0);
        let mut list = vec![0; 1 << 22];
        let length = model::list(&record[..length], &mut list).unwrap_or(0);
        list.truncate(length);
        list
    }

    /// What one list shows, and how often.
    fn seen(text: &str) -> [u64; 4] {
        let mut lists = Lists::default();
        let bytes = list(text);
        let answer = Ok(bytes.len() as u32);
        let row = Vec::new();
        lists.note(Call::List(b""), &Outcome { answer, bytes, row });
        lists.sights().map(|(_, times)| times)
    }

    #[test]
    fn each_sight() {
        assert_eq!(seen("A;"), [1, 0, 0, 0]);
        assert_eq!(seen("A:5&&5;"), [1, 0, 0, 0]);
        assert_eq!(seen("A:5&&9;"), [0, 1, 0, 0]);
        assert_eq!(seen("A:5&UP;"), [0, 0, 1, 0]);
        assert_eq!(seen("A:0&&4094,0&&15;"), [0, 1, 0, 1]);
        assert_eq!(Lists::default().missing().len(), 4);
    }

    #[test]
    fn a_list_is_taken_apart_whole() {
        let list = list("A:5&UP;");
        let lengths = pieces(&list).map(|pieces| pieces.iter().map(|piece| piece.len()).collect());
        assert_eq!(lengths, Some(vec![31, 27]));
        for length in (1..list.len()).filter(|&length| length != 7 + 31) {
            assert_eq!(pieces(&list[..length]), None);
        }
        for at in (0..7).chain(38..45) {
            let mut broken = list.clone();
            broken[at] ^= 0x80;
            assert_eq!(pieces(&broken), None);
        }
        assert_eq!(pieces(b""), Some(Vec::new()));
    }
}
