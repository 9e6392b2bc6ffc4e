//! What the library answered in a run, and what a run must have seen.

use crate::compare::{Answer, Call};

/// Numbers of answers: 0 for success, and those of the refusals up to the last.
const NUMBERS: usize = 29;

/// The numbers that reading can answer.
const READING: &[usize] = &[
    0, 1, 2, 3, 4, 5, 6, 7, 8, 9, 10, 11, 12, 13, 14, 15, 16, 17, 21,
];

/// Each call, and the numbers that it can answer.
const CALLS: [(&str, &[usize]); 10] = [
    ("read", READING),
    ("print", &[0, 2, 17, 18]),
    ("order", &[0, 17, 18, 19]),
    ("count", &[0, 18]),
    ("key", &[0, 20]),
    ("list", &[0, 17, 18]),
    ("member", &[0, 18, 26, 27]),
    ("read_row", READING),
    ("order_row", &[0, 17, 18, 19]),
    ("place", &[0, 18, 26, 28]),
];

/// Whether a call can answer this number.
pub fn is_answer(number: u32) -> bool {
    let number = number as usize;
    CALLS.iter().any(|(_, numbers)| numbers.contains(&number))
}

/// How often each call gave each answer, by its number, 0 for success.
#[derive(Default)]
pub struct Coverage([[u64; NUMBERS]; CALLS.len()]);

impl Coverage {
    /// Counts an answer.
    pub fn note(&mut self, call: Call, answer: Answer) {
        let kind = match call {
            Call::Read(..) => 0,
            Call::Print(_) => 1,
            Call::Order(..) => 2,
            Call::Count(_) => 3,
            Call::Key(..) => 4,
            Call::List(_) => 5,
            Call::Member(..) => 6,
            Call::ReadRow(..) => 7,
            Call::OrderRow(..) => 8,
            Call::Place(..) => 9,
        };
        let number = answer.err().map_or(0, |(number, _)| number as usize);
        self.0[kind][number] += 1;
    }

    /// The answers that a call can give and did not, as `read 16`.
    pub fn missing(&self) -> Vec<String> {
        let mut missing = Vec::new();
        for ((name, numbers), answers) in CALLS.iter().zip(&self.0) {
            let unseen = numbers.iter().filter(|&&number| answers[number] == 0);
            missing.extend(unseen.map(|number| format!("{name} {number}")));
        }
        missing
    }

    /// A line for each call with what it answered.
    pub fn show(&self) {
        for ((name, _), answers) in CALLS.iter().zip(&self.0) {
            let mut line = format!("{name:<9} done {}", answers[0]);
            for (number, times) in answers.iter().enumerate().skip(1) {
                if *times > 0 {
                    line.push_str(&format!(", refused {number}: {times}"));
                }
            }
            println!("{line}");
        }
    }
}

/// Something that a run must have seen, and how often it was.
pub type Sight = (&'static str, u64);

/// What was never seen.
pub fn unseen(sights: &[Sight]) -> Vec<String> {
    let unseen = sights.iter().filter(|(_, times)| *times == 0);
    unseen.map(|(sight, _)| sight.to_string()).collect()
}

/// A line with what was seen.
pub fn show(sights: &[Sight]) {
    let seen = sights
        .iter()
        .map(|(sight, times)| format!("{sight}: {times}"));
    println!("{}", seen.collect::<Vec<String>>().join(", "));
}

#[cfg(test)]
mod tests {
    use super::{is_answer, Coverage, CALLS, NUMBERS};
    use crate::compare::Call;

    /// Notes every answer that the calls can give but one; gives what is missing.
    fn all_but(left_out: (usize, usize)) -> Vec<String> {
        let calls = [
            Call::Read(b"", b""),
            Call::Print(b""),
            Call::Order(b"", 0),
            Call::Count(b""),
            Call::Key(b"", 0),
            Call::List(b""),
            Call::Member(b"", 0, b""),
            Call::ReadRow(b"", b""),
            Call::OrderRow(b"", 0),
            Call::Place(b"", &[], 0),
        ];
        let mut coverage = Coverage::default();
        for (kind, (_, numbers)) in CALLS.iter().enumerate() {
            for &number in numbers.iter().filter(|&&number| (kind, number) != left_out) {
                let answer = match number {
                    0 => Ok(1),
                    _ => Err((number as u32, 0)),
                };
                coverage.note(calls[kind], answer);
            }
        }
        coverage.missing()
    }

    #[test]
    fn what_no_call_answered_is_missing() {
        assert_eq!(Coverage::default().missing().len(), 65);
        assert_eq!(all_but((0, 16)), ["read 16"]);
        assert_eq!(all_but((2, 19)), ["order 19"]);
        assert_eq!(all_but((3, 0)), ["count 0"]);
        assert_eq!(all_but((4, 20)), ["key 20"]);
        assert_eq!(all_but((5, 17)), ["list 17"]);
        assert_eq!(all_but((6, 27)), ["member 27"]);
        assert_eq!(all_but((7, 21)), ["read_row 21"]);
        assert_eq!(all_but((8, 19)), ["order_row 19"]);
        assert_eq!(all_but((9, 28)), ["place 28"]);
        assert!(all_but((10, 9)).is_empty());
    }

    #[test]
    fn every_refusal_belongs_to_a_call() {
        for number in (0..=21).chain(26..NUMBERS as u32) {
            assert!(is_answer(number));
        }
        for number in (22..=25).chain([NUMBERS as u32, u32::MAX]) {
            assert!(!is_answer(number));
        }
    }
}
