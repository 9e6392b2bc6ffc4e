//! What a run must have seen of keys.

use crate::compare::Outcome;
use crate::coverage::{self, Sight};
use crate::keepers::{parts, BS, CAN};
use crate::TEXT;

/// The answer to a key that makes the line ready.
pub const READY: u32 = 1;

/// How often keys were seen to do each of the things that they can do.
#[derive(Default)]
pub struct Keys {
    ready: u64,
    not_ready: u64,
    ready_by_bs: u64,
    full_and_ready: u64,
    full: u64,
    past: u64,
}

impl Keys {
    /// Counts what a key to a keeper and its outcome show.
    pub fn note(&mut self, keeper: &[u8], key: u8, outcome: &Outcome) {
        let (_, count) = parts(keeper);
        match outcome.answer {
            Ok(READY) => self.ready += 1,
            Ok(_) => self.not_ready += 1,
            Err(_) if count as usize > TEXT => self.past += 1,
            Err(_) => self.full += 1,
        }
        if outcome.answer == Ok(READY) && key == BS {
            self.ready_by_bs += 1;
        }
        if outcome.answer.is_ok() && key != CAN && count as usize == TEXT {
            let (_, held) = parts(&outcome.bytes);
            self.full_and_ready += u64::from(held <= 1);
        }
    }

    /// What a run must have seen, and how often it was.
    fn sights(&self) -> [Sight; 6] {
        [
            ("line ready", self.ready),
            ("line not ready", self.not_ready),
            ("line that BS makes ready", self.ready_by_bs),
            ("full ready line emptied", self.full_and_ready),
            ("20 for a full line", self.full),
            ("20 for a count that passes 1,024", self.past),
        ]
    }

    /// What was never seen.
    pub fn missing(&self) -> Vec<String> {
        coverage::unseen(&self.sights())
    }

    /// A line with what was seen.
    pub fn show(&self) {
        coverage::show(&self.sights());
    }
}

#[cfg(test)]
mod tests {
    use super::Keys;
    use crate::compare::{Call, Outcome};
    use crate::keepers::{self, BS, CAN};
    use crate::random::Random;
    use crate::TEXT;

    /// Takes a key to a keeper, by the model.
    fn take(keeper: &mut Vec<u8>, key: u8, keys: &mut Keys) {
        let mut bytes = keeper.clone();
        let answer = Call::Key(keeper, key).model(&mut bytes);
        let outcome = Outcome {
            answer,
            bytes,
            row: Vec::new(),
        };
        keys.note(keeper, key, &outcome);
        *keeper = outcome.bytes;
    }

    /// What one key shows to a keeper whose bytes are all `byte` but the last held, and how often.
    fn seen(byte: u8, last: u8, count: u32, key: u8) -> [u64; 6] {
        let mut bytes = [byte; TEXT];
        if let Some(held) = bytes.get_mut((count as usize).wrapping_sub(1)) {
            *held = last;
        }
        let mut keys = Keys::default();
        take(&mut keepers::keeper(&bytes, count), key, &mut keys);
        keys.sights().map(|(_, times)| times)
    }

    #[test]
    fn each_sight() {
        assert_eq!(seen(b'A', b'A', 5, b';'), [1, 0, 0, 0, 0, 0]);
        assert_eq!(seen(b'A', b'A', 5, b'A'), [0, 1, 0, 0, 0, 0]);
        assert_eq!(seen(b';', b'A', 2, BS), [1, 0, 1, 0, 0, 0]);
        assert_eq!(seen(b'A', b';', 1024, b'A'), [0, 1, 0, 1, 0, 0]);
        assert_eq!(seen(b'A', b';', 1024, BS), [0, 1, 0, 1, 0, 0]);
        assert_eq!(seen(b'A', b';', 1024, CAN), [0, 1, 0, 0, 0, 0]);
        assert_eq!(seen(b'A', b'A', 1024, BS), [0, 1, 0, 0, 0, 0]);
        assert_eq!(seen(b'A', b'A', 1024, b';'), [0, 0, 0, 0, 1, 0]);
        assert_eq!(seen(b'A', b'A', 1025, BS), [0, 0, 0, 0, 0, 1]);
        assert_eq!(seen(b'A', b'A', u32::MAX, b'A'), [0, 0, 0, 0, 0, 1]);
    }

    #[test]
    fn generated_runs_show_everything() {
        let mut random = Random::new(1);
        let mut keys = Keys::default();
        assert_eq!(keys.missing().len(), 6);
        for _ in 0..2000 {
            let mut typed = keepers::typed(&mut random);
            for key in typed.keys {
                take(&mut typed.keeper, key, &mut keys);
            }
        }
        assert!(keys.missing().is_empty());
    }
}
