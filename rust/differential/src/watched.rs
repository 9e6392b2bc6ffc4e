//! Buffers and rows with watched bytes around them, for the library that is linked in.

use std::array;

/// Watched bytes or slots on each side, at least.
const GUARD: usize = 40;

/// How far a buffer may start behind a multiple of 8; a row starts as many slots behind one.
const OFFSETS: usize = 8;

/// A buffer of bytes, or a row of slots, between watched ones.
pub struct Watched<T> {
    all: Vec<T>,
    start: usize,
    key: u8,
}

impl<T: Copy + PartialEq + From<u8>> Watched<T> {
    /// A buffer that has these bytes, or a row that has these slots; the turn decides where it
    /// starts.
    pub fn with(turn: usize, content: &[T]) -> Watched<T> {
        let key = turn as u8;
        let start = GUARD + turn % OFFSETS;
        let length = start + content.len() + GUARD;
        let mut all: Vec<T> = (0..length).map(|at| canary(key, at).into()).collect();
        all[start..start + content.len()].copy_from_slice(content);
        Watched { all, start, key }
    }

    /// Where the buffer ends.
    fn end(&self) -> usize {
        self.all.len() - GUARD
    }

    /// The buffer.
    pub fn buffer(&self) -> &[T] {
        &self.all[self.start..self.end()]
    }

    /// The buffer, to be written.
    pub fn buffer_mut(&mut self) -> &mut [T] {
        let end = self.end();
        &mut self.all[self.start..end]
    }

    /// Whether all that is watched is what it was.
    pub fn is_unharmed(&self) -> bool {
        (0..self.start)
            .chain(self.end()..self.all.len())
            .all(|at| self.all[at] == canary(self.key, at).into())
    }
}

/// A keeper between watched bytes.
pub struct WatchedKeeper {
    places: [Between; 2],
    chosen: usize,
    key: u8,
}

/// A place for a keeper. Of two places, one behind the other, one keeper starts at a multiple of 8
/// and the other 4 behind one.
#[derive(Clone)]
#[repr(C)]
struct Between {
    before: [u8; GUARD],
    keeper: mml::Keeper,
    behind: [u8; GUARD],
}

impl WatchedKeeper {
    /// This keeper; the turn decides where it stands.
    pub fn with(turn: usize, keeper: mml::Keeper) -> WatchedKeeper {
        let key = turn as u8;
        let watched = array::from_fn(|at| canary(key, at));
        let place = Between {
            before: watched,
            keeper,
            behind: watched,
        };
        WatchedKeeper {
            places: [place.clone(), place],
            chosen: turn % 2,
            key,
        }
    }

    /// The keeper.
    pub fn keeper(&self) -> &mml::Keeper {
        &self.places[self.chosen].keeper
    }

    /// The keeper, to be changed.
    pub fn keeper_mut(&mut self) -> &mut mml::Keeper {
        &mut self.places[self.chosen].keeper
    }

    /// Whether all watched bytes are what they were.
    pub fn is_unharmed(&self) -> bool {
        let is_canary = |(at, byte): (usize, &u8)| *byte == canary(self.key, at);
        self.places.iter().all(|place| {
            let [before, behind] = [&place.before, &place.behind];
            before.iter().enumerate().all(is_canary) && behind.iter().enumerate().all(is_canary)
        })
    }
}

fn canary(key: u8, at: usize) -> u8 {
    key ^ (at as u8).wrapping_mul(37)
}

#[cfg(test)]
mod tests {
    use std::ptr;

    use super::{Watched, WatchedKeeper, GUARD, OFFSETS};

    #[test]
    fn a_byte_beside_the_buffer_is_noticed() {
        for turn in 0..16 {
            let mut watched = Watched::with(turn, b"abc");
            assert_eq!(watched.buffer(), b"abc");
            watched.buffer_mut().fill(b'x');
            assert!(watched.is_unharmed());
            for at in [watched.start - 1, watched.end()] {
                watched.all[at] ^= 1;
                assert!(!watched.is_unharmed());
                watched.all[at] ^= 1;
            }
        }
    }

    #[test]
    fn a_slot_beside_the_row_is_noticed() {
        for turn in 0..16 {
            let mut watched = Watched::with(turn, &[5u32, 6, 7]);
            assert_eq!(watched.buffer(), [5, 6, 7]);
            watched.buffer_mut().fill(u32::MAX);
            assert!(watched.is_unharmed());
            for at in [watched.start - 1, watched.end()] {
                watched.all[at] ^= 1 << 31;
                assert!(!watched.is_unharmed());
                watched.all[at] ^= 1 << 31;
            }
        }
    }

    #[test]
    fn a_byte_beside_the_keeper_is_noticed() {
        for turn in 0..16 {
            let mut watched = WatchedKeeper::with(turn, mml::Keeper::new());
            watched.keeper_mut().bytes.fill(b'x');
            watched.keeper_mut().count = u32::MAX;
            assert!(watched.is_unharmed());
            watched.places[turn % 2].before[GUARD - 1] ^= 1;
            assert!(!watched.is_unharmed());
            watched.places[turn % 2].before[GUARD - 1] ^= 1;
            watched.places[turn % 2].behind[0] ^= 1;
            assert!(!watched.is_unharmed());
        }
    }

    #[test]
    fn the_two_places_differ_in_alignment() {
        let watched = WatchedKeeper::with(0, mml::Keeper::new());
        let [one, other] = &watched.places;
        let apart = ptr::from_ref(&other.keeper).addr() - ptr::from_ref(&one.keeper).addr();
        assert_eq!(apart % OFFSETS, 4);
    }
}
