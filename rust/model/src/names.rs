//! The names of a block: marks of those that were met, so that most of the others need not be
//! compared with them.

/// A mark stands for all keys that have these high bits in common.
const MARK_BITS: u32 = 10;

/// How many numbers hold the marks.
const NUMBERS: usize = (1 << MARK_BITS) / u64::BITS as usize;

/// An odd number: times it, keys that differ differ mostly in their high bits.
const SPREAD: u32 = 0x0100_0193;

/// Marks of the keys of those names that were met.
pub struct Marks([u64; NUMBERS]);

impl Marks {
    /// No name was met.
    pub const NONE: Marks = Marks([0; NUMBERS]);

    /// Marks a key; tells whether a name of this key may have been met before.
    #[inline(always)]
    pub fn mark(&mut self, key: u32) -> bool {
        let mark = key >> (u32::BITS - MARK_BITS);
        let marks = &mut self.0[(mark / u64::BITS) as usize];
        let bit = 1 << (mark % u64::BITS);
        let met = *marks & bit != 0;
        *marks |= bit;
        met
    }
}

/// The key of a name's piece behind pieces of the key `before`, from the piece's length and four
/// of its bytes. Equal names have equal keys, other names mostly not.
#[inline(always)]
pub fn key(before: u32, piece: &[u8]) -> u32 {
    let (Some(first), Some(last)) = (piece.first(), piece.last()) else {
        return before;
    };
    let length = piece.len();
    let middle = piece[(length - 1) / 2];
    let last_but_one = piece[length.saturating_sub(2)];
    let bytes = u32::from_be_bytes([*first, middle, last_but_one, *last]);
    let key = before.wrapping_add(bytes).wrapping_add(length as u32);
    key.wrapping_mul(SPREAD)
}
