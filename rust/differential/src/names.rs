//! Names that are like others.

use crate::random::Random;

/// The pieces of a name.
pub type Name = Vec<Vec<u8>>;

/// The most pieces of a name.
const PIECES: usize = 4;

/// The longest piece.
const WORD: usize = 32;

/// Changes a name in little, so that it is another one and, most times, still a name: one byte,
/// the case of a letter, a zero before a number, a piece more or less.
pub fn change(random: &mut Random, name: &mut Name) {
    let at = if random.one_in(3) {
        random.below(name.len())
    } else {
        name.len() - 1
    };
    match random.below(6) {
        0 if name.len() > 1 => {
            name.remove(at);
        }
        1 if name.len() < PIECES => name.push(random.pick(&[&b"1"[..], b"01", b"N"]).to_vec()),
        2 if name[at][0].is_ascii_digit() && name[at].len() < WORD => name[at].insert(0, b'0'),
        3 if name[at].iter().any(u8::is_ascii_alphabetic) => change_case(random, &mut name[at]),
        _ => change_byte(random, &mut name[at]),
    }
}

/// Makes one letter of a piece that has letters small, or a capital.
fn change_case(random: &mut Random, piece: &mut [u8]) {
    let letters: Vec<usize> = (0..piece.len())
        .filter(|&at| piece[at].is_ascii_alphabetic())
        .collect();
    piece[random.pick(&letters)] ^= b'A' ^ b'a';
}

/// Makes one byte of a piece another one of its kind.
fn change_byte(random: &mut Random, piece: &mut [u8]) {
    let at = random.below(piece.len());
    piece[at] = match piece[at] {
        b'9' => b'0',
        b'Z' => b'A',
        b'z' => b'a',
        byte => byte.wrapping_add(1),
    };
}

#[cfg(test)]
mod tests {
    use super::{change, Name};
    use crate::random::Random;

    fn name(text: &str) -> Name {
        text.split('-').map(|piece| piece.into()).collect()
    }

    #[test]
    fn a_changed_name_is_another() {
        let mut random = Random::new(1);
        for text in ["N", "N-1", "Zz9-07-Q", "A-A-A-A", "N-9"] {
            for _ in 0..1000 {
                let mut changed = name(text);
                change(&mut random, &mut changed);
                assert_ne!(changed, name(text));
            }
        }
    }

    #[test]
    fn every_change_is_made() {
        let mut random = Random::new(1);
        for (from, to) in [
            ("N-1", "N-01"),
            ("N-1", "N-2"),
            ("N-1", "N"),
            ("N", "N-1"),
            ("N-M", "n-M"),
            ("N-M", "N-m"),
            ("LEV", "LEW"),
        ] {
            let mut changed = name(from);
            for _ in 0..1000 {
                if changed != name(to) {
                    changed = name(from);
                    change(&mut random, &mut changed);
                }
            }
            assert_eq!(changed, name(to), "from {from}");
        }
    }
}
