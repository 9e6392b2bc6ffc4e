//! Generated commands: built by the grammar, with wrong choices now and then, spaced out,
//! commented, damaged, and stretched to the limits.

use crate::names::{self, Name};
use crate::random::Random;

/// A command's text and base letters.
pub struct Command {
    /// The text.
    pub text: Vec<u8>,
    /// The base letters.
    pub bases: Vec<u8>,
}

/// Makes one command.
pub fn command(random: &mut Random) -> Command {
    let wrong = random.pick(&[0, 0, 0, 0, 60, 60, 25, 10]);
    let small = random.pick(&[0, 0, 1, 2, 4]);
    let mut maker = Maker {
        random,
        wrong,
        small,
        bases: Vec::new(),
        tokens: Vec::new(),
        names: Vec::new(),
        orders: 1,
    };
    maker.bases();
    maker.code();
    if maker.random.one_in(60) {
        maker.brink();
    } else {
        maker.blocks();
    }
    maker.tokens.push(Token::Bare(b";".to_vec()));
    let text = maker.render();
    let bases = maker.bases;
    let mut command = Command { text, bases };
    if random.one_in(5) {
        damage(random, &mut command.text);
    }
    if random.one_in(20) {
        stretch(random, &mut command.text);
    }
    if random.one_in(60) {
        damage(random, &mut command.bases);
    }
    command
}

/// A token as it is typed: into bare ones format effectors may go.
enum Token {
    Bare(Vec<u8>),
    String(Vec<u8>),
}

struct Maker<'r> {
    random: &'r mut Random,
    /// A wrong choice once in so many times; 0 for never.
    wrong: usize,
    /// A letter of a numeral typed small once in so many times; 0 for never.
    small: usize,
    bases: Vec<u8>,
    tokens: Vec<Token>,
    /// The names that the block has so far.
    names: Vec<Name>,
    /// The orders so far, to keep most commands within the limit.
    orders: u64,
}

impl Maker<'_> {
    fn errs(&mut self) -> bool {
        self.wrong > 0 && self.random.one_in(self.wrong)
    }

    fn bare(&mut self, bytes: &[u8]) {
        self.tokens.push(Token::Bare(bytes.to_vec()));
    }

    /// A numeral, which is given in capitals; some of its letters may be typed small.
    fn bare_numeral(&mut self, mut word: Vec<u8>) {
        for letter in &mut word {
            if self.small > 0 && self.random.one_in(self.small) {
                letter.make_ascii_lowercase();
            }
        }
        self.bare(&word);
    }

    fn bases(&mut self) {
        let length = match self.random.below(10) {
            0..=2 => 0,
            3..=7 => self.random.between(1, 6),
            8 => 32,
            _ => self.random.between(7, 31),
        };
        let only = self.random.pick(b"DHOBK");
        let mixed = self.random.one_in(2);
        for _ in 0..length {
            let letter = if mixed {
                self.random.pick(b"DHOBK")
            } else {
                only
            };
            self.bases.push(letter);
        }
        if self.errs() {
            let letter = self.random.pick(b"XdhobkPN\0\xff");
            let at = self.random.below(self.bases.len() + 1);
            self.bases.insert(at, letter);
        }
        if self.errs() {
            self.bases.resize(self.random.between(32, 41), b'D');
        }
    }

    fn code(&mut self) {
        let mut pieces = self.random.between(1, 3);
        if self.errs() {
            pieces = self.random.pick(&[0, 4, 5]);
        }
        for piece in 0..pieces {
            if piece > 0 {
                self.hyphen();
            }
            if self.errs() {
                self.wrong_word();
            } else {
                let word = self.identifier();
                self.bare(&word);
            }
        }
    }

    fn hyphen(&mut self) {
        if self.errs() {
            self.separator();
        } else {
            self.bare(b"-");
        }
    }

    /// Any separator.
    fn separator(&mut self) {
        let separators: [&[u8]; 11] = [
            b"&&-", b"&&", b"&-", b"&", b"++", b"-", b",", b":", b"=", b";", b"",
        ];
        let separator = self.random.pick(&separators);
        self.bare(separator);
    }

    /// A block of ranges whose orders are about as many as there may be.
    fn brink(&mut self) {
        let products: [&[u64]; 12] = [
            &[255, 257],
            &[3, 5, 17, 257],
            &[51, 1285],
            &[771, 85],
            &[217, 302],
            &[2, 7, 31, 151],
            &[256, 256],
            &[4096, 16],
            &[4, 128, 128],
            &[4095, 16],
            &[4096],
            &[4097],
        ];
        let mut product = self.random.pick(&products).to_vec();
        let turn = self.random.below(product.len());
        product.rotate_left(turn);
        for (place, terms) in product.into_iter().enumerate() {
            self.bare(if place == 0 { b":" } else { b"," });
            let base = self.bases.get(place).copied().unwrap_or(b'D');
            let lower = self.random.pick(&[0, 1, 9, u32::MAX - 4096]);
            let single = self.random.one_in(3);
            let letter = if base == b'K' {
                self.bases.truncate(place);
                b'D'
            } else {
                base
            };
            let upper = lower + (terms as u32 - 1 - u32::from(single));
            self.end(letter, letter, lower);
            self.bare(b"&&");
            self.end(letter, letter, upper);
            if single {
                self.bare(b"&");
                self.end(letter, letter, 0);
            }
        }
    }

    fn blocks(&mut self) {
        let blocks = match self.random.below(24) {
            0 => 8,
            1 => self.random.between(8, 9),
            2..=4 => 0,
            5..=17 => 1,
            18..=20 => 2,
            _ => self.random.between(2, 7),
        };
        let mut place = 0;
        for _ in 0..blocks {
            let named = self.random.one_in(2);
            self.names.clear();
            let places = match self.random.below(40) {
                0 => 32 - usize::min(place, 31),
                1 => self.random.between(28, 34),
                2..=20 => 1,
                _ => self.random.between(1, 4),
            };
            for n in 0..places {
                self.bare(if n == 0 { b":" } else { b"," });
                self.place(place, named, places > 8);
                place += 1;
            }
        }
    }

    fn place(&mut self, place: usize, mut named: bool, crowded: bool) {
        let base = self.bases.get(place).copied().unwrap_or(b'D');
        if self.errs() || place >= 32 && self.random.one_in(2) {
            named = !named;
        }
        if named {
            self.name();
            self.bare(b"=");
        } else if self.random.one_in(if crowded { 2 } else { 6 }) {
            return;
        }
        if self.errs() {
            self.separator();
        } else if !self.errs() {
            self.value(base, crowded);
        }
    }

    fn name(&mut self) {
        let name = self.pieces_of_name();
        for (n, piece) in name.iter().enumerate() {
            if n > 0 {
                self.hyphen();
            }
            if self.errs() {
                self.wrong_word();
            } else {
                self.bare(piece);
            }
        }
        self.names.push(name);
    }

    /// A name for the next place of the block: now and then one that the block has, most times
    /// none of them, but often one that is like one of them.
    fn pieces_of_name(&mut self) -> Name {
        if !self.names.is_empty() {
            let mut name = self.names[self.random.below(self.names.len())].clone();
            if self.random.one_in(16 + 4 * self.names.len()) || self.errs() {
                return name;
            }
            if !name.is_empty() && self.random.one_in(3) {
                names::change(self.random, &mut name);
                if !self.names.contains(&name) {
                    return name;
                }
            }
        }
        loop {
            let name = self.any_name();
            if !self.names.contains(&name) {
                return name;
            }
        }
    }

    fn any_name(&mut self) -> Name {
        let mut pieces = self.random.pick(&[1, 1, 1, 2, 3, 4]);
        if self.errs() {
            pieces = self.random.pick(&[0, 5, 6]);
        }
        let mut name = Name::new();
        for piece in 0..pieces {
            if piece > 0 && self.random.one_in(2) {
                let length = self.random.pick(&[1, 1, 2, 3, 32]);
                name.push(self.word_of(b"0123456789", length));
            } else {
                name.push(self.identifier());
            }
        }
        name
    }

    fn word_of(&mut self, characters: &[u8], length: usize) -> Vec<u8> {
        (0..length).map(|_| self.random.pick(characters)).collect()
    }

    /// A length of a word, mostly short, sometimes about the limit.
    fn length(&mut self, limit: usize) -> usize {
        if self.random.one_in(40) {
            let past = usize::from(self.errs());
            limit - self.random.below(2) + past
        } else {
            self.random.pick(&[1, 1, 1, 2, 2, 3, 4, 6, 9])
        }
    }

    fn identifier(&mut self) -> Vec<u8> {
        let length = self.length(32);
        let firsts: [&[u8]; 4] = [b"ABCDEF", b"DHOBK", b"GXYZaz", b"abcdef"];
        let rests: [&[u8]; 5] = [b"ABCDEF0123", b"XYZabz0189", b"A1", b"abcdef0123", b"abcd"];
        let first = self.random.pick(&firsts);
        let rest = self.random.pick(&rests);
        let mut word = vec![self.random.pick(first)];
        word.extend(self.word_of(rest, length - 1));
        word
    }

    fn wrong_word(&mut self) {
        let words: [&[u8]; 32] = [
            b"1.",
            b".5",
            b"1.2.3",
            b"*",
            b"'",
            b"D'",
            b"'1",
            b"Z'1",
            b"H'G",
            b"h'g",
            b"x'1",
            b"hh'1",
            b"1'1",
            b"D'1'1",
            b"DD'1",
            b"K'E",
            b"B'2",
            b"O'8",
            b"D'.1",
            b"D'1.",
            b"K'1.5",
            b"H'1.5",
            b"++",
            b"+++",
            b"A.B",
            b"A*",
            b"8",
            b"2",
            b"4294967296",
            b"/",
            b"$",
            b"",
        ];
        let word = self.random.pick(&words);
        self.bare(word);
    }

    /// A value with a long record: long strings, and many short arguments behind them.
    fn heavy_value(&mut self) {
        for _ in 0..3 {
            let length = self.random.between(60, 80);
            let string = [b"\"", &vec![b'x'; length][..], b"\""].concat();
            self.tokens.push(Token::String(string));
            self.bare(b"-");
        }
        self.bare(b"1");
        let elements = self.random.between(30, 64);
        for _ in 1..elements {
            self.bare(b"&-");
            self.bare(b"1");
        }
        self.orders = self.orders.saturating_mul(elements as u64);
    }

    /// A value: elements joined by `&` and `&-`.
    fn value(&mut self, base: u8, crowded: bool) {
        if self.random.one_in(150) {
            self.heavy_value();
            return;
        }
        let units = self.random.pick(&[1, 1, 1, 1, 2, 2, 2, 3, 4]);
        let elements = match self.random.below(60) {
            0 if !crowded => self.random.between(62, 64),
            1 if !crowded && self.wrong > 0 => self.random.between(64, 66),
            2..=30 => 1,
            _ if crowded => 1,
            _ => self.random.between(1, 5),
        };
        let elements = if self.orders * elements as u64 > 65_535 && !self.random.one_in(20) {
            1
        } else {
            elements
        };
        let mut arguments = 0;
        for element in 0..elements {
            let short = units > 1 && element > 0 && !self.random.one_in(3);
            if element > 0 {
                match (short, self.errs()) {
                    (_, true) => self.separator(),
                    (true, _) => self.bare(b"&-"),
                    (false, _) => self.bare(b"&"),
                }
            }
            let mut own = if short { 1 } else { units };
            if self.errs() {
                own = self.random.between(1, 5);
            }
            let again = !short && element > 0 && self.random.one_in(3);
            self.leading(base, own - 1, again);
            arguments += self.last(base, units, elements);
        }
        self.orders = self.orders.saturating_mul(arguments);
    }

    /// Units with a `-` behind each; the same simple ones again and again if wanted.
    fn leading(&mut self, base: u8, units: usize, again: bool) {
        for unit in 0..units {
            if again || self.random.one_in(2) {
                let digit = if base == b'B' { b'1' } else { b'7' };
                self.bare(&[digit - unit as u8 % 2]);
            } else {
                self.unit(base);
            }
            self.hyphen();
        }
    }

    /// The last unit of an argument, perhaps with an upper end and an increment; gives the
    /// number of arguments.
    fn last(&mut self, base: u8, units: usize, elements: usize) -> u64 {
        let ranged = base != b'K' && self.random.one_in(3) || self.errs();
        if !ranged {
            self.unit(base);
            return 1;
        }
        let own = if self.random.one_in(3) {
            self.random.pick(b"DHOB")
        } else {
            base
        };
        let increment = match self.random.below(6) {
            0 => self.random.pick(&[2, 3, 7, 4096, u32::MAX]),
            1 => self.random.between(1, 20) as u32,
            _ => 1,
        };
        let terms = self.terms(elements);
        let span = (terms - 1).saturating_mul(increment as u64);
        let span = span.min(u32::MAX as u64) as u32;
        let lower = match self.random.below(4) {
            0 => u32::MAX - span,
            1 => 0,
            _ => (self.random.below(300) as u32).min(u32::MAX - span),
        };
        let slack = self.random.below(increment.min(20) as usize) as u32;
        let mut upper = lower.saturating_add(span).saturating_add(slack);
        if self.errs() {
            upper = lower.saturating_sub(1);
        }
        self.end(own, base, lower);
        let right: &[u8] = if units == 1 { b"&&" } else { b"&&-" };
        if self.errs() {
            self.separator();
        } else {
            self.bare(right);
        }
        self.end(own, base, upper);
        if increment != 1 || self.random.one_in(8) {
            self.bare(b"++");
            let increment = if self.errs() { 0 } else { increment };
            self.end(own, base, increment);
        }
        if self.errs() {
            self.separator();
            self.unit(base);
        }
        (upper.saturating_sub(lower) / increment.max(1)) as u64 + 1
    }

    /// How many terms a range is to have, most times within what the limits leave.
    fn terms(&mut self, elements: usize) -> u64 {
        let left = (65_535 / self.orders.min(65_535)).clamp(1, 4096);
        match self.random.below(30) {
            0 if elements == 1 => left,
            1 if elements == 1 => left + 1,
            2 => self.random.pick(&[4095, 4096, 4097, 255, 256, 257, 70_000]),
            _ => 1 + self.random.below((left as usize).min(9)) as u64,
        }
    }

    /// An end or increment of a range.
    fn end(&mut self, letter: u8, base: u8, value: u32) {
        if self.errs() {
            self.unit(base);
            return;
        }
        let zeros = if self.random.one_in(6) { 2 } else { 0 };
        let mut word = Vec::new();
        if letter != base || self.random.one_in(6) {
            word.extend([letter, b'\'']);
        }
        word.extend(std::iter::repeat_n(b'0', zeros));
        word.extend(digits(value as u64, letter));
        self.bare_numeral(word);
    }

    /// One unit that a place of this base may have, most times.
    fn unit(&mut self, base: u8) {
        if self.errs() {
            self.wrong_word();
            return;
        }
        match self.random.below(16) {
            0..=5 => self.numeral(base, base),
            6 | 7 => {
                let letter = if base == b'K' {
                    b'K'
                } else {
                    self.random.pick(b"DHOBK")
                };
                self.numeral(letter, base);
            }
            8..=10 => {
                let word = self.identifier();
                self.bare(&word);
            }
            11 | 12 => self.symbolic_name(),
            13 => {
                let length = self.length(32);
                let any: &[u8] = b"0123456789*#ABCDEFGabcdefg%+.'";
                let word = self.word_of(any, length);
                self.bare(if self.wrong > 0 { &word } else { b"X" });
            }
            _ => self.string(),
        }
    }

    fn numeral(&mut self, letter: u8, base: u8) {
        let mut word = Vec::new();
        if letter != base || self.random.one_in(8) {
            word.extend([letter, b'\'']);
        }
        if self.random.one_in(5) {
            let zeros = self.random.pick(&[1, 2, 20]);
            word.extend(std::iter::repeat_n(b'0', zeros));
        }
        match letter {
            b'K' => {
                let length = self.length(32);
                word.retain(|&byte| byte != b'0');
                word.extend(self.word_of(b"0123456789*#ABCD", length));
            }
            b'D' if self.random.one_in(4) => {
                let whole = self.random.pick(&[0, 1, 42, 429_496_729]);
                let length = self.random.pick(&[1, 1, 2, 3, 8, 9, 10]);
                let length = if whole > 42 { 1 } else { length };
                let length = if self.wrong == 0 {
                    length.min(9)
                } else {
                    length
                };
                word.extend(digits(whole, b'D'));
                word.push(b'.');
                word.extend(self.word_of(b"0005", length));
            }
            _ => {
                let value = self.number();
                word.extend(digits(value, letter));
            }
        }
        word.truncate(36);
        self.bare_numeral(word);
    }

    /// A value of a numeral, mostly small, sometimes about the limit.
    fn number(&mut self) -> u64 {
        match self.random.below(12) {
            0 => u32::MAX as u64 - self.random.below(2) as u64,
            1 if self.wrong > 0 => (1 << 32) + self.random.below(2) as u64,
            2 => self.random.next() >> 32,
            3 => 1 << self.random.below(32),
            _ => self.random.below(300) as u64,
        }
    }

    fn symbolic_name(&mut self) {
        let length = self.length(32);
        let mut word = self.word_of(b"0169AFHZadfz+#%", length);
        let at = self.random.below(length);
        word[at] = self.random.pick(b"%+#Z");
        if self.wrong == 0 {
            word.dedup_by(|a, b| *a == b'+' && *b == b'+');
        }
        self.bare(&word);
    }

    fn string(&mut self) {
        let length = match self.random.below(20) {
            0 => 80 + usize::from(self.errs()),
            1 => self.random.between(20, 79),
            _ => self.random.below(6),
        };
        let mut string = vec![b'"'];
        for _ in 0..length {
            let byte = match self.random.below(8) {
                0 => b'"',
                1 => self.random.pick(b" \t\n\r\x0b\x0c"),
                2 => self.random.pick(b"/*;:&-,=+'$@[~_("),
                _ => self.random.between(32, 126) as u8,
            };
            if byte == b'"' {
                string.push(b'"');
            }
            string.push(byte);
        }
        string.push(b'"');
        self.tokens.push(Token::String(string));
    }

    /// Joins the tokens, with format effectors and comments between and inside them.
    fn render(&mut self) -> Vec<u8> {
        let between = self.random.pick(&[0, 0, 0, 6, 2]);
        let inside = self.random.pick(&[0, 0, 0, 12, 3]);
        let comments = self.random.pick(&[0, 0, 0, 12, 4]);
        let mut text = Vec::new();
        for token in std::mem::take(&mut self.tokens) {
            self.pause(&mut text, between, comments);
            match token {
                Token::String(string) => text.extend(string),
                Token::Bare(bytes) => {
                    for (n, byte) in bytes.into_iter().enumerate() {
                        if n > 0 && inside > 0 && self.random.one_in(inside) {
                            self.effectors(&mut text);
                        }
                        text.push(byte);
                    }
                }
            }
        }
        self.pause(&mut text, between, comments);
        text
    }

    fn pause(&mut self, text: &mut Vec<u8>, effectors: usize, comments: usize) {
        if effectors > 0 && self.random.one_in(effectors) {
            self.effectors(text);
        }
        if comments > 0 && self.random.one_in(comments) {
            let inside: [&[u8]; 9] = [
                b"", b"*", b"**", b"/", b"/*", b" x ", b"\"", b";:&&", b"* / $@~",
            ];
            text.extend(b"/*");
            text.extend(self.random.pick(&inside));
            text.extend(b"*/");
        }
    }

    fn effectors(&mut self, text: &mut Vec<u8>) {
        for _ in 0..self.random.between(1, 2) {
            text.push(self.random.pick(b"  \t\n\x0b\x0c\r"));
        }
    }
}

/// A value in the digits of a base.
fn digits(value: u64, letter: u8) -> Vec<u8> {
    match letter {
        b'H' => format!("{value:X}"),
        b'O' => format!("{value:o}"),
        b'B' => format!("{value:b}"),
        _ => format!("{value}"),
    }
    .into_bytes()
}

/// Edits a few bytes.
pub fn damage(random: &mut Random, bytes: &mut Vec<u8>) {
    const TELLING: &[u8] =
        b";:,=&-+'\"/*.#%$ \t\n019ADFHKOPBNXadfhkobz@_\x00\x7f\x80\xff\x01\x05\x07";
    for _ in 0..random.between(1, 3) {
        let at = random.below(bytes.len() + 1);
        let one = random.pick(TELLING);
        match random.below(8) {
            0 | 1 if at < bytes.len() => bytes[at] = one,
            2 if at < bytes.len() => bytes[at] = random.next() as u8,
            3 if at < bytes.len() => {
                bytes.remove(at);
            }
            4 if at + 1 < bytes.len() => bytes.swap(at, at + 1),
            5 => bytes.truncate(at),
            6 => {
                let end = (at + random.between(1, 12)).min(bytes.len());
                let again = bytes[at..end].to_vec();
                let to = random.below(bytes.len() + 1);
                bytes.splice(to..to, again);
            }
            _ => bytes.insert(at, one),
        }
    }
}

/// Stretches a text to about the longest that is read.
fn stretch(random: &mut Random, text: &mut Vec<u8>) {
    let length = random.pick(&[1000, 1023, 1023, 1024, 1024, 1024, 1025, 1026, 3000]);
    if text.len() + 4 > length {
        return;
    }
    let room = length - text.len();
    let filling = match random.below(3) {
        0 => vec![b' '; room],
        1 => [b"/*", &vec![b'*'; room - 4][..], b"*/"].concat(),
        _ => {
            let room = room - 4;
            let end = text.iter().rposition(|&byte| byte == b';').unwrap_or(0);
            let comma = vec![b'-'; room];
            let value = [&text[..end], b"/*", &comma, b"*/", &text[end..]].concat();
            *text = value;
            return;
        }
    };
    let at = random.pick(&[0, text.len()]);
    text.splice(at..at, filling);
}
