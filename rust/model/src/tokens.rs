//! The scan: from the text to a table of tokens.
//!
//! The contents begin as a copy of the text. Where a word has format effectors inside or a
//! string doubled marks, its content is drawn together there, so that every content is one
//! part of the contents. Where a word becomes a keyed numeral, its letters become capitals there.

use crate::characters::{self, class};
use crate::{limits, Refusal};

/// What a token is. Words become units when their place's base is known; a unit's number is
/// its tag in the record.
#[derive(Clone, Copy, PartialEq, Eq, PartialOrd, Ord)]
#[repr(u8)]
pub enum Kind {
    /// `;`
    Semicolon = 0,
    /// `:`
    Colon = 1,
    /// `,`
    Comma = 2,
    /// `=`
    Equal = 3,
    /// A word read as a D, H, O or B numeral.
    Numeral = 7,
    /// A word read as a keyed numeral.
    Keyed = 8,
    /// A word read as an identifier.
    Identifier = 9,
    /// A word read as a symbolic name.
    SymbolicName = 10,
    /// A string.
    String = 11,
    /// A word not yet read.
    Word = 12,
    /// `-`
    Hyphen = 16,
    /// `&`
    Ampersand = 17,
    /// `&-`
    AmpersandHyphen = 18,
    /// `&&`
    DoubleAmpersand = 19,
    /// `&&-`
    DoubleAmpersandHyphen = 20,
    /// `++`
    PlusPlus = 21,
}

impl Kind {
    /// Whether this is a word or a string.
    #[inline(always)]
    pub fn is_unit(self) -> bool {
        Kind::Numeral <= self && self <= Kind::Word
    }

    /// Whether this joins the units of a value.
    #[inline(always)]
    pub fn joins(self) -> bool {
        self >= Kind::Hyphen
    }
}

/// One token.
#[derive(Clone, Copy)]
pub struct Token {
    /// What it is.
    pub kind: Kind,
    /// The length of its content; of a numeral, its fraction digits.
    pub length: u8,
    /// Where its first byte stands in the text.
    pub place: u16,
    /// Where its content starts; of a separator before a place, the token that ends the place.
    pub start: u16,
    /// What holds of all characters of a word; of a numeral, its base letter; of a separator
    /// before a place, whether the place is named.
    pub class: u16,
    /// A numeral's value.
    pub value: u32,
}

impl Token {
    /// What stands in a table before the scan.
    pub const NONE: Token = Token {
        kind: Kind::Semicolon,
        length: 0,
        place: 0,
        start: 0,
        class: 0,
        value: 0,
    };

    /// Whether it is a word that reads as an identifier whatever the base.
    #[inline(always)]
    pub fn is_identifier(&self) -> bool {
        self.kind == Kind::Word && self.class & characters::IDENTIFIER == characters::IDENTIFIER
    }

    /// Whether it is a word of digits.
    #[inline(always)]
    pub fn is_index_number(&self) -> bool {
        self.kind == Kind::Word && self.class & characters::DECIMAL != 0
    }

    /// Its content.
    #[inline(always)]
    pub fn content<'c>(&self, contents: &'c [u8]) -> &'c [u8] {
        &contents[self.start as usize..][..self.length as usize]
    }

    /// Its content, to be changed.
    pub fn content_mut<'c>(&self, contents: &'c mut [u8]) -> &'c mut [u8] {
        &mut contents[self.start as usize..][..self.length as usize]
    }

    /// Refuses with `number`, shown by this token.
    #[cold]
    pub fn refused<T>(&self, number: u8) -> Result<T, Refusal> {
        Err(Refusal::at(number, self.place as usize))
    }
}

/// The tokens of a text.
pub struct Scan<'t> {
    /// Room for one token for each byte of the text.
    pub table: &'t mut [Token],
    /// A copy of the text.
    pub contents: &'t mut [u8],
    /// How many tokens there are.
    pub count: usize,
    /// The first `;`.
    pub end: Option<usize>,
    /// The separator before the place that the scan is in.
    opener: Option<usize>,
    /// Whether that place has an `=`.
    named: bool,
}

impl<'t> Scan<'t> {
    /// A scan before its first token.
    pub fn new(table: &'t mut [Token], contents: &'t mut [u8]) -> Scan<'t> {
        Scan {
            table,
            contents,
            count: 0,
            end: None,
            opener: None,
            named: false,
        }
    }

    /// Scans the whole text, token by token. Refuses with 4, 5, 15.
    pub fn run(&mut self, text: &[u8]) -> Result<(), Refusal> {
        let mut at = 0;
        while let Some(&byte) = text.get(at) {
            let here = class(byte);
            at = if here & characters::WORD != 0 {
                self.word(text, at)?
            } else if here & characters::EFFECTOR != 0 {
                at + 1
            } else {
                match byte {
                    b'-' => self.separator(Kind::Hyphen, at, at + 1),
                    b'&' => self.ampersands(text, at),
                    b',' => self.end_place(Kind::Comma, at),
                    b'=' => {
                        self.named = true;
                        self.separator(Kind::Equal, at, at + 1)
                    }
                    b':' => self.end_place(Kind::Colon, at),
                    b';' => {
                        self.end = self.end.or(Some(self.count));
                        self.end_place(Kind::Semicolon, at)
                    }
                    b'"' => self.string(text, at)?,
                    b'/' => comment(text, at)?,
                    _ => return Err(Refusal::at(5, at)),
                }
            };
        }
        Ok(())
    }

    #[inline(always)]
    fn push(&mut self, token: Token) {
        self.table[self.count] = token;
        self.count += 1;
    }

    /// A separator at `at`; the text goes on at `next`.
    #[inline(always)]
    fn separator(&mut self, kind: Kind, at: usize, next: usize) -> usize {
        self.push(Token {
            kind,
            place: at as u16,
            ..Token::NONE
        });
        next
    }

    /// A separator that ends a place and may begin one: the one before the place that it ends
    /// learns where it stands.
    #[inline]
    fn end_place(&mut self, kind: Kind, at: usize) -> usize {
        if let Some(opener) = self.opener {
            self.table[opener].start = self.count as u16;
            self.table[opener].class = self.named as u16;
        }
        self.opener = Some(self.count);
        self.named = false;
        self.separator(kind, at, at + 1)
    }

    /// The longest separator that begins with the `&` at `at`.
    fn ampersands(&mut self, text: &[u8], at: usize) -> usize {
        let second = past_effectors(text, at + 1);
        match text.get(second) {
            Some(b'&') => {
                let third = past_effectors(text, second + 1);
                match text.get(third) {
                    Some(b'-') => self.separator(Kind::DoubleAmpersandHyphen, at, third + 1),
                    _ => self.separator(Kind::DoubleAmpersand, at, third),
                }
            }
            Some(b'-') => self.separator(Kind::AmpersandHyphen, at, second + 1),
            _ => self.separator(Kind::Ampersand, at, second),
        }
    }

    /// The word or the `++` that begins at `first`.
    #[inline]
    fn word(&mut self, text: &[u8], first: usize) -> Result<usize, Refusal> {
        let mut all = characters::ALL;
        let mut at = first;
        let mut behind = 0;
        while at < text.len() {
            behind = class(text[at]);
            if behind & characters::RUN == 0 {
                break;
            }
            all &= behind;
            at += 1;
        }
        let mut length = at - first;
        if at < text.len() && behind & (characters::WORD | characters::EFFECTOR) != 0 {
            let drawn = draw_together(text, at, &mut self.contents[first..], length);
            if drawn.length == 0 {
                let second = past_effectors(text, first + 1);
                return Ok(self.separator(Kind::PlusPlus, first, second + 1));
            }
            at = drawn.next;
            length = drawn.length;
            all &= drawn.class;
        }
        if length > limits::WORD && !self.fits_prefixed(first, length) {
            return Err(Refusal::at(15, first));
        }
        let initial = class(text[first]) & characters::INITIAL;
        self.push(Token {
            kind: Kind::Word,
            length: length as u8,
            place: first as u16,
            start: first as u16,
            class: all & !characters::INITIAL | initial,
            value: 0,
        });
        Ok(at)
    }

    /// Whether a word is within the limit of those whose second character is the apostrophe.
    fn fits_prefixed(&self, first: usize, length: usize) -> bool {
        length <= limits::PREFIXED_WORD && self.contents[first + 1] == b'\''
    }

    /// The string whose opening mark is at `opening`.
    fn string(&mut self, text: &[u8], opening: usize) -> Result<usize, Refusal> {
        let content = &mut self.contents[opening + 1..];
        let mut length = 0;
        let mut at = opening + 1;
        loop {
            let run = text[at..].iter().position(|&byte| byte == b'"');
            let run = run.ok_or(Refusal::at(4, opening))?;
            let from = at - opening - 1;
            if from != length {
                content.copy_within(from..from + run, length);
            }
            length += run;
            at += run + 1;
            if text.get(at) != Some(&b'"') {
                break;
            }
            content[length] = b'"';
            length += 1;
            at += 1;
        }
        if length > limits::STRING {
            return Err(Refusal::at(15, opening));
        }
        self.push(Token {
            kind: Kind::String,
            length: length as u8,
            place: opening as u16,
            start: opening as u16 + 1,
            ..Token::NONE
        });
        Ok(at)
    }
}

/// The place of the first byte from `at` on that is no format effector.
#[inline(always)]
fn past_effectors(text: &[u8], mut at: usize) -> usize {
    while at < text.len() && class(text[at]) & characters::EFFECTOR != 0 {
        at += 1;
    }
    at
}

/// A word's content with what was drawn to it.
struct Drawn {
    length: usize,
    class: u16,
    next: usize,
}

/// Draws the rest of a word, from `at` on, to the first characters of its content.
fn draw_together(text: &[u8], mut at: usize, content: &mut [u8], mut length: usize) -> Drawn {
    let mut all = characters::ALL;
    while let Some(&byte) = text.get(at) {
        let here = class(byte);
        if here & characters::WORD != 0 {
            if byte == b'+' && text.get(past_effectors(text, at + 1)) == Some(&b'+') {
                break;
            }
            content[length] = byte;
            length += 1;
            all &= here;
        } else if here & characters::EFFECTOR == 0 {
            break;
        }
        at += 1;
    }
    Drawn {
        length,
        class: all,
        next: at,
    }
}

/// Where the text goes on after the comment whose `/` is at `opening`.
fn comment(text: &[u8], opening: usize) -> Result<usize, Refusal> {
    if text.get(opening + 1) != Some(&b'*') {
        return Err(Refusal::at(5, opening));
    }
    let inside = opening + 2;
    match text[inside..].windows(2).position(|pair| pair == b"*/") {
        Some(length) => Ok(inside + length + 2),
        None => Err(Refusal::at(4, opening)),
    }
}
