//! The reader: from a command's text to its record.

use crate::characters::is_permitted;
use crate::fields;
use crate::groups;
use crate::names::{self, Marks};
use crate::tokens::{Kind, Scan, Token};
use crate::units::{read_unit, Base};
use crate::writer::{self, Writer};
use crate::{limits, Refusal};

/// Texts up to this length are read with a small table.
const SHORT: usize = 128;

/// Reads one command with the default bases of its places. On success the record stands at the
/// buffer's start; gives its length.
pub fn read(text: &[u8], bases: &[u8], out: &mut [u8]) -> Result<usize, Refusal> {
    read_sized(text, bases, out, None)
}

/// Reads one command as [`read`] does, and fills a row with the offsets of its places in the
/// record; slots beyond the places keep their numbers.
pub fn read_row(
    text: &[u8],
    bases: &[u8],
    out: &mut [u8],
    row: &mut [u32],
) -> Result<usize, Refusal> {
    read_sized(text, bases, out, Some(row))
}

/// Reads one command with a table that suits its length, and fills a row if there is one.
fn read_sized(
    text: &[u8],
    bases: &[u8],
    out: &mut [u8],
    row: Option<&mut [u32]>,
) -> Result<usize, Refusal> {
    judge_bases(bases)?;
    judge_bytes(text)?;
    if text.len() <= SHORT {
        read_with::<SHORT>(text, bases, out, row)
    } else {
        read_with::<{ limits::TEXT }>(text, bases, out, row)
    }
}

/// Refuses with 1: the first index whose letter is wrong or that no list may have.
fn judge_bases(bases: &[u8]) -> Result<(), Refusal> {
    let wrong = |&letter: &u8| Base::of(letter).is_none();
    let index = match bases.iter().take(limits::PLACES).position(wrong) {
        Some(index) => index,
        None if bases.len() > limits::PLACES => limits::PLACES,
        None => return Ok(()),
    };
    Err(Refusal::at(1, index))
}

/// Refuses with 2 and 3.
fn judge_bytes(text: &[u8]) -> Result<(), Refusal> {
    if text.len() > limits::TEXT {
        return Err(Refusal::at(2, limits::TEXT));
    }
    let all = text
        .iter()
        .fold(true, |all, &byte| all & is_permitted(byte));
    if all {
        return Ok(());
    }
    let first = text.iter().position(|&byte| !is_permitted(byte));
    Err(Refusal::at(3, first.unwrap_or(text.len())))
}

fn read_with<const N: usize>(
    text: &[u8],
    bases: &[u8],
    out: &mut [u8],
    row: Option<&mut [u32]>,
) -> Result<usize, Refusal> {
    let mut table = [Token::NONE; N];
    let mut contents = [0; N];
    contents[..text.len()].copy_from_slice(text);
    let mut scan = Scan::new(&mut table, &mut contents);
    scan.run(text)?;
    judge_end(&scan, text.len())?;
    let count = scan.count;
    let mut reader = Reader {
        tokens: &mut table[..count],
        contents: &mut contents,
        bases,
        size: fields::COUNT_SIZE,
        places: 0,
        orders: 1,
        too_many: None,
    };
    reader.command()?;
    let size = reader.size;
    let out = out.get_mut(..size).ok_or(Refusal::at(17, size))?;
    let places = reader.places;
    let row = match row {
        None => None,
        Some(row) => Some(row.get_mut(..places).ok_or(Refusal::at(17, places))?),
    };
    reader.write(&mut Writer::new(out), row);
    Ok(size)
}

/// Refuses with 6 and 7: there is one `;`, and it is the last token.
fn judge_end(scan: &Scan, length: usize) -> Result<(), Refusal> {
    match scan.end {
        None => Err(Refusal::at(6, length)),
        Some(end) if end + 1 < scan.count => scan.table[end + 1].refused(7),
        Some(_) => Ok(()),
    }
}

/// The tokens of one command, and what the reader has found out about them.
struct Reader<'t> {
    tokens: &'t mut [Token],
    contents: &'t mut [u8],
    bases: &'t [u8],
    /// The bytes that the record takes.
    size: usize,
    /// The places met.
    places: usize,
    /// The product of the values' numbers of arguments, while it is within the limit.
    orders: u32,
    /// Where the product passed the limit first.
    too_many: Option<u16>,
}

impl Reader<'_> {
    /// Judges the command and measures its record.
    fn command(&mut self) -> Result<(), Refusal> {
        let mut at = self.pieces(0, Pieces::Code)?;
        let mut blocks = 0;
        while self.tokens[at].kind == Kind::Colon {
            blocks += 1;
            if blocks > limits::BLOCKS {
                return self.tokens[at].refused(15);
            }
            at = self.block(at)?;
        }
        match self.too_many {
            None => Ok(()),
            Some(place) => Err(Refusal::at(16, place as usize)),
        }
    }

    /// Judges the pieces of a code or a name from `at` on; gives what ends them. Refuses with
    /// 8 or 10.
    fn pieces(&mut self, mut at: usize, pieces: Pieces) -> Result<usize, Refusal> {
        let (number, limit) = match pieces {
            Pieces::Code => (8, limits::CODE_PIECES),
            Pieces::Name => (10, limits::NAME_PIECES),
        };
        let mut met = 0;
        loop {
            let piece = &self.tokens[at];
            let index_number = met > 0 && pieces == Pieces::Name && piece.is_index_number();
            if !piece.is_identifier() && !index_number {
                return piece.refused(number);
            }
            self.size += writer::HEAD + piece.length as usize;
            met += 1;
            let next = &self.tokens[at + 1];
            if pieces.end_with(next.kind) {
                return Ok(at + 1);
            }
            if next.kind != Kind::Hyphen || met == limit {
                return next.refused(number);
            }
            at += 2;
        }
    }

    /// Judges the block that the `:` at `colon` starts; gives what ends it.
    fn block(&mut self, colon: usize) -> Result<usize, Refusal> {
        self.size += writer::LETTER_SIZE;
        let kind = self.tokens[colon].class;
        let mut marks = Marks::NONE;
        let mut at = colon;
        loop {
            let opener = self.tokens[at];
            self.places += 1;
            if self.places > limits::PLACES {
                return self.tokens[at + 1].refused(15);
            }
            if opener.class != kind {
                return self.tokens[at + 1].refused(9);
            }
            let end = opener.start as usize;
            let mut first = at + 1;
            self.size += writer::LETTER_SIZE;
            if kind != 0 {
                first = self.name(colon, first, &mut marks)? + 1;
            }
            if kind != 0 || first < end {
                self.value(first, end)?;
            }
            at = end;
            if self.tokens[at].kind != Kind::Comma {
                return Ok(at);
            }
        }
    }

    /// Judges the name from `first` on, in the block that the `:` at `colon` starts, behind the
    /// names that are marked; gives the `=` that ends it. Refuses with 10 and 21.
    fn name(&mut self, colon: usize, first: usize, marks: &mut Marks) -> Result<usize, Refusal> {
        let equal = self.pieces(first, Pieces::Name)?;
        let mut key = 0;
        for piece in self.tokens[first..equal].iter().step_by(2) {
            key = names::key(key, piece.content(self.contents));
        }
        if marks.mark(key) && self.is_met(colon, first) {
            return self.tokens[first].refused(21);
        }
        Ok(equal)
    }

    /// Whether the name from `first` on stands before it in its block.
    #[cold]
    fn is_met(&self, colon: usize, first: usize) -> bool {
        let mut opener = colon;
        while opener + 1 < first {
            if self.same_name(opener + 1, first) {
                return true;
            }
            opener = self.tokens[opener].start as usize;
        }
        false
    }

    /// Whether two names, by their first tokens, are equal: all pieces, byte for byte.
    fn same_name(&self, mut one: usize, mut other: usize) -> bool {
        loop {
            let (piece, same) = (&self.tokens[one], &self.tokens[other]);
            if piece.content(self.contents) != same.content(self.contents) {
                return false;
            }
            let behind = self.tokens[one + 1].kind;
            if behind != self.tokens[other + 1].kind {
                return false;
            }
            if behind == Kind::Equal {
                return true;
            }
            one += 2;
            other += 2;
        }
    }

    /// Judges a value.
    fn value(&mut self, first: usize, end: usize) -> Result<(), Refusal> {
        self.units(first, end)?;
        let measure = groups::walk(&self.tokens[first..end])?;
        let first = &self.tokens[first];
        if measure.arguments > limits::ARGUMENTS {
            return first.refused(16);
        }
        self.size += measure.size;
        if self.too_many.is_none() {
            self.orders *= measure.arguments as u32;
            if self.orders > limits::ORDERS {
                self.too_many = Some(first.place);
            }
        }
        Ok(())
    }

    /// Reads the units of a value. Refuses with 11 unless units and joining separators
    /// alternate, beginning and ending with a unit; then with 12 and 13.
    fn units(&mut self, first: usize, end: usize) -> Result<(), Refusal> {
        let base = base_of_place(self.bases, self.places - 1);
        let mut wrong = Ok(());
        let mut at = first;
        loop {
            let unit = &mut self.tokens[at];
            if !unit.kind.is_unit() {
                return unit.refused(11);
            }
            if let Err(number) = read_unit(unit, self.contents, base) {
                wrong = wrong.and(unit.refused(number));
            }
            if at + 1 == end {
                return wrong;
            }
            let separator = &self.tokens[at + 1];
            if !separator.kind.joins() {
                return separator.refused(11);
            }
            at += 2;
        }
    }

    /// Writes the record of a command that is judged, and into a row where each place begins.
    fn write(&self, writer: &mut Writer, mut row: Option<&mut [u32]>) {
        writer.count(self.orders);
        let mut at = self.write_pieces(fields::CODE_PIECE, 0, writer);
        let mut places = 0;
        while self.tokens[at].kind == Kind::Colon {
            let named = self.tokens[at].class != 0;
            writer.letter(fields::BLOCK, if named { b'N' } else { b'P' });
            loop {
                let end = self.tokens[at].start as usize;
                if let Some(row) = &mut row {
                    row[places] = writer.offset() as u32;
                }
                writer.letter(fields::PLACE, base_of_place(self.bases, places).letter);
                self.write_place(at + 1, end, named, writer);
                places += 1;
                at = end;
                if self.tokens[at].kind != Kind::Comma {
                    break;
                }
            }
        }
    }

    /// Writes pieces from `at` on; gives what ends them.
    fn write_pieces(&self, tag: u8, mut at: usize, writer: &mut Writer) -> usize {
        loop {
            writer.field(tag, self.tokens[at].content(self.contents));
            at += 1;
            if self.tokens[at].kind != Kind::Hyphen {
                return at;
            }
            at += 1;
        }
    }

    /// Writes name and value of the place from `first` on that the separator at `end` ends.
    fn write_place(&self, mut first: usize, end: usize, named: bool, writer: &mut Writer) {
        if named {
            first = self.write_pieces(fields::NAME_PIECE, first, writer) + 1;
        }
        if first < end {
            groups::write(&self.tokens[first..end], self.contents, writer);
        }
    }
}

/// What pieces are joined to.
#[derive(Clone, Copy, PartialEq, Eq)]
enum Pieces {
    Code,
    Name,
}

impl Pieces {
    /// Whether the pieces end with such a token.
    #[inline]
    fn end_with(self, kind: Kind) -> bool {
        match self {
            Pieces::Code => kind == Kind::Colon || kind == Kind::Semicolon,
            Pieces::Name => kind == Kind::Equal,
        }
    }
}

/// The default base of the place with this index, counted through all blocks.
#[inline]
fn base_of_place(bases: &[u8], place: usize) -> Base {
    match bases.get(place) {
        Some(&letter) => Base::of(letter).unwrap_or(Base::DECIMAL),
        None => Base::DECIMAL,
    }
}
