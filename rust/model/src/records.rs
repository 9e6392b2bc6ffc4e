//! The judge: is this record well formed, and how many orders has it?

use crate::characters::{self, class_of_word};
use crate::fields::{self, Fields, Numeral};
use crate::groups::terms;
use crate::limits;
use crate::names::{self, Marks};
use crate::units::Base;

/// A value that is not one single element.
#[derive(Clone, Copy)]
pub struct Group {
    /// Where its first element begins in the record.
    pub start: usize,
    /// Where the value ends.
    pub end: usize,
    /// How many arguments it names.
    pub arguments: u32,
}

/// Judges a record and gives the number of orders that it begins with; none if it is not well
/// formed. Each value that is not one single element is told to `group`, from the first to the
/// last.
#[inline(always)]
pub fn judge(record: &[u8], group: impl FnMut(Group)) -> Option<u32> {
    judge_places(record, group).map(|(orders, _)| orders)
}

/// Judges a record as [`judge`] does, and gives the number of its places too.
#[inline(always)]
pub fn judge_places(record: &[u8], group: impl FnMut(Group)) -> Option<(u32, usize)> {
    let (count, fields) = fields::counted(record)?;
    let mut judge = Judge::of(record, fields, group);
    judge.command()?;
    holds(judge.orders == count)?;
    Some((count, judge.places))
}

/// Whether these bytes are the fields of 1 to 4 units that could stand under this base, and
/// nothing else.
pub fn is_argument(bytes: &[u8], base: Base) -> bool {
    let mut judge = Judge::of(bytes, Fields { rest: bytes }, |_| ());
    judge.argument(base).is_some() && judge.fields.rest.is_empty()
}

struct Judge<'r, G> {
    record: &'r [u8],
    fields: Fields<'r>,
    places: usize,
    /// The product of the values' numbers of arguments.
    orders: u32,
    group: G,
}

impl<'r, G: FnMut(Group)> Judge<'r, G> {
    /// A judge that is at these fields of a record.
    #[inline(always)]
    fn of(record: &'r [u8], fields: Fields<'r>, group: G) -> Judge<'r, G> {
        Judge {
            record,
            fields,
            places: 0,
            orders: 1,
            group,
        }
    }

    fn command(&mut self) -> Option<()> {
        self.code()?;
        let mut blocks = 0;
        while !self.fields.rest.is_empty() {
            blocks += 1;
            if blocks > limits::BLOCKS || self.fields.tag() != fields::BLOCK {
                return None;
            }
            self.block()?;
        }
        Some(())
    }

    fn code(&mut self) -> Option<()> {
        let mut pieces = 0;
        while self.fields.tag() == fields::CODE_PIECE {
            let piece = self.fields.take()?;
            pieces += 1;
            holds(pieces <= limits::CODE_PIECES && is_identifier(piece))?;
        }
        holds(pieces > 0)
    }

    fn block(&mut self) -> Option<()> {
        let named = match self.fields.take()? {
            b"P" => false,
            b"N" => true,
            _ => return None,
        };
        holds(self.fields.tag() == fields::PLACE)?;
        let first = self.offset();
        let mut marks = Marks::NONE;
        while self.fields.tag() == fields::PLACE {
            let base = self.base()?;
            if named {
                let name = self.offset();
                let key = self.name()?;
                holds(!marks.mark(key) || !self.is_met(first, name))?;
            }
            let elements = self.value(base)?;
            holds(elements > 0 || !named)?;
        }
        Some(())
    }

    /// The base of the next place.
    fn base(&mut self) -> Option<Base> {
        self.places += 1;
        holds(self.places <= limits::PLACES)?;
        match self.fields.take()? {
            [letter] => Base::of(*letter),
            _ => None,
        }
    }

    /// Judges a name; gives its key.
    fn name(&mut self) -> Option<u32> {
        let mut pieces = 0;
        let mut key = 0;
        while self.fields.tag() == fields::NAME_PIECE {
            let piece = self.fields.take()?;
            let index_number = pieces > 0 && is_index_number(piece);
            pieces += 1;
            holds(pieces <= limits::NAME_PIECES)?;
            holds(index_number || is_identifier(piece))?;
            key = names::key(key, piece);
        }
        holds(pieces > 0)?;
        Some(key)
    }

    /// Whether the name at `name` stands before it in its block, whose first place is at `first`.
    #[cold]
    fn is_met(&self, first: usize, name: usize) -> bool {
        let mut before = Fields {
            rest: &self.record[first..name],
        };
        let name = name_of(&self.record[name..]);
        while !before.rest.is_empty() {
            let is_place = before.tag() == fields::PLACE;
            before.take();
            if is_place && name_of(before.rest) == name {
                return true;
            }
        }
        false
    }

    /// Judges the elements of a value; gives their number.
    fn value(&mut self, base: Base) -> Option<usize> {
        let start = self.offset();
        let mut elements = 0;
        let mut units = 0;
        let mut arguments = 0;
        let mut ranges = false;
        loop {
            let range = match self.fields.tag() {
                fields::SINGLE => {
                    holds(self.fields.take()?.is_empty())?;
                    None
                }
                fields::RANGE => {
                    ranges = true;
                    Some(fields::range(self.fields.take()?)?)
                }
                _ => break,
            };
            elements += 1;
            let argument = self.argument(base)?;
            if elements == 1 {
                units = argument.units;
            }
            holds(elements <= limits::ELEMENTS && argument.units == units)?;
            arguments += match range {
                None => 1,
                Some((upper, increment)) => argument.terms(upper, increment)?,
            };
        }
        if ranges || elements > 1 {
            holds(arguments <= limits::ARGUMENTS)?;
            self.orders *= arguments as u32;
            holds(self.orders <= limits::ORDERS)?;
            let group = Group {
                start,
                end: self.offset(),
                arguments: arguments as u32,
            };
            (self.group)(group);
        }
        Some(elements)
    }

    /// Where the next field begins in the record.
    fn offset(&self) -> usize {
        self.record.len() - self.fields.rest.len()
    }

    fn argument(&mut self, base: Base) -> Option<Argument> {
        let mut argument = Argument {
            units: 0,
            last: None,
        };
        while fields::is_unit(self.fields.tag()) {
            argument.units += 1;
            holds(argument.units <= limits::UNITS)?;
            argument.last = self.unit(base)?;
        }
        holds(argument.units > 0)?;
        Some(argument)
    }

    /// Judges one unit under its place's base; gives it if it is a D, H, O or B numeral.
    fn unit(&mut self, base: Base) -> Option<Option<Numeral>> {
        let tag = self.fields.tag();
        let content = self.fields.take()?;
        if tag == fields::NUMERAL {
            let numeral = fields::numeral(content)?;
            holds(is_numeral(&numeral) && base.letter != b'K')?;
            return Some(Some(numeral));
        }
        holds(match tag {
            fields::KEYED => is_keyed(content),
            fields::IDENTIFIER => is_identifier_under(content, base),
            fields::SYMBOLIC_NAME => is_symbolic_name(content, base),
            _ => is_string(content),
        })?;
        Some(None)
    }
}

/// The units of an argument; the last of them if it is a D, H, O or B numeral.
struct Argument {
    units: usize,
    last: Option<Numeral>,
}

impl Argument {
    /// The number of terms of the range from this argument.
    fn terms(&self, upper: u32, increment: u32) -> Option<u64> {
        let lower = self.last?;
        holds(lower.fraction == 0 && lower.value <= upper && increment > 0)?;
        Some(terms(lower.value, upper, increment))
    }
}

/// The fields of the name that these bytes begin with.
fn name_of(record: &[u8]) -> &[u8] {
    let mut behind = Fields { rest: record };
    while behind.tag() == fields::NAME_PIECE {
        behind.take();
    }
    &record[..record.len() - behind.rest.len()]
}

#[inline(always)]
fn holds(condition: bool) -> Option<()> {
    condition.then_some(())
}

#[inline(always)]
fn fits_word(content: &[u8]) -> bool {
    !content.is_empty() && content.len() <= limits::WORD
}

fn is_identifier(content: &[u8]) -> bool {
    fits_word(content) && class_of_word(content) & characters::IDENTIFIER == characters::IDENTIFIER
}

fn is_index_number(content: &[u8]) -> bool {
    fits_word(content) && class_of_word(content) & characters::DECIMAL != 0
}

fn is_numeral(numeral: &Numeral) -> bool {
    match numeral.letter {
        b'D' => numeral.fraction as usize <= limits::FRACTION,
        b'H' | b'O' | b'B' => numeral.fraction == 0,
        _ => false,
    }
}

fn is_keyed(content: &[u8]) -> bool {
    fits_word(content) && class_of_word(content) & characters::KEYED_IN_RECORD != 0
}

/// An identifier that is no numeral of the base.
fn is_identifier_under(content: &[u8], base: Base) -> bool {
    let class = class_of_word(content);
    fits_word(content)
        && class & characters::IDENTIFIER == characters::IDENTIFIER
        && class & base.digits == 0
}

/// A symbolic name that is neither a numeral of the base nor an identifier, in one word.
fn is_symbolic_name(content: &[u8], base: Base) -> bool {
    let class = class_of_word(content);
    fits_word(content)
        && class & characters::SYMBOLIC != 0
        && class & (characters::DECIMAL | base.digits) == 0
        && class & characters::IDENTIFIER != characters::IDENTIFIER
        && !content.windows(2).any(|pair| pair == b"++")
}

fn is_string(content: &[u8]) -> bool {
    content.len() <= limits::STRING && content.iter().all(|&byte| characters::is_permitted(byte))
}
