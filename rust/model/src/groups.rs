//! The group rules of Z.315, 2.9.2: one walk over the units and separators of a value.

use crate::tokens::{Kind, Token};
use crate::writer::{self, Writer};
use crate::{limits, Refusal};

/// What the walk over a value finds out.
pub struct Measure {
    /// How many arguments the value names.
    pub arguments: u64,
    /// How many bytes its elements take in the record.
    pub size: usize,
}

/// The number of terms of a progression; the upper end is not below the lower, the increment
/// at least 1.
#[inline(always)]
pub fn terms(lower: u32, upper: u32, increment: u32) -> u64 {
    let span = upper - lower;
    let steps = if increment == 1 {
        span
    } else {
        span / increment
    };
    steps as u64 + 1
}

/// Walks a value whose units are read and alternate with joining separators. Refuses with 14
/// and with 15 for a 65th element.
pub fn walk(value: &[Token]) -> Result<Measure, Refusal> {
    let units = units_in_full(value, 0);
    if units > limits::UNITS {
        return value[2 * limits::UNITS - 1].refused(14);
    }
    let through = through_separator(units);
    let mut leading = leading_size(value, 0, units);
    let mut last = 2 * (units - 1);
    let mut measure = Measure {
        arguments: 0,
        size: 0,
    };
    let mut elements = 1;
    loop {
        let mut next = last + 1;
        measure.size += leading + unit_size(&value[last]);
        if next < value.len() && value[next].kind == through {
            let range = range(value, last)?;
            next = range.next;
            measure.arguments += terms(value[last].value, range.upper, range.increment);
            measure.size += writer::RANGE_SIZE;
        } else {
            measure.arguments += 1;
            measure.size += writer::SINGLE_SIZE;
        }
        if next >= value.len() {
            return Ok(measure);
        }
        elements += 1;
        last = next_element(value, next, elements, units)?;
        if value[next].kind == Kind::Ampersand {
            leading = leading_size(value, next + 1, units);
        }
    }
}

/// How many units the argument has that begins at `first` and stands in full.
#[inline]
fn units_in_full(value: &[Token], first: usize) -> usize {
    let mut units = 1;
    let mut next = first + 1;
    while next < value.len() && value[next].kind == Kind::Hyphen {
        units += 1;
        next += 2;
    }
    units
}

/// The separator of a range's ends, by the number of units of an argument.
#[inline(always)]
fn through_separator(units: usize) -> Kind {
    if units == 1 {
        Kind::DoubleAmpersand
    } else {
        Kind::DoubleAmpersandHyphen
    }
}

/// The bytes of all units but the last of the argument that begins at `first`.
#[inline]
fn leading_size(value: &[Token], first: usize, units: usize) -> usize {
    let mut size = 0;
    for unit in 0..units - 1 {
        size += unit_size(&value[first + 2 * unit]);
    }
    size
}

/// The bytes of a unit's field.
#[inline(always)]
fn unit_size(unit: &Token) -> usize {
    if unit.kind == Kind::Numeral {
        writer::NUMERAL_SIZE
    } else {
        writer::HEAD + unit.length as usize
    }
}

/// A range's upper end and increment, and where the value goes on.
struct Range {
    upper: u32,
    increment: u32,
    next: usize,
}

/// The range whose lower end stands at `last`, its `&&` or `&&-` behind it.
#[inline]
fn range(value: &[Token], last: usize) -> Result<Range, Refusal> {
    let (lower, through, upper) = (&value[last], &value[last + 1], &value[last + 2]);
    if !is_end(lower) || !is_end(upper) || lower.class != upper.class {
        return through.refused(14);
    }
    if upper.value < lower.value {
        return upper.refused(14);
    }
    let next = last + 3;
    if next >= value.len() || value[next].kind != Kind::PlusPlus {
        return Ok(Range {
            upper: upper.value,
            increment: 1,
            next,
        });
    }
    let increment = &value[next + 1];
    if !is_end(increment) || increment.class != lower.class || increment.value == 0 {
        return increment.refused(14);
    }
    Ok(Range {
        upper: upper.value,
        increment: increment.value,
        next: next + 2,
    })
}

/// Whether a unit may be an end or the increment of a range: a numeral without fraction.
#[inline(always)]
fn is_end(unit: &Token) -> bool {
    unit.kind == Kind::Numeral && unit.length == 0
}

/// Where the last unit of the element stands that the separator at `next` begins; it is
/// element number `elements`.
#[inline]
fn next_element(
    value: &[Token],
    next: usize,
    elements: usize,
    units: usize,
) -> Result<usize, Refusal> {
    let separator = &value[next];
    let full = separator.kind == Kind::Ampersand;
    if !full && separator.kind != Kind::AmpersandHyphen {
        return separator.refused(14);
    }
    if elements > limits::ELEMENTS {
        return separator.refused(15);
    }
    if !full {
        return match units {
            1 => separator.refused(14),
            _ => Ok(next + 1),
        };
    }
    if units_in_full(value, next + 1) != units {
        return value[next + 1].refused(14);
    }
    Ok(next + 2 * units - 1)
}

/// Writes the elements of a value that the walk has passed.
pub fn write(value: &[Token], contents: &[u8], writer: &mut Writer) {
    let units = units_in_full(value, 0);
    let through = through_separator(units);
    let mut first = 0;
    let mut last = 2 * (units - 1);
    loop {
        let mut next = last + 1;
        if next < value.len() && value[next].kind == through {
            let upper = value[next + 1].value;
            next += 2;
            let mut increment = 1;
            if next < value.len() && value[next].kind == Kind::PlusPlus {
                increment = value[next + 1].value;
                next += 2;
            }
            writer.range(upper, increment);
        } else {
            writer.single();
        }
        for unit in 0..units - 1 {
            writer.unit(&value[first + 2 * unit], contents);
        }
        writer.unit(&value[last], contents);
        if next >= value.len() {
            return;
        }
        last = next + 1;
        if value[next].kind == Kind::Ampersand {
            first = next + 1;
            last = first + 2 * (units - 1);
        }
    }
}
