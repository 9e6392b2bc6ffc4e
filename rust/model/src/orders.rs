//! The number of orders, and order k by the direct rule.

use crate::fields::{self, Fields};
use crate::groups::terms;
use crate::records::{judge, judge_places, Group};
use crate::{limits, rows, writer, Refusal};

/// The number of orders of a record.
pub fn count(record: &[u8]) -> Result<u32, Refusal> {
    judge(record, |_| ()).ok_or(Refusal::at(18, 0))
}

/// Order `k` of a record. On success it stands at the buffer's start; gives its length.
pub fn order(record: &[u8], k: u64, out: &mut [u8]) -> Result<usize, Refusal> {
    order_within(record, k, out, usize::MAX)
}

/// Order `k` of a record as [`order`] gives it, and fills a row with the offsets of its places;
/// slots beyond the places keep their numbers.
pub fn order_row(record: &[u8], k: u64, out: &mut [u8], row: &mut [u32]) -> Result<usize, Refusal> {
    let length = order_within(record, k, out, row.len())?;
    for (slot, place) in row.iter_mut().zip(rows::places(&out[..length])) {
        *slot = place.offset;
    }
    Ok(length)
}

/// Order `k` of a record that has at most so many places as there are slots.
fn order_within(record: &[u8], k: u64, out: &mut [u8], slots: usize) -> Result<usize, Refusal> {
    let mut reductions = [Reduction::NONE; limits::PLACES];
    let mut groups = 0;
    let judged = judge_places(record, |group| {
        reductions[groups] = Reduction::of(group);
        groups += 1;
    });
    let (orders, places) = judged.ok_or(Refusal::at(18, 0))?;
    if k >= orders as u64 {
        return Err(Refusal::at(19, orders as usize));
    }
    let reductions = &mut reductions[..groups];
    let size = choose_all(record, k as u32, reductions);
    let out = out.get_mut(..size).ok_or(Refusal::at(17, size))?;
    if places > slots {
        return Err(Refusal::at(17, places));
    }
    write(record, reductions, out);
    Ok(size)
}

/// A group and the argument that an order takes of it.
#[derive(Clone, Copy)]
struct Reduction {
    group: Group,
    /// Where the units of the chosen element begin and end in the record.
    units: (usize, usize),
    /// The value of the last unit if the element is a range.
    term: Option<u32>,
}

impl Reduction {
    const NONE: Reduction = Reduction::of(Group {
        start: 0,
        end: 0,
        arguments: 0,
    });

    const fn of(group: Group) -> Reduction {
        Reduction {
            group,
            units: (0, 0),
            term: None,
        }
    }

    /// Takes the argument at this position: whole elements are passed over by their numbers
    /// of terms.
    fn choose(&mut self, record: &[u8], mut position: u64) {
        let mut at = self.group.start;
        while at < self.group.end {
            let element = Element::at(record, at);
            if position < element.terms {
                self.units = (element.units, element.end);
                self.term = element.range.map(|(lower, increment)| {
                    lower.wrapping_add((position as u32).wrapping_mul(increment))
                });
                return;
            }
            position -= element.terms;
            at = element.end;
        }
    }

    /// The bytes of the element that the order has in place of the group.
    fn size(&self) -> usize {
        writer::SINGLE_SIZE + self.units.1 - self.units.0
    }
}

/// One element of a record that is well formed.
struct Element {
    /// Where its units begin and end.
    units: usize,
    end: usize,
    terms: u64,
    /// Lower end and increment.
    range: Option<(u32, u32)>,
}

impl Element {
    /// The element whose field begins at `at`.
    #[inline]
    fn at(record: &[u8], at: usize) -> Element {
        let mut walk = Fields {
            rest: &record[at..],
        };
        let range = fields::range(walk.take().unwrap_or(&[]));
        let units = record.len() - walk.rest.len();
        let mut last: &[u8] = &[];
        while fields::is_unit(walk.tag()) {
            last = walk.take().unwrap_or(&[]);
        }
        let end = record.len() - walk.rest.len();
        let lower = fields::numeral(last).map_or(0, |numeral| numeral.value);
        match range {
            None => Element {
                units,
                end,
                terms: 1,
                range: None,
            },
            Some((upper, increment)) => Element {
                units,
                end,
                terms: terms(lower, upper, increment),
                range: Some((lower, increment)),
            },
        }
    }
}

/// Takes one argument of each group, from the last back, by remainder and quotient; gives the
/// size of the order.
fn choose_all(record: &[u8], k: u32, reductions: &mut [Reduction]) -> usize {
    let mut left = k;
    let mut size = record.len();
    for reduction in reductions.iter_mut().rev() {
        let arguments = reduction.group.arguments;
        reduction.choose(record, (left % arguments) as u64);
        left /= arguments;
        size -= reduction.group.end - reduction.group.start;
        size += reduction.size();
    }
    size
}

/// Writes the record with each group replaced by the argument taken: it has one order.
fn write(record: &[u8], reductions: &[Reduction], out: &mut [u8]) {
    let mut from = fields::COUNT_SIZE;
    let mut at = append(out, 0, &fields::count(1));
    for reduction in reductions {
        at = append(out, at, &record[from..reduction.group.start]);
        at = append(out, at, &[fields::SINGLE, 0, 0]);
        at = append(out, at, &record[reduction.units.0..reduction.units.1]);
        if let Some(term) = reduction.term {
            out[at - 4..at].copy_from_slice(&term.to_be_bytes());
        }
        from = reduction.group.end;
    }
    append(out, at, &record[from..]);
}

/// Copies the bytes into the buffer at `at`; gives where they end.
fn append(out: &mut [u8], at: usize, bytes: &[u8]) -> usize {
    let end = at + bytes.len();
    out[at..end].copy_from_slice(bytes);
    end
}
