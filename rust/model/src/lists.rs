//! The whole list: every order of a record, one behind the other, each behind its length.
//!
//! The groups are unrolled plainly, place after place: each shows one of its arguments, at first
//! its first one. From order to order the last group shows its next argument; behind its last one
//! it shows the first again, and the group before it goes on.

use crate::fields::{self, Fields};
use crate::records::{judge, Group};
use crate::writer::{self, Writer};
use crate::{limits, Refusal};

/// All orders of a record, each behind its length. On success they stand at the buffer's start;
/// gives how many bytes they take.
pub fn list(record: &[u8], out: &mut [u8]) -> Result<usize, Refusal> {
    let mut wheels = [Wheel::NONE; limits::PLACES];
    let mut groups = 0;
    let orders = judge(record, |group| {
        wheels[groups] = Wheel::of(group);
        groups += 1;
    });
    let orders = orders.ok_or(Refusal::at(18, 0))?;
    let wheels = &mut wheels[..groups];
    let size = measure(record, orders, wheels);
    let out = out.get_mut(..size).ok_or(Refusal::at(17, size))?;
    write(record, wheels, out);
    Ok(size)
}

/// A group and the argument that it shows.
#[derive(Clone, Copy)]
struct Wheel {
    group: Group,
    /// Where the units of the argument's element begin and end in the record.
    units: (usize, usize),
    /// Upper end and increment if the element is a range.
    range: Option<(u32, u32)>,
    /// The value of the last unit, if it is a D, H, O or B numeral.
    value: u32,
}

impl Wheel {
    const NONE: Wheel = Wheel::of(Group {
        start: 0,
        end: 0,
        arguments: 0,
    });

    const fn of(group: Group) -> Wheel {
        Wheel {
            group,
            units: (0, 0),
            range: None,
            value: 0,
        }
    }

    /// Shows the first argument of the element that begins at `at`.
    fn show(&mut self, record: &[u8], at: usize) {
        let end = self.group.end;
        let mut walk = Fields {
            rest: &record[at..end],
        };
        self.range = fields::range(walk.take().unwrap_or(&[]));
        self.units.0 = end - walk.rest.len();
        let mut last: &[u8] = &[];
        while fields::is_unit(walk.tag()) {
            last = walk.take().unwrap_or(&[]);
        }
        self.units.1 = end - walk.rest.len();
        self.value = fields::numeral(last).map_or(0, |numeral| numeral.value);
    }

    /// Shows the next argument; behind the last one the first again, and gives false.
    #[inline]
    fn turn(&mut self, record: &[u8]) -> bool {
        if let Some((upper, increment)) = self.range {
            if increment <= upper - self.value {
                self.value += increment;
                return true;
            }
        }
        let goes_on = self.units.1 < self.group.end;
        let next = if goes_on {
            self.units.1
        } else {
            self.group.start
        };
        self.show(record, next);
        goes_on
    }

    /// The bytes of the argument, as the one element that an order has of the group.
    fn size(&self) -> usize {
        writer::SINGLE_SIZE + self.units.1 - self.units.0
    }

    /// Shows the first argument; gives the bytes of all arguments, each counted by itself.
    fn begin(&mut self, record: &[u8]) -> usize {
        self.show(record, self.group.start);
        let mut size = self.size();
        while self.turn(record) {
            size += self.size();
        }
        size
    }

    /// Writes the argument.
    #[inline]
    fn write(&self, record: &[u8], writer: &mut Writer) {
        let (start, end) = self.units;
        writer.single();
        if self.range.is_some() {
            writer.copy(&record[start..end - fields::NUMBER_SIZE]);
            writer.number(self.value);
        } else {
            writer.copy(&record[start..end]);
        }
    }
}

/// The bytes of the list: what is no group's stands in every order, and the arguments of a group
/// stand in equally many. Every group shows its first argument then.
fn measure(record: &[u8], orders: u32, wheels: &mut [Wheel]) -> usize {
    let orders = orders as usize;
    let mut size = orders * (fields::LENGTH_SIZE + kept(record, wheels));
    for wheel in wheels {
        size += orders / wheel.group.arguments as usize * wheel.begin(record);
    }
    size
}

/// The bytes of an order that are no group's.
fn kept(record: &[u8], wheels: &[Wheel]) -> usize {
    let groups = wheels.iter().map(|wheel| wheel.group);
    record.len() - groups.map(|group| group.end - group.start).sum::<usize>()
}

/// Writes order after order into a buffer that has room for all of them, until all groups show
/// their first argument again.
fn write(record: &[u8], wheels: &mut [Wheel], out: &mut [u8]) {
    let kept = kept(record, wheels);
    let mut writer = Writer::new(out);
    loop {
        writer.length(kept + wheels.iter().map(Wheel::size).sum::<usize>());
        write_order(record, wheels, &mut writer);
        if !wheels.iter_mut().rev().any(|wheel| wheel.turn(record)) {
            return;
        }
    }
}

/// Writes the record with the argument that each group shows in place of the group: it has one
/// order.
#[inline]
fn write_order(record: &[u8], wheels: &[Wheel], writer: &mut Writer) {
    let mut from = fields::COUNT_SIZE;
    writer.count(1);
    for wheel in wheels {
        writer.copy(&record[from..wheel.group.start]);
        wheel.write(record, writer);
        from = wheel.group.end;
    }
    writer.copy(&record[from..]);
}
