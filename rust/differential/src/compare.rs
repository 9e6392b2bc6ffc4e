//! One call to the library and one to the model, compared in answer, buffer and row.

use crate::keepers;
use crate::library::Library;
use crate::offsets::offsets;
use crate::random::Random;

/// An answer: a value, or number and place of the refusal.
pub type Answer = Result<u32, (u32, u32)>;

/// A call with its inputs.
#[derive(Clone, Copy)]
pub enum Call<'i> {
    /// Text and base letters.
    Read(&'i [u8], &'i [u8]),
    /// A record.
    Print(&'i [u8]),
    /// A record and the number of an order.
    Order(&'i [u8], u64),
    /// A record.
    Count(&'i [u8]),
    /// A record.
    List(&'i [u8]),
    /// A record, the number of a place, and an argument.
    Member(&'i [u8], u32, &'i [u8]),
    /// Text and base letters; a row is filled.
    ReadRow(&'i [u8], &'i [u8]),
    /// A record and the number of an order; a row is filled.
    OrderRow(&'i [u8], u64),
    /// A record, its row, and the number of a place.
    Place(&'i [u8], &'i [u32], u32),
    /// A keeper, which is what the buffer holds before, and a key.
    Key(&'i [u8], u8),
}

/// The answers and the bytes written, alike on both sides.
pub struct Outcome {
    /// The answer.
    pub answer: Answer,
    /// What stands at the buffer's start on success; of a key the whole keeper.
    pub bytes: Vec<u8>,
    /// The slots that were filled.
    pub row: Vec<u32>,
}

/// What a call that fills a row is lent.
pub struct Lent {
    /// The buffer.
    pub out: Vec<u8>,
    /// The row.
    pub row: Vec<u32>,
}

impl Lent {
    /// A buffer of `room` bytes and a row of so many slots, with what may stand there before.
    pub fn soiled(random: &mut Random, room: usize, slots: usize) -> Lent {
        let fill = random.next();
        Lent {
            out: (0..room).map(|at| filling(fill, at)).collect(),
            row: (0..slots).map(|_| random.next() as u32).collect(),
        }
    }
}

/// What is wrong, with all that is needed to see it again.
pub type Difference = String;

impl Call<'_> {
    /// Runs the call with a buffer of `room` bytes on both sides.
    pub fn compare(
        self,
        library: &mut Library,
        random: &mut Random,
        room: usize,
    ) -> Result<Outcome, Difference> {
        let before = Lent::soiled(random, room, 0);
        self.compare_on(library, &before.out)
    }

    /// Runs the call with this buffer on both sides.
    pub fn compare_on(self, library: &mut Library, before: &[u8]) -> Result<Outcome, Difference> {
        self.compare_row(library, before, &[])
    }

    /// Runs the call with this buffer and this row on both sides.
    pub fn compare_row(
        self,
        library: &mut Library,
        before: &[u8],
        row_before: &[u32],
    ) -> Result<Outcome, Difference> {
        let room = before.len();
        let (mut out, mut row) = (before.to_vec(), row_before.to_vec());
        let (mut expected, mut expected_row) = (out.clone(), row.clone());
        let answer = library
            .call_row(&self, &mut out, &mut row)
            .map_err(|what| self.alone(&what))?;
        let right = self.model_row(&mut expected, &mut expected_row);
        let tell = |what: &str| Err(self.describe(what, room, row_before.len(), answer, right));
        if answer != right {
            return tell("the answers differ");
        }
        if let Some(at) = (0..room).find(|&at| out[at] != expected[at]) {
            return tell(&format!("the buffers differ at {at}"));
        }
        if let Some(at) = (0..row.len()).find(|&at| row[at] != expected_row[at]) {
            return tell(&format!("the rows differ at slot {at}"));
        }
        let written = self.written(answer, room);
        if written > room || out[written..] != before[written..] {
            return tell("bytes past the answer are written");
        }
        out.truncate(written);
        let filled = self.filled(&out);
        if filled > row.len() || row[filled..] != row_before[filled..] {
            return tell("slots beyond the places are written");
        }
        row.truncate(filled);
        Ok(Outcome {
            answer,
            bytes: out,
            row,
        })
    }

    /// How many slots of a row the call filled that wrote these bytes.
    fn filled(self, written: &[u8]) -> usize {
        match self {
            Call::ReadRow(..) | Call::OrderRow(..) => offsets(written).len(),
            _ => 0,
        }
    }

    /// How many bytes of a buffer the call wrote that answered so.
    fn written(self, answer: Answer, room: usize) -> usize {
        match (self, answer) {
            (Call::Count(_) | Call::Member(..) | Call::Place(..), _) | (_, Err(_)) => 0,
            (Call::Key(..), Ok(_)) => room,
            (_, Ok(length)) => length as usize,
        }
    }

    /// The inputs that are bytes and not the buffer.
    pub fn inputs(&self) -> (&[u8], &[u8]) {
        match self {
            Call::Read(text, bases) | Call::ReadRow(text, bases) => (text, bases),
            Call::Print(record)
            | Call::Order(record, _)
            | Call::OrderRow(record, _)
            | Call::Count(record)
            | Call::List(record)
            | Call::Place(record, ..) => (record, &[]),
            Call::Member(record, _, argument) => (record, argument),
            Call::Key(..) => (&[], &[]),
        }
    }

    /// The row that is an input; none if the call has no such input.
    pub fn row(&self) -> Option<&[u32]> {
        match self {
            Call::Place(_, row, _) => Some(row),
            _ => None,
        }
    }

    /// The same call with its inputs lent from elsewhere.
    #[cfg(feature = "direct")]
    pub fn lent<'l>(&self, first: &'l [u8], second: &'l [u8], row: &'l [u32]) -> Call<'l> {
        match self {
            Call::Read(..) => Call::Read(first, second),
            Call::Print(_) => Call::Print(first),
            Call::Order(_, k) => Call::Order(first, *k),
            Call::Count(_) => Call::Count(first),
            Call::List(_) => Call::List(first),
            Call::Member(_, place, _) => Call::Member(first, *place, second),
            Call::ReadRow(..) => Call::ReadRow(first, second),
            Call::OrderRow(_, k) => Call::OrderRow(first, *k),
            Call::Place(_, _, place) => Call::Place(first, row, *place),
            Call::Key(_, key) => Call::Key(first, *key),
        }
    }

    /// Calls the model, of a call that fills no row.
    pub fn model(&self, out: &mut [u8]) -> Answer {
        self.model_row(out, &mut [])
    }

    /// Calls the model.
    pub fn model_row(&self, out: &mut [u8], row: &mut [u32]) -> Answer {
        let length = |length| length as u32;
        let found = |position: Option<u32>| position.map_or(0, |position| position + 1);
        match self {
            Call::Read(text, bases) => model::read(text, bases, out).map(length),
            Call::Print(record) => model::print(record, out).map(length),
            Call::Order(record, k) => model::order(record, *k, out).map(length),
            Call::Count(record) => model::count(record),
            Call::List(record) => model::list(record, out).map(length),
            Call::Member(record, place, argument) => {
                model::member(record, *place, argument).map(found)
            }
            Call::ReadRow(text, bases) => model::read_row(text, bases, out, row).map(length),
            Call::OrderRow(record, k) => model::order_row(record, *k, out, row).map(length),
            Call::Place(record, row, place) => {
                model::place(record, row, *place).map(|part| length(part.len()))
            }
            Call::Key(_, key) => model_key(out, *key).map(u32::from),
        }
        .map_err(|refusal| (u32::from(refusal.number), refusal.place))
    }

    /// The input in full, and what the library did with it.
    pub fn alone(&self, what: &str) -> Difference {
        format!("{what}\n{}", self.inputs_in_full())
    }

    /// The input in full, what was lent, and both answers.
    fn describe(
        &self,
        what: &str,
        room: usize,
        slots: usize,
        library: Answer,
        model: Answer,
    ) -> Difference {
        format!(
            "{what}\n{}buffer   {room} bytes, row {slots} slots\nlibrary  {library:?}\nmodel    {model:?}",
            self.inputs_in_full()
        )
    }

    /// The input in full, as text and as bytes.
    pub fn inputs_in_full(&self) -> String {
        let (name, k, input) = match self {
            Call::Read(text, _) => ("read", String::new(), text),
            Call::Print(record) => ("print", String::new(), record),
            Call::Order(record, k) => ("order", format!("k        {k}\n"), record),
            Call::Count(record) => ("count", String::new(), record),
            Call::List(record) => ("list", String::new(), record),
            Call::Member(record, place, _) => ("member", format!("place    {place}\n"), record),
            Call::ReadRow(text, _) => ("read_row", String::new(), text),
            Call::OrderRow(record, k) => ("order_row", format!("k        {k}\n"), record),
            Call::Place(record, _, place) => ("place", format!("place    {place}\n"), record),
            Call::Key(keeper, key) => ("key", format!("key      {key}\n"), keeper),
        };
        let mut shown = format!("call     {name}\n{k}{}", bytes_in_full("input", input));
        match self {
            Call::Read(_, bases) | Call::ReadRow(_, bases) => {
                shown.push_str(&bytes_in_full("bases", bases));
            }
            Call::Member(_, _, one) => shown.push_str(&bytes_in_full("argument", one)),
            Call::Place(_, row, _) => shown.push_str(&format!("row      {row:?}\n")),
            _ => (),
        }
        shown
    }
}

/// Has the model take a key to the keeper that the buffer is.
fn model_key(buffer: &mut [u8], key: u8) -> Result<bool, model::Refusal> {
    let (bytes, count) = keepers::parts(buffer);
    let mut keeper = model::Keeper { bytes, count };
    let answer = model::key(&mut keeper, key);
    buffer.copy_from_slice(&keepers::keeper(&keeper.bytes, keeper.count));
    answer
}

fn bytes_in_full(name: &str, bytes: &[u8]) -> String {
    let hexadecimal: String = bytes.iter().map(|byte| format!("{byte:02X}")).collect();
    format!(
        "{name:<8} {} bytes: {}\n         {hexadecimal}\n",
        bytes.len(),
        bytes.escape_ascii()
    )
}

fn filling(key: u64, at: usize) -> u8 {
    (key >> (8 * (at % 8))) as u8 ^ at as u8
}
