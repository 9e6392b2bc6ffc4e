//! Times the proved library against the model: one table from one run.
//!
//! `bench [BATCHES]`: each row times one call on both sides. Batches of calls alternate
//! between library and model; a row shows the median batch of each side. Buffers are as large
//! as any answer needs and are not cleared between calls. A row begins with the name of its
//! command. The rows of `key` begin with the key instead: it is taken to a keeper that holds so
//! many letters; the keeper's count is set back before each call, on both sides alike.
//!
//! The rows of `list` and `orders` give all orders of a command: by one call of `list`, and by a
//! call of `order` for each. What they take is told for one order.
//!
//! The rows of `member` ask for the last argument of a command's first place; k is its position.
//!
//! The rows of `read_row` and `order_row` lend a row of 32 slots beside. Those of `place` ask for the
//! last place by the record's row; k is its number.
//!
//! `bench rows` names the rows; `bench run ROW SIDE CALLS` makes calls of one side of a row and
//! nothing else, for the script `instructions`.

use std::env;
use std::hint::black_box;
use std::process::ExitCode;
use std::time::{Duration, Instant};

/// How long one batch runs, about.
const BATCH: Duration = Duration::from_micros(400);

/// The commands that are timed, each under the name that its rows have.
const COMMANDS: [(&str, &str); 8] = [
    ("short", SHORT),
    ("middle", MIDDLE),
    ("long", LONG),
    ("32 names", NAMES),
    ("small letters", SMALL_LETTERS),
    ("few terms", FEW_TERMS),
    ("many terms", MANY_TERMS),
    ("wide", WIDE),
];

const SHORT: &str = "SET-ATT:LIN=7-1&&-3,LEV=3.5;";

const MIDDLE: &str = concat!(
    "CHANGE-LINE:DN=5551&&5559++2&5570,CAT=H'1F&H'2A,LEV=3.5&4.25",
    ":7-1&-3&&-5,\"Main\",UPD8,SS#6,1,2;",
);

const LONG: &str = concat!(
    "CHANGE-TRUNK-GROUP:ROUTE=7-1&&-3&-5&-9&8-2&-5&-6&9-1&&-7++2,LEV=3.5&4.25,",
    "CAT=H'1F&H'2A&H'3C,OWNER=\"Main office, north wing\"&\"South \"\"B\"\" wing\",",
    "TIME=06H&12H&18H,THR=10%,DIR-1=5551:1,2,3,,UPD8,B'1010,O'777,",
    "1-2-3-1&-2&-3&-4&-5&-6&-7&-8,8-9-1&8-9-2&8-9-3&-4,CENTRAL,WEST",
    ":A=12345,C=CENTRAL,F=SS#6,G=\"a longer text for the end\",H=1-2-3,I=17&18&19,J=X,",
    "K=0&&0,L=5,M=6,P=K'*21#,Q=EAST-NORTH-4,R=1-2-3-4,S=3;",
);

/// As many names in one block as there may be.
const NAMES: &str = concat!(
    "CHANGE-TRUNK:DN=5551,LIN=7-1,LEV=3.5,CAT=H'1F,DIR-1=12,DIR-2=34,ROUTE=9,GRP=4,",
    "OWNER=WEST,TIME=06H,THR=10%,PRIO=1,GAIN=2.25,TONE=ON,RING=5,LAMP=OFF,",
    "ATT-1=0.5,ATT-2=1.5,ATT-3=2,RATE=64,BAND=3,CHAN=17,PORT=8,SLOT=2,RACK=B,SHELF=3,",
    "UNIT=6,STATUS=AUTO,ALARM=MINOR,TEST=NO,ID=42,NR=7;",
);

/// Hexadecimal and keyed numerals typed in small letters.
const SMALL_LETTERS: &str = concat!(
    "CHANGE-LINE:DN=k'21#ab&k'1d#*,CAT=h'1f&h'2a&h'ff,ID=h'cafe-h'c0de",
    ":h'9&&h'ff++h'1e,k'a1b2c3d4,h'c0ffee;",
);

/// A range of 4 terms and one of 1,334: of these commands nothing but the question for an argument
/// is timed.
const FEW_TERMS: &str = "A:7-1&&-4;";
const MANY_TERMS: &str = "A:7-1&&-4000++3;";

/// The commands of which an argument is asked for, the last of the first place: its two numerals.
const ASKED: [(&str, [u32; 2]); 4] = [
    (SHORT, [7, 3]),
    (LONG, [9, 7]),
    (FEW_TERMS, [7, 4]),
    (MANY_TERMS, [7, 4000]),
];

/// The commands of which rows of offsets are timed.
const ROWED: [&str; 3] = [SHORT, MIDDLE, LONG];

/// Few values with many orders: its orders alone are timed.
const WIDE: &str = "A:0&&4094,0&&15;";

/// The commands of which all orders are timed: by `list`, and one by one.
const LISTED: [&str; 2] = [LONG, WIDE];

/// The keys that are timed, each under the name that its rows have.
const KEYS: [(&str, u8); 2] = [("letter", b'A'), ("semicolon", b';')];

/// The bytes that a keeper holds when a key is timed.
const HELD: [u32; 2] = [10, 1_000];

const HEAD: &str = "command       call       text  record      k orders";

/// A call on one side: gives the answer's value.
type Side<'a> = Box<dyn FnMut() -> u32 + 'a>;

/// One row of the table.
struct Row<'a> {
    command: &'static str,
    call: &'static str,
    text: usize,
    record: Option<usize>,
    k: Option<u64>,
    /// Among how many orders one call is shared.
    orders: Option<u32>,
    library: Side<'a>,
    model: Side<'a>,
}

fn main() -> ExitCode {
    let words: Vec<String> = env::args().skip(1).collect();
    let words: Vec<&str> = words.iter().map(String::as_str).collect();
    if cfg!(debug_assertions) {
        eprintln!("bench: build it with --release");
        return ExitCode::from(2);
    }
    match words[..] {
        [] => table(61),
        ["rows"] => name_rows(),
        ["run", row, side, calls] => return run(row, side, calls),
        [batches] => match batches.parse() {
            Ok(batches) if batches > 0 => table(batches),
            _ => return usage(),
        },
        _ => return usage(),
    }
    ExitCode::SUCCESS
}

fn usage() -> ExitCode {
    eprintln!("usage: bench [BATCHES] | bench rows | bench run ROW library|model CALLS");
    ExitCode::from(2)
}

/// Times every row.
fn table(batches: usize) {
    let commands = Commands::new();
    println!(
        "nanoseconds per call or order, median of {batches} interleaved batches; \
         buffers large enough and not cleared between calls"
    );
    println!("{HEAD} {:>9} {:>9} {:>6}", "library", "model", "ratio");
    let rows = commands.rows();
    let times: Vec<(&str, &str, (f64, f64))> = rows
        .map(|row| (row.command, row.call, row.time(batches)))
        .collect();
    if let [(_, _, few), (_, _, many), .., (_, _, first), (_, _, last)] = times[..] {
        let [few_held, many_held] = HELD;
        let letter = format!("a letter at {many_held} bytes held against {few_held}");
        against(&letter, many, few);
        against(&format!("last k of {WIDE} against k = 0"), last, first);
    }
    for pair in times.windows(2) {
        match *pair {
            [(command, "list", list), (_, "orders", orders)] => {
                let what = format!("an order of `{command}` by itself against one in the list");
                against(&what, orders, list);
            }
            [("few terms", _, few), ("many terms", _, many)] => {
                against("the last of many terms against that of few", many, few);
            }
            _ => (),
        }
    }
}

/// Tells how the times of one row, library and model, are to those of another.
fn against(what: &str, one: (f64, f64), other: (f64, f64)) {
    let (library, model) = (one.0 / other.0, one.1 / other.1);
    println!("{what}: library {library:.2}, model {model:.2}");
}

/// Names every row.
fn name_rows() {
    println!("{HEAD}");
    for row in Commands::new().rows() {
        println!("{}", row.name());
    }
}

/// Makes so many calls of one side of a row: for a program that counts instructions.
fn run(row: &str, side: &str, calls: &str) -> ExitCode {
    let commands = Commands::new();
    let row = row.parse().ok().and_then(|row| commands.rows().nth(row));
    let (Some(row), Ok(calls)) = (row, calls.parse::<u32>()) else {
        return usage();
    };
    let mut call = match side {
        "library" => row.library,
        "model" => row.model,
        _ => return usage(),
    };
    for _ in 0..calls {
        black_box(call());
    }
    ExitCode::SUCCESS
}

/// A command that is timed, with its record.
struct Command {
    name: &'static str,
    text: &'static str,
    record: Vec<u8>,
}

impl Command {
    /// Its rows: every call, offsets, an argument and all orders if they are timed, the first order
    /// and the last if that is another; of the wide one the orders alone, of the ranges the argument
    /// alone.
    fn rows(&self) -> Vec<Row<'_>> {
        let orders = model::count(&self.record).unwrap_or(0);
        let last = u64::from(orders) - 1;
        let is_range = [FEW_TERMS, MANY_TERMS].contains(&self.text);
        let mut rows = Vec::new();
        if !is_range && self.text != WIDE {
            rows.extend([read(self), print(self), count(self)]);
        }
        if ROWED.contains(&self.text) {
            rows.extend([read_row(self), order_row(self, last), place(self)]);
        }
        let asked = ASKED.iter().find(|asked| asked.0 == self.text);
        rows.extend(asked.map(|(_, numerals)| member(self, numerals)));
        if is_range {
            return rows;
        }
        if LISTED.contains(&self.text) {
            rows.extend([list(self, orders), all_orders(self, orders)]);
        }
        rows.push(order(self, 0));
        if last > 0 {
            rows.push(order(self, last));
        }
        rows
    }
}

/// The commands that are timed.
struct Commands(Vec<Command>);

impl Commands {
    fn new() -> Commands {
        let command = |(name, text)| Command {
            name,
            text,
            record: record_of(text),
        };
        Commands(COMMANDS.map(command).into())
    }

    /// Every row: those of keys, then those of the commands.
    fn rows(&self) -> impl Iterator<Item = Row<'_>> {
        let keys = KEYS.into_iter();
        let keys = keys.flat_map(|(name, typed)| HELD.map(|held| key(name, typed, held)));
        keys.chain(self.0.iter().flat_map(Command::rows))
    }
}

/// The record of a command, the same from both sides.
fn record_of(text: &str) -> Vec<u8> {
    let mut record = vec![0; mml::RECORD_MAX];
    let mut other = record.clone();
    let length = mml::read(text.as_bytes(), b"", &mut record).expect("the command is right");
    let same = model::read(text.as_bytes(), b"", &mut other);
    assert_eq!(same, Ok(length));
    assert_eq!(record, other);
    record.truncate(length);
    record
}

/// A key to a keeper that holds so many letters. What the call changes of the keeper is its count,
/// which is set back before it, and the byte that the key is held in. The value that is given is 1,
/// and 2 for a line that is ready.
fn key(name: &'static str, typed: u8, held: u32) -> Row<'static> {
    let bytes = [b'A'; mml::TEXT_MAX];
    let mut keeper = mml::Keeper { bytes, count: held };
    let mut other = model::Keeper { bytes, count: held };
    Row {
        command: name,
        call: "key",
        text: held as usize,
        record: None,
        k: None,
        orders: None,
        library: Box::new(move || {
            keeper.count = held;
            let answer = black_box(&mut keeper).key(black_box(typed));
            answer.map_or(0, |ready| 1 + u32::from(ready))
        }),
        model: Box::new(move || {
            other.count = held;
            let answer = model::key(black_box(&mut other), black_box(typed));
            answer.map_or(0, |ready| 1 + u32::from(ready))
        }),
    }
}

fn read(command: &Command) -> Row<'_> {
    let bytes = command.text.as_bytes();
    let mut out = vec![0; mml::RECORD_MAX];
    let mut other = out.clone();
    Row {
        command: command.name,
        call: "read",
        text: bytes.len(),
        record: Some(command.record.len()),
        k: None,
        orders: None,
        library: Box::new(move || {
            let answer = mml::read(black_box(bytes), b"", black_box(&mut out));
            answer.map_or(0, |length| length as u32)
        }),
        model: Box::new(move || {
            let answer = model::read(black_box(bytes), b"", black_box(&mut other));
            answer.map_or(0, |length| length as u32)
        }),
    }
}

fn print(command: &Command) -> Row<'_> {
    let record = &command.record[..];
    let mut out = vec![0; mml::TEXT_MAX];
    let mut other = out.clone();
    Row {
        command: command.name,
        call: "print",
        text: command.text.len(),
        record: Some(record.len()),
        k: None,
        orders: None,
        library: Box::new(move || {
            let answer = mml::print(black_box(record), black_box(&mut out));
            answer.map_or(0, |length| length as u32)
        }),
        model: Box::new(move || {
            let answer = model::print(black_box(record), black_box(&mut other));
            answer.map_or(0, |length| length as u32)
        }),
    }
}

fn count(command: &Command) -> Row<'_> {
    let record = &command.record[..];
    Row {
        command: command.name,
        call: "count",
        text: command.text.len(),
        record: Some(record.len()),
        k: None,
        orders: None,
        library: Box::new(move || mml::count(black_box(record)).unwrap_or(0)),
        model: Box::new(move || model::count(black_box(record)).unwrap_or(0)),
    }
}

fn read_row(command: &Command) -> Row<'_> {
    let bytes = command.text.as_bytes();
    let mut out = vec![0; mml::RECORD_MAX];
    let mut other = out.clone();
    let (mut row, mut other_row) = ([0; mml::PLACES_MAX], [0; mml::PLACES_MAX]);
    Row {
        command: command.name,
        call: "read_row",
        text: bytes.len(),
        record: Some(command.record.len()),
        k: None,
        orders: None,
        library: Box::new(move || {
            let (out, row) = (black_box(&mut out), black_box(&mut row));
            let answer = mml::read_row(black_box(bytes), b"", out, row);
            answer.map_or(0, |length| length as u32)
        }),
        model: Box::new(move || {
            let (out, row) = (black_box(&mut other), black_box(&mut other_row));
            let answer = model::read_row(black_box(bytes), b"", out, row);
            answer.map_or(0, |length| length as u32)
        }),
    }
}

fn order_row(command: &Command, k: u64) -> Row<'_> {
    let record = &command.record[..];
    let mut out = vec![0; record.len()];
    let mut other = out.clone();
    let (mut row, mut other_row) = ([0; mml::PLACES_MAX], [0; mml::PLACES_MAX]);
    Row {
        command: command.name,
        call: "order_row",
        text: command.text.len(),
        record: Some(record.len()),
        k: Some(k),
        orders: None,
        library: Box::new(move || {
            let (out, row) = (black_box(&mut out), black_box(&mut row));
            let answer = mml::order_row(black_box(record), black_box(k), out, row);
            answer.map_or(0, |length| length as u32)
        }),
        model: Box::new(move || {
            let (out, row) = (black_box(&mut other), black_box(&mut other_row));
            let answer = model::order_row(black_box(record), black_box(k), out, row);
            answer.map_or(0, |length| length as u32)
        }),
    }
}

/// The last place, by the record's row. The value that is given is the bytes of its fields.
fn place(command: &Command) -> Row<'_> {
    let record = &command.record[..];
    let row = row_of(command);
    let other = row.clone();
    let last = row.len() as u32 - 1;
    Row {
        command: command.name,
        call: "place",
        text: command.text.len(),
        record: Some(record.len()),
        k: Some(u64::from(last)),
        orders: None,
        library: Box::new(move || {
            let answer = mml::place(black_box(record), black_box(&row), black_box(last));
            answer.map_or(0, |fields| fields.len() as u32)
        }),
        model: Box::new(move || {
            let answer = model::place(black_box(record), black_box(&other), black_box(last));
            answer.map_or(0, |fields| fields.len() as u32)
        }),
    }
}

/// The row of a command's record, the same from both sides; it has places.
fn row_of(command: &Command) -> Vec<u32> {
    let text = command.text.as_bytes();
    let mut record = vec![0; mml::RECORD_MAX];
    let (mut row, mut other) = (vec![0; mml::PLACES_MAX], vec![0; mml::PLACES_MAX]);
    mml::read_row(text, b"", &mut record, &mut row).expect("the command is right");
    model::read_row(text, b"", &mut record, &mut other).expect("the command is right");
    assert_eq!(row, other);
    row.retain(|&offset| offset > 0);
    row
}

/// The argument of these numerals in the first place. The value that is given is 1 + the position.
fn member<'c>(command: &'c Command, numerals: &[u32]) -> Row<'c> {
    let record = &command.record[..];
    let unit = |value: &u32| [&[7, 0, 6, b'D', 0][..], &value.to_be_bytes()].concat();
    let argument: Vec<u8> = numerals.iter().flat_map(unit).collect();
    let other = argument.clone();
    let position = model::member(record, 0, &argument).expect("the question is right");
    let value = |position: Option<u32>| position.map_or(0, |position| position + 1);
    Row {
        command: command.name,
        call: "member",
        text: command.text.len(),
        record: Some(record.len()),
        k: position.map(u64::from),
        orders: None,
        library: Box::new(move || {
            let answer = mml::member(black_box(record), 0, black_box(&argument));
            answer.map_or(0, value)
        }),
        model: Box::new(move || {
            let answer = model::member(black_box(record), 0, black_box(&other));
            answer.map_or(0, value)
        }),
    }
}

fn order(command: &Command, k: u64) -> Row<'_> {
    let record = &command.record[..];
    let mut out = vec![0; record.len()];
    let mut other = out.clone();
    Row {
        command: command.name,
        call: "order",
        text: command.text.len(),
        record: Some(record.len()),
        k: Some(k),
        orders: None,
        library: Box::new(move || {
            let answer = mml::order(black_box(record), black_box(k), black_box(&mut out));
            answer.map_or(0, |length| length as u32)
        }),
        model: Box::new(move || {
            let answer = model::order(black_box(record), black_box(k), black_box(&mut other));
            answer.map_or(0, |length| length as u32)
        }),
    }
}

/// All orders, by one call.
fn list(command: &Command, orders: u32) -> Row<'_> {
    let record = &command.record[..];
    let length = list_len(record);
    let (mut out, mut other) = (vec![0; length], vec![0; length]);
    Row {
        command: command.name,
        call: "list",
        text: command.text.len(),
        record: Some(record.len()),
        k: None,
        orders: Some(orders),
        library: Box::new(move || {
            let answer = mml::list(black_box(record), black_box(&mut out));
            answer.map_or(0, |length| length as u32)
        }),
        model: Box::new(move || {
            let answer = model::list(black_box(record), black_box(&mut other));
            answer.map_or(0, |length| length as u32)
        }),
    }
}

/// The bytes of a record's list, the same from both sides.
fn list_len(record: &[u8]) -> usize {
    let refusal = mml::list(record, &mut []).expect_err("a list has bytes");
    let same = model::list(record, &mut []).expect_err("a list has bytes");
    assert_eq!(refusal, mml::Refusal::BufferTooShort(same.place));
    same.place as usize
}

/// All orders, one by one. The value that is given is the bytes of all of them.
fn all_orders(command: &Command, orders: u32) -> Row<'_> {
    let record = &command.record[..];
    let mut out = vec![0; record.len()];
    let mut other = out.clone();
    Row {
        command: command.name,
        call: "orders",
        text: command.text.len(),
        record: Some(record.len()),
        k: None,
        orders: Some(orders),
        library: Box::new(move || {
            let length = |k| mml::order(black_box(record), k, black_box(&mut out)).unwrap_or(0);
            (0..u64::from(orders)).map(length).sum::<usize>() as u32
        }),
        model: Box::new(move || {
            let length = |k| model::order(black_box(record), k, black_box(&mut other)).unwrap_or(0);
            (0..u64::from(orders)).map(length).sum::<usize>() as u32
        }),
    }
}

impl Row<'_> {
    /// What the row is about, under `HEAD`.
    fn name(&self) -> String {
        let shown = |number: Option<u64>| number.map_or("-".into(), |number| number.to_string());
        format!(
            "{:<13} {:<9} {:>5} {:>7} {:>6} {:>6}",
            self.command,
            self.call,
            self.text,
            shown(self.record.map(|bytes| bytes as u64)),
            shown(self.k),
            shown(self.orders.map(u64::from))
        )
    }

    /// Times the row and prints it; gives library and model.
    fn time(mut self, batches: usize) -> (f64, f64) {
        let (library, model) = ((self.library)(), (self.model)());
        assert!(library > 0 && library == model, "the answers differ");
        let name = self.name();
        let calls = match self.orders {
            Some(_) => 1,
            None => calls_per_batch(&mut self.model),
        };
        let mut times = [Vec::new(), Vec::new()];
        for batch in 0..batches {
            for turn in 0..2 {
                let side = (batch + turn) % 2;
                let call = [&mut self.library, &mut self.model][side].as_mut();
                times[side].push(batch_time(call, calls));
            }
        }
        let orders = f64::from(self.orders.unwrap_or(1));
        let [library, model] = times.map(|times| median(times) / orders);
        println!(
            "{name} {library:>9.1} {model:>9.1} {:>6.2}",
            library / model
        );
        (library, model)
    }
}

/// How many calls make a batch.
fn calls_per_batch(call: &mut Side) -> u32 {
    let mut calls = 16;
    loop {
        let time = batch_time(call.as_mut(), calls) * calls as f64;
        if time >= BATCH.as_nanos() as f64 {
            return calls;
        }
        calls *= 2;
    }
}

/// Nanoseconds per call.
fn batch_time(call: &mut dyn FnMut() -> u32, calls: u32) -> f64 {
    let start = Instant::now();
    for _ in 0..calls {
        black_box(call());
    }
    start.elapsed().as_nanos() as f64 / calls as f64
}

fn median(mut times: Vec<f64>) -> f64 {
    times.sort_by(f64::total_cmp);
    times[times.len() / 2]
}
