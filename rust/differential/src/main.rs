//! Compares the proved library with the model.
//!
//! `differential [SEED [COUNT [show]]]` takes the lines of the documents and then makes inputs
//! from SEED, COUNT in all: commands that are right, nearly right and damaged, and records of
//! all kinds. Each goes through the calls on both
//! sides, with buffers that are large, just fit, are one byte too short and empty, and with rows
//! that have too few slots, just enough and more. Other inputs are runs of keys to a keeper. Answers
//! and all bytes must be alike, a keeper's and a row's too. Then the library alone must keep what
//! its calls promise together: a list's pieces are the orders, an argument that stands in a place
//! is what the order has there that takes it, and the fields of the places, with what is between
//! them, are the record.
//! Lists that are long are written now and then; of the others the bytes needed are compared.
//! The first difference ends the run with the input in full. With `show` each input is
//! printed before it is tried, for a library that does not return.
//!
//! A run ends after COUNT inputs, or after a minute if there were 20,000 by then; it goes on
//! until there are, and fails if a quarter of an hour is not enough. It fails too unless every
//! call gave each answer that it can give: success and, all calls together, every refusal; and
//! unless the inputs that were made had numerals in small letters, read in commands and refused
//! in records, had records refused for the number of their orders alone, gave lists of each kind,
//! asked for arguments of each kind, filled rows and asked by rows of each kind, and showed all that
//! keys do. The same SEED gives the same inputs.

mod arguments;
mod commands;
mod compare;
mod coverage;
mod keepers;
mod keys;
mod library;
mod lines;
mod lists;
mod members;
mod names;
mod offsets;
mod order_counts;
mod random;
mod records;
mod rows;
mod small_letters;
#[cfg(feature = "direct")]
mod watched;

use std::env;
use std::ops::Range;
use std::process::ExitCode;
use std::time::{Duration, Instant};

use arguments::{Place, Question};
use compare::{Answer, Call, Difference, Lent, Outcome};
use coverage::Coverage;
use keys::{Keys, READY};
use library::Library;
use lists::Lists;
use members::Members;
use order_counts::OrderCounts;
use random::Random;
use rows::Rows;
use small_letters::SmallLetters;

/// A run ends after this time if it had enough inputs.
const USUAL: Duration = Duration::from_secs(60);

/// A run that has not had enough inputs after this time fails.
const LONGEST: Duration = Duration::from_secs(900);

/// No run passes with fewer inputs.
const LEAST: u64 = 20_000;

/// Inputs of a run that is given no COUNT, at most.
const COUNT: u64 = 400_000;

/// The refusal of a text that is or would be too long.
const TEXT_TOO_LONG: u32 = 2;

/// The refusals of a text that does not end as a ready line does: a string or comment not closed,
/// no `;`, something behind it.
const WRONG_ENDS: [u32; 3] = [4, 6, 7];

/// The refusal of a buffer that is too short.
const BUFFER_TOO_SHORT: u32 = 17;

/// The refusal of a record that is not well formed.
const NOT_WELL_FORMED: u32 = 18;

/// More than any record takes.
const ROOM: usize = 65_536;

/// A list is written if it takes no more.
const LIST: usize = 16_384;

/// One list in so many is written if it takes no more than `LONG_LIST`; every one that is given is.
const LONG_LISTS: usize = 8;
const LONG_LIST: usize = 1 << 22;

/// Of a list with more orders than these only some are asked for one by one.
const ASKED_FOR: usize = 100;

/// No text is longer, and no line that is kept.
const TEXT: usize = 1_024;

fn main() -> ExitCode {
    let words: Vec<String> = env::args().skip(1).collect();
    let Some(asked) = Asked::of(&words) else {
        eprintln!("usage: differential [SEED [COUNT [show]]], COUNT from {LEAST} on");
        return ExitCode::from(2);
    };
    let library = match Library::open() {
        Ok(library) => library,
        Err(why) => {
            eprintln!("differential: {why}");
            return ExitCode::from(2);
        }
    };
    println!("seed {}", asked.seed);
    match Run::new(library, &asked).all(asked.count) {
        Ok(()) => ExitCode::SUCCESS,
        Err(why) => {
            println!("{why}");
            println!("the same inputs again: differential {}", asked.seed);
            ExitCode::FAILURE
        }
    }
}

/// What the program is asked for.
#[derive(Debug, PartialEq)]
struct Asked {
    seed: u64,
    count: u64,
    show: bool,
}

impl Asked {
    /// What the words ask for, if they are right.
    fn of(words: &[String]) -> Option<Asked> {
        let number = |at: usize, default: u64| match words.get(at) {
            None => Some(default),
            Some(word) => word.parse().ok(),
        };
        let asked = Asked {
            seed: number(0, 1)?,
            count: number(1, COUNT)?,
            show: words.len() == 3,
        };
        let right = match words {
            [_, _, show] => show == "show",
            _ => words.len() < 3,
        };
        (right && asked.count >= LEAST).then_some(asked)
    }
}

/// What a run keeps from input to input, and what it has seen.
struct Run {
    library: Library,
    random: Random,
    show: bool,
    inputs: u64,
    calls: u64,
    orders: u64,
    well_formed: u64,
    longest_record: usize,
    answers: Coverage,
    small_letters: SmallLetters,
    order_counts: OrderCounts,
    lists: Lists,
    members: Members,
    rows: Rows,
    keys: Keys,
    /// Records of accepted commands.
    pool: Vec<Vec<u8>>,
}

impl Run {
    fn new(library: Library, asked: &Asked) -> Run {
        Run {
            library,
            random: Random::new(asked.seed),
            show: asked.show,
            inputs: 0,
            calls: 0,
            orders: 0,
            well_formed: 0,
            longest_record: 0,
            answers: Coverage::default(),
            small_letters: SmallLetters::default(),
            order_counts: OrderCounts::default(),
            lists: Lists::default(),
            members: Members::default(),
            rows: Rows::default(),
            keys: Keys::default(),
            pool: vec![vec![12, 0, 4, 0, 0, 0, 1, 1, 0, 1, b'A']],
        }
    }

    /// Tries inputs, so many or as many as the time allows; says why the run fails.
    fn all(&mut self, count: u64) -> Result<(), String> {
        let start = Instant::now();
        while goes_on(self.inputs, count, start.elapsed())? {
            self.one_input().map_err(|difference| {
                format!("DIFFERENCE at input {}\n{difference}", self.inputs)
            })?;
            self.inputs += 1;
        }
        self.summary(start.elapsed());
        let missing = [
            self.answers.missing(),
            self.small_letters.missing(),
            self.order_counts.missing(),
            self.lists.missing(),
            self.members.missing(),
            self.rows.missing(),
            self.keys.missing(),
        ];
        match missing.concat() {
            missing if missing.is_empty() => Ok(()),
            missing => Err(format!("NEVER SEEN: {}", missing.join(", "))),
        }
    }

    /// Tries the next input.
    fn one_input(&mut self) -> Result<(), Difference> {
        let given = self.inputs as usize;
        if let Some((text, bases)) = lines::LINES.get(given) {
            self.command(text.as_bytes(), bases.as_bytes())
        } else if let Some(keys) = lines::KEYS.get(given - lines::LINES.len()) {
            self.keys(keepers::empty(), keys.as_bytes())
        } else if self.random.one_in(6) {
            let typed = keepers::typed(&mut self.random);
            self.keys(typed.keeper, &typed.keys)
        } else if self.random.one_in(3) {
            let one = self.random.below(self.pool.len());
            let other = self.random.below(self.pool.len());
            let (one, other) = (self.pool[one].clone(), self.pool[other].clone());
            let record = records::record(&mut self.random, &one, &other);
            self.record(&record)
        } else {
            let command = commands::command(&mut self.random);
            self.command(&command.text, &command.bases)
        }
    }

    /// Whether the input is made, and not given.
    fn is_made(&self) -> bool {
        self.inputs as usize >= lines::LINES.len() + lines::KEYS.len()
    }

    /// Tries keys, one by one, to a keeper, and reads every line that is ready.
    fn keys(&mut self, mut keeper: Vec<u8>, keys: &[u8]) -> Result<(), Difference> {
        for &key in keys {
            let call = Call::Key(&keeper, key);
            self.announce(call);
            let outcome = call.compare_on(&mut self.library, &keeper)?;
            self.calls += 1;
            self.answers.note(call, outcome.answer);
            if self.is_made() {
                self.keys.note(&keeper, key, &outcome);
            }
            if outcome.answer == Ok(READY) {
                self.ready(call, keepers::line(&outcome.bytes))?;
            }
            if outcome.answer.is_ok() {
                keeper = outcome.bytes;
            }
        }
        Ok(())
    }

    /// Reads the line that this key made ready: it has the end that it must have.
    fn ready(&mut self, key: Call, line: &[u8]) -> Result<(), Difference> {
        match self.all_rooms(Call::Read(line, b""))?.answer {
            Err((number, place)) if WRONG_ENDS.contains(&number) => {
                Err(key.alone(&format!("the ready line is refused: {number} at {place}")))
            }
            _ => Ok(()),
        }
    }

    /// Prints a call before it is tried, if that is asked for.
    fn announce(&self, call: Call) {
        if self.show {
            println!("input {}\n{}", self.inputs, call.inputs_in_full());
        }
    }

    /// Tries a command with all buffers, then its record.
    fn command(&mut self, text: &[u8], bases: &[u8]) -> Result<(), Difference> {
        let read = self.all_rooms(Call::Read(text, bases))?;
        self.all_rows(Call::ReadRow(text, bases), &read)?;
        if read.answer.is_err() {
            return Ok(());
        }
        let record = read.bytes;
        self.longest_record = self.longest_record.max(record.len());
        self.remember(&record);
        self.record(&record)?;
        self.printed(&record, Some(text))
    }

    /// Keeps a record for later changes.
    fn remember(&mut self, record: &[u8]) {
        if self.pool.len() < 500 {
            self.pool.push(record.to_vec());
        } else {
            let at = self.random.below(self.pool.len());
            self.pool[at] = record.to_vec();
        }
    }

    /// Tries a record with all calls and buffers.
    fn record(&mut self, record: &[u8]) -> Result<(), Difference> {
        self.members(record)?;
        self.places(record)?;
        self.all_rooms(Call::Print(record))?;
        let count = self.all_rooms(Call::Count(record))?.answer;
        let list = self.all_rooms(Call::List(record))?;
        let Ok(count) = count else {
            let k = self.random.pick(&[0, 1, u64::MAX]);
            self.order(record, k)?;
            return Ok(());
        };
        self.well_formed += 1;
        let count = count as u64;
        let past = self
            .random
            .pick(&[count + 1, count + (1 << 32), 1 << 63, u64::MAX]);
        for k in [count, (1 << 32) + count - 1, past] {
            self.order(record, k)?;
        }
        let all = count <= 12;
        let tries = if all { count } else { 5 };
        for n in 0..tries {
            let k = match n {
                _ if all => n,
                0 => 0,
                1 => count - 1,
                _ => self.random.below(count as usize) as u64,
            };
            let order = self.order(record, k)?;
            self.kept_order(record, k, &order.bytes)?;
        }
        match list.answer {
            Ok(_) => self.pieces(record, count, &list.bytes),
            Err(_) => Ok(()),
        }
    }

    /// Tries order `k` of a record, and its row.
    fn order(&mut self, record: &[u8], k: u64) -> Result<Outcome, Difference> {
        let order = self.all_rooms(Call::Order(record, k))?;
        self.all_rows(Call::OrderRow(record, k), &order)?;
        Ok(order)
    }

    /// Tries a call that fills a row with buffers and rows that are more than enough, just enough
    /// and too short. It must write what the same call without a row wrote, and the offsets of it.
    fn all_rows(&mut self, call: Call, alone: &Outcome) -> Result<(), Difference> {
        self.announce(call);
        let record = &alone.bytes;
        let offsets = offsets::offsets(record);
        let rooms = match alone.answer {
            Ok(_) => offsets::rooms(&mut self.random, record.len(), offsets.len()),
            Err(_) => vec![(self.random.below(100), self.random.below(4))],
        };
        for (room, slots) in rooms {
            let lent = Lent::soiled(&mut self.random, room, slots);
            let outcome = call.compare_row(&mut self.library, &lent.out, &lent.row)?;
            self.calls += 1;
            self.answers.note(call, outcome.answer);
            if self.is_made() && alone.answer.is_ok() {
                self.rows.note_filled(record, &lent, outcome.answer);
            }
            let filled = outcome.answer.is_ok();
            if filled && (outcome.bytes != *record || outcome.row != offsets) {
                return Err(call.alone("the record or its row is another one"));
            }
        }
        Ok(())
    }

    /// Asks for places of a record by rows; one question is enough for a record that is not well
    /// formed.
    fn places(&mut self, record: &[u8]) -> Result<(), Difference> {
        let offsets = offsets::offsets(record);
        for question in offsets::questions(&mut self.random, &offsets) {
            let call = Call::Place(record, &question.row, question.place);
            self.announce(call);
            let answer = call.compare_on(&mut self.library, &[])?.answer;
            self.calls += 1;
            self.answers.note(call, answer);
            if self.is_made() {
                self.rows.note_asked(record, &question, answer);
            }
            if matches!(answer, Err((NOT_WELL_FORMED, _))) {
                return Ok(());
            }
        }
        self.pages(record, &offsets)
    }

    /// What the library alone must keep of a record's places: by its row each hands back its own
    /// fields, and these, with what is between them, are the record.
    fn pages(&mut self, record: &[u8], row: &[u32]) -> Result<(), Difference> {
        let mut pages: Vec<Range<usize>> = Vec::new();
        for (place, &offset) in row.iter().enumerate() {
            let call = Call::Place(record, row, place as u32);
            let length = match self.ask(call, &mut [])? {
                Ok(length) => length as usize,
                Err((number, slot)) => {
                    return Err(call.alone(&format!("not handed back: {number} at {slot}")))
                }
            };
            pages.push(offset as usize..offset as usize + length);
        }
        if pages != offsets::pages(record) || !offsets::are_whole(record, &pages) {
            let call = Call::Place(record, row, 0);
            return Err(call.alone(&format!("the places are not the record: {pages:?}")));
        }
        Ok(())
    }

    /// Asks for arguments in the places of a record; one question is enough for a record that is
    /// not well formed.
    fn members(&mut self, record: &[u8]) -> Result<(), Difference> {
        let places = arguments::places(record);
        for question in arguments::questions(&mut self.random, &places) {
            let call = Call::Member(record, question.place, &question.argument);
            self.announce(call);
            let answer = call.compare_on(&mut self.library, &[])?.answer;
            self.calls += 1;
            self.answers.note(call, answer);
            if self.is_made() {
                self.members.note(&places, &question, answer);
            }
            match answer {
                Err((NOT_WELL_FORMED, _)) => return Ok(()),
                Ok(found) if found > 0 => self.taken(record, &places, &question, found - 1)?,
                _ => (),
            }
        }
        Ok(())
    }

    /// What the library alone must keep of an argument that stands in a place at this position:
    /// the order that takes it, and of all other places the first argument, has it there.
    fn taken(
        &mut self,
        record: &[u8],
        places: &[Place],
        question: &Question,
        position: u32,
    ) -> Result<(), Difference> {
        let place = question.place as usize;
        let call = Call::Member(record, question.place, &question.argument);
        let behind: u64 = places[place + 1..].iter().map(Place::choices).product();
        let k = u64::from(position) * behind;
        let mut order = vec![0; record.len()];
        let length = match self.ask(Call::Order(record, k), &mut order)? {
            Ok(length) => length as usize,
            Err(_) => return Err(call.alone(&format!("there is no order {k}"))),
        };
        let places = arguments::places(&order[..length]);
        let taken = places.get(place).and_then(|place| place.arguments().next());
        if taken != Some(&question.argument[..]) {
            return Err(call.alone(&format!("order {k} has another argument there")));
        }
        Ok(())
    }

    /// Tries a call with a large buffer, one that just fits, one that is a byte too short, and
    /// an empty one.
    fn all_rooms(&mut self, call: Call) -> Result<Outcome, Difference> {
        self.announce(call);
        let needed = match self.room_needed(call) {
            Some(needed) => needed,
            None => self.random.below(100),
        };
        let large = needed + self.random.between(1, 50);
        let outcome = call.compare(&mut self.library, &mut self.random, large)?;
        self.answers.note(call, outcome.answer);
        if self.is_made() {
            self.small_letters.note(call, &outcome);
            self.order_counts.note(call, outcome.answer);
            self.lists.note(call, &outcome);
        }
        for room in [needed, needed.saturating_sub(1), 0] {
            let answer = call
                .compare(&mut self.library, &mut self.random, room)?
                .answer;
            if matches!(answer, Err((BUFFER_TOO_SHORT, _))) {
                self.answers.note(call, answer);
            }
        }
        self.calls += 4;
        Ok(outcome)
    }

    /// The bytes that a call needs, as the model tells with an empty buffer, if so many are lent.
    fn room_needed(&mut self, call: Call) -> Option<usize> {
        let most = match call {
            Call::List(_) if self.is_made() && !self.random.one_in(LONG_LISTS) => LIST,
            Call::List(_) => LONG_LIST,
            _ => ROOM,
        };
        match call.model(&mut []) {
            Err((BUFFER_TOO_SHORT, needed)) if needed as usize <= most => Some(needed as usize),
            _ => None,
        }
    }

    /// What the library alone answers; that it cannot be reached is a difference too.
    fn ask(&mut self, call: Call, out: &mut [u8]) -> Result<Answer, Difference> {
        self.library
            .call(&call, out)
            .map_err(|what| call.alone(&what))
    }

    /// What the library alone must keep: the text of a record gives the record with the
    /// record's bases, and is not longer than the text it came from.
    fn printed(&mut self, record: &[u8], from: Option<&[u8]>) -> Result<(), Difference> {
        let print = Call::Print(record);
        let mut text = [0; TEXT];
        let length = match (self.ask(print, &mut text)?, from) {
            (Ok(length), _) => length as usize,
            (Err((TEXT_TOO_LONG, _)), None) => return Ok(()),
            (Err((number, place)), _) => {
                return Err(print.alone(&format!("not printed: {number} at {place}")))
            }
        };
        if from.is_some_and(|from| length > from.len()) {
            return Err(print.alone("the text is longer than the command"));
        }
        let mut again = vec![0; record.len()];
        let answer = self.ask(Call::Read(&text[..length], &bases_of(record)), &mut again)?;
        if answer != Ok(record.len() as u32) || again != record {
            let text = text[..length].escape_ascii();
            return Err(print.alone(&format!("the text {text} gives another record")));
        }
        Ok(())
    }

    /// What the library alone must keep of an order: it is not longer than the record, its
    /// text gives it again, and it is its own sole order.
    fn kept_order(&mut self, record: &[u8], k: u64, order: &[u8]) -> Result<(), Difference> {
        self.orders += 1;
        let call = Call::Order(record, k);
        if order.len() > record.len() {
            return Err(call.alone("the order is longer than the record"));
        }
        if self.ask(Call::Count(order), &mut [])? != Ok(1) {
            return Err(call.alone("the order has not itself as its sole order"));
        }
        let mut again = vec![0; order.len()];
        if self.ask(Call::Order(order, 0), &mut again)? != Ok(order.len() as u32) || again != order
        {
            return Err(call.alone("order 0 of the order is another record"));
        }
        if bases_of(order) != bases_of(record) {
            return Err(call.alone("the order has other bases"));
        }
        self.printed(order, None)
    }

    /// What the library alone must keep of a list: it has as many pieces as there are orders, and
    /// piece k is order k.
    fn pieces(&mut self, record: &[u8], count: u64, list: &[u8]) -> Result<(), Difference> {
        let call = Call::List(record);
        let Some(pieces) = lists::pieces(list) else {
            return Err(call.alone("the list is not made of pieces"));
        };
        if pieces.len() as u64 != count {
            let pieces = pieces.len();
            return Err(call.alone(&format!("{pieces} pieces, and {count} orders")));
        }
        for n in 0..pieces.len().min(ASKED_FOR) {
            let k = match n {
                _ if pieces.len() <= ASKED_FOR => n,
                0 => pieces.len() - 1,
                _ => self.random.below(pieces.len()),
            };
            let mut order = vec![0; pieces[k].len()];
            let answer = self.ask(Call::Order(record, k as u64), &mut order)?;
            if answer != Ok(order.len() as u32) || order != pieces[k] {
                return Err(call.alone(&format!("piece {k} is not order {k}")));
            }
        }
        Ok(())
    }

    /// Tells what the run has seen.
    fn summary(&self, time: Duration) {
        println!(
            "no difference: {} inputs, {} calls compared, {:.1} s",
            self.inputs,
            self.calls,
            time.as_secs_f64()
        );
        println!(
            "{} well-formed records, {} orders, longest record of a command {} bytes",
            self.well_formed, self.orders, self.longest_record
        );
        self.answers.show();
        self.small_letters.show();
        self.order_counts.show();
        self.lists.show();
        self.members.show();
        self.rows.show();
        self.keys.show();
    }
}

/// Whether another input is to be tried after so many, of `count`, in this time; an error if
/// the time is over and there were too few.
fn goes_on(inputs: u64, count: u64, time: Duration) -> Result<bool, String> {
    if inputs >= count || inputs >= LEAST && time >= USUAL {
        return Ok(false);
    }
    if time >= LONGEST {
        let seconds = LONGEST.as_secs();
        return Err(format!(
            "TOO SLOW: {inputs} inputs in {seconds} s, and {LEAST} are asked for"
        ));
    }
    Ok(true)
}

/// The letters of a record's places.
fn bases_of(mut record: &[u8]) -> Vec<u8> {
    let mut bases = Vec::new();
    while let [tag, high, low, rest @ ..] = record {
        let length = u16::from_be_bytes([*high, *low]) as usize;
        if *tag == 3 && length == 1 {
            bases.push(rest[0]);
        }
        record = &rest[length..];
    }
    bases
}

#[cfg(test)]
mod tests {
    use super::{goes_on, Asked, COUNT, LEAST, LONGEST, USUAL};

    fn asked(words: &str) -> Option<(u64, u64, bool)> {
        let words: Vec<String> = words.split_whitespace().map(String::from).collect();
        Asked::of(&words).map(|asked| (asked.seed, asked.count, asked.show))
    }

    #[test]
    fn no_run_ends_with_too_few_inputs() {
        assert_eq!(goes_on(LEAST - 1, COUNT, USUAL), Ok(true));
        assert!(goes_on(LEAST - 1, COUNT, LONGEST).is_err());
        assert_eq!(goes_on(LEAST, COUNT, USUAL / 2), Ok(true));
        assert_eq!(goes_on(LEAST, COUNT, USUAL), Ok(false));
        assert_eq!(goes_on(LEAST, COUNT, LONGEST), Ok(false));
        assert_eq!(goes_on(COUNT, COUNT, USUAL / 2), Ok(false));
    }

    #[test]
    fn words_that_are_right() {
        assert_eq!(asked(""), Some((1, COUNT, false)));
        assert_eq!(asked("7"), Some((7, COUNT, false)));
        assert_eq!(asked("7 20000"), Some((7, LEAST, false)));
        assert_eq!(asked("7 20000 show"), Some((7, LEAST, true)));
    }

    #[test]
    fn words_that_are_wrong() {
        for wrong in [
            "x",
            "-1",
            "1 x",
            "1 19999",
            "1 20000 shew",
            "1 20000 show 1",
        ] {
            assert_eq!(asked(wrong), None);
        }
    }
}
