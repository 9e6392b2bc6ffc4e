//! The proved library: linked in (feature `direct`), or behind a server program that `MML_SERVER` names.
//!
//! Either way the buffers that the library is lent stand between watched bytes, at every
//! alignment, keepers and rows at those that they may have; the server has them also next to pages
//! without access.

use std::env;
use std::io::{self, Read, Write};
use std::process::{Child, ChildStdin, ChildStdout, Command, Stdio};

use crate::compare::{Answer, Call};
use crate::coverage::is_answer;

/// Where the library is called.
pub enum Library {
    /// In this program, so many times up to now.
    #[cfg(feature = "direct")]
    Direct(usize),
    /// In another program, which speaks the protocol of `tests/c/serve.c`.
    Served(Box<Server>),
}

/// A running server program.
pub struct Server {
    child: Child,
    requests: ChildStdin,
    replies: ChildStdout,
}

impl Library {
    /// The library that this build and the environment give.
    pub fn open() -> Result<Library, String> {
        match env::var("MML_SERVER") {
            Ok(program) if !program.is_empty() => {
                Ok(Library::Served(Box::new(Server::start(&program)?)))
            }
            _ => Library::linked(),
        }
    }

    #[cfg(feature = "direct")]
    fn linked() -> Result<Library, String> {
        Ok(Library::Direct(0))
    }

    #[cfg(not(feature = "direct"))]
    fn linked() -> Result<Library, String> {
        Err(
            "set MML_SERVER to the program of tests/c/serve.c, or build with `--features direct`"
                .into(),
        )
    }

    /// Makes a call that fills no row.
    pub fn call(&mut self, call: &Call, out: &mut [u8]) -> Result<Answer, String> {
        self.call_row(call, out, &mut [])
    }

    /// Makes the call; an error says that the library wrote where it must not, that its answer
    /// is none, or that it cannot be reached.
    pub fn call_row(
        &mut self,
        call: &Call,
        out: &mut [u8],
        row: &mut [u32],
    ) -> Result<Answer, String> {
        let answer = match self {
            #[cfg(feature = "direct")]
            Library::Direct(calls) => {
                *calls += 1;
                direct::call(call, out, row, *calls)?
            }
            Library::Served(server) => match server.call(call, out, row) {
                Ok(answer) => answer?,
                Err(error) => return Err(server.end(&error)),
            },
        };
        answer_of(answer)
    }
}

/// Takes an answer apart. Every bit counts: a number that is no refusal's is an error.
fn answer_of(answer: u64) -> Result<Answer, String> {
    let value = answer as u32;
    match (answer >> 32) as u32 {
        0 => Ok(Ok(value)),
        number if is_answer(number) => Ok(Err((number, value))),
        number => Err(format!(
            "the answer's number is {number} (value {value}), that of no refusal"
        )),
    }
}

#[cfg(feature = "direct")]
mod direct {
    use crate::compare::Call;
    use crate::keepers;
    use crate::watched::{Watched, WatchedKeeper};

    /// Makes the call with watched copies of its buffers and rows.
    pub fn call(call: &Call, out: &mut [u8], row: &mut [u32], turn: usize) -> Result<u64, String> {
        let (first, second) = call.inputs();
        let inputs = [Watched::with(turn, first), Watched::with(turn / 8, second)];
        let given = Watched::with(turn / 512, call.row().unwrap_or(&[]));
        let mut lent = Watched::with(turn / 64, out);
        let mut lent_row = Watched::with(turn / 512, row);
        let answer = linked(
            &call.lent(inputs[0].buffer(), inputs[1].buffer(), given.buffer()),
            lent.buffer_mut(),
            lent_row.buffer_mut(),
            turn,
        )?;
        out.copy_from_slice(lent.buffer());
        row.copy_from_slice(lent_row.buffer());
        if !lent.is_unharmed() || !lent_row.is_unharmed() {
            return Err("a byte beside the buffer or the row is written".into());
        }
        let unchanged = inputs[0].buffer() == first && inputs[1].buffer() == second;
        if !unchanged || inputs.iter().any(|input| !input.is_unharmed()) {
            return Err("an input, or a byte beside one, is written".into());
        }
        if given.buffer() != call.row().unwrap_or(&[]) || !given.is_unharmed() {
            return Err("the row that is asked by, or a byte beside it, is written".into());
        }
        Ok(answer)
    }

    /// Calls the wrapper; gives the answer as the C interface has it.
    fn linked(call: &Call, out: &mut [u8], row: &mut [u32], turn: usize) -> Result<u64, String> {
        let length = |length| length as u32;
        let found = |position: Option<u32>| position.map_or(0, |position| position + 1);
        let answer = match call {
            Call::Read(text, bases) => mml::read(text, bases, out).map(length),
            Call::Print(record) => mml::print(record, out).map(length),
            Call::Order(record, k) => mml::order(record, *k, out).map(length),
            Call::Count(record) => mml::count(record),
            Call::List(record) => mml::list(record, out).map(length),
            Call::Member(record, place, argument) => {
                mml::member(record, *place, argument).map(found)
            }
            Call::ReadRow(text, bases) => mml::read_row(text, bases, out, row).map(length),
            Call::OrderRow(record, k) => mml::order_row(record, *k, out, row).map(length),
            Call::Place(record, row, place) => {
                mml::place(record, row, *place).map(|part| length(part.len()))
            }
            Call::Key(_, key) => linked_key(*key, out, turn)?.map(u32::from),
        };
        Ok(match answer {
            Ok(value) => u64::from(value),
            Err(refusal) => u64::from(refusal.number()) << 32 | u64::from(refusal.place()),
        })
    }

    /// Takes a key to a watched copy of the keeper that the buffer is.
    fn linked_key(
        key: u8,
        out: &mut [u8],
        turn: usize,
    ) -> Result<Result<bool, mml::Refusal>, String> {
        let (bytes, count) = keepers::parts(out);
        let mut lent = WatchedKeeper::with(turn, mml::Keeper { bytes, count });
        let answer = lent.keeper_mut().key(key);
        let keeper = lent.keeper();
        out.copy_from_slice(&keepers::keeper(&keeper.bytes, keeper.count));
        if !lent.is_unharmed() {
            return Err("a byte beside the keeper is written".into());
        }
        Ok(answer)
    }
}

impl Server {
    /// Starts the program, by the one that `MML_EMULATOR` names if it names one.
    fn start(program: &str) -> Result<Server, String> {
        let mut command = match env::var("MML_EMULATOR") {
            Ok(emulator) if !emulator.is_empty() => {
                let mut command = Command::new(emulator);
                command.arg(program);
                command
            }
            _ => Command::new(program),
        };
        let mut child = command
            .stdin(Stdio::piped())
            .stdout(Stdio::piped())
            .spawn()
            .map_err(|error| format!("`{program}` does not start: {error}"))?;
        let requests = child.stdin.take().ok_or("the server has no input")?;
        let replies = child.stdout.take().ok_or("the server has no output")?;
        Ok(Server {
            child,
            requests,
            replies,
        })
    }

    /// Has the server make the call; the inner error is what it saw written.
    fn call(
        &mut self,
        call: &Call,
        out: &mut [u8],
        row: &mut [u32],
    ) -> io::Result<Result<u64, String>> {
        let given = call.row().unwrap_or(row);
        self.requests.write_all(&request(call, out, given))?;
        self.requests.flush()?;
        let mut answer = [0; 8];
        let mut harmed = [0];
        let mut slots = vec![[0; 4]; given.len()];
        self.replies.read_exact(&mut answer)?;
        self.replies.read_exact(&mut harmed)?;
        self.replies.read_exact(out)?;
        self.replies.read_exact(slots.as_flattened_mut())?;
        for (slot, bytes) in row.iter_mut().zip(slots) {
            *slot = u32::from_le_bytes(bytes);
        }
        Ok(match harmed {
            [0] => Ok(u64::from_le_bytes(answer)),
            _ => Err("a byte beside the buffer and the row, or of an input, is written".into()),
        })
    }

    /// Ends the server, with which nobody can speak any more; gives what is known of that.
    fn end(&mut self, error: &io::Error) -> String {
        let _ = self.child.kill();
        match self.child.wait() {
            Ok(status) => format!("the server ended, {status}: {error}"),
            Err(_) => format!("the server failed: {error}"),
        }
    }
}

/// A request as `tests/c/serve.c` takes it.
fn request(call: &Call, out: &[u8], row: &[u32]) -> Vec<u8> {
    let (number, k) = match call {
        Call::Read(..) => (0, 0),
        Call::Print(_) => (1, 0),
        Call::Order(_, k) => (2, *k),
        Call::Count(_) => (3, 0),
        Call::Key(_, key) => (4, u64::from(*key)),
        Call::List(_) => (5, 0),
        Call::Member(_, place, _) => (6, u64::from(*place)),
        Call::ReadRow(..) => (7, 0),
        Call::OrderRow(_, k) => (8, *k),
        Call::Place(_, _, place) => (9, u64::from(*place)),
    };
    let (first, second) = call.inputs();
    let row: Vec<u8> = row.iter().flat_map(|slot| slot.to_le_bytes()).collect();
    let mut request = vec![number];
    request.extend_from_slice(&k.to_le_bytes());
    let contents = [first, second, out, &row];
    for content in contents {
        request.extend_from_slice(&(content.len() as u32).to_le_bytes());
    }
    request.extend_from_slice(&contents.concat());
    request
}

impl Drop for Server {
    fn drop(&mut self) {
        let _ = self.child.kill();
        let _ = self.child.wait();
    }
}

#[cfg(test)]
mod tests {
    use super::answer_of;

    #[test]
    fn an_answer_is_taken_apart_whole() {
        assert_eq!(answer_of(77), Ok(Ok(77)));
        assert_eq!(answer_of((19 << 32) + 3), Ok(Err((19, 3))));
        assert_eq!(answer_of((20 << 32) + 1024), Ok(Err((20, 1024))));
        assert_eq!(answer_of((21 << 32) + 8), Ok(Err((21, 8))));
        assert_eq!(answer_of((26 << 32) + 2), Ok(Err((26, 2))));
        assert_eq!(answer_of((28 << 32) + 3), Ok(Err((28, 3))));
        for number in [22, 25, 29, 256, 256 + 14, 1 << 31] {
            assert!(answer_of(number << 32).is_err());
        }
    }
}
