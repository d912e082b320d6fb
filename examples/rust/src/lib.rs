//! The ledger of conway for Rust: a handle of examples/c/conway.h behind a safe type.
//!
//! A `Ledger` is not `Send`, since a handle stays with its thread, and each call takes it by `&mut`,
//! since one call at a time may use it. So all that the header leaves to its caller holds.

mod calls;

use calls::{Answer, Conway};
use std::collections::hash_map::RandomState;
use std::error::Error;
use std::fmt;
use std::hash::{BuildHasher, Hasher};
use std::ptr::null_mut;

/// Bytes of room for a text, before a longer one comes.
const ROOM: usize = 4096;

/// A call that ended with another status than 0.
#[derive(Clone, Copy, Debug, PartialEq, Eq)]
pub enum Fault {
    /// The line is no genesis to begin with.
    BadGenesis,
    /// Memory ran out: the ledger is closed, except after `judge` and `checkpoint`.
    NoMemory,
    /// The text is the checkpoint of no ledger.
    BadCheckpoint,
    /// The ledger is closed; nothing changed.
    IsClosed,
    /// No number is left for a further line; nothing changed.
    IsFull,
    /// The line that is to be a genesis is blank.
    IsBlank,
    /// A status that this version does not know.
    Other(u32),
}

impl Fault {
    fn of(status: u32) -> Fault {
        match status {
            calls::BAD_GENESIS => Fault::BadGenesis,
            calls::NO_MEMORY => Fault::NoMemory,
            calls::BAD_CHECKPOINT => Fault::BadCheckpoint,
            calls::IS_CLOSED => Fault::IsClosed,
            calls::IS_FULL => Fault::IsFull,
            calls::IS_BLANK => Fault::IsBlank,
            other => Fault::Other(other),
        }
    }

    /// The status of the call.
    pub fn status(self) -> u32 {
        match self {
            Fault::BadGenesis => calls::BAD_GENESIS,
            Fault::NoMemory => calls::NO_MEMORY,
            Fault::BadCheckpoint => calls::BAD_CHECKPOINT,
            Fault::IsClosed => calls::IS_CLOSED,
            Fault::IsFull => calls::IS_FULL,
            Fault::IsBlank => calls::IS_BLANK,
            Fault::Other(status) => status,
        }
    }
}

impl fmt::Display for Fault {
    fn fmt(&self, f: &mut fmt::Formatter<'_>) -> fmt::Result {
        match self {
            Fault::BadGenesis => f.write_str("the line is no genesis to begin with"),
            Fault::NoMemory => f.write_str("memory ran out"),
            Fault::BadCheckpoint => f.write_str("the text is the checkpoint of no ledger"),
            Fault::IsClosed => f.write_str("the ledger is closed"),
            Fault::IsFull => f.write_str("no number is left for a further line"),
            Fault::IsBlank => f.write_str("the line is blank"),
            Fault::Other(status) => write!(f, "status {status}"),
        }
    }
}

impl Error for Fault {}

/// A number that whoever sends records cannot guess.
fn random() -> u64 {
    RandomState::new().build_hasher().finish()
}

/// A ledger, with the text of its last answer. It is closed once memory ran out.
pub struct Ledger {
    handle: Conway,
    room: Vec<u8>,
}

impl Ledger {
    /// A closed ledger.
    fn closed() -> Ledger {
        Ledger {
            handle: Conway { ledger: null_mut() },
            room: vec![0; ROOM],
        }
    }

    /// The ledger of the genesis on the line of this number, 1 for the first line of a stream. The
    /// line is given without its line feed.
    pub fn open(genesis: &[u8], number: u64) -> Result<Ledger, Fault> {
        let mut ledger = Ledger::closed();
        let handle = &mut ledger.handle;
        let (first, second) = (random(), random());
        // SAFETY: the bytes are as many as are said, and the handle is a closed one of its own.
        let answer = unsafe {
            calls::conway_open(
                genesis.as_ptr(),
                genesis.len(),
                number,
                first,
                second,
                handle,
            )
        };
        done(answer)?;
        Ok(ledger)
    }

    /// The ledger of a checkpoint, of its whole text.
    pub fn resume(text: &[u8]) -> Result<Ledger, Fault> {
        let mut ledger = Ledger::closed();
        let handle = &mut ledger.handle;
        let (first, second) = (random(), random());
        // SAFETY: the bytes are as many as are said, and the handle is a closed one of its own.
        done(unsafe {
            calls::conway_resume(text.as_ptr(), text.len(), first, second, handle)
        })?;
        Ok(ledger)
    }

    /// Records the next line, given without its line feed; returns what `replay` writes for it.
    pub fn record(&mut self, line: &[u8]) -> Result<&[u8], Fault> {
        self.text_of(|handle, room| {
            // SAFETY: the handle is one of this library; line and room are as long as is said.
            unsafe {
                calls::conway_record(
                    handle,
                    line.as_ptr(),
                    line.len(),
                    room.as_mut_ptr(),
                    room.len(),
                )
            }
        })
    }

    /// The line of the reply that the next line would get; nothing is recorded.
    pub fn judge(&mut self, line: &[u8]) -> Result<&[u8], Fault> {
        self.text_of(|handle, room| {
            // SAFETY: the handle is one of this library; line and room are as long as is said.
            unsafe {
                calls::conway_judge(
                    handle,
                    line.as_ptr(),
                    line.len(),
                    room.as_mut_ptr(),
                    room.len(),
                )
            }
        })
    }

    /// A line for each rule that the next line breaks, each bad value in it, and each name that
    /// nobody reads; nothing is recorded.
    pub fn explain(&mut self, line: &[u8]) -> Result<&[u8], Fault> {
        self.text_of(|handle, room| {
            // SAFETY: the handle is one of this library; line and room are as long as is said.
            unsafe {
                calls::conway_explain(
                    handle,
                    line.as_ptr(),
                    line.len(),
                    room.as_mut_ptr(),
                    room.len(),
                )
            }
        })
    }

    /// What `checkpoint` writes here.
    pub fn checkpoint(&mut self) -> Result<&[u8], Fault> {
        self.text_of(|handle, room| {
            // SAFETY: the handle is one of this library; the room is as long as is said.
            unsafe { calls::conway_checkpoint(handle, room.as_mut_ptr(), room.len()) }
        })
    }

    /// What `outlook` writes here. It uses the ledger up: to go on, resume a checkpoint.
    pub fn outlook(mut self) -> Result<Vec<u8>, Fault> {
        let text = self.text_of(|handle, room| {
            // SAFETY: the handle is one of this library; the room is as long as is said.
            unsafe { calls::conway_outlook(handle, room.as_mut_ptr(), room.len()) }
        })?;
        Ok(text.to_vec())
    }

    /// The text of the last answer.
    pub fn text(&mut self) -> Result<&[u8], Fault> {
        self.text_of(copied)
    }

    /// The text of a call's answer, copied once more to greater room where it did not fit.
    fn text_of(
        &mut self,
        call: impl FnOnce(&mut Conway, &mut [u8]) -> Answer,
    ) -> Result<&[u8], Fault> {
        let mut answer = done(call(&mut self.handle, &mut self.room))?;
        if answer.written < answer.wanted {
            self.room.resize(answer.wanted, 0);
            answer = done(copied(&mut self.handle, &mut self.room))?;
        }
        Ok(&self.room[..answer.written])
    }
}

/// Copies the text of the last answer.
fn copied(handle: &mut Conway, room: &mut [u8]) -> Answer {
    // SAFETY: the handle is one of this library; the room is as long as is said.
    unsafe { calls::conway_text(handle, room.as_mut_ptr(), room.len()) }
}

impl Drop for Ledger {
    fn drop(&mut self) {
        // SAFETY: the handle is one of this library, or closed.
        unsafe { calls::conway_close(&mut self.handle) }
    }
}

/// The answer of a call that is done.
fn done(answer: Answer) -> Result<Answer, Fault> {
    match answer.status {
        calls::DONE => Ok(answer),
        status => Err(Fault::of(status)),
    }
}
