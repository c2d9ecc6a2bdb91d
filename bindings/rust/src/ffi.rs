//! A book of the C library, which owns one realm. All `unsafe` of the crate stands here, but for one line of `threads.rs`.
//!
//! What the header asks of its caller, and how it is kept: a book starts as zeroed memory and only the library
//! writes to it (it is private and no copy of it is made); one call at a time works on it (each method takes
//! `&mut self`); pointers are those of references, slices and vectors, so none is null and none overlaps another.

#![allow(unsafe_code)]

use crate::refusal::{Code, Refusal};
use balkreyn_sys::{
    ABI, Counts, News, balkreyn_abi, balkreyn_begin_close, balkreyn_bind, balkreyn_bind_text, balkreyn_binding,
    balkreyn_book_close, balkreyn_book_open, balkreyn_cancel, balkreyn_cause, balkreyn_counts_of, balkreyn_dump,
    balkreyn_end_close, balkreyn_fail_told, balkreyn_finish_told, balkreyn_fork, balkreyn_join, balkreyn_journal,
    balkreyn_move, balkreyn_move_never, balkreyn_next_deadline, balkreyn_note, balkreyn_nth_cancelled, balkreyn_open,
    balkreyn_outcome, balkreyn_outcome_line, balkreyn_reject, balkreyn_result, balkreyn_retire, balkreyn_stage,
    balkreyn_start, balkreyn_state, balkreyn_tick, balkreyn_timed_journal, balkreyn_unbind, balkreyn_until,
};

/// The kind of a fork's answer that says that the task gets no thread.
const NO_THREAD: u32 = 1;
/// The most bytes of a name.
const NAME_ROOM: usize = 24;

/// An answer with two numbers: its kind, and the scope or task that it names.
pub struct Pair {
    /// The kind.
    pub kind: u32,
    /// The scope or task, or 0.
    pub number: u32,
}

/// What an actor sees bound to a key.
pub enum Bound {
    /// A number.
    Number(i64),
    /// A text.
    Text(String),
}

/// A C book that holds one realm from `open` to its drop.
pub struct Book {
    raw: balkreyn_sys::Book,
}

// SAFETY: a book is memory that the library owns, bound to no thread: the header lets it move to another address and
// asks for one call at a time alone, which `&mut self` gives.
unsafe impl Send for Book {}

impl Drop for Book {
    fn drop(&mut self) {
        // SAFETY: the book was made by `open`; where it holds no realm the call answers so and does nothing.
        unsafe { balkreyn_book_close(&mut self.raw) };
    }
}

/// The answer, or the refusal that it says.
fn told(answer: i64) -> Result<i64, Code> {
    if answer < 0 { Err(Code(answer)) } else { Ok(answer) }
}

/// The number of an answer that is a number of 32 bits: its upper half is 0, or a kind.
fn number_of(answer: i64) -> u32 {
    answer as u64 as u32
}

/// The two numbers of an answer.
fn pair_of(answer: i64) -> Pair {
    Pair { kind: (answer as u64 >> 32) as u32, number: number_of(answer) }
}

/// A command of the library that takes the book and numbers alone.
macro_rules! command {
    ($(#[$text:meta])* $name:ident, $export:ident, $($argument:ident: $kind:ty),+) => {
        $(#[$text])*
        pub fn $name(&mut self, $($argument: $kind),+) -> Result<i64, Code> {
            // SAFETY: `raw` is a book of the library, lent to this one call; the rest are numbers.
            told(unsafe { $export(&mut self.raw, $($argument),+) })
        }
    };
}

impl Book {
    /// A book with a fresh realm of these limits.
    pub fn open(scopes: u32, tasks: u32, load: u32) -> Result<Book, Refusal> {
        // SAFETY: it takes nothing and touches no memory.
        if unsafe { balkreyn_abi() } != ABI {
            return Err(Refusal::OtherInterface);
        }
        let mut book = Book { raw: balkreyn_sys::Book::empty() };
        // SAFETY: `raw` is zeroed but for padding, which the library never reads: an empty book.
        match told(unsafe { balkreyn_book_open(&mut book.raw, scopes, tasks, load) }) {
            Ok(_) => Ok(book),
            Err(Code::BAD_ARGUMENT) => Err(Refusal::BadLimit),
            Err(code) => Err(Refusal::from(code)),
        }
    }

    command!(
        /// Opens a scope; the answer is its number.
        open_scope, balkreyn_open, actor: u32, joiner: u32, bound: i64, flags: u32, deadline: u64);
    command!(
        /// No thread was had for the task.
        reject, balkreyn_reject, task: u32);
    command!(
        /// The task's thread began.
        start, balkreyn_start, task: u32);
    command!(
        /// Cancels the scope.
        cancel, balkreyn_cancel, scope: u32);
    command!(
        /// Sets the scope's deadline anew.
        move_deadline, balkreyn_move, scope: u32, deadline: u64);
    command!(
        /// Takes the scope's deadline away.
        move_never, balkreyn_move_never, scope: u32);
    command!(
        /// Sets the moment, in milliseconds.
        tick, balkreyn_tick, now: u64);
    command!(
        /// Takes away the actor's last binding.
        unbind, balkreyn_unbind, actor: u32);
    command!(
        /// Begins to close the scope.
        begin_close, balkreyn_begin_close, actor: u32, scope: u32);
    command!(
        /// The scope is closed: 0, 2 (never joined) or 3 (violated).
        end_close, balkreyn_end_close, actor: u32, scope: u32);
    command!(
        /// What can be read of the task: 0 (nothing), 1 (success) or 2 (failed).
        state, balkreyn_state, task: u32);
    command!(
        /// How far the task has come: 0 (never), 1 (waiting), 2 (running) or 3 (finished).
        stage, balkreyn_stage, task: u32);
    command!(
        /// Lets the past go.
        retire, balkreyn_retire, actor: u32);
    command!(
        /// The events since the last note came at this moment.
        note, balkreyn_note, now: u64);

    /// Forks a task: its number, and whether it gets a thread.
    pub fn fork(&mut self, actor: u32, scope: u32, name: &str) -> Result<(u32, bool), Code> {
        // SAFETY: as `command`; the name is a slice with its length.
        let answer = told(unsafe { balkreyn_fork(&mut self.raw, actor, scope, name.as_ptr(), name.len()) })?;
        let pair = pair_of(answer);
        Ok((pair.number, pair.kind != NO_THREAD))
    }

    /// The task ended with a number, or with a fault: what there is to hear of then.
    pub fn end(&mut self, task: u32, end: Result<i64, &str>) -> Result<News, Code> {
        let mut news = News::default();
        // SAFETY: as `fork`; `news` is the call's alone.
        let answer = match end {
            Ok(value) => unsafe { balkreyn_finish_told(&mut self.raw, task, value, &mut news) },
            Err(fault) => unsafe { balkreyn_fail_told(&mut self.raw, task, fault.as_ptr(), fault.len(), &mut news) },
        };
        told(answer).map(|_| news)
    }

    /// Binds the key to a number.
    pub fn bind(&mut self, actor: u32, key: &str, value: i64) -> Result<i64, Code> {
        // SAFETY: as `fork`.
        told(unsafe { balkreyn_bind(&mut self.raw, actor, key.as_ptr(), key.len(), value) })
    }

    /// Binds the key to a text.
    pub fn bind_text(&mut self, actor: u32, key: &str, value: &str) -> Result<i64, Code> {
        let (at, length) = (value.as_ptr(), value.len());
        // SAFETY: as `fork`; shared slices that are only read may overlap.
        told(unsafe { balkreyn_bind_text(&mut self.raw, actor, key.as_ptr(), key.len(), at, length) })
    }

    /// Joins the scope: the outcome as a pair.
    pub fn join(&mut self, actor: u32, scope: u32) -> Result<Pair, Code> {
        // SAFETY: as `command`.
        told(unsafe { balkreyn_join(&mut self.raw, actor, scope) }).map(pair_of)
    }

    /// What the join of the scope answered.
    pub fn outcome(&mut self, scope: u32) -> Result<Pair, Code> {
        // SAFETY: as `command`.
        told(unsafe { balkreyn_outcome(&mut self.raw, scope) }).map(pair_of)
    }

    /// Whether the task succeeded (`true`) or failed, told to the owner of its scope after the join.
    pub fn succeeded(&mut self, actor: u32, task: u32) -> Result<bool, Code> {
        let (mut number, mut text) = (0, [0; NAME_ROOM]);
        // SAFETY: as `command`; both places are the call's alone, and `text` has the room that is told.
        let answer = unsafe { balkreyn_result(&mut self.raw, actor, task, &mut number, text.as_mut_ptr(), NAME_ROOM) };
        match told(answer) {
            Ok(_) => Ok(true),
            Err(Code::NOT_SUCCESS) => Ok(false),
            Err(code) => Err(code),
        }
    }

    /// Why the scope is cancelled: `None` where it is not, or the kind and the scope that the cancel came from.
    pub fn cause(&mut self, scope: u32) -> Result<Option<Pair>, Code> {
        // SAFETY: as `command`.
        let answer = told(unsafe { balkreyn_cause(&mut self.raw, scope) })?;
        Ok(if answer == 0 { None } else { Some(pair_of(answer)) })
    }

    /// The earliest deadline in effect for the scope: `None` where there is none, or where it is cancelled.
    pub fn until(&mut self, scope: u32) -> Option<u64> {
        let mut moment = 0;
        // SAFETY: as `command`; `moment` is the call's alone.
        let answer = unsafe { balkreyn_until(&mut self.raw, scope, &mut moment) };
        (answer == 1).then_some(moment)
    }

    /// Whether no task of the scope waits or runs.
    pub fn is_quiet(&mut self, scope: u32) -> bool {
        let mut counts = Counts::default();
        // SAFETY: as `command`; `counts` is the call's alone.
        let answer = unsafe { balkreyn_counts_of(&mut self.raw, scope, &mut counts) };
        answer == 0 && counts.waiting == 0 && counts.running == 0
    }

    /// What the actor sees the key bound to.
    pub fn binding(&mut self, actor: u32, key: &str) -> Result<Bound, Code> {
        let (mut number, mut text) = (0, [0; NAME_ROOM]);
        let (at, length, out) = (key.as_ptr(), key.len(), text.as_mut_ptr());
        // SAFETY: as `succeeded`; the key is a slice with its length.
        let answer = unsafe { balkreyn_binding(&mut self.raw, actor, at, length, &mut number, out, NAME_ROOM) };
        Ok(match told(answer)? {
            0 => Bound::Number(number),
            length => Bound::Text(String::from_utf8_lossy(&text[..(length as usize).min(NAME_ROOM)]).into_owned()),
        })
    }

    /// The deadline that comes next in the whole realm.
    pub fn next_deadline(&mut self) -> Option<u64> {
        let mut moment = 0;
        // SAFETY: as `command`; `moment` is the call's alone.
        let answer = unsafe { balkreyn_next_deadline(&mut self.raw, &mut moment) };
        (answer == 1).then_some(moment)
    }

    /// The scope that was cancelled after `index` others since the last retirement.
    pub fn nth_cancelled(&mut self, index: usize) -> Option<u32> {
        // SAFETY: as `command`.
        let answer = unsafe { balkreyn_nth_cancelled(&mut self.raw, index) };
        (answer > 0).then_some(number_of(answer))
    }

    /// The tree of the scopes that are not closed, as JSON.
    pub fn dump(&mut self) -> Result<String, Code> {
        // SAFETY: as `command`; the text has the room that is told.
        self.text(|book, text, room| unsafe { balkreyn_dump(book, text, room) })
    }

    /// The reply of a script to the join of the scope, without its line feed.
    pub fn outcome_line(&mut self, scope: u32) -> Result<String, Code> {
        // SAFETY: as `dump`.
        let line = self.text(|book, text, room| unsafe { balkreyn_outcome_line(book, scope, text, room) })?;
        Ok(line.trim_end().to_owned())
    }

    /// What happened since the last retirement, as a script.
    pub fn journal(&mut self) -> Result<String, Code> {
        // SAFETY: as `dump`.
        self.text(|book, text, room| unsafe { balkreyn_journal(book, text, room) })
    }

    /// The same with the moments that were noted, and behind it this one.
    pub fn timed_journal(&mut self, now: u64) -> Result<String, Code> {
        // SAFETY: as `dump`.
        self.text(|book, text, room| unsafe { balkreyn_timed_journal(book, now, text, room) })
    }

    /// A text of any length: asked for its length first, then for itself.
    fn text(&mut self, ask: impl Fn(*mut balkreyn_sys::Book, *mut u8, usize) -> i64) -> Result<String, Code> {
        let mut text = Vec::new();
        loop {
            // The vector has the room that is told, at an address that is never null.
            let length = told(ask(&mut self.raw, text.as_mut_ptr(), text.len()))? as usize;
            if length <= text.len() {
                text.truncate(length);
                return Ok(String::from_utf8_lossy(&text).into_owned());
            }
            text.resize(length, 0);
        }
    }
}
