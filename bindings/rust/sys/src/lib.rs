//! The C interface of Balkreyn's proved library: one realm of task scopes. `balkreyn.h` says what each call does and what
//! its caller owes; the crate `balkreyn` is a safe host over it.

#![no_std]

/// The number of this interface: [`balkreyn_abi`] answers that of the library.
pub const ABI: u32 = 3;

#[repr(C)]
struct Place {
    at: *mut u8,
}

/// A book, which holds one realm or none. Only the library writes to it.
#[repr(C)]
pub struct Book {
    word: u64,
    place: Place,
}

impl Book {
    /// A book that holds no realm: zeroed memory.
    #[must_use]
    pub const fn empty() -> Book {
        Book { word: 0, place: Place { at: core::ptr::null_mut() } }
    }
}

/// How many tasks of a scope are at each stage.
#[repr(C)]
#[derive(Clone, Copy, Debug, Default, PartialEq, Eq)]
pub struct Counts {
    /// They get no thread.
    pub never: u32,
    /// Their threads are still to come.
    pub waiting: u32,
    /// They run.
    pub running: u32,
    /// They have ended.
    pub finished: u32,
}

/// A task of the list that a join answered, with its state then.
#[repr(C)]
#[derive(Clone, Copy, Debug, Default, PartialEq, Eq)]
pub struct OutcomeTask {
    /// Its number.
    pub task: u32,
    /// 0 (unavailable), 1 (success) or 2 (failed).
    pub state: u32,
}

/// What there is to hear of once a task ended.
#[repr(C)]
#[derive(Clone, Copy, Debug, Default, PartialEq, Eq)]
pub struct News {
    /// The scope in which it was forked.
    pub scope: u32,
    /// Whether no task of that scope waits or runs.
    pub quiet: bool,
    /// Whether a deadline comes next.
    pub comes: bool,
    /// How many scopes were cancelled since the last retirement.
    pub cancelled: usize,
    /// The deadline that comes next, or 0.
    pub deadline: u64,
}

// What a call does, and what its caller owes, stands in the header.
#[allow(missing_docs)]
unsafe extern "C" {
    pub fn balkreyn_abi() -> u32;
    pub fn balkreyn_book_open(book: *mut Book, scopes: u32, tasks: u32, load: u32) -> i64;
    pub fn balkreyn_book_close(book: *mut Book) -> i64;
    pub fn balkreyn_open(book: *mut Book, actor: u32, joiner: u32, bound: i64, flags: u32, deadline: u64) -> i64;
    pub fn balkreyn_fork(book: *mut Book, actor: u32, scope: u32, name: *const u8, name_length: usize) -> i64;
    pub fn balkreyn_fork_many(
        book: *mut Book,
        actor: u32,
        scope: u32,
        name: *const u8,
        name_length: usize,
        answers: *mut i64,
        count: usize,
    ) -> i64;
    pub fn balkreyn_reject(book: *mut Book, task: u32) -> i64;
    pub fn balkreyn_start(book: *mut Book, task: u32) -> i64;
    pub fn balkreyn_finish(book: *mut Book, task: u32, value: i64) -> i64;
    pub fn balkreyn_finish_text(book: *mut Book, task: u32, value: *const u8, value_length: usize) -> i64;
    pub fn balkreyn_fail(book: *mut Book, task: u32, fault: *const u8, fault_length: usize) -> i64;
    pub fn balkreyn_finish_told(book: *mut Book, task: u32, value: i64, news: *mut News) -> i64;
    pub fn balkreyn_fail_told(
        book: *mut Book,
        task: u32,
        fault: *const u8,
        fault_length: usize,
        news: *mut News,
    ) -> i64;
    pub fn balkreyn_cancel(book: *mut Book, scope: u32) -> i64;
    pub fn balkreyn_move(book: *mut Book, scope: u32, deadline: u64) -> i64;
    pub fn balkreyn_move_never(book: *mut Book, scope: u32) -> i64;
    pub fn balkreyn_tick(book: *mut Book, now: u64) -> i64;
    pub fn balkreyn_bind(book: *mut Book, actor: u32, key: *const u8, key_length: usize, value: i64) -> i64;
    pub fn balkreyn_bind_text(
        book: *mut Book,
        actor: u32,
        key: *const u8,
        key_length: usize,
        value: *const u8,
        value_length: usize,
    ) -> i64;
    pub fn balkreyn_unbind(book: *mut Book, actor: u32) -> i64;
    pub fn balkreyn_join(book: *mut Book, actor: u32, scope: u32) -> i64;
    pub fn balkreyn_begin_close(book: *mut Book, actor: u32, scope: u32) -> i64;
    pub fn balkreyn_end_close(book: *mut Book, actor: u32, scope: u32) -> i64;
    pub fn balkreyn_retire(book: *mut Book, actor: u32) -> i64;
    pub fn balkreyn_note(book: *mut Book, now: u64) -> i64;
    pub fn balkreyn_state(book: *mut Book, task: u32) -> i64;
    pub fn balkreyn_stage(book: *mut Book, task: u32) -> i64;
    pub fn balkreyn_result(book: *mut Book, actor: u32, task: u32, number: *mut i64, text: *mut u8, room: usize)
    -> i64;
    pub fn balkreyn_fault(book: *mut Book, actor: u32, task: u32, text: *mut u8, room: usize) -> i64;
    pub fn balkreyn_cause(book: *mut Book, scope: u32) -> i64;
    pub fn balkreyn_around(book: *mut Book, actor: u32) -> i64;
    pub fn balkreyn_is_cancelled(book: *mut Book, actor: u32) -> i64;
    pub fn balkreyn_until(book: *mut Book, scope: u32, moment: *mut u64) -> i64;
    pub fn balkreyn_counts_of(book: *mut Book, scope: u32, counts: *mut Counts) -> i64;
    pub fn balkreyn_binding(
        book: *mut Book,
        actor: u32,
        key: *const u8,
        key_length: usize,
        number: *mut i64,
        text: *mut u8,
        room: usize,
    ) -> i64;
    pub fn balkreyn_moment(book: *mut Book, moment: *mut u64) -> i64;
    pub fn balkreyn_next_deadline(book: *mut Book, moment: *mut u64) -> i64;
    pub fn balkreyn_nth_cancelled(book: *mut Book, n: usize) -> i64;
    pub fn balkreyn_task_at(book: *mut Book, scope: u32, index: usize) -> i64;
    pub fn balkreyn_scopes(book: *mut Book) -> i64;
    pub fn balkreyn_tasks(book: *mut Book) -> i64;
    pub fn balkreyn_outcome(book: *mut Book, scope: u32) -> i64;
    pub fn balkreyn_outcome_tasks(book: *mut Book, scope: u32, tasks: *mut OutcomeTask, room: usize) -> i64;
    pub fn balkreyn_outcome_line(book: *mut Book, scope: u32, text: *mut u8, room: usize) -> i64;
    pub fn balkreyn_dump(book: *mut Book, text: *mut u8, room: usize) -> i64;
    pub fn balkreyn_journal(book: *mut Book, text: *mut u8, room: usize) -> i64;
    pub fn balkreyn_timed_journal(book: *mut Book, now: u64, text: *mut u8, room: usize) -> i64;
    pub fn balkreyn_line(book: *mut Book, line: *const u8, line_length: usize, reply: *mut u8, room: usize) -> i64;
}
