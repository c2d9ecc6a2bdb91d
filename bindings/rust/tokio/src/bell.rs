//! A scope as those who act in it know it. The book decides; a bell only says it without a lock.

use crate::actor::Actor;
use balkreyn::host::{Call, locked, swallow};
use balkreyn::{Cancelled, Cause, ScopeId};
use std::any::Any;
use std::collections::VecDeque;
use std::mem;
use std::sync::atomic::{AtomicBool, AtomicU8, AtomicU32, AtomicU64, Ordering};
use std::sync::{Arc, Mutex, OnceLock};
use std::task::Waker;

/// What became of the block of a scope.
#[derive(Clone, Copy, Debug, PartialEq, Eq)]
#[repr(u8)]
pub(crate) enum Stage {
    /// Its body runs.
    Open,
    /// Its body runs, and has joined it.
    Joined,
    /// Its body is over, and the block waits for the jobs.
    Closing,
    /// The block's future was dropped, and jobs are left.
    Left,
    /// It is closed.
    Closed,
}

/// What a frame is.
#[derive(Clone, Copy, Debug, Default, PartialEq, Eq)]
pub(crate) enum Kind {
    #[default]
    Scope,
    Binding,
    /// A realm of its own runs above it.
    Guest,
}

/// How a task ends.
#[derive(Clone, Copy, Debug, PartialEq, Eq)]
pub(crate) enum End {
    /// It never ran.
    Reject,
    /// It gives a value, by its measure.
    Finish(i64),
    /// It gives an error.
    Failed,
    Panicked,
    /// It was dropped at an await by a cancel.
    Dropped,
    /// It was dropped with who held its future.
    Gone,
}

impl End {
    /// The fault that the book has, if it is one.
    pub(crate) fn fault(self) -> Option<&'static str> {
        match self {
            End::Reject | End::Finish(_) => None,
            End::Failed => Some("failed"),
            End::Panicked => Some("panicked"),
            End::Dropped => Some("dropped"),
            End::Gone => Some("gone"),
        }
    }
}

/// A failure that a block may end with, as nobody took it.
pub(crate) enum Kept {
    Error(Box<dyn Any + Send>),
    Panic(Box<dyn Any + Send>),
}

/// How many jobs may run at a time, and who waits for a turn.
pub(crate) struct Turns {
    free: usize,
    line: VecDeque<(u32, Option<Waker>)>,
}

impl Turns {
    /// The task, which is forked now, waits in the line.
    pub(crate) fn enter(&mut self, task: u32) {
        self.line.push_back((task, None));
    }

    /// The task takes a turn if it is the first in the line and there is one; or else the waker wakes it then.
    pub(crate) fn take(&mut self, task: u32, waker: &Waker) -> bool {
        let is_first = self.line.front().is_some_and(|(first, _)| *first == task);
        if is_first && self.free > 0 {
            self.free -= 1;
            self.line.pop_front();
            self.wake_first();
            return true;
        }
        if let Ok(at) = self.place_of(task) {
            self.line[at].1 = Some(waker.clone());
        }
        false
    }

    /// The task gives its turn back, or leaves the line.
    pub(crate) fn leave(&mut self, task: u32, has_turn: bool) {
        self.free += usize::from(has_turn);
        if let (false, Ok(at)) = (has_turn, self.place_of(task)) {
            self.line.remove(at);
        }
        self.wake_first();
    }

    /// The line is in the order of the forks, and so of the numbers.
    fn place_of(&self, task: u32) -> Result<usize, usize> {
        self.line.binary_search_by_key(&task, |(one, _)| *one)
    }

    fn wake_first(&self) {
        if let (Some((_, Some(first))), true) = (self.line.front(), self.free > 0) {
            first.wake_by_ref();
        }
    }
}

/// What few scopes have.
#[derive(Default)]
pub(crate) struct More {
    kept: Mutex<Vec<(u32, Kept)>>,
    links: Mutex<Vec<(u64, Arc<Call>)>>,
    /// Jobs whose future is gone and that left blocks: who closes this scope ends them.
    pub(crate) orphans: Mutex<Vec<(Arc<Actor>, End)>>,
    pub(crate) turns: Option<Mutex<Turns>>,
    /// Of a binding of a local: the number by which its value is found.
    pub(crate) local: Option<i64>,
}

/// A scope, a binding or a realm inside, as a frame of who opened it.
#[derive(Default)]
pub(crate) struct Bell {
    /// 0 where it is no scope, and of what is around main.
    pub(crate) scope: u32,
    owned_by: u32,
    /// The frame below.
    pub(crate) outer: Option<Arc<Bell>>,
    /// The cause by which the book says that the scope is cancelled, packed; 0 where it is not.
    cut: AtomicU64,
    stage: AtomicU8,
    /// Whether its owner was handed a cancel that came from this very scope, and has not joined since.
    pub(crate) was_handed: AtomicBool,
    /// Whether the owner waits for each end.
    pub(crate) wants_each: AtomicBool,
    pub(crate) kind: Kind,
    /// Whether its close has begun.
    pub(crate) has_begun: AtomicBool,
    /// The task whose failure made the joiner fire; 0 where none did.
    first_failed: AtomicU32,
    /// How many of its jobs have ended.
    ends: AtomicU32,
    more: OnceLock<Box<More>>,
}

impl Bell {
    pub(crate) fn new(scope: u32, owned_by: u32, outer: Option<Arc<Bell>>) -> Bell {
        Bell { scope, owned_by, outer, ..Bell::default() }
    }

    pub(crate) fn of_binding(owned_by: u32, outer: Arc<Bell>, local: Option<i64>) -> Bell {
        let more = OnceLock::new();
        drop(more.set(Box::new(More { local, ..More::default() })));
        Bell { owned_by, outer: Some(outer), kind: Kind::Binding, more, ..Bell::default() }
    }

    pub(crate) fn of_guest(owned_by: u32, outer: Arc<Bell>) -> Bell {
        Bell { owned_by, outer: Some(outer), kind: Kind::Guest, ..Bell::default() }
    }

    pub(crate) fn with_turns(self, free: usize) -> Bell {
        let turns = Some(Mutex::new(Turns { free, line: VecDeque::new() }));
        drop(self.more.set(Box::new(More { turns, ..More::default() })));
        self
    }

    pub(crate) fn stage(&self) -> Stage {
        match self.stage.load(Ordering::Relaxed) {
            0 => Stage::Open,
            1 => Stage::Joined,
            2 => Stage::Closing,
            3 => Stage::Left,
            _ => Stage::Closed,
        }
    }

    pub(crate) fn set_stage(&self, stage: Stage) {
        self.stage.store(stage as u8, Ordering::Relaxed);
    }

    /// Why the scope is cancelled, if it is.
    pub(crate) fn cause(&self) -> Option<Cause> {
        Cause::unpacked(self.cut.load(Ordering::Acquire))
    }

    pub(crate) fn cut(&self, cause: Cause) {
        self.cut.store(cause.packed(), Ordering::Release);
    }

    pub(crate) fn is_cut(&self) -> bool {
        self.cut.load(Ordering::Acquire) != 0
    }

    /// The cancel that is handed to its actor: the block that it came from may end with it.
    pub(crate) fn handed(&self, actor: u32, cause: Cause) -> Cancelled {
        let mut next = Some(self);
        while let Some(bell) = next {
            if bell.owned_by == actor && bell.scope == cause.scope().number() {
                bell.was_handed.store(true, Ordering::Relaxed);
                break;
            }
            next = bell.outer.as_deref();
        }
        Cancelled { cause }
    }

    /// One more of its jobs has ended: how many have by now.
    pub(crate) fn next_end(&self) -> u32 {
        self.ends.fetch_add(1, Ordering::AcqRel) + 1
    }

    pub(crate) fn id(&self) -> ScopeId {
        ScopeId::of_number(self.scope)
    }

    /// The joiner fired by the failure of this task.
    pub(crate) fn fired_by(&self, task: u32) {
        self.first_failed.store(task, Ordering::Release);
    }

    pub(crate) fn more(&self) -> &More {
        self.more.get_or_init(Box::default)
    }

    pub(crate) fn more_if_any(&self) -> Option<&More> {
        self.more.get().map(Box::as_ref)
    }

    /// Keeps what a task left and nobody took, if the block may end with it.
    pub(crate) fn keep(&self, task: u32, kept: Kept) {
        if !self.is_cut() || self.first_failed.load(Ordering::Acquire) == task {
            locked(&self.more().kept).push((task, kept));
        }
    }

    /// What was kept of that task.
    pub(crate) fn kept_of(&self, task: u32) -> Option<Kept> {
        let mut kept = locked(&self.more_if_any()?.kept);
        let at = kept.iter().position(|(one, _)| *one == task)?;
        Some(kept.swap_remove(at).1)
    }

    pub(crate) fn link(&self, number: u64, call: &Arc<Call>) {
        locked(&self.more().links).push((number, Arc::clone(call)));
    }

    pub(crate) fn unlink(&self, number: u64) {
        locked(&self.more().links).retain(|(other, _)| *other != number);
    }

    /// What its cancel calls.
    pub(crate) fn calls(&self) -> Vec<Arc<Call>> {
        let Some(more) = self.more_if_any() else { return Vec::new() };
        locked(&more.links).iter().map(|(_, call)| Arc::clone(call)).collect()
    }

    /// The block has ended: forgets what users gave it. A panic of its drop is swallowed.
    pub(crate) fn clear(&self) {
        let Some(more) = self.more_if_any() else { return };
        mem::take(&mut *locked(&more.kept)).into_iter().for_each(|one| swallow(|| drop(one)));
        mem::take(&mut *locked(&more.links)).into_iter().for_each(|one| swallow(|| drop(one)));
    }
}
