//! A realm that jobs share: the book behind its lock, the clock with its timer, and who is woken.

use crate::actor::Actor;
use crate::bell::{Bell, End, Stage};
use crate::inner::{Due, Entry, Held, Inner, Job, Room};
use balkreyn::host::{Book, Cancels, Code, Labels, locked};
use balkreyn::{
    Canceller, Cause, Ending, Happening, Limits, Notes, Observer, Options, Outcome, Refusal, ScopeId, TaskId,
};
use std::alloc::{Layout, handle_alloc_error};
use std::collections::BTreeMap;
use std::mem;
use std::sync::atomic::{AtomicU64, Ordering};
use std::sync::{Arc, Mutex, Weak};
use std::task::Waker;
use std::time::Duration;
use tokio::runtime::Handle;
use tokio::sync::Notify;
use tokio::time::Instant;

/// The actor that is no task.
pub(crate) const MAIN: u32 = 0;
/// The moment of a deadline that never comes.
const NEVER: u64 = u64::MAX;
/// What an open pays: 4 for itself, and at once 1 for its cancel and 1 for the passing of its deadline.
pub(crate) const OPEN_COSTS: u32 = 6;
pub(crate) const FORK_COSTS: u32 = 3;
/// A move pays for itself and for the passing of the deadline that it sets; a bind for itself and for its end.
pub(crate) const MOVE_COSTS: u32 = 2;

/// Notes of realms that have ended.
pub(crate) type Finished = Arc<Mutex<Vec<Notes>>>;

/// What the requests and jobs of a realm share.
pub(crate) struct Lane {
    inner: Mutex<Inner>,
    /// The next deadline of the realm in milliseconds, as the book said last.
    next: AtomicU64,
    is_noting: bool,
    began: Instant,
    timer: Arc<Notify>,
    pub(crate) runtime: Handle,
    pub(crate) limits: Limits,
    pub(crate) observer: Option<Arc<dyn Observer>>,
    /// Who opened it inside a scope of another realm.
    pub(crate) outside: Option<Arc<Actor>>,
    finished: Option<Finished>,
}

impl Drop for Lane {
    fn drop(&mut self) {
        self.timer.notify_one();
        let inner = self.inner.get_mut().unwrap_or_else(std::sync::PoisonError::into_inner);
        if let (Some(finished), Some(notes)) = (&self.finished, inner.notes.take()) {
            locked(finished).push(*notes);
        }
    }
}

impl Lane {
    pub(crate) fn new(
        limits: Limits,
        runtime: Handle,
        observer: Option<Arc<dyn Observer>>,
        finished: Option<Finished>,
        outside: Option<Arc<Actor>>,
    ) -> Result<Lane, Refusal> {
        let began = Instant::now();
        let is_noting = finished.is_some();
        let inner = Inner {
            book: Book::open(limits.scopes, limits.tasks, limits.load)?,
            scopes: Vec::new(),
            first_scope: 0,
            jobs: Vec::new(),
            first_job: 0,
            told: 0,
            rooms: vec![Room::of_limits(limits)],
            keys: 0,
            has_timer: false,
            notes: is_noting.then(|| Box::new(Notes::since(began.into_std()))),
            labels: Labels::default(),
            locals: BTreeMap::new(),
            wake: None,
            due: Vec::new(),
        };
        Ok(Lane {
            inner: Mutex::new(inner),
            next: AtomicU64::new(NEVER),
            is_noting,
            began,
            timer: Arc::default(),
            runtime,
            limits,
            observer,
            outside,
            finished,
        })
    }

    /// Notes what is asked and answered from now on.
    pub(crate) fn begin_notes(&mut self, finished: Finished) {
        let began = self.began.into_std();
        let inner = self.inner.get_mut().unwrap_or_else(std::sync::PoisonError::into_inner);
        inner.notes = Some(Box::new(Notes::since(began)));
        self.is_noting = true;
        self.finished = Some(finished);
    }

    /// Whether the realm notes. It takes no lock.
    pub(crate) fn is_noting(&self) -> bool {
        self.is_noting
    }

    /// The book, for a query that passes no deadline.
    pub(crate) fn quietly(&self) -> Held<'_> {
        Held { lane: self, guard: Some(locked(&self.inner)) }
    }

    /// The book, once the deadlines that are due have passed.
    pub(crate) fn lock(&self) -> Held<'_> {
        let mut inner = self.quietly();
        self.pass_deadlines(&mut inner);
        inner
    }

    /// The moment of the realm's clock: whole milliseconds that have passed.
    pub(crate) fn now(&self) -> u64 {
        let passed = self.began.elapsed();
        passed.as_secs() * 1000 + u64::from(passed.subsec_millis())
    }

    /// The moment after so long, rounded up; but nothing is now.
    fn after(&self, duration: Duration) -> u64 {
        let whole = self.began.elapsed().saturating_add(duration);
        let up = if duration.is_zero() { Duration::ZERO } else { Duration::from_nanos(999_999) };
        u64::try_from(whole.saturating_add(up).as_millis()).unwrap_or(NEVER)
    }

    /// Whether a deadline is due that the book was not told of. It takes no lock.
    pub(crate) fn is_due(&self) -> bool {
        let next = self.next.load(Ordering::Relaxed);
        next != NEVER && self.now() >= next
    }

    /// Tells the book the moment where a deadline is due.
    fn pass_deadlines(&self, inner: &mut Inner) {
        if self.is_due() {
            let now = self.now();
            // Each deadline was paid for when it was set, so no limit refuses its passing.
            let answer = surely(inner.book.tick(now));
            debug_assert!(answer.is_ok(), "the clock goes forwards: {answer:?}");
            inner.note(|notes, _| notes.line(format_args!("tick {now}"), format_args!("moment {now}")));
            self.settle(inner);
        }
    }

    /// Rings the bells of what the book has cancelled since the last call, and notes the next deadline.
    fn settle(&self, inner: &mut Inner) {
        while let Some(scope) = inner.book.nth_cancelled(inner.told) {
            inner.told += 1;
            let Some(bell) = inner.scope(scope).and_then(|entry| entry.bell.clone()) else { continue };
            let pair = inner.book.cause(scope).ok().flatten();
            let cause = pair.as_ref().and_then(Cause::of_pair).unwrap_or(Cause::Call(ScopeId::of_number(scope)));
            bell.cut(cause);
            inner.wake_scope(scope);
            inner.wake_jobs(scope);
            inner.due.extend(bell.calls().into_iter().map(Due::Call));
            self.tell(inner, || Happening::Cancelled { scope: bell.id(), cause });
        }
        if self.next.load(Ordering::Relaxed) != NEVER {
            self.next.store(inner.book.next_deadline().unwrap_or(NEVER), Ordering::Relaxed);
        }
    }

    /// A deadline was set: the timer learns it if it is the next one.
    fn deadline_set(self: &Arc<Self>, inner: &mut Inner) {
        let old = self.next.swap(inner.book.next_deadline().unwrap_or(NEVER), Ordering::Relaxed);
        if !mem::replace(&mut inner.has_timer, true) {
            self.runtime.spawn(keep_time(Arc::downgrade(self), Arc::clone(&self.timer)));
        } else if self.next.load(Ordering::Relaxed) < old {
            self.timer.notify_one();
        }
    }

    /// Tells the observer, once the lock is free.
    pub(crate) fn tell(&self, inner: &mut Inner, what: impl FnOnce() -> Happening) {
        if self.observer.is_some() {
            inner.due.push(Due::Tell(what()));
        }
    }

    /// Tells the observer of a refusal.
    pub(crate) fn refused(&self, refusal: Refusal) -> Refusal {
        if self.observer.is_some() {
            self.tell(&mut self.quietly(), || Happening::Refused { refusal });
        }
        refusal
    }

    /// The moment of the earliest deadline in effect for the scope.
    pub(crate) fn deadline(&self, scope: u32) -> Option<Instant> {
        let moment = self.quietly().book.until(scope)?;
        self.began.checked_add(Duration::from_millis(moment))
    }

    /// The actor opens a scope above that frame, and gets its bell; the waker wakes its block.
    pub(crate) fn open(
        self: &Arc<Self>,
        (actor, room): (u32, u32),
        outer: &Arc<Bell>,
        options: &Options,
        waker: &Waker,
        bindings: Option<u32>,
    ) -> Result<Arc<Bell>, Refusal> {
        let mut held = self.lock();
        // Once, not at each use.
        let inner = &mut *held;
        if let Some(bindings) = bindings {
            inner.retire(self.limits, bindings);
        }
        inner.room(room).take(1, 0, OPEN_COSTS)?;
        let (joiner, bound) = options.joiner_numbers();
        let deadline = options.within.map(|duration| self.after(duration));
        let opened = inner.book.open_scope(actor, joiner, bound, options.flags(), deadline.unwrap_or(0));
        let scope = opened.inspect_err(|_| inner.room(room).give(1, 0, OPEN_COSTS))? as u32;
        let bell = Bell::new(scope, actor, Some(Arc::clone(outer)));
        let bell = Arc::new(match options.thread_limit() {
            usize::MAX => bell,
            turns => bell.with_turns(turns),
        });
        inner.note(|notes, _| notes.open(actor, options.words(deadline), scope));
        if let Some(name) = &options.name {
            inner.labels.scope(scope, name);
        }
        let owner = Some(waker.clone());
        inner.scopes.push(Entry { bell: Some(Arc::clone(&bell)), owner, ..Entry::default() });
        self.tell(inner, || Happening::Opened { scope: bell.id(), name: options.name.clone() });
        if deadline.is_some() {
            self.deadline_set(inner);
        }
        self.settle(inner);
        self.pass_deadlines(inner);
        Ok(bell)
    }

    /// The actor forks a task: its number, and whether it may run.
    pub(crate) fn fork(
        &self,
        inner: &mut Inner,
        (actor, room): (u32, u32),
        scope: u32,
        name: &str,
    ) -> Result<(u32, bool), Refusal> {
        inner.room(room).take(0, 1, FORK_COSTS)?;
        let word = Labels::word(name);
        let forked = inner.book.fork(actor, scope, &word);
        let (task, may_run) = forked.inspect_err(|_| inner.room(room).give(0, 1, FORK_COSTS))?;
        inner.note(|notes, _| notes.fork(actor, scope, &word, task, may_run));
        if *word != *name {
            inner.labels.task(task, name);
        }
        let before = inner.scope(scope).map_or(0, |entry| mem::replace(&mut entry.last, task));
        inner.jobs.push(Job { waker: None, before });
        self.tell(inner, || Happening::Forked {
            scope: ScopeId::of_number(scope),
            task: TaskId::of_number(task),
            name: name.to_owned(),
            may_run,
        });
        Ok((task, may_run))
    }

    /// Tells the book that a task begins, which this waker wakes; or answers that its scope is cancelled.
    pub(crate) fn start(&self, inner: &mut Inner, bell: &Bell, task: u32, waker: Option<&Waker>) -> bool {
        if bell.is_cut() {
            return false;
        }
        let answer = surely(inner.book.start(task));
        debug_assert!(answer.is_ok(), "each task begins once: {answer:?}");
        inner.note(|notes, _| notes.line(format_args!("start {task}"), "started"));
        if let Some(waker) = waker {
            inner.set_waker(task, waker);
        }
        self.tell(inner, || Happening::Started { task: TaskId::of_number(task) });
        true
    }

    /// Tells the book how a task ended.
    pub(crate) fn end(&self, bell: &Bell, task: u32, end: End) {
        let mut held = self.lock();
        // Once, not at each use.
        let inner = &mut *held;
        let was_cut = bell.is_cut();
        let answer = surely(match (end, end.fault()) {
            (_, Some(fault)) => inner.book.end(task, Err(fault)).map(|_| 0),
            (End::Finish(value), _) => inner.book.end(task, Ok(value)).map(|_| 0),
            _ => inner.book.reject(task),
        });
        debug_assert!(answer.is_ok(), "each task ends once: {answer:?}");
        inner.note(|notes, _| match (end, end.fault()) {
            (_, Some(fault)) => notes.line(format_args!("fail {task} {fault}"), "finished"),
            (End::Finish(value), _) => notes.line(format_args!("ok {task} {value}"), "finished"),
            _ => notes.line(format_args!("reject {task}"), "rejected"),
        });
        if let Some(job) = inner.job(task) {
            job.waker = None;
        }
        self.tell(inner, || Happening::Ended { task: TaskId::of_number(task), end: ending(end) });
        if !was_cut && end.fault().is_some() {
            // Before the bell says that the scope is cancelled: who sees that may let the failed task go.
            let pair = inner.book.cause(bell.scope).ok().flatten();
            if pair.as_ref().and_then(Cause::of_pair) == Some(Cause::Joiner(bell.id())) {
                bell.fired_by(task);
            }
        }
        self.settle(inner);
        let wants_each = bell.wants_each.load(Ordering::Relaxed);
        let is_waited = inner.scope(bell.scope).is_some_and(|entry| entry.is_waited);
        if is_waited && (wants_each || inner.book.is_quiet(bell.scope)) {
            inner.wake_scope(bell.scope);
        }
    }

    /// The owner joins its scope, if it is ready.
    pub(crate) fn join(&self, inner: &mut Inner, actor: u32, bell: &Bell) -> Result<Option<Outcome>, Refusal> {
        let scope = bell.scope;
        let told = match inner.book.join(actor, scope) {
            Err(Code::NOT_READY) => return Ok(None),
            told => told?,
        };
        let outcome = Outcome::of_pair(&told)?;
        inner.note(|notes, book| notes.join(actor, scope, outcome, book));
        bell.set_stage(Stage::Joined);
        self.settle(inner);
        Ok(Some(outcome))
    }

    /// Begins to close the scope, which cancels what still runs in it.
    pub(crate) fn begin_close(&self, actor: u32, bell: &Bell) {
        self.begin_to_close(&mut self.lock(), actor, bell);
    }

    fn begin_to_close(&self, inner: &mut Inner, actor: u32, bell: &Bell) {
        if bell.has_begun.swap(true, Ordering::Relaxed) {
            return;
        }
        let answer = surely(inner.book.begin_close(actor, bell.scope));
        debug_assert!(answer.is_ok(), "the owner closes its scope: {answer:?}");
        if let Ok(done) = answer {
            let words = if done == 0 { "closing" } else { "already" };
            inner.note(|notes, _| notes.line(format_args!("close {actor} {}", bell.scope), words));
        }
        if bell.stage() != Stage::Left {
            bell.set_stage(Stage::Closing);
        }
        self.settle(inner);
    }

    /// Begins to close the scope, and closes it, if nothing is left in it.
    pub(crate) fn close(&self, actor: u32, bell: &Bell, waker: Option<&Waker>) -> Option<Result<(), Refusal>> {
        let mut held = self.lock();
        // Once, not at each use.
        let inner = &mut *held;
        let scope = bell.scope;
        self.begin_to_close(inner, actor, bell);
        let has_guests = inner.scope(scope).is_some_and(|entry| entry.guests > 0);
        let answer = if has_guests { Err(Code::NOT_READY) } else { inner.book.end_close(actor, scope) };
        let (verdict, words) = match surely(answer) {
            Err(Code::NOT_READY) => {
                if let Some(waker) = waker {
                    inner.set_owner(scope, waker, true);
                }
                return None;
            }
            Ok(2) => (Err(Refusal::NotJoined), "closed not-joined"),
            Ok(3) => (Err(Refusal::Structure), "closed violated"),
            Ok(_) => (Ok(()), "closed"),
            Err(code) => (Err(Refusal::from(code)), ""),
        };
        bell.set_stage(Stage::Closed);
        if let Some(entry) = inner.scope(scope) {
            *entry = Entry::default();
        }
        if answer.is_ok() {
            inner.note(|notes, _| notes.line(format_args!("closed {actor} {scope}"), words));
        }
        self.tell(inner, || Happening::Closed { scope: bell.id() });
        self.settle(inner);
        Some(verdict)
    }

    /// Sets the scope's deadline so long after now, or takes it away.
    pub(crate) fn move_deadline(
        self: &Arc<Self>,
        room: u32,
        scope: u32,
        within: Option<Duration>,
    ) -> Result<(), Refusal> {
        let mut held = self.lock();
        let inner = &mut *held;
        inner.room(room).take(0, 0, MOVE_COSTS)?;
        let moment = within.map(|duration| self.after(duration));
        let moved = match moment {
            Some(moment) => inner.book.move_deadline(scope, moment),
            None => inner.book.move_never(scope),
        };
        moved.inspect_err(|_| inner.room(room).give(0, 0, MOVE_COSTS))?;
        inner.note(|notes, _| match moment {
            Some(moment) => notes.line(format_args!("move {scope} {moment}"), "moved"),
            None => notes.line(format_args!("move {scope} never"), "moved"),
        });
        self.deadline_set(inner);
        self.settle(inner);
        self.pass_deadlines(inner);
        Ok(())
    }

    /// A canceller of the scope.
    pub(crate) fn canceller(self: &Arc<Self>, scope: u32) -> Canceller {
        Canceller::of_scope(self, scope)
    }
}

impl Cancels for Lane {
    /// The open paid for it.
    fn cancel(&self, scope: u32) -> bool {
        let mut inner = self.lock();
        let Ok(answer) = surely(inner.book.cancel(scope)) else { return false };
        let (is_first, words) = if answer == 0 { (true, "cancelled") } else { (false, "already") };
        inner.note(|notes, _| notes.line(format_args!("cancel {scope}"), words));
        self.settle(&mut inner);
        is_first
    }
}

fn ending(end: End) -> Ending {
    match end {
        End::Reject => Ending::Rejected,
        End::Finish(_) => Ending::Succeeded,
        End::Failed => Ending::Failed,
        End::Panicked => Ending::Panicked,
        End::Dropped | End::Gone => Ending::Dropped,
    }
}

/// The answer to a call that can't be left out: where memory is refused for it, the program ends, as Rust's own
/// allocations end it.
pub(crate) fn surely(answer: Result<i64, Code>) -> Result<i64, Code> {
    if answer == Err(Code::MEMORY) {
        handle_alloc_error(Layout::new::<Inner>());
    }
    answer
}

/// Has the realm's deadlines pass as they come: one task of tokio for a realm that has some.
async fn keep_time(lane: Weak<Lane>, timer: Arc<Notify>) {
    loop {
        let next = match lane.upgrade() {
            None => return,
            Some(lane) => {
                drop(lane.lock());
                match lane.next.load(Ordering::Relaxed) {
                    NEVER => None,
                    next => lane.began.checked_add(Duration::from_millis(next)),
                }
            }
        };
        match next {
            None => timer.notified().await,
            Some(at) => {
                let _ = tokio::time::timeout_at(at, timer.notified()).await;
            }
        }
    }
}
