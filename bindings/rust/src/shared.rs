//! What the threads of a realm share: the book behind its lock, the clock, and the bells.

use crate::canceller::Cancels;
use crate::ffi::Book;
use crate::hooks::Link;
use crate::labels::Labels;
use crate::notes::Notes;
use crate::observer::{Happening, Observer};
use crate::options::Options;
use crate::outcome::{Cause, ScopeId, TaskId};
use crate::pool::Pool;
use crate::realm::Limits;
use crate::refusal::{Code, Refusal};
use crate::task::swallow;
use crate::waiting::{Bell, Waiting, Wake, locked};
use std::alloc::{Layout, handle_alloc_error};
use std::any::Any;
use std::collections::BTreeMap;
use std::mem;
use std::ops::{Deref, DerefMut};
use std::sync::atomic::{AtomicBool, AtomicU64, Ordering};
use std::sync::{Arc, Mutex, MutexGuard};
use std::time::{Duration, Instant};

/// The actor that is no task.
pub(crate) const MAIN: u32 = 0;
/// The moment of a deadline that never comes.
const NEVER: u64 = u64::MAX;
/// What an open pays: 4 for itself, and at once 1 for its cancel and 1 for the passing of its deadline.
const OPEN_COSTS: u32 = 6;
const FORK_COSTS: u32 = 3;
/// A move pays for itself and for the passing of the deadline that it sets; a bind for itself and for its end.
const MOVE_COSTS: u32 = 2;
pub(crate) const BIND_COSTS: u32 = 2;

/// How a task ends.
pub(crate) enum End {
    /// No thread runs it.
    Reject,
    /// It gives a value, by its measure.
    Finish(i64),
    Fail(&'static str),
}

/// Who opened a realm inside a scope of another one.
pub(crate) struct Outside {
    pub(crate) shared: Arc<Shared>,
    pub(crate) actor: u32,
    pub(crate) bell: Option<Arc<Bell>>,
}

/// What is to be done once the lock is free.
enum Due {
    Link(Link, bool),
    Tell(Happening),
}

/// What the lock guards.
pub(crate) struct Inner {
    pub(crate) book: Book,
    /// The bells of the scopes that are not closed, by their numbers.
    bells: Vec<Arc<Bell>>,
    /// The bell of the scope that was closed last.
    spare: Option<Arc<Bell>>,
    /// How many of the book's cancelled scopes were told to their bells.
    told: usize,
    /// What was paid of the load, since the history was last discarded.
    paid: u32,
    /// What was asked and answered, if the realm notes it.
    pub(crate) notes: Option<Box<Notes>>,
    /// The clock's last reading: the events that are not noted yet came then.
    at: u64,
    pub(crate) labels: Labels,
    /// What each local binding of this realm holds, by the number to which its key is bound.
    pub(crate) locals: BTreeMap<i64, Arc<dyn Any + Send + Sync>>,
    due: Vec<Due>,
}

impl Inner {
    /// Notes what was asked and answered, if the realm notes. The lock is held from the call to its note, so that the
    /// notes are in the book's order.
    pub(crate) fn note(&mut self, write: impl FnOnce(&mut Notes, &mut Book)) {
        if let Some(notes) = &mut self.notes {
            write(notes, &mut self.book);
        }
    }

    /// Main, with no scope open and so many bindings, discards the history: the limits count from here, and so do the
    /// cancelled scopes.
    pub(crate) fn retire(&mut self, bindings: u32) {
        if self.book.retire(MAIN).is_ok() {
            self.told = 0;
            self.paid = BIND_COSTS * bindings;
            self.labels.forget();
            self.note(|notes, _| notes.retire());
        }
    }

    /// The clock reads this moment, so what was recorded before came at its last reading.
    pub(crate) fn come_to(&mut self, now: u64) {
        if now != self.at && self.book.note(self.at).is_ok() {
            self.at = now;
        }
    }

    /// The journal with the moments of its lines and with the labels.
    pub(crate) fn journal(&mut self) -> Result<String, Code> {
        self.book.note(self.at)?;
        Ok(self.labels.remarked(&self.book.timed_journal(self.at)?))
    }

    /// The realms that are open inside scopes of this one.
    pub(crate) fn inside(&self) -> Vec<Arc<Shared>> {
        self.bells.iter().flat_map(|bell| bell.links.inside()).collect()
    }

    /// The bell, in the memory of the last one if nobody holds that any more.
    fn new_bell(&mut self, bell: Bell) -> Arc<Bell> {
        if let Some(mut spare) = self.spare.take() {
            if let Some(old) = Arc::get_mut(&mut spare) {
                *old = bell;
                return spare;
            }
        }
        Arc::new(bell)
    }

    fn place_of(&self, scope: u32) -> Result<usize, usize> {
        self.bells.binary_search_by_key(&scope, |bell| bell.scope)
    }

    fn bell_of(&self, scope: u32) -> Option<Arc<Bell>> {
        self.place_of(scope).ok().map(|at| Arc::clone(&self.bells[at]))
    }

    /// Gives back what was paid for a call that was refused.
    pub(crate) fn refund(&mut self, costs: u32) {
        self.paid -= costs;
    }

    /// Pays a part of the load, so that what was paid for at once is never refused later.
    pub(crate) fn pay(&mut self, limits: Limits, costs: u32) -> Result<(), Refusal> {
        let paid = self.paid + costs;
        if paid > limits.load {
            return Err(Refusal::TooMany);
        }
        self.paid = paid;
        Ok(())
    }
}

/// The realm's lock, held. Once it is free, what became due meanwhile is done.
pub(crate) struct Held<'lock> {
    shared: &'lock Shared,
    /// `None` only while this waits.
    guard: Option<MutexGuard<'lock, Inner>>,
}

impl Deref for Held<'_> {
    type Target = Inner;

    fn deref(&self) -> &Inner {
        self.guard.as_ref().expect("the lock is held, but for waits")
    }
}

impl DerefMut for Held<'_> {
    fn deref_mut(&mut self) -> &mut Inner {
        self.guard.as_mut().expect("the lock is held, but for waits")
    }
}

impl Drop for Held<'_> {
    fn drop(&mut self) {
        if let Some(mut guard) = self.guard.take() {
            if !guard.due.is_empty() {
                let due = mem::take(&mut guard.due);
                drop(guard);
                self.shared.perform(due);
            }
        }
    }
}

/// What the threads of a realm share.
pub(crate) struct Shared {
    inner: Mutex<Inner>,
    /// The next deadline of the realm in milliseconds, as the book said last.
    next: AtomicU64,
    /// Whether the realm notes.
    notes: AtomicBool,
    began: Instant,
    pub(crate) limits: Limits,
    pub(crate) pool: Pool,
    pub(crate) observer: Option<Arc<dyn Observer>>,
    pub(crate) outside: Option<Outside>,
}

impl Shared {
    pub(crate) fn new(
        book: Book,
        limits: Limits,
        pool: Pool,
        observer: Option<Arc<dyn Observer>>,
        outside: Option<Outside>,
    ) -> Shared {
        let inner = Inner {
            book,
            bells: Vec::new(),
            spare: None,
            told: 0,
            paid: 0,
            notes: None,
            at: 0,
            labels: Labels::default(),
            locals: BTreeMap::new(),
            due: Vec::new(),
        };
        let (inner, next, notes) = (Mutex::new(inner), AtomicU64::new(NEVER), AtomicBool::new(false));
        Shared { inner, next, notes, began: Instant::now(), limits, pool, observer, outside }
    }

    /// Notes what is asked and answered from now on.
    pub(crate) fn begin_notes(&self) {
        self.quietly().notes.get_or_insert_with(|| Box::new(Notes::since(self.began)));
        self.notes.store(true, Ordering::Relaxed);
    }

    /// Whether the realm notes. It takes no lock.
    pub(crate) fn is_noting(&self) -> bool {
        self.notes.load(Ordering::Relaxed)
    }

    /// The book, for a query that passes no deadline.
    pub(crate) fn quietly(&self) -> Held<'_> {
        Held { shared: self, guard: Some(locked(&self.inner)) }
    }

    /// The book, once the deadlines that are due have passed.
    pub(crate) fn lock(&self) -> Held<'_> {
        self.pass_outside();
        let mut inner = self.quietly();
        self.pass_deadlines(&mut inner);
        inner
    }

    /// The same right behind another call of the caller's, whose moment will do: it reads no clock without a deadline.
    pub(crate) fn lock_again(&self) -> Held<'_> {
        self.pass_outside();
        let mut inner = self.quietly();
        self.pass_again(&mut inner);
        inner
    }

    /// Has a deadline that is due outside of this realm pass, as it may cancel what is inside. The lock is free.
    fn pass_outside(&self) {
        if let Some(outside) = &self.outside {
            if outside.shared.is_due() {
                drop(outside.shared.lock());
            }
        }
    }

    /// Whether a deadline is due that the book was not told of. It takes no lock.
    pub(crate) fn is_due(&self) -> bool {
        let next = self.next.load(Ordering::Relaxed);
        (next != NEVER && self.now() >= next) || self.outside.as_ref().is_some_and(|outside| outside.shared.is_due())
    }

    /// As `pass_deadlines`, if there are any.
    fn pass_again(&self, inner: &mut Inner) {
        if self.next.load(Ordering::Relaxed) != NEVER {
            self.pass_deadlines(inner);
        }
    }

    /// Reads the clock, and tells the book the moment where a deadline is due.
    fn pass_deadlines(&self, inner: &mut Inner) {
        let now = self.now();
        inner.come_to(now);
        if now >= self.next.load(Ordering::Relaxed) {
            // Each deadline was paid for when it was set, so no limit refuses its passing.
            let answer = surely(inner.book.tick(now));
            debug_assert!(answer.is_ok(), "the clock goes forwards: {answer:?}");
            inner.note(|notes, _| notes.line(format_args!("tick {now}"), format_args!("moment {now}")));
            self.settle(inner);
        }
    }

    /// Rings the bells of what the book has cancelled since the last call, and notes the next deadline.
    pub(crate) fn settle(&self, inner: &mut Inner) {
        while let Some(scope) = inner.book.nth_cancelled(inner.told) {
            inner.told += 1;
            let Some(bell) = inner.bell_of(scope) else { continue };
            let pair = inner.book.cause(scope).ok().flatten();
            let cause = pair.as_ref().and_then(Cause::of_pair).unwrap_or(Cause::Call(ScopeId(scope)));
            bell.cut(cause);
            let due = bell.ring(true);
            if !due.is_empty() {
                inner.due.extend(due.into_iter().map(|link| Due::Link(link, true)));
            }
            self.tell(inner, || Happening::Cancelled { scope: ScopeId(scope), cause });
        }
        if self.next.load(Ordering::Relaxed) != NEVER {
            self.note_next(inner);
        }
    }

    fn note_next(&self, inner: &mut Inner) {
        self.next.store(inner.book.next_deadline().unwrap_or(NEVER), Ordering::Relaxed);
    }

    /// Tells the observer, once the lock is free.
    pub(crate) fn tell(&self, inner: &mut Inner, what: impl FnOnce() -> Happening) {
        if self.observer.is_some() {
            inner.due.push(Due::Tell(what()));
        }
    }

    /// Does what became due. The lock is free.
    fn perform(&self, due: Vec<Due>) {
        for one in due {
            match one {
                Due::Link(Link::Call(call), _) => call.make(),
                Due::Link(Link::Inside(shared, scope), true) => drop(shared.cancel(scope)),
                Due::Link(Link::Inside(shared, _), false) => shared.ring_all(),
                Due::Link(Link::Parked(thread), _) => thread.unpark(),
                Due::Tell(happening) => {
                    if let Some(observer) = &self.observer {
                        swallow(|| observer.hears(&happening));
                    }
                }
            }
        }
    }

    /// Wakes all who wait in the realm, so that they look again.
    pub(crate) fn ring_all(&self) {
        let mut inner = self.quietly();
        let links: Vec<_> = inner.bells.iter().flat_map(|bell| bell.ring(false)).collect();
        inner.due.extend(links.into_iter().map(|link| Due::Link(link, false)));
    }

    /// The moment of the earliest deadline in effect for the scope, those outside of the realm included.
    pub(crate) fn deadline(&self, inner: &mut Inner, scope: Option<u32>) -> Option<Instant> {
        let own = scope.and_then(|scope| inner.book.until(scope)).and_then(|moment| self.instant_of(moment));
        let outer = self.outside.as_ref().and_then(|outside| {
            let scope = outside.bell.as_ref().map(|bell| bell.scope);
            outside.shared.deadline(&mut outside.shared.quietly(), scope)
        });
        own.into_iter().chain(outer).min()
    }

    /// Waits for a ring, for a deadline that counts for the scope, or for the given end; or for no reason.
    pub(crate) fn wait<'lock>(
        &'lock self,
        mut inner: Held<'lock>,
        waiting: &Waiting,
        scope: Option<u32>,
        end: Option<Instant>,
        has_spun: Option<&mut bool>,
    ) -> Held<'lock> {
        if inner.due.is_empty() {
            let deadline = self.deadline(&mut inner, scope);
            let limit = deadline.into_iter().chain(end).min();
            let limit = limit.map(|limit| limit.saturating_duration_since(Instant::now()));
            inner.guard = inner.guard.take().map(|guard| waiting.wait(&self.inner, guard, limit, has_spun));
            if !self.is_due() {
                let now = self.now();
                inner.come_to(now);
                return inner;
            }
        }
        // What became due is done with a free lock, so the caller looks again.
        drop(inner);
        self.lock()
    }

    /// The moment of the realm's clock: whole milliseconds that have passed.
    pub(crate) fn now(&self) -> u64 {
        let passed = self.began.elapsed();
        passed.as_secs() * 1000 + u64::from(passed.subsec_millis())
    }

    /// The moment after so long, rounded up; but nothing is now.
    fn after(&self, duration: Duration) -> u64 {
        let whole = self.began.elapsed().saturating_add(duration);
        let up = if duration.is_zero() { Duration::ZERO } else { Duration::from_nanos(999_999) };
        u64::try_from(whole.saturating_add(up).as_millis()).unwrap_or(NEVER)
    }

    fn instant_of(&self, moment: u64) -> Option<Instant> {
        self.began.checked_add(Duration::from_millis(moment))
    }

    /// Tells the observer of a refusal.
    pub(crate) fn refused(&self, refusal: Refusal) -> Refusal {
        if self.observer.is_some() {
            self.tell(&mut self.quietly(), || Happening::Refused { refusal });
        }
        refusal
    }

    /// The actor opens a scope inside that other one, and gets its bell. Main, with no scope open, discards the history
    /// before, if it says how many bindings it has.
    pub(crate) fn open(
        &self,
        actor: u32,
        outer: Option<Arc<Bell>>,
        options: &Options,
        bindings: Option<u32>,
    ) -> Result<Arc<Bell>, Refusal> {
        let mut held = self.lock();
        // Once, not at each use.
        let inner = &mut *held;
        if let Some(bindings) = bindings {
            inner.retire(bindings);
        }
        inner.pay(self.limits, OPEN_COSTS)?;
        let (joiner, bound) = options.joiner_numbers();
        let deadline = options.within.map(|duration| self.after(duration));
        let opened = inner.book.open_scope(actor, joiner, bound, options.flags(), deadline.unwrap_or(0));
        let answer = opened.inspect_err(|_| inner.refund(OPEN_COSTS))?;
        let scope = answer as u32;
        let bell = inner.new_bell(Bell::new(scope, actor, outer));
        inner.note(|notes, _| notes.open(actor, options.words(deadline), scope));
        inner.labels.scopes = scope;
        if let Some(name) = &options.name {
            inner.labels.scope(scope, name);
        }
        inner.bells.push(Arc::clone(&bell));
        self.tell(inner, || Happening::Opened { scope: ScopeId(scope), name: options.name.clone() });
        if deadline.is_some() {
            self.note_next(inner);
        }
        self.settle(inner);
        self.pass_again(inner);
        Ok(bell)
    }

    /// The actor forks a task: its number, and whether it gets a thread.
    pub(crate) fn fork(&self, actor: u32, scope: u32, name: &str) -> Result<(u32, bool), Refusal> {
        let mut held = self.lock();
        // Once, not at each use.
        let inner = &mut *held;
        inner.pay(self.limits, FORK_COSTS)?;
        let word = Labels::word(name);
        let forked = inner.book.fork(actor, scope, &word);
        let (task, has_thread) = forked.inspect_err(|_| inner.refund(FORK_COSTS))?;
        inner.note(|notes, _| notes.fork(actor, scope, &word, task, has_thread));
        inner.labels.tasks = task;
        if *word != *name {
            inner.labels.task(task, name);
        }
        self.tell(inner, || Happening::Forked {
            scope: ScopeId(scope),
            task: TaskId(task),
            name: name.to_owned(),
            may_run: has_thread,
        });
        Ok((task, has_thread))
    }

    /// Sets the scope's deadline so long after now, or takes it away. Who waits learns it.
    pub(crate) fn move_deadline(&self, scope: u32, within: Option<Duration>) -> Result<(), Refusal> {
        let mut inner = self.lock();
        inner.pay(self.limits, MOVE_COSTS)?;
        let moment = within.map(|duration| self.after(duration));
        let moved = match moment {
            Some(moment) => inner.book.move_deadline(scope, moment),
            None => inner.book.move_never(scope),
        };
        moved.inspect_err(|_| inner.refund(MOVE_COSTS))?;
        inner.note(|notes, _| match moment {
            Some(moment) => notes.line(format_args!("move {scope} {moment}"), "moved"),
            None => notes.line(format_args!("move {scope} never"), "moved"),
        });
        self.note_next(&mut inner);
        self.settle(&mut inner);
        self.pass_again(&mut inner);
        drop(inner);
        self.ring_all();
        Ok(())
    }

    /// Begins to close the scope, which cancels what still runs in it.
    pub(crate) fn begin_close(&self, actor: u32, scope: u32) {
        self.begin_to_close(&mut self.lock(), actor, scope);
    }

    fn begin_to_close(&self, inner: &mut Inner, actor: u32, scope: u32) {
        let answer = surely(inner.book.begin_close(actor, scope));
        debug_assert!(answer.is_ok(), "the owner closes its innermost scope: {answer:?}");
        if let Ok(done) = answer {
            let words = if done == 0 { "closing" } else { "already" };
            inner.note(|notes, _| notes.line(format_args!("close {actor} {scope}"), words));
        }
        self.settle(inner);
    }

    /// Ends the close, once no thread of the scope is left: what was amiss. Of a scope that never had one it also begins
    /// it.
    pub(crate) fn end_close(&self, actor: u32, scope: u32, has_begun: bool) -> Result<(), Refusal> {
        let mut held = self.lock();
        // Once, not at each use.
        let inner = &mut *held;
        if !has_begun {
            self.begin_to_close(inner, actor, scope);
        }
        let answer = surely(inner.book.end_close(actor, scope));
        if let Ok(at) = inner.place_of(scope) {
            inner.spare = Some(inner.bells.remove(at));
        }
        let (verdict, words) = match answer {
            Ok(2) => (Err(Refusal::NotJoined), "closed not-joined"),
            Ok(3) => (Err(Refusal::Structure), "closed violated"),
            Ok(_) => (Ok(()), "closed"),
            Err(code) => (Err(Refusal::from(code)), ""),
        };
        if answer.is_ok() {
            inner.note(|notes, _| notes.line(format_args!("closed {actor} {scope}"), words));
        }
        self.tell(inner, || Happening::Closed { scope: ScopeId(scope) });
        self.settle(inner);
        verdict
    }

    /// Tells the book that a task began.
    pub(crate) fn record_start(&self, task: u32) {
        let mut held = self.lock();
        // Once, not at each use.
        let inner = &mut *held;
        let answer = surely(inner.book.start(task));
        debug_assert!(answer.is_ok(), "each task begins once: {answer:?}");
        if answer.is_ok() {
            inner.note(|notes, _| notes.line(format_args!("start {task}"), "started"));
        }
        self.tell(inner, || Happening::Started { task: TaskId(task) });
    }

    /// Tells the book how a task ended. If the owner waits, and for nothing more, the caller wakes it.
    #[must_use]
    pub(crate) fn record_end(&self, bell: &Arc<Bell>, task: u32, end: &End) -> Option<Wake> {
        let mut held = self.lock();
        // Once, not at each use.
        let inner = &mut *held;
        let was_cut = bell.is_cut();
        let answer = surely(match end {
            End::Reject => inner.book.reject(task).map(|_| None),
            End::Finish(value) => inner.book.end(task, Ok(*value)).map(Some),
            End::Fail(fault) => inner.book.end(task, Err(fault)).map(Some),
        });
        debug_assert!(answer.is_ok(), "each task ends once: {answer:?}");
        if answer.is_ok() {
            inner.note(|notes, _| match end {
                End::Reject => notes.line(format_args!("reject {task}"), "rejected"),
                End::Finish(value) => notes.line(format_args!("ok {task} {value}"), "finished"),
                End::Fail(fault) => notes.line(format_args!("fail {task} {fault}"), "finished"),
            });
        }
        self.tell(inner, || Happening::Ended { task: TaskId(task), end: end.into() });
        if !was_cut && matches!(end, End::Fail(_)) {
            // Before the bell says that the scope is cancelled: who sees that may let the failed task go.
            let pair = inner.book.cause(bell.scope).ok().flatten();
            if pair.as_ref().and_then(Cause::of_pair) == Some(Cause::Joiner(ScopeId(bell.scope))) {
                bell.fired_by(task);
            }
        }
        let news = answer.ok().flatten();
        // (an end moves no deadline)
        if news.is_none_or(|news| news.cancelled != inner.told) {
            self.settle(inner);
        }
        let is_quiet = |book: &mut Book| news.map_or_else(|| book.is_quiet(bell.scope), |news| news.quiet);
        let wakes = bell.owner.is_waited() && (bell.wants_each.load(Ordering::Relaxed) || is_quiet(&mut inner.book));
        wakes.then(|| Wake::new(bell))
    }
}

impl Cancels for Shared {
    /// The open paid for it.
    fn cancel(&self, scope: u32) -> bool {
        let mut inner = self.lock();
        let Ok(answer) = surely(inner.book.cancel(scope)) else { return false };
        let (is_first, words) = if answer == 0 { (true, "cancelled") } else { (false, "already") };
        inner.note(|notes, _| notes.line(format_args!("cancel {scope}"), words));
        self.settle(&mut inner);
        is_first
    }
}

/// The answer to a call that can't be left out: where memory is refused for it, the program ends, as Rust's own
/// allocations end it.
pub(crate) fn surely<T>(answer: Result<T, Code>) -> Result<T, Code> {
    if matches!(answer, Err(Code::MEMORY)) {
        handle_alloc_error(Layout::new::<Inner>());
    }
    answer
}
