//! The threads that one scope has from its pool.
//!
//! A job goes to a thread that is idle in the scope, or else the scope gets another one, up to its limit. Threads come
//! one after the other: each that comes takes a job, and calls the next one if a job still waits. So jobs that are
//! short are done by few threads, and jobs that wait for each other get a thread each. A thread that finds no job for a
//! short time goes back to the pool.

#![allow(unsafe_code)]

use crate::pool::{Pool, Seat};
use crate::waiting::{Wake, locked, spin_until};
use std::any::Any;
use std::collections::VecDeque;
use std::mem;
use std::panic::{AssertUnwindSafe, catch_unwind};
use std::sync::atomic::{AtomicBool, AtomicUsize, Ordering};
use std::sync::{Arc, Condvar, Mutex, MutexGuard, PoisonError};

/// A job. It may return a wake of the owner.
pub(crate) type Job<'scope> = Box<dyn FnOnce() -> Option<Wake> + Send + 'scope>;

/// What a thread of the pool does for one scope: its first job, and then others.
pub(crate) struct Stint<'scope> {
    threads: Arc<Threads<'scope>>,
    first: Option<Job<'scope>>,
}

impl<'scope> Stint<'scope> {
    fn new(threads: &Arc<Threads<'scope>>, first: Option<Job<'scope>>) -> Stint<'static> {
        let stint = Stint { threads: Arc::clone(threads), first };
        // SAFETY: a lifetime alone changes. Whatever borrows for 'scope is in a job, and a job is run or dropped either
        // by the owner in `Threads::run`, or by a thread that `Threads::count` counts until it has done so. The scope's
        // drop waits until that is 0 (`Threads::wait_all`), before 'scope ends: the crate makes each `Scope` in
        // `Context::block`, lends it to the body, and drops it there on every way out, a panic too. A thread that no
        // longer counts holds no job: it has its own handle of these `Threads`, whose queue is empty then, since the
        // last thread to leave found it so and nothing is forked any more.
        unsafe { mem::transmute::<Stint<'scope>, Stint<'static>>(stint) }
    }

    pub(crate) fn work(self, seat: &Arc<Seat>) {
        self.threads.work(seat, self.first);
    }
}

/// The threads of one scope.
pub(crate) struct Threads<'scope> {
    pool: Pool,
    limit: usize,
    state: Mutex<State<'scope>>,
    /// The owner sleeps here until no thread is left.
    gone: Condvar,
    /// How many jobs wait, how many threads there are, and whether no more jobs come: for those who spin.
    queued: AtomicUsize,
    alive: AtomicUsize,
    is_closed: AtomicBool,
}

#[derive(Default)]
struct State<'scope> {
    queue: VecDeque<Job<'scope>>,
    /// How many threads the scope has: those that were called for it and have not left.
    count: usize,
    /// How many of these have no job: they spin, or were called and are still to come.
    idle: usize,
    /// Threads of the pool that wait for this scope to call them.
    reserve: Vec<Arc<Seat>>,
    is_closed: bool,
    is_awaited: bool,
    /// The first panic that was no job's.
    panic: Option<Box<dyn Any + Send>>,
}

impl State<'_> {
    /// Whether a thread without a job is there for one more.
    fn has_thread(&self) -> bool {
        self.queue.len() < self.idle + self.reserve.len()
    }

    /// The threads in reserve, which nobody waits for once no job waits.
    fn spare(&mut self) -> Vec<Arc<Seat>> {
        if self.queue.is_empty() { mem::take(&mut self.reserve) } else { Vec::new() }
    }
}

impl<'scope> Threads<'scope> {
    pub(crate) fn new(pool: Pool, limit: usize) -> Arc<Threads<'scope>> {
        Arc::new(Threads {
            pool,
            limit,
            state: Mutex::default(),
            gone: Condvar::new(),
            queued: AtomicUsize::new(0),
            alive: AtomicUsize::new(0),
            is_closed: AtomicBool::new(false),
        })
    }

    fn lock(&self) -> MutexGuard<'_, State<'scope>> {
        locked(&self.state)
    }

    fn count(&self, state: &mut State<'_>, change: isize) {
        state.count = state.count.wrapping_add_signed(change);
        self.alive.store(state.count, Ordering::Release);
    }

    /// Gives the job to a thread, or back to the caller where none is to be had. Only the owner of the scope calls this.
    pub(crate) fn run(self: &Arc<Self>, job: Job<'scope>) -> Result<(), Job<'scope>> {
        let mut state = self.lock();
        if !state.has_thread() && state.count + state.reserve.len() < self.limit {
            match self.pool.take() {
                Some(seat) => state.reserve.push(seat),
                None => {
                    self.count(&mut state, 1);
                    drop(state);
                    let spawned = self.pool.spawn(Stint::new(self, Some(job)));
                    return spawned.or_else(|refused| self.run_without_new(refused.first));
                }
            }
        }
        self.queue(state, job);
        Ok(())
    }

    /// As [`Threads::run`], where a new thread was refused. Without a limit a job has a thread of its own, or none; with
    /// one, a thread that is there runs it later.
    fn run_without_new(self: &Arc<Self>, job: Option<Job<'scope>>) -> Result<(), Job<'scope>> {
        let mut state = self.lock();
        self.count(&mut state, -1);
        // One may have come back to the pool meanwhile.
        state.reserve.extend(self.pool.take());
        let is_limited = self.limit < usize::MAX;
        let may_wait = is_limited && state.count + state.reserve.len() > 0;
        match job {
            Some(job) if may_wait || state.has_thread() => self.queue(state, job),
            Some(job) => return Err(job),
            None => {}
        }
        Ok(())
    }

    fn queue(self: &Arc<Self>, mut state: MutexGuard<'_, State<'scope>>, job: Job<'scope>) {
        state.queue.push_back(job);
        self.queued.store(state.queue.len(), Ordering::Release);
        self.call_next(state);
    }

    /// If jobs wait, and no thread is about to take one, calls one.
    fn call_next(self: &Arc<Self>, mut state: MutexGuard<'_, State<'scope>>) {
        if state.queue.is_empty() || state.idle > 0 {
            return;
        }
        if let Some(seat) = state.reserve.pop() {
            state.idle += 1;
            self.count(&mut state, 1);
            drop(state);
            seat.call(Stint::new(self, None));
        }
    }

    /// No more jobs come: threads leave once none waits.
    pub(crate) fn close(&self) {
        let mut state = self.lock();
        if state.is_closed {
            return;
        }
        state.is_closed = true;
        self.is_closed.store(true, Ordering::Release);
        let spare = state.spare();
        drop(state);
        spare.iter().for_each(Seat::give_back);
    }

    /// Waits until no thread is left. The first panic that was no job's is returned.
    pub(crate) fn wait_all(&self) -> Option<Box<dyn Any + Send>> {
        spin_until(|| self.alive.load(Ordering::Acquire) == 0);
        let mut state = self.lock();
        state.is_awaited = true;
        while state.count > 0 {
            state = self.gone.wait(state).unwrap_or_else(PoisonError::into_inner);
        }
        state.panic.take()
    }

    /// What each thread does.
    fn work(self: &Arc<Self>, seat: &Arc<Seat>, mut next: Option<Job<'scope>>) {
        let mut wake = None;
        let mut is_called = next.is_none();
        loop {
            if let Some(job) = next {
                match catch_unwind(AssertUnwindSafe(job)) {
                    Ok(ended) => wake = ended,
                    Err(panic) => drop(self.lock().panic.get_or_insert(panic)),
                }
            }
            let mut state = self.lock();
            if mem::take(&mut is_called) {
                state.idle -= 1;
            }
            if state.queue.is_empty() && !state.is_closed {
                state.idle += 1;
                drop(state);
                drop(wake.take());
                let has_work = || self.queued.load(Ordering::Acquire) > 0 || self.is_closed.load(Ordering::Acquire);
                spin_until(has_work);
                state = self.lock();
                state.idle -= 1;
            }
            next = state.queue.pop_front();
            if next.is_none() {
                return self.leave(state, seat, wake);
            }
            self.queued.store(state.queue.len(), Ordering::Release);
            self.call_next(state);
            drop(wake.take());
        }
    }

    /// The thread touches nothing more of the scope, and the owner may go on.
    fn leave(&self, mut state: MutexGuard<'_, State<'scope>>, seat: &Arc<Seat>, wake: Option<Wake>) {
        // Before the owner can go on, so that its next scope finds them.
        state.spare().iter().for_each(Seat::give_back);
        seat.give_back();
        self.count(&mut state, -1);
        let is_last = state.count == 0 && state.is_awaited;
        drop(state);
        if is_last {
            self.gone.notify_all();
        }
        // An owner that was woken sooner would wait once more, for this thread.
        drop(wake);
    }
}
