//! Threads of the process, which rest between the scopes that use them.

use crate::threads::Stint;
use crate::waiting::{locked, spin_until};
use std::fmt;
use std::io;
use std::sync::atomic::{AtomicBool, Ordering};
use std::sync::{Arc, Mutex, OnceLock};
use std::thread::{self, Thread};
use std::time::{Duration, Instant};

/// How long a thread that nobody needs stays, where a pool doesn't say.
const RESTS: Duration = Duration::from_secs(5);

/// What a thread of a pool does, from its start to its end ([`Pool::spawned_by`]).
///
/// ```
/// use balkreyn::{Context, Pool, Realm, Refusal, ThreadBody};
/// use std::{io, thread};
///
/// fn small(name: String, body: ThreadBody) -> io::Result<()> {
///     thread::Builder::new().name(name).stack_size(128 * 1024).spawn(body).map(drop)
/// }
/// let ones = Realm::new()?.on(&Pool::spawned_by(small)).run(|cx| cx.all([|_: &Context| Ok::<_, Refusal>(1)]));
/// assert_eq!(ones, Ok(vec![1]));
/// # Ok::<(), Refusal>(())
/// ```
pub type ThreadBody = Box<dyn FnOnce() + Send>;

/// Starts a thread with the name, which runs the body.
type Spawner = Box<dyn Fn(String, ThreadBody) -> io::Result<()> + Send + Sync>;

/// The threads that run jobs. Any scope uses a thread that rests, and gives it back; one that rests for five seconds
/// ends. Realms share one pool, unless they get their own ([`Realm::on`](crate::Realm::on)).
///
/// ```
/// use balkreyn::{Joiner, Pool, Realm, Refusal};
///
/// let pool = Pool::new().most(1).named("service");
/// let refused = Realm::new()?.on(&pool).run(|cx| {
///     cx.try_scope(Joiner::All, |s| {
///         s.fork("first", |cx| cx.sleep(std::time::Duration::from_secs(9)))?;
///         s.fork("second", |cx| cx.checkpoint()).map(drop)
///     })
/// });
/// assert_eq!(refused, Err(Refusal::Rejected));
/// # Ok::<(), Refusal>(())
/// ```
#[derive(Clone)]
pub struct Pool {
    shared: Arc<Shared>,
}

struct Shared {
    plan: Plan,
    free: Mutex<Free>,
}

/// How the pool starts threads.
struct Plan {
    most: usize,
    rests: Duration,
    name: String,
    spawner: Spawner,
}

#[derive(Default)]
struct Free {
    /// The threads that rest. The one that worked last is on top.
    seats: Vec<Arc<Seat>>,
    /// How many threads there are.
    threads: usize,
    /// How many were started.
    started: u64,
}

/// A thread of a pool, and what it is to do next.
pub(crate) struct Seat {
    pool: Arc<Shared>,
    stint: Mutex<Option<Stint<'static>>>,
    /// Whether there is a stint, for a thread that spins.
    is_called: AtomicBool,
    thread: OnceLock<Thread>,
}

impl Default for Pool {
    fn default() -> Pool {
        Pool::new()
    }
}

impl Pool {
    /// A pool of its own, without a limit.
    #[must_use]
    pub fn new() -> Pool {
        Pool::spawned_by(|name, body| thread::Builder::new().name(name).spawn(body).map(drop))
    }

    /// A pool whose threads are started by the function, which gets a name and what the thread does. Where it returns
    /// `Ok`, it has the body run on a thread of its own; else the body is dropped, and the fork is refused as
    /// [`Rejected`](crate::Refusal::Rejected).
    #[must_use]
    pub fn spawned_by(spawner: impl Fn(String, ThreadBody) -> io::Result<()> + Send + Sync + 'static) -> Pool {
        let plan = Plan { most: usize::MAX, rests: RESTS, name: "balkreyn".into(), spawner: Box::new(spawner) };
        Pool { shared: Arc::new(Shared { plan, free: Mutex::default() }) }
    }

    /// The pool of all realms that have no other.
    pub(crate) fn of_all() -> Pool {
        static POOL: OnceLock<Pool> = OnceLock::new();
        POOL.get_or_init(Pool::new).clone()
    }

    fn planned(self, change: impl FnOnce(&mut Plan)) -> Pool {
        // A pool that has threads, or that others hold, stays as it is; this one begins without threads.
        match Arc::try_unwrap(self.shared) {
            Ok(mut shared) => {
                change(&mut shared.plan);
                Pool { shared: Arc::new(shared) }
            }
            Err(shared) => Pool { shared },
        }
    }

    /// The pool with at most so many threads, if no clone of it is held yet. A fork beyond them is refused as
    /// [`Rejected`](crate::Refusal::Rejected).
    #[must_use]
    pub fn most(self, threads: usize) -> Pool {
        self.planned(|plan| plan.most = threads)
    }

    /// The pool whose threads end after so long a rest, of a millisecond at least, if no clone of it is held yet.
    #[must_use]
    pub fn rests(self, rests: Duration) -> Pool {
        self.planned(|plan| plan.rests = rests.max(Duration::from_millis(1)))
    }

    /// The pool whose threads are named so, each with a number behind it, if no clone of it is held yet.
    #[must_use]
    pub fn named(self, name: &str) -> Pool {
        self.planned(|plan| plan.name = name.chars().filter(|one| *one != '\0').collect())
    }

    /// How many threads it has now: those that work and those that rest.
    #[must_use]
    pub fn threads(&self) -> usize {
        locked(&self.shared.free).threads
    }

    /// A thread that rests, which the caller calls or gives back.
    pub(crate) fn take(&self) -> Option<Arc<Seat>> {
        locked(&self.shared.free).seats.pop()
    }

    /// A new thread begins with this, or the caller gets it back.
    pub(crate) fn spawn(&self, stint: Stint<'static>) -> Result<(), Stint<'static>> {
        let number = {
            let mut free = locked(&self.shared.free);
            if free.threads >= self.shared.plan.most {
                return Err(stint);
            }
            free.threads += 1;
            free.started += 1;
            free.started
        };
        let seat = Arc::new(Seat {
            pool: Arc::clone(&self.shared),
            stint: Mutex::new(Some(stint)),
            is_called: AtomicBool::new(true),
            thread: OnceLock::new(),
        });
        let its = Arc::clone(&seat);
        let name = format!("{}-{number}", self.shared.plan.name);
        match (self.shared.plan.spawner)(name, Box::new(move || its.sit())) {
            Ok(()) => Ok(()),
            Err(_) => {
                locked(&self.shared.free).threads -= 1;
                locked(&seat.stint).take().map_or(Ok(()), Err)
            }
        }
    }
}

impl fmt::Debug for Pool {
    fn fmt(&self, out: &mut fmt::Formatter<'_>) -> fmt::Result {
        out.debug_struct("Pool").field("threads", &self.threads()).finish_non_exhaustive()
    }
}

impl Seat {
    /// Has the thread do this next. It rests, or will soon.
    pub(crate) fn call(&self, stint: Stint<'static>) {
        let mut place = locked(&self.stint);
        *place = Some(stint);
        self.is_called.store(true, Ordering::Release);
        drop(place);
        // A thread that never set itself has not begun, and looks before it rests.
        if let Some(thread) = self.thread.get() {
            thread.unpark();
        }
    }

    /// The thread rests from now on, or as soon as it returns.
    pub(crate) fn give_back(self: &Arc<Self>) {
        locked(&self.pool.free).seats.push(Arc::clone(self));
    }

    /// What the thread does.
    fn sit(self: &Arc<Self>) {
        let _ = self.thread.set(thread::current());
        loop {
            if self.is_wanted() {
                let mut place = locked(&self.stint);
                let stint = place.take();
                self.is_called.store(false, Ordering::Relaxed);
                drop(place);
                if let Some(stint) = stint {
                    stint.work(self);
                }
            } else {
                let mut free = locked(&self.pool.free);
                // Who took the seat just now calls it soon.
                if let Some(at) = free.seats.iter().position(|other| Arc::ptr_eq(other, self)) {
                    free.seats.remove(at);
                    free.threads -= 1;
                    return;
                }
            }
        }
    }

    /// Rests until there is a stint: false where none comes for long.
    fn is_wanted(&self) -> bool {
        let is_called = || self.is_called.load(Ordering::Acquire);
        if spin_until(is_called) {
            return true;
        }
        let began = Instant::now();
        while !is_called() {
            let Some(left) = self.pool.plan.rests.checked_sub(began.elapsed()) else { return false };
            thread::park_timeout(left);
        }
        true
    }
}
