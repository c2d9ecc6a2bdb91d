//! How threads wait: a spin, a bell of each scope, and what a cancel wakes.

use crate::hooks::{Link, Links};
use crate::outcome::{Cancelled, Cause};
use crate::task::{Kept, swallow};
use std::hint;
use std::mem;
use std::sync::atomic::{AtomicBool, AtomicU32, AtomicU64, AtomicUsize, Ordering};
use std::sync::{Arc, Condvar, Mutex, MutexGuard, OnceLock, PoisonError};
use std::thread;
use std::time::{Duration, Instant};

/// How long a wait spins before it sleeps: what a wake of a sleeper costs, about.
const SPINS: Duration = Duration::from_micros(6);

/// The guarded value. A panic never comes while one of the crate's locks is held, so a poisoned one guards a whole value.
pub fn locked<T>(mutex: &Mutex<T>) -> MutexGuard<'_, T> {
    mutex.lock().unwrap_or_else(PoisonError::into_inner)
}

/// Spins for a short time: whether it is done by then.
pub(crate) fn spin_until(is_done: impl Fn() -> bool) -> bool {
    static IS_USEFUL: OnceLock<bool> = OnceLock::new();
    let is_useful = *IS_USEFUL.get_or_init(|| thread::available_parallelism().is_ok_and(|count| count.get() > 1));
    let began = Instant::now();
    loop {
        for _ in 0..40 {
            if is_done() {
                return true;
            }
            hint::spin_loop();
        }
        if !is_useful || began.elapsed() >= SPINS {
            return is_done();
        }
    }
}

/// A scope that is open, as its owner and its jobs know it: what rings where something happens to it. The book decides;
/// a bell only says it without a lock.
#[derive(Default)]
pub(crate) struct Bell {
    pub(crate) scope: u32,
    /// Who opened it, and the scope around that actor then.
    owned_by: u32,
    pub(crate) outer: Option<Arc<Bell>>,
    /// The cause by which the book says that the scope is cancelled, packed; 0 where it is not.
    cut: AtomicU64,
    /// Whether its owner was handed a cancel that came from this very scope, and has not joined since.
    pub(crate) was_handed: AtomicBool,
    /// The task whose failure made the joiner fire; 0 where none did.
    first_failed: AtomicU32,
    /// What failed before the joiner fired, or made it fire, and nobody took: a block may end with it.
    kept: Mutex<Vec<(u32, Kept)>>,
    has_kept: AtomicBool,
    /// How many of its jobs have ended.
    ends: AtomicU64,
    /// Whether the owner waits for each end.
    pub(crate) wants_each: AtomicBool,
    /// The owner waits here.
    pub(crate) owner: Waiting,
    /// Those who sleep in the scope wait here for its cancel.
    pub(crate) sleepers: Waiting,
    /// What else its cancel wakes or calls.
    pub(crate) links: Links,
}

impl Bell {
    pub(crate) fn new(scope: u32, owned_by: u32, outer: Option<Arc<Bell>>) -> Bell {
        Bell { scope, owned_by, outer, ..Bell::default() }
    }

    /// Why the scope is cancelled, if it is.
    pub(crate) fn cause(&self) -> Option<Cause> {
        Cause::unpacked(self.cut.load(Ordering::Acquire))
    }

    pub(crate) fn cut(&self, cause: Cause) {
        self.cut.store(cause.packed(), Ordering::Release);
    }

    pub(crate) fn is_cut(&self) -> bool {
        self.cut.load(Ordering::Acquire) != 0
    }

    /// The cancel that is handed to its actor: the block that it came from may end with it.
    pub(crate) fn handed(&self, actor: u32, cause: Cause) -> Cancelled {
        let mut next = Some(self);
        while let Some(bell) = next {
            if bell.owned_by == actor && bell.scope == cause.scope().0 {
                bell.was_handed.store(true, Ordering::Relaxed);
                break;
            }
            next = bell.outer.as_deref();
        }
        Cancelled { cause }
    }

    /// One more of its jobs has ended: how many have by now.
    pub(crate) fn next_end(&self) -> u64 {
        self.ends.fetch_add(1, Ordering::AcqRel) + 1
    }

    /// The joiner fired by the failure of this task.
    pub(crate) fn fired_by(&self, task: u32) {
        self.first_failed.store(task, Ordering::Release);
    }

    /// Keeps what a task left and nobody took, if the block may end with it.
    pub(crate) fn keep(&self, task: u32, kept: Kept) {
        if !self.is_cut() || self.first_failed.load(Ordering::Acquire) == task {
            self.has_kept.store(true, Ordering::Relaxed);
            locked(&self.kept).push((task, kept));
        }
    }

    /// What was kept of that task.
    pub(crate) fn kept_of(&self, task: u32) -> Option<Kept> {
        let mut kept = locked(&self.kept);
        let at = kept.iter().position(|(one, _)| *one == task)?;
        Some(kept.swap_remove(at).1)
    }

    /// The block has ended: forgets what users gave it. A panic of its drop is swallowed.
    pub(crate) fn clear(&self) {
        if !self.has_kept.load(Ordering::Relaxed) && !self.links.were_used() {
            return;
        }
        let kept = mem::take(&mut *locked(&self.kept));
        kept.into_iter().for_each(|one| swallow(|| drop(one)));
        self.links.clear();
    }

    /// Wakes all who wait in the scope, so that they look again. The realm's lock is held; what is to be done once it is
    /// free is returned.
    pub(crate) fn ring(&self, is_cancel: bool) -> Vec<Link> {
        self.owner.ring();
        self.sleepers.ring();
        self.links.ring(is_cancel)
    }
}

/// Threads wait here with the realm's lock. A ring for which nobody waits makes no system call.
#[derive(Default)]
pub(crate) struct Waiting {
    wakes: Condvar,
    /// How many wait, and how many of them sleep: written under the realm's lock.
    count: AtomicUsize,
    asleep: AtomicUsize,
    /// How often it rang, for those who spin.
    rings: AtomicU32,
}

impl Waiting {
    /// Waits, at most so long. It spins alone the first time, and sleeps from the second on, if `has_spun` is handed.
    pub(crate) fn wait<'lock, T>(
        &self,
        mutex: &'lock Mutex<T>,
        guard: MutexGuard<'lock, T>,
        limit: Option<Duration>,
        has_spun: Option<&mut bool>,
    ) -> MutexGuard<'lock, T> {
        self.count.fetch_add(1, Ordering::Relaxed);
        let spins = has_spun.is_some_and(|has_spun| !mem::replace(has_spun, true));
        let guard = if spins {
            let rings = self.rings.load(Ordering::Relaxed);
            drop(guard);
            spin_until(|| self.rings.load(Ordering::Acquire) != rings);
            locked(mutex)
        } else {
            self.asleep.fetch_add(1, Ordering::Relaxed);
            let guard = match limit {
                None => self.wakes.wait(guard).unwrap_or_else(PoisonError::into_inner),
                Some(limit) => self.wakes.wait_timeout(guard, limit).unwrap_or_else(PoisonError::into_inner).0,
            };
            self.asleep.fetch_sub(1, Ordering::Relaxed);
            guard
        };
        self.count.fetch_sub(1, Ordering::Relaxed);
        guard
    }

    /// Whether somebody waits. The lock is held.
    pub(crate) fn is_waited(&self) -> bool {
        self.count.load(Ordering::Relaxed) > 0
    }

    /// Wakes all. The lock is held.
    pub(crate) fn ring(&self) {
        if self.is_waited() {
            self.rings.fetch_add(1, Ordering::Release);
            if self.asleep.load(Ordering::Relaxed) > 0 {
                self.wakes.notify_all();
            }
        }
    }
}

/// Wakes the owner of a scope when it is dropped: what it waits for has come.
pub(crate) struct Wake {
    bell: Arc<Bell>,
    /// Whether the owner slept when this was made, under the lock: one that sleeps later has seen the end.
    sleeps: bool,
}

impl Wake {
    /// The lock is held.
    pub(crate) fn new(bell: &Arc<Bell>) -> Wake {
        Wake { bell: Arc::clone(bell), sleeps: bell.owner.asleep.load(Ordering::Relaxed) > 0 }
    }
}

impl Drop for Wake {
    fn drop(&mut self) {
        self.bell.owner.rings.fetch_add(1, Ordering::Release);
        if self.sleeps {
            self.bell.owner.wakes.notify_one();
        }
    }
}
