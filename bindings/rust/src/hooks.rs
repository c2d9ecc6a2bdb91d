//! What a cancel calls and wakes, beside those who wait with the realm's lock.

use crate::shared::Shared;
use crate::task::swallow;
use crate::waiting::{Bell, locked};
use std::fmt;
use std::mem;
use std::sync::atomic::{AtomicBool, AtomicU64, Ordering};
use std::sync::{Arc, Condvar, Mutex, PoisonError};
use std::thread::{self, Thread, ThreadId};

/// What a cancel of a scope reaches, each under a number.
#[derive(Default)]
pub(crate) struct Links(Mutex<Vec<(u64, Link)>>, AtomicBool);

#[derive(Clone)]
pub(crate) enum Link {
    /// A thread that is parked, or will be.
    Parked(Thread),
    /// A call of a user.
    Call(Arc<Call>),
    /// The outermost scope of a realm inside.
    Inside(Arc<Shared>, u32),
}

impl Links {
    /// Adds a link: its number.
    pub(crate) fn add(&self, link: Link) -> u64 {
        static NEXT: AtomicU64 = AtomicU64::new(0);
        let number = NEXT.fetch_add(1, Ordering::Relaxed);
        self.1.store(true, Ordering::Relaxed);
        locked(&self.0).push((number, link));
        number
    }

    /// Whether there ever was one, for who comes behind all those who add some.
    pub(crate) fn were_used(&self) -> bool {
        self.1.load(Ordering::Relaxed)
    }

    /// Takes a link away, if it is still there.
    pub(crate) fn remove(&self, number: u64) {
        locked(&self.0).retain(|(other, _)| *other != number);
    }

    /// Forgets them all. The drop of a call may panic, which is swallowed.
    pub(crate) fn clear(&self) {
        let links = mem::take(&mut *locked(&self.0));
        links.into_iter().for_each(|link| swallow(|| drop(link)));
    }

    /// Wakes the threads that are parked. What is to be done once the realm's lock is free is returned: by a cancel each
    /// link, by a move the realms inside.
    pub(crate) fn ring(&self, is_cancel: bool) -> Vec<Link> {
        let mut due = Vec::new();
        for (_, link) in locked(&self.0).iter() {
            match link {
                Link::Parked(thread) => thread.unpark(),
                Link::Call(_) if !is_cancel => {}
                _ => due.push(link.clone()),
            }
        }
        due
    }

    /// The realms inside.
    pub(crate) fn inside(&self) -> Vec<Arc<Shared>> {
        let links = locked(&self.0);
        links
            .iter()
            .filter_map(|(_, link)| if let Link::Inside(shared, _) = link { Some(Arc::clone(shared)) } else { None })
            .collect()
    }
}

/// A call that a cancel makes once, and never once its [`Hook`] was dropped.
pub struct Call {
    stage: Mutex<Stage>,
    ended: Condvar,
}

enum Stage {
    Waits(Box<dyn FnOnce() + Send>),
    Runs(ThreadId),
    Over,
}

impl Call {
    /// A call that was not made yet.
    pub fn new(call: impl FnOnce() + Send + 'static) -> Arc<Call> {
        Arc::new(Call { stage: Mutex::new(Stage::Waits(Box::new(call))), ended: Condvar::new() })
    }

    /// Makes the call, unless it was made or taken away. Its panic is swallowed: the cancel goes on.
    pub fn make(&self) {
        let mut stage = locked(&self.stage);
        if let Stage::Waits(_) = *stage {
            let Stage::Waits(call) = mem::replace(&mut *stage, Stage::Runs(thread::current().id())) else { return };
            drop(stage);
            swallow(call);
            *locked(&self.stage) = Stage::Over;
            self.ended.notify_all();
        }
    }

    /// Takes the call away; where another thread is making it, waits until it was made.
    pub fn end(&self) {
        let mut stage = locked(&self.stage);
        while matches!(*stage, Stage::Runs(thread) if thread != thread::current().id()) {
            stage = self.ended.wait(stage).unwrap_or_else(PoisonError::into_inner);
        }
        if let Stage::Waits(_) = *stage {
            let call = mem::replace(&mut *stage, Stage::Over);
            drop(stage);
            drop(call);
        }
    }
}

/// What a cancel calls ([`Context::on_cancel`](crate::Context::on_cancel)). Its drop takes it away: the call was made
/// by then, or never is. Where another thread is making it, the drop waits for its end.
///
/// ```
/// use balkreyn::{Joiner, Realm, Refusal};
/// use std::sync::atomic::{AtomicU32, Ordering};
/// use std::sync::Arc;
///
/// let calls = Arc::new(AtomicU32::new(0));
/// let count = |calls: &Arc<AtomicU32>| {
///     let calls = Arc::clone(calls);
///     move || drop(calls.fetch_add(1, Ordering::Relaxed))
/// };
/// Realm::new()?.run(|cx| {
///     cx.scope(Joiner::All, |s| {
///         drop(cx.on_cancel(count(&calls)));
///         let _hook = cx.on_cancel(count(&calls));
///         s.cancel();
///         assert_eq!(calls.load(Ordering::Relaxed), 1);
///     })
/// })?;
/// # Ok::<(), Refusal>(())
/// ```
#[must_use = "its drop takes the call away"]
pub struct Hook {
    call: Arc<Call>,
    of: Option<(Arc<Bell>, u64)>,
}

impl Hook {
    pub(crate) fn new(call: Arc<Call>, of: Option<(Arc<Bell>, u64)>) -> Hook {
        Hook { call, of }
    }
}

impl Drop for Hook {
    fn drop(&mut self) {
        if let Some((bell, number)) = &self.of {
            bell.links.remove(*number);
        }
        self.call.end();
    }
}

impl fmt::Debug for Hook {
    fn fmt(&self, out: &mut fmt::Formatter<'_>) -> fmt::Result {
        out.debug_struct("Hook").finish_non_exhaustive()
    }
}
