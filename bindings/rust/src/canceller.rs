//! Cancels of scopes from any thread.

use crate::waiting::locked;
use std::collections::HashMap;
use std::fmt;
use std::sync::{Arc, Mutex, Weak};

/// Cancels scopes, from any thread: who cancels is nobody's own act by the rules. It may be made before its scopes
/// ([`Options::cancelled_by`](crate::Options::cancelled_by)); one that cancelled already cancels them as they open.
///
/// ```
/// use balkreyn::{Canceller, Joiner, Options, Realm, Refusal};
/// use std::time::Duration;
///
/// let canceller = Canceller::new();
/// let by_another = canceller.clone();
/// std::thread::spawn(move || by_another.cancel());
/// let slept = Realm::new()?.run(|cx| {
///     let options = Options::new(Joiner::Await).cancelled_by(&canceller);
///     cx.maybe_scope(options, |_| Ok::<_, Refusal>(cx.sleep(Duration::from_secs(9))?))
/// })?;
/// assert_eq!(slept, None);
/// assert!(!canceller.cancel());
/// # Ok::<(), Refusal>(())
/// ```
#[derive(Clone, Default)]
#[must_use]
pub struct Canceller {
    state: Arc<Mutex<State>>,
}

#[derive(Default)]
struct State {
    has_cancelled: bool,
    /// The open scopes that it cancels, by the address of their realm and their number.
    scopes: HashMap<(usize, u32), Weak<dyn Cancels>>,
}

/// A realm, whatever kind its jobs are of.
pub trait Cancels: Send + Sync {
    /// Cancels the scope: whether it was neither cancelled nor closing before.
    fn cancel(&self, scope: u32) -> bool;
}

fn key_of<C>(realm: &Arc<C>, scope: u32) -> (usize, u32) {
    (Arc::as_ptr(realm) as usize, scope)
}

impl Canceller {
    /// A canceller that no scope knows yet.
    pub fn new() -> Canceller {
        Canceller::default()
    }

    #[doc(hidden)]
    pub fn of_scope<C: Cancels + 'static>(realm: &Arc<C>, scope: u32) -> Canceller {
        let canceller = Canceller::new();
        canceller.attach(realm, scope);
        canceller
    }

    /// Cancels the scope too, at once if it cancelled others already.
    #[doc(hidden)]
    pub fn attach<C: Cancels + 'static>(&self, realm: &Arc<C>, scope: u32) {
        let mut state = locked(&self.state);
        let held: Arc<dyn Cancels> = Arc::clone(realm) as _;
        state.scopes.insert(key_of(realm, scope), Arc::downgrade(&held));
        let has_cancelled = state.has_cancelled;
        drop(state);
        if has_cancelled {
            realm.cancel(scope);
        }
    }

    /// The scope is closed.
    #[doc(hidden)]
    pub fn detach<C>(&self, realm: &Arc<C>, scope: u32) {
        locked(&self.state).scopes.remove(&key_of(realm, scope));
    }

    /// Cancels its scopes, those to come too: whether one of them was not cancelled before, or this was the first call
    /// and there is none. A scope that is closing or closed is cancelled already.
    pub fn cancel(&self) -> bool {
        let mut state = locked(&self.state);
        let is_first = !std::mem::replace(&mut state.has_cancelled, true);
        let scopes: Vec<_> = state.scopes.iter().map(|((_, scope), realm)| (*scope, Weak::clone(realm))).collect();
        drop(state);
        let has_none = scopes.is_empty();
        let cancelled = scopes.into_iter().filter(|(scope, realm)| realm.upgrade().is_some_and(|it| it.cancel(*scope)));
        cancelled.count() > 0 || (is_first && has_none)
    }

    /// Whether it was called.
    #[must_use]
    pub fn has_cancelled(&self) -> bool {
        locked(&self.state).has_cancelled
    }
}

impl fmt::Debug for Canceller {
    fn fmt(&self, out: &mut fmt::Formatter<'_>) -> fmt::Result {
        out.debug_struct("Canceller").field("has_cancelled", &self.has_cancelled()).finish_non_exhaustive()
    }
}
