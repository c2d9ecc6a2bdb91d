//! A server of requests, and its stop.

use crate::canceller::Canceller;
use crate::context::Context;
use crate::observer::Observer;
use crate::options::{Joiner, Options};
use crate::outcome::ScopeError;
use crate::pool::Pool;
use crate::realm::{Limits, Realm};
use crate::refusal::Refusal;
use crate::task::swallow;
use crate::waiting::locked;
use std::fmt;
use std::sync::{Arc, Condvar, Mutex, PoisonError};
use std::time::{Duration, Instant};

/// A stop from outside, with a grace for what still runs.
///
/// ```
/// use balkreyn::{Server, Stop};
/// use std::time::Duration;
///
/// let server = Server::new().unwrap();
/// let stop = server.stop();
/// assert_eq!(server.request(|_| 1), Some(1));
/// assert!(stop.finish(Duration::from_secs(9)));
/// assert_eq!(server.request(|_| 2), None);
/// ```
#[derive(Clone, Default)]
pub struct Stop {
    shared: Arc<Stopping>,
}

#[derive(Default)]
struct Stopping {
    state: Mutex<State>,
    left: Condvar,
    canceller: Canceller,
}

#[derive(Default)]
struct State {
    has_begun: bool,
    /// How many run that a stop waits for.
    inside: usize,
    hooks: Vec<Box<dyn FnOnce() + Send>>,
}

/// One that a stop waits for, until its drop.
struct Inside<'a>(&'a Stop);

impl Drop for Inside<'_> {
    fn drop(&mut self) {
        let mut state = locked(&self.0.shared.state);
        state.inside -= 1;
        let is_last = state.inside == 0 && state.has_begun;
        drop(state);
        if is_last {
            self.0.shared.left.notify_all();
        }
    }
}

impl Stop {
    /// A stop that has not begun.
    #[must_use]
    pub fn new() -> Stop {
        Stop::default()
    }

    /// Begins to stop: nothing more begins under it, and what runs goes on. Whether this was the first call.
    pub fn begin(&self) -> bool {
        let mut state = locked(&self.shared.state);
        let is_first = !std::mem::replace(&mut state.has_begun, true);
        let hooks = std::mem::take(&mut state.hooks);
        drop(state);
        hooks.into_iter().for_each(swallow);
        is_first
    }

    /// Whether it has begun.
    #[must_use]
    pub fn has_begun(&self) -> bool {
        locked(&self.shared.state).has_begun
    }

    /// Has the begin of the stop make this call: it may wake a thread that accepts connections. At once, if it has
    /// begun. Its panic is swallowed.
    pub fn on_begin(&self, call: impl FnOnce() + Send + 'static) {
        let mut state = locked(&self.shared.state);
        if state.has_begun {
            drop(state);
            swallow(call);
        } else {
            state.hooks.push(Box::new(call));
        }
    }

    /// Begins to stop, waits for what runs under it, cancels what still runs after the grace, and waits for its end:
    /// whether all had ended by themselves. What runs under it must not call this, as it would wait for itself.
    pub fn finish(&self, grace: Duration) -> bool {
        self.begin();
        let end = Instant::now().checked_add(grace);
        let mut state = locked(&self.shared.state);
        while state.inside > 0 {
            let left = end.map(|end| end.saturating_duration_since(Instant::now()));
            state = match left {
                None => self.shared.left.wait(state).unwrap_or_else(PoisonError::into_inner),
                Some(left) if left.is_zero() => break,
                Some(left) => self.shared.left.wait_timeout(state, left).unwrap_or_else(PoisonError::into_inner).0,
            };
        }
        let in_time = state.inside == 0;
        drop(state);
        self.shared.canceller.cancel();
        let mut state = locked(&self.shared.state);
        while state.inside > 0 {
            state = self.shared.left.wait(state).unwrap_or_else(PoisonError::into_inner);
        }
        in_time
    }

    /// Runs the body under this stop, in a scope that is cancelled after the grace. `None` once the stop has begun.
    ///
    /// # Errors
    /// The refusal to open the scope.
    pub fn run<R>(&self, cx: &Context, body: impl FnOnce(&Context) -> R) -> Result<Option<R>, Refusal> {
        let mut state = locked(&self.shared.state);
        if state.has_begun {
            return Ok(None);
        }
        state.inside += 1;
        drop(state);
        let _inside = Inside(self);
        match cx.scope(Options::new(Joiner::Await).cancelled_by(&self.shared.canceller), |_| body(cx)) {
            Ok(value) | Err(ScopeError::NotJoined(value)) => Ok(Some(value)),
            Err(ScopeError::Refused(refusal)) => Err(refusal),
        }
    }
}

impl fmt::Debug for Stop {
    fn fmt(&self, out: &mut fmt::Formatter<'_>) -> fmt::Result {
        out.debug_struct("Stop").field("has_begun", &self.has_begun()).finish_non_exhaustive()
    }
}

/// Serves requests, each in a realm of its own: so its limits are those of one request, no two share a lock, and it
/// serves for ever in the same memory. Any number of threads may serve at a time.
///
/// ```
/// use balkreyn::{Context, Refusal, Server};
///
/// let server = Server::new()?;
/// let answer = server.request(|cx| cx.all((1..=4).map(|n| move |_: &Context| Ok::<_, Refusal>(n))));
/// assert_eq!(answer, Some(Ok(vec![1, 2, 3, 4])));
/// # Ok::<(), Refusal>(())
/// ```
#[must_use]
pub struct Server {
    limits: Limits,
    pool: Pool,
    observer: Option<Arc<dyn Observer>>,
    stop: Stop,
}

impl Server {
    /// A server whose requests have the greatest limits.
    ///
    /// # Errors
    /// As [`Realm::new`].
    pub fn new() -> Result<Server, Refusal> {
        Server::with_limits(Limits::default())
    }

    /// A server whose requests have these limits.
    ///
    /// # Errors
    /// As [`Realm::with_limits`]; [`Refusal::BadLimit`] also where no scope may be opened by them.
    pub fn with_limits(limits: Limits) -> Result<Server, Refusal> {
        // What is refused to this one would be refused to each request.
        let opened = Realm::with_limits(limits)?.run(|cx| cx.scope(Joiner::Await, |_| ()));
        opened.map_err(|error| match error.refusal() {
            Refusal::TooMany => Refusal::BadLimit,
            refusal => refusal,
        })?;
        Ok(Server { limits, pool: Pool::of_all(), observer: None, stop: Stop::new() })
    }

    /// The server, whose jobs run on threads of this pool.
    pub fn on(mut self, pool: &Pool) -> Server {
        self.pool = pool.clone();
        self
    }

    /// The server, of which this hears what happens.
    pub fn observed(mut self, observer: impl Observer + 'static) -> Server {
        self.observer = Some(Arc::new(observer));
        self
    }

    /// Serves one request: runs the body on this thread, as main of a realm of its own, in a scope that the stop cancels
    /// after its grace. `None` once the stop has begun. If memory is refused for the realm, the program ends, as Rust's
    /// own allocations end it.
    pub fn request<R>(&self, body: impl FnOnce(&Context) -> R) -> Option<R> {
        let mut realm = match Realm::with_limits(self.limits) {
            Ok(realm) => realm.on(&self.pool),
            Err(_) => std::alloc::handle_alloc_error(std::alloc::Layout::new::<Realm>()),
        };
        if let Some(observer) = &self.observer {
            realm = realm.observed_by(Arc::clone(observer));
        }
        // The limits were tried in `with_limits`.
        realm.run(|cx| self.stop.run(cx, body)).unwrap_or(None)
    }

    /// The stop of this server, for any thread.
    #[must_use]
    pub fn stop(&self) -> Stop {
        self.stop.clone()
    }
}

impl fmt::Debug for Server {
    fn fmt(&self, out: &mut fmt::Formatter<'_>) -> fmt::Result {
        out.debug_struct("Server").field("limits", &self.limits).finish_non_exhaustive()
    }
}
