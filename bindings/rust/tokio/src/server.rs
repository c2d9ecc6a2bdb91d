//! A server of requests, and its stop.

use crate::context::Context;
use crate::intake::{Intake, Need};
use balkreyn::host::{locked, swallow};
use balkreyn::{Canceller, Joiner, Observer, Options, Refusal, ScopeError};
use std::fmt;
use std::sync::{Arc, Mutex};
use std::time::Duration;
use tokio::sync::Notify;

/// A stop from outside, with a grace for what still runs.
///
/// ```
/// use balkreyn_tokio::{Need, Server};
/// use std::time::Duration;
///
/// # tokio::runtime::Runtime::new().unwrap().block_on(async {
/// let server = Server::new();
/// let stop = server.stop();
/// assert_eq!(server.request(Need::default(), async |_| 1).await, Ok(Some(1)));
/// assert!(stop.finish(Duration::from_secs(9)).await);
/// assert_eq!(server.request(Need::default(), async |_| 2).await, Ok(None));
/// # });
/// ```
#[derive(Clone, Default)]
pub struct Stop {
    shared: Arc<Stopping>,
}

#[derive(Default)]
struct Stopping {
    state: Mutex<State>,
    left: Notify,
    canceller: Canceller,
}

#[derive(Default)]
struct State {
    has_begun: bool,
    /// How many run that a stop waits for.
    inside: usize,
    hooks: Vec<Box<dyn FnOnce() + Send>>,
}

/// One that a stop waits for, until its drop.
struct Inside<'a>(&'a Stop);

impl Drop for Inside<'_> {
    fn drop(&mut self) {
        let mut state = locked(&self.0.shared.state);
        state.inside -= 1;
        let is_last = state.inside == 0 && state.has_begun;
        drop(state);
        if is_last {
            self.0.shared.left.notify_waiters();
        }
    }
}

impl Stop {
    /// A stop that has not begun.
    #[must_use]
    pub fn new() -> Stop {
        Stop::default()
    }

    /// Begins to stop: nothing more begins under it, and what runs goes on. Whether this was the first call.
    pub fn begin(&self) -> bool {
        let mut state = locked(&self.shared.state);
        let is_first = !std::mem::replace(&mut state.has_begun, true);
        let hooks = std::mem::take(&mut state.hooks);
        drop(state);
        hooks.into_iter().for_each(swallow);
        is_first
    }

    /// Whether it has begun.
    #[must_use]
    pub fn has_begun(&self) -> bool {
        locked(&self.shared.state).has_begun
    }

    /// Has the begin of the stop make this call: it may wake who accepts connections. At once, if it has begun. Its
    /// panic is swallowed.
    pub fn on_begin(&self, call: impl FnOnce() + Send + 'static) {
        let mut state = locked(&self.shared.state);
        if state.has_begun {
            drop(state);
            swallow(call);
        } else {
            state.hooks.push(Box::new(call));
        }
    }

    /// Begins to stop, waits for what runs under it, cancels what still runs after the grace, and waits for its end:
    /// whether all had ended by themselves. What runs under it must not await this, as it would wait for itself.
    pub async fn finish(&self, grace: Duration) -> bool {
        self.begin();
        let in_time = tokio::time::timeout(grace, self.quiet()).await.is_ok();
        self.shared.canceller.cancel();
        self.quiet().await;
        in_time
    }

    async fn quiet(&self) {
        loop {
            let left = self.shared.left.notified();
            if locked(&self.shared.state).inside == 0 {
                return;
            }
            left.await;
        }
    }

    /// Runs the body under this stop, in a scope that is cancelled after the grace: the body is dropped at an await then,
    /// and the error is [`Refusal::Cancelled`]. `None` once the stop has begun.
    ///
    /// # Errors
    /// The refusal to open the scope, and what is said above.
    pub async fn run<R>(&self, cx: &Context, body: impl AsyncFnOnce(&Context) -> R) -> Result<Option<R>, Refusal> {
        let is_late = {
            let mut state = locked(&self.shared.state);
            state.inside += usize::from(!state.has_begun);
            state.has_begun
        };
        if is_late {
            return Ok(None);
        }
        let _inside = Inside(self);
        let options = Options::new(Joiner::Await).cancelled_by(&self.shared.canceller);
        match cx.scope_cut(options, async |_| body(cx).await).await {
            Ok(value) | Err(ScopeError::NotJoined(value)) => Ok(Some(value)),
            Err(ScopeError::Refused(refusal)) => Err(refusal),
        }
    }
}

impl fmt::Debug for Stop {
    fn fmt(&self, out: &mut fmt::Formatter<'_>) -> fmt::Result {
        out.debug_struct("Stop").field("has_begun", &self.has_begun()).finish_non_exhaustive()
    }
}

/// Serves requests: an [`Intake`] with a stop.
///
/// ```
/// use balkreyn_tokio::{Need, Refusal, Server};
///
/// # tokio::runtime::Runtime::new().unwrap().block_on(async {
/// let server = Server::new();
/// let answer = server.request(Need::default(), async |cx| {
///     cx.all((1..=4).map(|n| async move { Ok::<_, Refusal>(n) })).await
/// });
/// assert_eq!(answer.await?, Some(Ok(vec![1, 2, 3, 4])));
/// # Ok::<(), Refusal>(())
/// # }).unwrap();
/// ```
#[derive(Default)]
#[must_use]
pub struct Server {
    intake: Intake,
    stop: Stop,
}

impl Server {
    /// A server without requests.
    pub fn new() -> Server {
        Server::default()
    }

    /// The server, of which this hears what happens.
    pub fn observed(self, observer: impl Observer + 'static) -> Server {
        Server { intake: self.intake.observed(observer), ..self }
    }

    /// Serves one request, which the stop cancels after its grace. `None` once the stop has begun. The scope that the
    /// stop cancels is one more than the need says.
    ///
    /// # Errors
    /// As [`Intake::run`]; [`Refusal::Cancelled`] also after the grace.
    pub async fn request<R>(&self, need: Need, body: impl AsyncFnOnce(&Context) -> R) -> Result<Option<R>, Refusal> {
        self.intake.run(need.and_scope(), async |cx| self.stop.run(cx, body).await).await?
    }

    /// Waits until no request lives, those included whose futures were dropped.
    pub async fn quiet(&self) {
        self.intake.quiet().await;
    }

    /// The stop of this server.
    #[must_use]
    pub fn stop(&self) -> Stop {
        self.stop.clone()
    }
}

impl fmt::Debug for Server {
    fn fmt(&self, out: &mut fmt::Formatter<'_>) -> fmt::Result {
        out.debug_struct("Server").field("intake", &self.intake).finish_non_exhaustive()
    }
}
