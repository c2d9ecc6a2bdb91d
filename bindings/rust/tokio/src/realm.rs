//! A realm of scopes.

use crate::actor::Actor;
use crate::bell::Bell;
use crate::block::Ended;
use crate::context::Context;
use crate::lane::{Finished, Lane, MAIN};
use crate::look::Look;
use crate::root::{Kind, Root};
use balkreyn::host::Cancels;
use balkreyn::{Cancelled, Joiner, Limits, Observer, Refusal};
use std::fmt;
use std::future::poll_fn;
use std::panic::resume_unwind;
use std::pin::pin;
use std::sync::Arc;
use std::task::{Poll, ready};
use tokio::runtime::Handle;

/// A realm of task scopes: one book, whose rules are proved, and the jobs that act in it. It is the plain way for one
/// task of scopes; an [`Intake`](crate::Intake) takes requests.
///
/// ```
/// # use balkreyn_tokio::{Realm, Refusal};
/// # tokio::runtime::Runtime::new().unwrap().block_on(async {
/// let mut realm = Realm::new()?;
/// let squares = realm.run(async |cx| {
///     cx.map_at_most(4, 0..10, |n| async move { Ok::<_, Refusal>(n * n) }).await
/// });
/// assert_eq!(squares.await?[9], 81);
/// # Ok::<(), Refusal>(())
/// # }).unwrap();
/// ```
#[must_use]
pub struct Realm {
    lane: Arc<Lane>,
    base: Arc<Bell>,
}

impl Realm {
    /// A realm with the greatest limits, whose jobs run on the runtime of the caller.
    ///
    /// # Errors
    /// [`Refusal::Memory`], or [`Refusal::OtherInterface`] where another library was linked.
    ///
    /// # Panics
    /// Outside of a runtime of tokio.
    pub fn new() -> Result<Realm, Refusal> {
        Realm::with_limits(Limits::default())
    }

    /// A realm with these limits.
    ///
    /// # Errors
    /// As [`Realm::new`], and [`Refusal::BadLimit`] where a limit is out of its range.
    ///
    /// # Panics
    /// As [`Realm::new`].
    pub fn with_limits(limits: Limits) -> Result<Realm, Refusal> {
        Realm::of(Lane::new(limits, Handle::current(), None, None, None)?)
    }

    fn of(lane: Lane) -> Result<Realm, Refusal> {
        Ok(Realm { lane: Arc::new(lane), base: Arc::default() })
    }

    /// The realm, of which this hears what happens. Call it before the first [`Realm::run`].
    pub fn observed(self, observer: impl Observer + 'static) -> Realm {
        self.with(|lane| lane.observer = Some(Arc::new(observer)))
    }

    /// The realm, which notes each call from now on with the answer that was given: [`Look::notes`] reads them. Call
    /// it before the first [`Realm::run`], as the notes are a script from its start. They grow as long as the realm
    /// lives, and each look at a mark takes the lock.
    pub fn noted(self) -> Realm {
        self.with(|lane| lane.begin_notes(Finished::default()))
    }

    fn with(mut self, change: impl FnOnce(&mut Lane)) -> Realm {
        if let Some(lane) = Arc::get_mut(&mut self.lane) {
            change(lane);
        }
        self
    }

    /// Runs the body as main of the realm. Where this future is dropped, the blocks of the body begin to close at once,
    /// and a task of the runtime ends them.
    pub async fn run<R>(&mut self, body: impl AsyncFnOnce(&Context) -> R) -> R {
        let cx = Context(Arc::new(Actor::new(Arc::clone(&self.lane), MAIN, 0, Arc::clone(&self.base))));
        let mut root = Root::new(Arc::clone(&cx.0), Kind::Main);
        let ended = {
            let mut running = pin!(body(&cx));
            poll_fn(|context| root.poll_body(running.as_mut(), context)).await
        };
        poll_fn(|context| root.poll_end(context)).await;
        match ended {
            Ended::Value(value) => value,
            Ended::Panic(panic) => resume_unwind(panic),
            Ended::Cut(_) => unreachable!("no scope is around main"),
        }
    }

    /// A look at the realm, for any thread.
    #[must_use]
    pub fn look(&self) -> Look {
        Look::of(&self.lane)
    }
}

impl fmt::Debug for Realm {
    fn fmt(&self, out: &mut fmt::Formatter<'_>) -> fmt::Result {
        out.debug_struct("Realm").finish_non_exhaustive()
    }
}

impl Context {
    /// Runs the body as main of a realm of its own, whose limits count anew. What cancels the caller cancels it, at the
    /// same deadline too; it sees the caller's bindings. So a loop that opens scopes may run for ever, with a realm a
    /// round. Where this future is dropped, the block around the caller waits for what is left in the realm.
    ///
    /// ```
    /// use balkreyn_tokio::{Context, Joiner, Realm, Refusal};
    ///
    /// # tokio::runtime::Runtime::new().unwrap().block_on(async {
    /// Realm::new()?.run(async |cx| {
    ///     for _ in 0..10_000 {
    ///         cx.in_own_realm(async |cx| cx.try_scope(Joiner::All, async |s| s.join().await.map(drop)).await).await?;
    ///     }
    ///     Ok::<_, Refusal>(())
    /// })
    /// .await
    /// # }).unwrap();
    /// ```
    ///
    /// # Errors
    /// The body's; or else [`Refusal::Memory`]; [`Refusal::Elsewhere`]; [`Refusal::Beside`].
    pub async fn in_own_realm<T, E>(&self, body: impl AsyncFnOnce(&Context) -> Result<T, E>) -> Result<T, E>
    where
        E: From<Refusal> + From<Cancelled> + 'static,
    {
        /// Takes the frame away on every way out.
        struct Framed<'a>(&'a Actor, Arc<Bell>);
        impl Drop for Framed<'_> {
            fn drop(&mut self) {
                self.0.leave(&self.1);
            }
        }
        let (outside, bell) = (&self.0, self.0.innermost());
        let in_top = poll_fn(|context| {
            outside.acts_here()?;
            ready!(outside.poll_close_left(context));
            Poll::Ready(outside.acts_in_top())
        });
        in_top.await.map_err(|refusal| outside.lane.refused(refusal))?;
        let (limits, runtime, observer) =
            (outside.lane.limits, outside.lane.runtime.clone(), outside.lane.observer.clone());
        let lane = Arc::new(Lane::new(limits, runtime, observer, None, Some(Arc::clone(outside)))?);
        let cx = Context(Arc::new(Actor::new(Arc::clone(&lane), MAIN, 0, Arc::default())));
        let framed = Framed(outside, Arc::new(Bell::of_guest(outside.id, outside.top())));
        outside.push(&framed.1);
        let mut root = Root::new(Arc::clone(&cx.0), Kind::Guest(Arc::clone(outside), bell));
        let ended = {
            let mut running = pin!(cx.try_scope(Joiner::Await, async |s| {
                let (weak, scope) = (Arc::downgrade(&lane), s.bell.scope);
                let _linked = self.on_cancel(move || {
                    if let Some(lane) = weak.upgrade() {
                        lane.cancel(scope);
                    }
                });
                body(&cx).await
            }));
            poll_fn(|context| root.poll_body(running.as_mut(), context)).await
        };
        poll_fn(|context| root.poll_end(context)).await;
        drop(framed);
        // The body may have been handed this cancel, by another name.
        let own = self.checkpoint();
        match ended {
            Ended::Value(Err(_)) if own.is_err() => Err(own.map_or_else(E::from, |()| unreachable!("it is an error"))),
            Ended::Value(result) => result,
            Ended::Panic(panic) => resume_unwind(panic),
            Ended::Cut(cancelled) => Err(E::from(cancelled)),
        }
    }
}
