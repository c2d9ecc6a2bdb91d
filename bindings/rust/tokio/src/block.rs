//! Scopes as blocks: what a block gives, on each way out.

use crate::bell::{Bell, Kept};
use crate::context::Context;
use crate::scope::Scope;
use balkreyn::{Cancelled, Joiner, Options, Outcome, Refusal, ScopeError, ScopeId};
use pin_project_lite::pin_project;
use std::any::Any;
use std::future::{Future, poll_fn};
use std::panic::resume_unwind;
use std::pin::{Pin, pin};
use std::sync::Arc;
use std::task::{Context as Polling, Poll, Waker, ready};
use std::time::Duration;

/// How a body ended.
pub(crate) enum Ended<R> {
    Value(R),
    /// It was dropped at an await, as its scope was cancelled.
    Cut(Cancelled),
    Panic(Box<dyn Any + Send>),
}

/// What a block came to.
struct Block<R> {
    ended: Ended<R>,
    /// The outcome, where its own cancel was handed to the body.
    outcome: Option<Outcome>,
    verdict: Result<(), Refusal>,
    bell: Arc<Bell>,
}

/// The error of a body that its block's own cancel ended, with the outcome and the scope.
type OwnCancel<E> = (E, Outcome, ScopeId);

/// Opens a scope, runs the body, and closes the scope: [`Context::scope`].
///
/// ```
/// use balkreyn_tokio::{Joiner, Realm, Refusal, scope};
///
/// # tokio::runtime::Runtime::new().unwrap().block_on(async {
/// let seven = Realm::new()?.run(async |cx| {
///     scope(cx, Joiner::All, async |s| {
///         let seven = s.fork("seven", async move { Ok::<_, Refusal>(7) })?;
///         s.join().await?;
///         s.value(seven)
///     })
///     .await
/// })
/// .await;
/// assert_eq!(seven?, Ok(7));
/// # Ok::<(), Refusal>(())
/// # }).unwrap();
/// ```
///
/// # Errors
/// As [`Context::scope`].
pub fn scope<R, B>(cx: &Context, options: impl Into<Options>, body: B) -> impl Future<Output = Result<R, ScopeError<R>>>
where
    B: AsyncFnOnce(&Scope) -> R,
{
    cx.block(options.into(), None, body, plain)
}

/// What a plain block gives.
fn plain<R>(_: &Context, block: Result<Block<R>, Refusal>) -> Result<R, ScopeError<R>> {
    let Block { ended, verdict, bell, .. } = block.map_err(ScopeError::Refused)?;
    bell.clear();
    let value = match ended {
        Ended::Value(value) => value,
        Ended::Cut(cancelled) => return Err(ScopeError::Refused(Refusal::Cancelled(cancelled))),
        Ended::Panic(panic) => resume_unwind(panic),
    };
    match verdict {
        Ok(()) => Ok(value),
        Err(Refusal::NotJoined) => Err(ScopeError::NotJoined(value)),
        Err(refusal) => Err(ScopeError::Refused(refusal)),
    }
}

/// Where its own cancel ended the body, the inner error holds the body's, the outcome, and the scope.
fn absorbed<T, E>(cx: &Context, block: Result<Block<Result<T, E>>, Refusal>) -> Result<Result<T, OwnCancel<E>>, E>
where
    E: From<Refusal> + From<Cancelled> + 'static,
{
    let Block { ended, outcome, verdict, bell } = block?;
    let kept = match outcome {
        Some(Outcome::Failed(task)) => bell.kept_of(task.number()),
        _ => None,
    };
    bell.clear();
    let error = match ended {
        Ended::Value(Ok(value)) => return Ok(Ok(verdict.map(|()| value)?)),
        Ended::Value(Err(error)) => error,
        Ended::Cut(cancelled) => E::from(cancelled),
        Ended::Panic(panic) => resume_unwind(panic),
    };
    let Some(outcome) = outcome else { return Err(error) };
    if cx.checkpoint().is_err() {
        return Err(error);
    }
    match (outcome, kept) {
        (Outcome::Timeout, _) => Err(E::from(Refusal::TimedOut(bell.id()))),
        (Outcome::Failed(_), Some(Kept::Panic(panic))) => resume_unwind(panic),
        (Outcome::Failed(task), Some(Kept::Error(first))) => {
            Err(first.downcast().map_or_else(|_| E::from(Refusal::JobFailed(task)), |first| *first))
        }
        (Outcome::Failed(task), None) => Err(E::from(Refusal::JobFailed(task))),
        (outcome, _) => Ok(Err((error, outcome, bell.id()))),
    }
}

/// What a block gives whose error says what cancelled it.
fn tried<T, E>(cx: &Context, block: Result<Block<Result<T, E>>, Refusal>) -> Result<T, E>
where
    E: From<Refusal> + From<Cancelled> + 'static,
{
    absorbed(cx, block)?.map_err(|(error, outcome, scope)| match outcome {
        Outcome::Partial => E::from(Refusal::TimedOut(scope)),
        _ => error,
    })
}

/// What a block gives behind which its caller goes on.
fn gone_on<T, E>(cx: &Context, block: Result<Block<Result<T, E>>, Refusal>) -> Result<Option<T>, E>
where
    E: From<Refusal> + From<Cancelled> + 'static,
{
    match absorbed(cx, block)? {
        Ok(value) => Ok(Some(value)),
        Err((_, Outcome::Partial, _)) => Ok(None),
        Err((_, Outcome::Cancelled(from), scope)) if from == scope => Ok(None),
        Err((error, ..)) => Err(error),
    }
}

impl Context {
    /// Opens a scope, runs the body, and closes the scope on every way out of it: what still runs is cancelled, and
    /// its jobs have ended when this is ready.
    ///
    /// What the body returns is given as it is, so the body is not dropped for a cancel of its own scope: its waits
    /// end by it ([`Context::wait`], [`Scope::join`]). [`Context::try_scope`] knows more of results.
    ///
    /// # Errors
    /// [`ScopeError::Refused`] where the scope was not opened, and the body never ran; also [`Refusal::Beside`] where
    /// another block of the same job is open, and not around this one. [`ScopeError::NotJoined`] where jobs were forked
    /// and nobody joined them; it holds what the body returned.
    ///
    /// # Panics
    /// With the body's panic, once the scope is closed.
    pub fn scope<R, B>(&self, options: impl Into<Options>, body: B) -> impl Future<Output = Result<R, ScopeError<R>>>
    where
        B: AsyncFnOnce(&Scope) -> R,
    {
        self.block(options.into(), None, body, plain)
    }

    /// As [`Context::scope`], whose body is dropped for a cancel: [`ScopeError::Refused`] says so.
    pub(crate) fn scope_cut<R, B>(&self, options: Options, body: B) -> impl Future<Output = Result<R, ScopeError<R>>>
    where
        B: AsyncFnOnce(&Scope) -> R,
    {
        self.block(options, Some(|_| false), body, plain)
    }

    /// As [`Context::scope`], for a body that returns a `Result`: its error comes first, and a refusal becomes that
    /// error.
    ///
    /// **A cancel ends here, at its own block.** Where its scope is cancelled before it is joined, the body is dropped at
    /// its next await, or an await of this crate hands it a [`Cancelled`]. If that cancel came from this very scope, and
    /// the caller itself is not cancelled, the block's error says what cancelled it:
    ///
    /// - its deadline: [`Refusal::TimedOut`];
    /// - the first failure of a job: that error, if it has the type of the block's; its panic goes on; else
    ///   [`Refusal::JobFailed`];
    /// - a call of a canceller, or a success: the body's error as it is, or else [`Cancelled`].
    ///
    /// [`Context::maybe_scope`] goes on behind a deadline that moves on, and behind a call.
    ///
    /// ```
    /// use balkreyn_tokio::{Joiner, Options, Realm, Refusal};
    /// use std::time::Duration;
    ///
    /// # tokio::runtime::Runtime::new().unwrap().block_on(async {
    /// let long = Duration::from_secs(9);
    /// Realm::new()?.run(async |cx| {
    ///     let late = cx.try_scope(Options::new(Joiner::All).within(Duration::from_millis(5)), async |_| {
    ///         tokio::time::sleep(long).await;
    ///         Ok::<_, Refusal>(())
    ///     });
    ///     assert!(matches!(late.await, Err(Refusal::TimedOut(_))));
    ///     let failed = cx.try_scope(Joiner::All, async |s| {
    ///         s.fork("fails", async { Err::<(), _>(Refusal::BadName) })?;
    ///         tokio::time::sleep(long).await;
    ///         s.join().await
    ///     });
    ///     assert_eq!(failed.await, Err(Refusal::BadName));
    /// })
    /// .await;
    /// # Ok::<(), Refusal>(())
    /// # }).unwrap();
    /// ```
    ///
    /// # Errors
    /// The body's, or what is said above; or else the refusal to open the scope, or [`Refusal::NotJoined`].
    pub fn try_scope<T, E, B>(&self, options: impl Into<Options>, body: B) -> impl Future<Output = Result<T, E>>
    where
        B: AsyncFnOnce(&Scope) -> Result<T, E>,
        E: From<Refusal> + From<Cancelled> + 'static,
    {
        self.block(options.into(), Some(Result::is_err), body, tried)
    }

    /// As [`Context::try_scope`], and `None` where the body was ended by a deadline that moves on
    /// ([`Options::move_on`]), or by a call that cancelled this very scope.
    ///
    /// # Errors
    /// As [`Context::try_scope`].
    pub fn maybe_scope<T, E, B>(
        &self,
        options: impl Into<Options>,
        body: B,
    ) -> impl Future<Output = Result<Option<T>, E>>
    where
        B: AsyncFnOnce(&Scope) -> Result<T, E>,
        E: From<Refusal> + From<Cancelled> + 'static,
    {
        self.block(options.into(), Some(Result::is_err), body, gone_on)
    }

    /// Runs the body, and gives `None` if it was ended by the deadline so long after now (Trio, `move_on_after`).
    ///
    /// ```
    /// use balkreyn_tokio::{Realm, Refusal};
    /// use std::time::Duration;
    ///
    /// # tokio::runtime::Runtime::new().unwrap().block_on(async {
    /// Realm::new()?.run(async |cx| {
    ///     let slept = cx.move_on_after(Duration::from_millis(5), async |_| {
    ///         tokio::time::sleep(Duration::from_secs(9)).await;
    ///         Ok::<_, Refusal>(())
    ///     });
    ///     assert_eq!(slept.await, Ok(None));
    ///     assert!(!cx.is_cancelled());
    /// })
    /// .await;
    /// # Ok::<(), Refusal>(())
    /// # }).unwrap();
    /// ```
    ///
    /// # Errors
    /// As [`Context::try_scope`].
    pub fn move_on_after<T, E, B>(&self, within: Duration, body: B) -> impl Future<Output = Result<Option<T>, E>>
    where
        B: AsyncFnOnce(&Context) -> Result<T, E>,
        E: From<Refusal> + From<Cancelled> + 'static,
    {
        self.maybe_scope(Options::new(Joiner::Await).within(within).move_on(), async move |_| body(self).await)
    }

    /// Runs the body, and fails with [`Refusal::TimedOut`] if it was ended by the deadline so long after now (Trio,
    /// `fail_after`).
    ///
    /// # Errors
    /// As [`Context::try_scope`].
    pub fn fail_after<T, E, B>(&self, within: Duration, body: B) -> impl Future<Output = Result<T, E>>
    where
        B: AsyncFnOnce(&Context) -> Result<T, E>,
        E: From<Refusal> + From<Cancelled> + 'static,
    {
        self.try_scope(Options::new(Joiner::Await).within(within), async move |_| body(self).await)
    }

    /// Runs the body behind a shield: cancels and deadlines of the scopes around stop short of it, and it is not dropped
    /// by them.
    ///
    /// ```
    /// # use balkreyn_tokio::{Joiner, Realm, Refusal};
    /// # tokio::runtime::Runtime::new().unwrap().block_on(async {
    /// Realm::new()?.run(async |cx| {
    ///     cx.scope(Joiner::All, async |s| {
    ///         s.cancel();
    ///         assert_eq!(cx.shielded(async |cx| Ok::<_, Refusal>(cx.is_cancelled())).await, Ok(false));
    ///     })
    ///     .await
    /// })
    /// .await?;
    /// # Ok::<(), Refusal>(())
    /// # }).unwrap();
    /// ```
    ///
    /// # Errors
    /// The body's, or a refusal to open the scope.
    pub fn shielded<T, E, B>(&self, body: B) -> impl Future<Output = Result<T, E>>
    where
        B: AsyncFnOnce(&Context) -> Result<T, E>,
        E: From<Refusal> + From<Cancelled> + 'static,
    {
        self.try_scope(Options::new(Joiner::Await).shield(), async move |_| body(self).await)
    }

    /// Runs a block. Where there is a way to tell an error, the body may be dropped for a cancel.
    fn block<R, B, X>(
        &self,
        options: Options,
        is_error: Option<fn(&R) -> bool>,
        body: B,
        finish: fn(&Context, Result<Block<R>, Refusal>) -> X,
    ) -> impl Future<Output = X>
    where
        B: AsyncFnOnce(&Scope) -> R,
    {
        let run = move |scope, owner| self.run_block(scope, owner, is_error, body, finish);
        Whole::Opens { opening: Some(Opening { cx: self, options, finish, run }) }
    }

    async fn run_block<R, B, X>(
        &self,
        scope: Scope,
        mut owner: Waker,
        is_error: Option<fn(&R) -> bool>,
        body: B,
        finish: fn(&Context, Result<Block<R>, Refusal>) -> X,
    ) -> X
    where
        B: AsyncFnOnce(&Scope) -> R,
    {
        let ended = {
            let mut running = pin!(body(&scope));
            poll_fn(|context| scope.poll_body(running.as_mut(), &mut owner, is_error.is_some(), context)).await
        };
        let is_cut = match &ended {
            Ended::Value(value) => is_error.is_some_and(|is_error| is_error(value)),
            Ended::Cut(_) => true,
            Ended::Panic(_) => false,
        };
        let outcome = if is_cut { scope.cut_outcome() } else { None };
        let verdict = poll_fn(|context| scope.poll_end(context)).await;
        let bell = Arc::clone(&scope.bell);
        drop(scope);
        finish(self, Ok(Block { ended, outcome, verdict, bell }))
    }

    /// Finishes the blocks that were dropped before, and opens a scope; the waker is the block's.
    fn poll_open(&self, options: &Options, context: &mut Polling<'_>) -> Poll<Result<(Scope, Waker), Refusal>> {
        let actor = &self.0;
        let told = |refusal| actor.lane.refused(refusal);
        actor.acts_here().map_err(told)?;
        ready!(actor.poll_close_left(context));
        actor.acts_in_top().map_err(told)?;
        let opened = actor.lane.open(actor.who(), &actor.top(), options, context.waker(), actor.bindings_of_main());
        let bell = opened.map_err(told)?;
        actor.push(&bell);
        Poll::Ready(Ok((Scope::new(actor, bell, options.canceller.clone()), context.waker().clone())))
    }
}

/// What a block is opened by, and how it runs then.
struct Opening<'a, R, X, F> {
    cx: &'a Context,
    options: Options,
    finish: fn(&Context, Result<Block<R>, Refusal>) -> X,
    run: F,
}

pin_project! {
    /// A block as a future, which keeps what it is opened by until then alone.
    #[project = WholeProjection]
    enum Whole<'a, R, X, F, B> {
        Opens { opening: Option<Opening<'a, R, X, F>> },
        Runs { #[pin] block: B },
    }
}

impl<R, X, F: FnOnce(Scope, Waker) -> B, B: Future<Output = X>> Future for Whole<'_, R, X, F, B> {
    type Output = X;

    fn poll(mut self: Pin<&mut Self>, context: &mut Polling<'_>) -> Poll<X> {
        loop {
            match self.as_mut().project() {
                WholeProjection::Runs { block } => return block.poll(context),
                WholeProjection::Opens { opening } => {
                    let Some(Opening { cx, options, .. }) = opening else { return Poll::Pending };
                    let opened = ready!(cx.poll_open(options, context));
                    let Some(Opening { cx, finish, run, .. }) = opening.take() else { return Poll::Pending };
                    match opened {
                        Ok((scope, owner)) => self.set(Whole::Runs { block: run(scope, owner) }),
                        Err(refusal) => return Poll::Ready(finish(cx, Err(refusal))),
                    }
                }
            }
        }
    }
}
