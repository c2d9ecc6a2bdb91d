//! What a job asks, waits for and binds.

use crate::actor::{Actor, current};
use crate::bell::Bell;
use crate::hooks::Hook;
use crate::lane::MOVE_COSTS;
use crate::look::Look;
use crate::scope::Waits;
use balkreyn::host::{Bound, Call, Code};
use balkreyn::{Cancelled, Cause, Local, Refusal, Value};
use std::any::Any;
use std::fmt;
use std::future::{Future, poll_fn};
use std::pin::pin;
use std::sync::Arc;
use std::task::{Poll, ready};
use std::time::Duration;

/// Who acts: a request, main of a realm, or one job.
///
/// A job asks for its own by [`Context::current`]. A context acts only while its own job is polled, and opens blocks
/// only inside each other: else it is refused ([`Refusal::Elsewhere`], [`Refusal::Beside`]).
///
/// ```
/// use balkreyn_tokio::{Context, Joiner, Realm, Refusal};
/// use std::time::Duration;
///
/// async fn page(cx: &Context) -> Result<Vec<u32>, Refusal> {
///     cx.fail_after(Duration::from_secs(9), async |cx| {
///         cx.checkpoint()?;
///         cx.map_at_most(2, 1..4, |n| async move { Ok(n * n) }).await
///     })
///     .await
/// }
/// # tokio::runtime::Runtime::new().unwrap().block_on(async {
/// assert_eq!(Realm::new()?.run(page).await, Ok(vec![1, 4, 9]));
/// # Ok::<(), Refusal>(())
/// # }).unwrap();
/// ```
#[derive(Clone)]
pub struct Context(pub(crate) Arc<Actor>);

impl Context {
    /// The context of the job, or of the request, that is polled here.
    ///
    /// # Panics
    /// Where none is: [`Context::try_current`] says so.
    #[must_use]
    pub fn current() -> Context {
        Context::try_current().expect("no job, no request and no main of a realm is polled here")
    }

    /// The context of the job, or of the request, that is polled here; `None` where none is.
    #[must_use]
    pub fn try_current() -> Option<Context> {
        current().map(Context)
    }

    /// Whether the innermost scope around the caller is cancelled. It reads an atomic mark; only where a deadline is due
    /// does it take the realm's lock.
    #[must_use]
    pub fn is_cancelled(&self) -> bool {
        self.cause().1.is_some()
    }

    /// The innermost scope, and why it is cancelled.
    fn cause(&self) -> (Arc<Bell>, Option<Cause>) {
        let (actor, bell) = (&self.0, self.0.innermost());
        if actor.lane.is_noting() {
            let mut inner = actor.lane.lock();
            let cause = bell.cause();
            if bell.scope != 0 {
                inner.note(|notes, _| notes.cause(bell.scope, cause));
            }
            drop(inner);
            return (bell, cause);
        }
        if !bell.is_cut() && actor.lane.is_due() {
            drop(actor.lane.lock());
        }
        let cause = bell.cause();
        (bell, cause)
    }

    /// Returns at once, unless the scope around the caller is cancelled.
    ///
    /// # Errors
    /// [`Cancelled`].
    pub fn checkpoint(&self) -> Result<(), Cancelled> {
        match self.cause() {
            (bell, Some(cause)) => Err(bell.handed(self.0.id, cause)),
            _ => Ok(()),
        }
    }

    /// Waits for the future, or for a cancel of the innermost scope around the caller, which counts first.
    ///
    /// ```
    /// # use balkreyn_tokio::{Cancelled, Joiner, Realm, Refusal};
    /// # tokio::runtime::Runtime::new().unwrap().block_on(async {
    /// Realm::new()?.run(async |cx| {
    ///     cx.scope(Joiner::All, async |s| {
    ///         assert_eq!(cx.wait(async { 1 }).await, Ok(1));
    ///         s.cancel();
    ///         assert!(cx.wait(std::future::pending::<()>()).await.is_err());
    ///     })
    ///     .await
    /// })
    /// .await?;
    /// # Ok::<(), Refusal>(())
    /// # }).unwrap();
    /// ```
    ///
    /// # Errors
    /// [`Cancelled`].
    pub async fn wait<F: Future>(&self, future: F) -> Result<F::Output, Cancelled> {
        let bell = self.0.innermost();
        let mut waits = Waits::new(&self.0, &bell);
        let mut future = pin!(future);
        poll_fn(|context| {
            self.checkpoint()?;
            if let Poll::Ready(value) = future.as_mut().poll(context) {
                return Poll::Ready(Ok(value));
            }
            // The mark is set under the same lock.
            let mut inner = self.0.lane.quietly();
            if let Some(cause) = bell.cause() {
                inner.note(|notes, _| notes.cause(bell.scope, Some(cause)));
                return Poll::Ready(Err(bell.handed(self.0.id, cause)));
            }
            let is_base = Arc::ptr_eq(&bell, &self.0.base);
            if !is_base || !inner.is_woken_by(self.0.id, context.waker()) {
                waits.key = inner.add_waker(bell.scope, context.waker(), waits.key, false, is_base);
            }
            Poll::Pending
        })
        .await
    }

    /// Sleeps so long, or until the scope around the caller is cancelled.
    ///
    /// # Errors
    /// [`Cancelled`].
    pub async fn sleep(&self, duration: Duration) -> Result<(), Cancelled> {
        self.wait(tokio::time::sleep(duration)).await
    }

    /// How long it is until the earliest deadline in effect for the caller. Zero if the scope around the caller is
    /// cancelled; `None` without a deadline.
    #[must_use]
    pub fn remaining(&self) -> Option<Duration> {
        if self.is_cancelled() {
            return Some(Duration::ZERO);
        }
        let deadline = self.0.lane.deadline(self.0.innermost().scope);
        deadline.map(|deadline| deadline.saturating_duration_since(tokio::time::Instant::now()))
    }

    /// Has the cancel of the scope around the caller make this call, where it is cancelled, once the realm's lock is
    /// free. At once, if the scope is cancelled already. The call must not block, as other calls of that cancel wait for
    /// it. Its panic is swallowed.
    pub fn on_cancel(&self, call: impl FnOnce() + Send + 'static) -> Hook {
        // A statement of its own: a call that is made at once may take the lock.
        let key = self.0.lane.quietly().next_key();
        Hook::new(self.0.innermost(), Call::new(call), key)
    }

    /// Binds the key to the value while the body runs. Jobs that are forked meanwhile, in scopes that are opened
    /// meanwhile, inherit it. [`Context::with`] binds values of any type.
    ///
    /// # Errors
    /// [`Refusal::BadName`] where the key or a text is no name; [`Refusal::TooMany`]; [`Refusal::Beside`]. The body
    /// never ran then.
    pub async fn bind<R>(
        &self,
        key: &str,
        value: impl Into<Value>,
        body: impl AsyncFnOnce(&Context) -> R,
    ) -> Result<R, Refusal> {
        let value = value.into();
        self.bound(key, &value, None, body).await
    }

    /// Binds the value to the key while the body runs, as [`Context::bind`] does.
    ///
    /// ```
    /// use balkreyn_tokio::{Context, Joiner, Local, Realm, Refusal};
    ///
    /// static TRACE: Local<String> = Local::new();
    /// # tokio::runtime::Runtime::new().unwrap().block_on(async {
    /// let seen = Realm::new()?.run(async |cx| {
    ///     cx.with(&TRACE, "Trace 7/A".to_owned(), async |cx| {
    ///         cx.try_scope(Joiner::All, async |s| {
    ///             let job = async { Ok::<_, Refusal>(Context::current().local(&TRACE).unwrap().len()) };
    ///             let task = s.fork("job", job)?;
    ///             s.join_ok().await?;
    ///             s.value(task)
    ///         })
    ///         .await
    ///     })
    ///     .await
    /// })
    /// .await?;
    /// assert_eq!(seen, Ok(9));
    /// # Ok::<(), Refusal>(())
    /// # }).unwrap();
    /// ```
    ///
    /// # Errors
    /// [`Refusal::TooMany`]; [`Refusal::Beside`]. The body never ran then.
    pub async fn with<T: Send + Sync + 'static, R>(
        &self,
        key: &'static Local<T>,
        value: T,
        body: impl AsyncFnOnce(&Context) -> R,
    ) -> Result<R, Refusal> {
        let number = self.0.lane.quietly().keep_local(Arc::new(value));
        self.bound(&key.word(), &Value::Number(number), Some(number), body).await
    }

    async fn bound<R>(
        &self,
        key: &str,
        value: &Value,
        local: Option<i64>,
        body: impl AsyncFnOnce(&Context) -> R,
    ) -> Result<R, Refusal> {
        /// Takes the binding away on every way out.
        struct Unbinding<'a>(&'a Actor, Arc<Bell>);
        impl Drop for Unbinding<'_> {
            fn drop(&mut self) {
                self.0.leave(&self.1);
            }
        }
        let bound = poll_fn(|context| {
            self.0.acts_here()?;
            ready!(self.0.poll_close_left(context));
            self.0.acts_in_top()?;
            Poll::Ready(self.bind_once(key, value))
        });
        if let Err(refusal) = bound.await {
            let forgotten = local.and_then(|number| self.0.lane.quietly().locals.remove(&number));
            drop(forgotten);
            return Err(self.0.lane.refused(refusal));
        }
        let frame = Arc::new(Bell::of_binding(self.0.id, self.0.top(), local));
        self.0.push(&frame);
        let unbinding = Unbinding(&self.0, Arc::clone(&frame));
        let value = {
            let mut running = pin!(body(self));
            poll_fn(|context| crate::actor::polled_in(&self.0, &frame, || running.as_mut().poll(context))).await
        };
        // What the body left is closed before the binding goes.
        poll_fn(|context| self.0.poll_close_above(&frame, context)).await;
        drop(unbinding);
        Ok(value)
    }

    fn bind_once(&self, key: &str, value: &Value) -> Result<(), Refusal> {
        let actor = &self.0;
        let mut inner = actor.lane.lock();
        inner.room(actor.room).take(0, 0, MOVE_COSTS)?;
        let bound = match value {
            Value::Number(number) => inner.book.bind(actor.id, key, *number),
            Value::Text(text) => inner.book.bind_text(actor.id, key, text),
        };
        bound.inspect_err(|_| inner.room(actor.room).give(0, 0, MOVE_COSTS))?;
        inner.note(|notes, _| notes.line(format_args!("bind {} {key} {}", actor.id, value.word()), "bound"));
        Ok(())
    }

    /// What the key is bound to: the caller's own last binding, or else what its forker saw at the fork. `None` where
    /// nothing is bound, and where the key is no name.
    #[must_use]
    pub fn get(&self, key: &str) -> Option<Value> {
        self.seen(key, |_, value| Some(value))
    }

    /// What is bound to the key, as [`Context::get`] finds it.
    #[must_use]
    pub fn local<T: Send + Sync + 'static>(&self, key: &'static Local<T>) -> Option<Arc<T>> {
        let value = self.seen(&key.word(), |inner, value| match value {
            Value::Number(number) => inner.locals.get(&number).cloned(),
            Value::Text(_) => None,
        });
        value.and_then(|value: Arc<dyn Any + Send + Sync>| Local::of(value))
    }

    fn seen<R>(&self, key: &str, found: impl FnOnce(&crate::inner::Inner, Value) -> Option<R>) -> Option<R> {
        let actor = &self.0;
        let mut inner = actor.lane.quietly();
        let value = match inner.book.binding(actor.id, key) {
            Ok(Bound::Number(number)) => Value::Number(number),
            Ok(Bound::Text(text)) => Value::Text(text),
            Err(Code::BAD_ARGUMENT) => return None,
            Err(_) => {
                drop(inner);
                // Who opened the realm may see it.
                return Context(Arc::clone(actor.lane.outside.as_ref()?)).seen(key, found);
            }
        };
        inner.note(|notes, _| {
            notes.line(format_args!("get {} {key}", actor.id), format_args!("value {}", value.word()))
        });
        found(&inner, value)
    }

    /// A look at the realm, for any thread.
    #[must_use]
    pub fn look(&self) -> Look {
        Look::of(&self.0.lane)
    }
}

impl fmt::Debug for Context {
    fn fmt(&self, out: &mut fmt::Formatter<'_>) -> fmt::Result {
        out.debug_struct("Context").field("actor", &self.0.id).finish_non_exhaustive()
    }
}
