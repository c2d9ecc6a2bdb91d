//! Who acts: main, or the task that a thread runs.

use crate::canceller::Cancels;
use crate::ffi::{Book, Bound};
use crate::hooks::{Call, Hook, Link};
use crate::local::Local;
use crate::options::{Joiner, Options};
use crate::outcome::{Cancelled, Outcome, ScopeError, ScopeId};
use crate::realm::Look;
use crate::refusal::{Code, Refusal};
use crate::scope::Scope;
use crate::shared::{BIND_COSTS, Inner, MAIN, Outside, Shared, surely};
use crate::task::Kept;
use crate::value::Value;
use crate::waiting::{Bell, Waiting};
use std::any::Any;
use std::cell::{Cell, RefCell};
use std::fmt;
use std::marker::PhantomData;
use std::panic::{AssertUnwindSafe, catch_unwind, resume_unwind};
use std::sync::Arc;
use std::thread;
use std::time::{Duration, Instant};

/// Who acts: main of a realm, or one task.
///
/// ```
/// use balkreyn::{Context, Realm, Refusal};
/// use std::time::Duration;
///
/// fn page(cx: &Context) -> Result<Vec<u32>, Refusal> {
///     cx.fail_after(Duration::from_secs(9), |cx| {
///         cx.checkpoint()?;
///         cx.map_at_most(2, 1..4, |_, n| Ok(n * n))
///     })
/// }
/// assert_eq!(Realm::new()?.run(page), Ok(vec![1, 4, 9]));
/// # Ok::<(), Refusal>(())
/// ```
///
/// The book believes who acts, so a context never leaves its thread:
///
/// ```compile_fail,E0277
/// # let mut realm = balkreyn::Realm::new().unwrap();
/// realm.run(|cx| std::thread::scope(|threads| {
///     threads.spawn(|| cx.is_cancelled());
/// }));
/// ```
///
/// and a job acts by its own context, never by that of its forker:
///
/// ```compile_fail,E0277
/// # use balkreyn::{Context, Joiner, Realm, Refusal};
/// # let mut realm = Realm::new().unwrap();
/// realm.run(|forker| forker.scope(Joiner::All, |s| {
///     s.fork("job", |_| Ok::<_, Refusal>(forker.is_cancelled())).map(|_| ())
/// }));
/// ```
pub struct Context {
    shared: Arc<Shared>,
    actor: u32,
    /// The innermost scope around the actor. A task starts with the scope in which it was forked.
    innermost: RefCell<Option<Arc<Bell>>>,
    /// How many bindings of its own are in effect.
    bindings: Cell<u32>,
    /// Where nothing is around: main waits here, and nobody rings.
    silent: Waiting,
    on_its_thread: PhantomData<*const ()>,
}

/// Takes a binding away on every way out of its body.
struct Unbinding<'a>(&'a Context);

impl Drop for Unbinding<'_> {
    fn drop(&mut self) {
        let Unbinding(cx) = self;
        // What was opened after a bind is closed before its end, and the bind paid for that.
        let mut inner = cx.shared.lock();
        let answer = surely(inner.book.unbind(cx.actor));
        debug_assert!(answer.is_ok(), "bindings nest: {answer:?}");
        if answer.is_ok() {
            inner.note(|notes, _| notes.line(format_args!("unbind {}", cx.actor), "unbound"));
        }
        cx.bindings.set(cx.bindings.get() - 1);
    }
}

/// What a block came to: what its body gave, what was amiss, and its bell.
type Block<R> = (R, Result<(), Refusal>, Arc<Bell>);

impl Context {
    pub(crate) fn of_main(shared: Arc<Shared>) -> Context {
        Context::new(shared, MAIN, None)
    }

    pub(crate) fn of_task(shared: Arc<Shared>, task: u32, bell: Arc<Bell>) -> Context {
        Context::new(shared, task, Some(bell))
    }

    fn new(shared: Arc<Shared>, actor: u32, innermost: Option<Arc<Bell>>) -> Context {
        let innermost = RefCell::new(innermost);
        let (bindings, silent) = (Cell::new(0), Waiting::default());
        Context { shared, actor, innermost, bindings, silent, on_its_thread: PhantomData }
    }

    fn innermost(&self) -> Option<Arc<Bell>> {
        self.innermost.borrow().clone()
    }

    /// Opens a scope, runs the body, and closes the scope on every way out of it: what still runs is cancelled, and
    /// its jobs have ended when this returns. Jobs borrow from the stack, as with [`std::thread::scope`].
    ///
    /// What the body returns is given as it is. [`Context::try_scope`] knows more of results.
    ///
    /// # Errors
    /// [`ScopeError::Refused`] where the scope was not opened, and the body never ran. [`ScopeError::NotJoined`]
    /// where jobs were forked and nobody joined them; it holds what the body returned.
    ///
    /// # Panics
    /// With the body's panic, once the scope is closed.
    pub fn scope<'env, R>(
        &self,
        options: impl Into<Options>,
        body: impl for<'scope> FnOnce(&Scope<'scope, 'env>) -> R,
    ) -> Result<R, ScopeError<R>> {
        let (value, verdict, bell) = self.block(&options.into(), body).map_err(ScopeError::Refused)?;
        bell.clear();
        match verdict {
            Ok(()) => Ok(value),
            Err(Refusal::NotJoined) => Err(ScopeError::NotJoined(value)),
            Err(refusal) => Err(ScopeError::Refused(refusal)),
        }
    }

    fn block<'env, R>(
        &self,
        options: &Options,
        body: impl for<'scope> FnOnce(&Scope<'scope, 'env>) -> R,
    ) -> Result<Block<R>, Refusal> {
        let outer = self.innermost();
        let bindings = (self.actor == MAIN && outer.is_none()).then(|| self.bindings.get());
        let opened = self.shared.open(self.actor, outer.clone(), options, bindings);
        let bell = opened.map_err(|refusal| self.shared.refused(refusal))?;
        if let Some(canceller) = &options.canceller {
            canceller.attach(&self.shared, bell.scope);
        }
        *self.innermost.borrow_mut() = Some(Arc::clone(&bell));
        let (ended, has_begun) = {
            let limit = options.thread_limit();
            let scope = Scope::new(Arc::clone(&self.shared), self.actor, Arc::clone(&bell), limit);
            let ended = catch_unwind(AssertUnwindSafe(|| body(&scope)));
            let has_threads = scope.has_threads();
            // Jobs borrow for as long as the body could: until this drop, which waits for them.
            drop(scope);
            (ended, has_threads)
        };
        *self.innermost.borrow_mut() = outer;
        if let Some(canceller) = &options.canceller {
            canceller.detach(&self.shared, bell.scope);
        }
        let verdict = self.shared.end_close(self.actor, bell.scope, has_begun);
        match ended {
            Ok(value) => Ok((value, verdict, bell)),
            Err(panic) => {
                bell.clear();
                resume_unwind(panic)
            }
        }
    }

    /// As [`Context::scope`], for a body that returns a `Result`: its error comes first, and a refusal becomes that
    /// error.
    ///
    /// **A cancel ends here, at its own block.** Where the body was handed a [`Cancelled`] that came from this very
    /// scope, and returns an error, and the caller itself is not cancelled, the block's error says what cancelled it:
    ///
    /// - its deadline: [`Refusal::TimedOut`];
    /// - the first failure of a job: that error, if it has the type of the block's; its panic goes on; else
    ///   [`Refusal::JobFailed`];
    /// - a call of a canceller, or a success: the body's error as it is.
    ///
    /// [`Context::maybe_scope`] goes on behind a deadline that moves on, and behind a call.
    ///
    /// ```
    /// use balkreyn::{Joiner, Options, Realm, Refusal};
    /// use std::time::Duration;
    ///
    /// let long = Duration::from_secs(9);
    /// Realm::new()?.run(|cx| {
    ///     let late = cx.try_scope(Options::new(Joiner::All).within(Duration::from_millis(5)), |_| {
    ///         cx.sleep(long)?;
    ///         Ok::<_, Refusal>(())
    ///     });
    ///     assert!(matches!(late, Err(Refusal::TimedOut(_))));
    ///     let failed = cx.try_scope(Joiner::All, |s| {
    ///         s.fork("fails", |_| Err::<(), _>(Refusal::BadName))?;
    ///         cx.sleep(long)?;
    ///         s.join()
    ///     });
    ///     assert_eq!(failed, Err(Refusal::BadName));
    /// });
    /// # Ok::<(), Refusal>(())
    /// ```
    ///
    /// # Errors
    /// The body's, or what is said above; or else the refusal to open the scope, or [`Refusal::NotJoined`].
    pub fn try_scope<'env, T, E>(
        &self,
        options: impl Into<Options>,
        body: impl for<'scope> FnOnce(&Scope<'scope, 'env>) -> Result<T, E>,
    ) -> Result<T, E>
    where
        E: From<Refusal> + From<Cancelled> + 'static,
    {
        self.absorb(&options.into(), body)?.map_err(|(error, outcome, scope)| match outcome {
            Outcome::Partial => E::from(Refusal::TimedOut(scope)),
            _ => error,
        })
    }

    /// As [`Context::try_scope`], but the program goes on behind a deadline of a scope that moves on
    /// ([`Options::move_on`](crate::Options::move_on)), and behind a cancel call on it: where that ended the body, this
    /// gives `None` (Trio, `CancelScope`).
    ///
    /// # Errors
    /// As [`Context::try_scope`].
    pub fn maybe_scope<'env, T, E>(
        &self,
        options: impl Into<Options>,
        body: impl for<'scope> FnOnce(&Scope<'scope, 'env>) -> Result<T, E>,
    ) -> Result<Option<T>, E>
    where
        E: From<Refusal> + From<Cancelled> + 'static,
    {
        match self.absorb(&options.into(), body)? {
            Ok(value) => Ok(Some(value)),
            Err((_, Outcome::Partial, _)) => Ok(None),
            Err((_, Outcome::Cancelled(from), scope)) if from == scope => Ok(None),
            Err((error, ..)) => Err(error),
        }
    }

    /// Runs the body, and gives `None` if it was ended by the deadline so long after now (Trio, `move_on_after`).
    ///
    /// ```
    /// use balkreyn::{Realm, Refusal};
    /// use std::time::Duration;
    ///
    /// Realm::new()?.run(|cx| {
    ///     let slept = cx.move_on_after(Duration::from_millis(5), |cx| Ok(cx.sleep(Duration::from_secs(9))?));
    ///     assert_eq!(slept, Ok::<_, Refusal>(None));
    ///     assert!(!cx.is_cancelled());
    /// });
    /// # Ok::<(), Refusal>(())
    /// ```
    ///
    /// # Errors
    /// As [`Context::try_scope`].
    pub fn move_on_after<T, E>(
        &self,
        within: Duration,
        body: impl FnOnce(&Context) -> Result<T, E>,
    ) -> Result<Option<T>, E>
    where
        E: From<Refusal> + From<Cancelled> + 'static,
    {
        self.maybe_scope(Options::new(Joiner::Await).within(within).move_on(), |_| body(self))
    }

    /// Runs the body, and fails with [`Refusal::TimedOut`] if it was ended by the deadline so long after now (Trio,
    /// `fail_after`).
    ///
    /// # Errors
    /// As [`Context::try_scope`].
    pub fn fail_after<T, E>(&self, within: Duration, body: impl FnOnce(&Context) -> Result<T, E>) -> Result<T, E>
    where
        E: From<Refusal> + From<Cancelled> + 'static,
    {
        self.try_scope(Options::new(Joiner::Await).within(within), |_| body(self))
    }

    /// Runs a block. Where its own cancel ended the body, the inner error holds the body's, the outcome, and the scope.
    #[allow(clippy::type_complexity)]
    fn absorb<'env, T, E>(
        &self,
        options: &Options,
        body: impl for<'scope> FnOnce(&Scope<'scope, 'env>) -> Result<T, E>,
    ) -> Result<Result<T, (E, Outcome, ScopeId)>, E>
    where
        E: From<Refusal> + From<Cancelled> + 'static,
    {
        let block = self.block(options, |s| body(s).map_err(|error| (error, s.cut_outcome())));
        let (result, verdict, bell) = block?;
        let kept = match result {
            Err((_, Some(Outcome::Failed(task)))) => bell.kept_of(task.0),
            _ => None,
        };
        bell.clear();
        let (error, outcome) = match result {
            Ok(value) => return Ok(Ok(verdict.map(|()| value)?)),
            Err((error, None)) => return Err(error),
            Err((error, Some(outcome))) => (error, outcome),
        };
        if self.checkpoint().is_err() {
            return Err(error);
        }
        match (outcome, kept) {
            (Outcome::Timeout, _) => Err(E::from(Refusal::TimedOut(ScopeId(bell.scope)))),
            (Outcome::Failed(_), Some(Kept::Panic(panic))) => resume_unwind(panic),
            (Outcome::Failed(task), Some(Kept::Error(first))) => {
                Err(first.downcast().map_or_else(|_| E::from(Refusal::JobFailed(task)), |first| *first))
            }
            (Outcome::Failed(task), None) => Err(E::from(Refusal::JobFailed(task))),
            (outcome, _) => Ok(Err((error, outcome, ScopeId(bell.scope)))),
        }
    }

    /// Runs the body as main of a realm of its own, whose limits count anew. What cancels the caller cancels it, at the
    /// same deadline too; it sees the caller's bindings. So a loop that opens scopes may run for ever, with a realm a
    /// round. Each takes one microsecond or two.
    ///
    /// ```
    /// use balkreyn::{Joiner, Realm, Refusal};
    ///
    /// Realm::new()?.run(|cx| {
    ///     cx.try_scope(Joiner::Await, |s| {
    ///         s.fork("supervisor", |cx| {
    ///             (0..10_000).try_for_each(|_| cx.in_own_realm(|cx| cx.try_scope(Joiner::All, |s| s.join().map(drop))))
    ///         })?;
    ///         s.join()
    ///     })
    /// })?;
    /// # Ok::<(), Refusal>(())
    /// ```
    ///
    /// # Errors
    /// The body's; or else [`Refusal::Memory`].
    pub fn in_own_realm<T, E: From<Refusal>>(&self, body: impl FnOnce(&Context) -> Result<T, E>) -> Result<T, E> {
        /// Takes the link away on every way out.
        struct Linked<'a>(&'a Bell, u64);
        impl Drop for Linked<'_> {
            fn drop(&mut self) {
                self.0.links.remove(self.1);
            }
        }
        let bell = self.innermost();
        let (limits, pool, observer) = (self.shared.limits, self.shared.pool.clone(), self.shared.observer.clone());
        let book = Book::open(limits.scopes, limits.tasks, limits.load)?;
        let outside = Outside { shared: Arc::clone(&self.shared), actor: self.actor, bell: bell.clone() };
        let shared = Arc::new(Shared::new(book, limits, pool, observer, Some(outside)));
        let cx = Context::of_main(Arc::clone(&shared));
        let result = cx.scope(Joiner::Await, |s| {
            let scope = s.id().0;
            let _linked = bell.as_deref().map(|bell| {
                let linked = Linked(bell, bell.links.add(Link::Inside(Arc::clone(&shared), scope)));
                if bell.is_cut() {
                    shared.cancel(scope);
                }
                linked
            });
            body(&cx)
        });
        // The body may have been handed this cancel, by another name.
        let _ = self.checkpoint();
        match result {
            Ok(result) | Err(ScopeError::NotJoined(result)) => result,
            Err(ScopeError::Refused(refusal)) => Err(E::from(refusal)),
        }
    }

    /// Whether the innermost scope around the caller is cancelled. It reads atomic marks; only where a deadline is due
    /// does it take the lock, so that deadlines pass for those who only ask.
    #[must_use]
    pub fn is_cancelled(&self) -> bool {
        self.innermost.borrow().as_deref().is_some_and(|bell| self.is_cut(bell))
    }

    fn is_cut(&self, bell: &Bell) -> bool {
        if self.shared.is_noting() {
            return self.noted_mark(&mut self.shared.lock(), bell);
        }
        if !bell.is_cut() && self.shared.is_due() {
            drop(self.shared.lock());
        }
        bell.is_cut()
    }

    /// Whether the scope is cancelled, as its mark says. The lock is held, so that the mark can be noted.
    fn noted_mark(&self, inner: &mut Inner, bell: &Bell) -> bool {
        let cause = bell.cause();
        inner.note(|notes, _| notes.cause(bell.scope, cause));
        cause.is_some()
    }

    /// Returns at once, unless the scope around the caller is cancelled.
    ///
    /// # Errors
    /// [`Cancelled`].
    pub fn checkpoint(&self) -> Result<(), Cancelled> {
        match &*self.innermost.borrow() {
            Some(bell) if self.is_cut(bell) => self.handed(bell),
            _ => Ok(()),
        }
    }

    /// The cancel of the scope, handed to the caller.
    fn handed(&self, bell: &Bell) -> Result<(), Cancelled> {
        bell.cause().map_or(Ok(()), |cause| Err(bell.handed(self.actor, cause)))
    }

    /// How long it is until the earliest deadline in effect for the caller: the timeout for a call that blocks. Zero if
    /// the scope around the caller is cancelled; `None` without a deadline.
    #[must_use]
    pub fn remaining(&self) -> Option<Duration> {
        if self.is_cancelled() {
            return Some(Duration::ZERO);
        }
        let scope = self.innermost.borrow().as_ref().map(|bell| bell.scope);
        let deadline = self.shared.deadline(&mut self.shared.quietly(), scope);
        deadline.map(|deadline| deadline.saturating_duration_since(Instant::now()))
    }

    /// Sleeps so long, or until the scope around the caller is cancelled.
    ///
    /// # Errors
    /// [`Cancelled`].
    pub fn sleep(&self, duration: Duration) -> Result<(), Cancelled> {
        let end = Instant::now().checked_add(duration);
        let bell = self.innermost();
        let sleepers = bell.as_ref().map_or(&self.silent, |bell| &bell.sleepers);
        let mut inner = self.shared.lock();
        loop {
            if let Some(bell) = bell.as_deref().filter(|bell| self.noted_mark(&mut inner, bell)) {
                return self.handed(bell);
            }
            if end.is_some_and(|end| Instant::now() >= end) {
                return Ok(());
            }
            inner = self.shared.wait(inner, sleepers, bell.as_ref().map(|bell| bell.scope), end, None);
        }
    }

    /// Parks the thread until it is unparked, until a cancel, a move or a passing of a deadline, or for no reason.
    /// `is_over` is asked before each park: the thread that changes its answer unparks this one.
    pub(crate) fn park_until<R>(&self, mut is_over: impl FnMut() -> Option<R>) -> Result<R, Cancelled> {
        self.checkpoint()?;
        if let Some(value) = is_over() {
            return Ok(value);
        }
        let bell = self.innermost();
        let link = bell.as_ref().map(|bell| bell.links.add(Link::Parked(thread::current())));
        let result = loop {
            if let Err(cancelled) = self.checkpoint() {
                break Err(cancelled);
            }
            if let Some(value) = is_over() {
                break Ok(value);
            }
            match self.remaining() {
                None => thread::park(),
                Some(left) => thread::park_timeout(left),
            }
        };
        if let (Some(bell), Some(link)) = (&bell, link) {
            bell.links.remove(link);
        }
        result
    }

    /// Has the cancel of the scope around the caller make this call, on the thread that cancels, once the realm's lock
    /// is free: it may shut a socket down, or kill a child, for which a job waits. At once, if the scope is cancelled
    /// already. The call must not block, as other calls of that cancel wait for it. Its panic is swallowed.
    pub fn on_cancel(&self, call: impl FnOnce() + Send + 'static) -> Hook {
        let call = Call::new(call);
        let of = self.innermost().map(|bell| {
            let number = bell.links.add(Link::Call(Arc::clone(&call)));
            // Whoever cancels looks at the links once the mark is set.
            if self.is_cut(&bell) {
                call.make();
            }
            (bell, number)
        });
        Hook::new(call, of)
    }

    /// Binds the key to the value while the body runs. Jobs that are forked meanwhile, in scopes that are opened
    /// meanwhile, inherit it. [`Context::with`] binds values of any type.
    ///
    /// # Errors
    /// [`Refusal::BadName`] where the key or a text is no name; [`Refusal::TooMany`]. The body never ran then.
    pub fn bind<R>(&self, key: &str, value: impl Into<Value>, body: impl FnOnce(&Context) -> R) -> Result<R, Refusal> {
        let _unbinding = self.bound(key, &value.into())?;
        Ok(body(self))
    }

    fn bound(&self, key: &str, value: &Value) -> Result<Unbinding<'_>, Refusal> {
        let bound = match self.bind_once(key, value) {
            Err(Refusal::TooMany) if self.actor == MAIN && self.innermost.borrow().is_none() => {
                self.shared.lock().retire(self.bindings.get());
                self.bind_once(key, value)
            }
            bound => bound,
        };
        bound.map_err(|refusal| self.shared.refused(refusal))?;
        self.bindings.set(self.bindings.get() + 1);
        Ok(Unbinding(self))
    }

    fn bind_once(&self, key: &str, value: &Value) -> Result<(), Refusal> {
        let mut inner = self.shared.lock();
        inner.pay(self.shared.limits, BIND_COSTS)?;
        let bound = match value {
            Value::Number(number) => inner.book.bind(self.actor, key, *number),
            Value::Text(text) => inner.book.bind_text(self.actor, key, text),
        };
        bound.inspect_err(|_| inner.refund(BIND_COSTS))?;
        inner.note(|notes, _| notes.line(format_args!("bind {} {key} {}", self.actor, value.word()), "bound"));
        Ok(())
    }

    /// What the key is bound to: the caller's own last binding, or else what its forker saw at the fork. `None` where
    /// nothing is bound, and where the key is no name.
    #[must_use]
    pub fn get(&self, key: &str) -> Option<Value> {
        seen(&self.shared, self.actor, key, |_, value| Some(value))
    }

    /// Binds the value to the key while the body runs, as [`Context::bind`] does.
    ///
    /// # Errors
    /// [`Refusal::TooMany`]. The body never ran then.
    pub fn with<T: Send + Sync + 'static, R>(
        &self,
        key: &'static Local<T>,
        value: T,
        body: impl FnOnce(&Context) -> R,
    ) -> Result<R, Refusal> {
        /// Takes the value away on every way out, once its binding is gone.
        struct Forgetting<'a>(&'a Shared, i64);
        impl Drop for Forgetting<'_> {
            fn drop(&mut self) {
                let value = self.0.quietly().locals.remove(&self.1);
                drop(value);
            }
        }
        let number = {
            let mut inner = self.shared.quietly();
            let number = inner.locals.last_key_value().map_or(1, |(last, _)| last + 1);
            inner.locals.insert(number, Arc::new(value));
            number
        };
        let _forgetting = Forgetting(&self.shared, number);
        let _unbinding = self.bound(&key.word(), &Value::Number(number))?;
        Ok(body(self))
    }

    /// What is bound to the key, as [`Context::get`] finds it.
    #[must_use]
    pub fn local<T: Send + Sync + 'static>(&self, key: &'static Local<T>) -> Option<Arc<T>> {
        let value = seen(&self.shared, self.actor, &key.word(), |inner, value| match value {
            Value::Number(number) => inner.locals.get(&number).cloned(),
            Value::Text(_) => None,
        });
        value.and_then(|value: Arc<dyn Any + Send + Sync>| Local::of(value))
    }

    /// A look at the realm, for any thread.
    #[must_use]
    pub fn look(&self) -> Look {
        Look::of(&self.shared)
    }
}

/// What the actor sees bound to the key: in its realm, or else what who opened that realm sees.
fn seen<R>(shared: &Shared, actor: u32, key: &str, found: impl FnOnce(&Inner, Value) -> Option<R>) -> Option<R> {
    let mut inner = shared.quietly();
    let value = match inner.book.binding(actor, key) {
        Ok(Bound::Number(number)) => Value::Number(number),
        Ok(Bound::Text(text)) => Value::Text(text),
        Err(Code::BAD_ARGUMENT) => return None,
        Err(_) => {
            drop(inner);
            let outside = shared.outside.as_ref()?;
            return seen(&outside.shared, outside.actor, key, found);
        }
    };
    inner.note(|notes, _| notes.line(format_args!("get {actor} {key}"), format_args!("value {}", value.word())));
    found(&inner, value)
}

impl fmt::Debug for Context {
    fn fmt(&self, out: &mut fmt::Formatter<'_>) -> fmt::Result {
        out.debug_struct("Context").field("actor", &self.actor).finish_non_exhaustive()
    }
}
