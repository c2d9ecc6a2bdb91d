//! A task, what its job left, and how its job is polled.

use crate::actor::{Actor, polled_as};
use crate::bell::{Bell, End, Kept};
use balkreyn::host::{locked, swallow};
use balkreyn::{Panic, Refusal, TaskError, TaskId};
use pin_project_lite::pin_project;
use std::any::Any;
use std::fmt;
use std::future::Future;
use std::panic::{AssertUnwindSafe, catch_unwind};
use std::pin::Pin;
use std::sync::atomic::{AtomicU32, Ordering};
use std::sync::{Arc, Mutex, PoisonError};
use std::task::{Context as Polling, Poll, ready};

/// What a job left.
enum Left<T, E> {
    /// The value, and its measure.
    Value(T, i64),
    Failure(E),
    Panic(Box<dyn Any + Send>),
}

/// Where a job leaves its result, and its task finds it.
pub(crate) struct Place<T, E> {
    pub(crate) id: u32,
    /// How many jobs of the scope had ended when this one had, itself included; 0 until then.
    ended: AtomicU32,
    pub(crate) bell: Arc<Bell>,
    left: Mutex<Option<Left<T, E>>>,
    boxed: fn(E) -> Box<dyn Any + Send>,
}

impl<T, E> Place<T, E> {
    pub(crate) fn new(id: u32, bell: &Arc<Bell>) -> Arc<Place<T, E>>
    where
        E: Send + 'static,
    {
        let (left, ended) = (Mutex::new(None), AtomicU32::new(0));
        Arc::new(Place { id, ended, bell: Arc::clone(bell), left, boxed: |error| Box::new(error) })
    }

    /// How many jobs of the scope had ended when this one had, itself included; 0 until then.
    pub(crate) fn ended(&self) -> u32 {
        self.ended.load(Ordering::Acquire)
    }
}

impl<T, E> Drop for Place<T, E> {
    /// Nobody reads it any more: a failure may still be what the block ends with.
    fn drop(&mut self) {
        match self.left.get_mut().unwrap_or_else(PoisonError::into_inner).take() {
            Some(Left::Failure(error)) => self.bell.keep(self.id, Kept::Error((self.boxed)(error))),
            Some(Left::Panic(panic)) => self.bell.keep(self.id, Kept::Panic(panic)),
            // Its drop may panic: who lets the place go catches that.
            value => drop(value),
        }
    }
}

/// A task that was forked in a scope. Its result is read by that scope alone:
/// [`Scope::value`](crate::Scope::value), [`Scope::result`](crate::Scope::result).
///
/// ```
/// # use balkreyn_tokio::{Joiner, Realm, Refusal};
/// # tokio::runtime::Runtime::new().unwrap().block_on(async {
/// let sum = Realm::new()?.run(async |cx| {
///     cx.try_scope(Joiner::All, async |s| {
///         let one = s.fork("one", async { Ok::<_, Refusal>(1) })?;
///         let two = s.fork("two", async { Ok::<_, Refusal>(2) })?;
///         s.join_ok().await?;
///         Ok::<_, Refusal>(s.value(one)? + s.value(two)?)
///     })
///     .await
/// })
/// .await;
/// assert_eq!(sum, Ok(3));
/// # Ok::<(), Refusal>(())
/// # }).unwrap();
/// ```
pub struct Task<T, E> {
    pub(crate) place: Arc<Place<T, E>>,
}

impl<T, E> Task<T, E> {
    /// Takes what the job left, of which the book said whether it is a success; and with it how the job ended.
    pub(crate) fn take(&self, succeeded: bool) -> (Result<T, TaskError<E>>, Option<End>) {
        match (locked(&self.place.left).take(), succeeded) {
            (Some(Left::Value(value, measured)), true) => (Ok(value), Some(End::Finish(measured))),
            (Some(Left::Failure(error)), false) => (Err(TaskError::Failed(error)), Some(End::Failed)),
            (Some(Left::Panic(panic)), false) => (Err(TaskError::Panicked(Panic::new(panic))), Some(End::Panicked)),
            _ => (Err(TaskError::Refused(Refusal::Taken)), None),
        }
    }

    /// The task's number.
    #[must_use]
    pub fn id(&self) -> TaskId {
        TaskId::of_number(self.place.id)
    }
}

impl<T, E> fmt::Debug for Task<T, E> {
    fn fmt(&self, out: &mut fmt::Formatter<'_>) -> fmt::Result {
        out.debug_struct("Task").field("id", &self.id()).finish_non_exhaustive()
    }
}

/// How far a job has come.
enum Step {
    /// It has yet to begin.
    Waits,
    Runs,
    /// It is over, and the blocks that it left are closed.
    Ends(End),
    Over,
}

pin_project! {
    /// A job as a future: of a task of tokio, or polled inside its scope's block.
    pub(crate) struct Job<T, E, F> {
        #[pin]
        future: Option<F>,
        work: Work<T, E>,
    }

    // Whoever held the job dropped it, as a runtime does that shuts down.
    impl<T, E, F> PinnedDrop for Job<T, E, F> {
        fn drop(this: Pin<&mut Self>) {
            let mut this = this.project();
            swallow(|| this.future.set(None));
            this.work.gone();
        }
    }
}

/// What is known of a job beside its future.
struct Work<T, E> {
    /// `None` while it is polled.
    actor: Option<Arc<Actor>>,
    place: Option<Arc<Place<T, E>>>,
    measure: fn(&T) -> i64,
    step: Step,
    has_turn: bool,
}

impl<T, E, F> Job<T, E, F> {
    pub(crate) fn new(actor: Arc<Actor>, place: Arc<Place<T, E>>, measure: fn(&T) -> i64, future: F) -> Self {
        let (actor, place, step) = (Some(actor), Some(place), Step::Waits);
        Job { future: Some(future), work: Work { actor, place, measure, step, has_turn: false } }
    }
}

impl<T, E, F: Future<Output = Result<T, E>>> Future for Job<T, E, F> {
    type Output = ();

    fn poll(self: Pin<&mut Self>, context: &mut Polling<'_>) -> Poll<()> {
        let mut this = self.project();
        loop {
            match this.work.step {
                Step::Waits => {
                    let begins = ready!(this.work.poll_begin(context));
                    this.work.step = if begins { Step::Runs } else { Step::Ends(End::Reject) };
                    if !begins {
                        // What it held is gone before the book hears that it never ran.
                        swallow(|| this.future.set(None));
                    }
                }
                Step::Runs => {
                    let mut end = ready!(this.work.poll_future(&mut this.future, context));
                    if let Err(panic) = catch_unwind(AssertUnwindSafe(|| this.future.set(None))) {
                        end = this.work.leave(Left::Panic(panic));
                    }
                    this.work.step = Step::Ends(end);
                }
                Step::Ends(end) => {
                    ready!(this.work.poll_end(end, context));
                    return Poll::Ready(());
                }
                Step::Over => return Poll::Ready(()),
            }
        }
    }
}

impl<T, E> Work<T, E> {
    fn actor(&self) -> &Arc<Actor> {
        self.actor.as_ref().expect("an actor is away only while it is polled")
    }

    /// Waits for a turn, where the scope has so many: whether the job begins, as its scope isn't cancelled.
    fn poll_begin(&mut self, context: &mut Polling<'_>) -> Poll<bool> {
        let actor = self.actor.as_ref().expect("as in `actor`");
        let base = &actor.base;
        let turns = base.more_if_any().and_then(|more| more.turns.as_ref());
        if let (Some(turns), false) = (turns, base.is_cut()) {
            // A cancel wakes it, too.
            actor.lane.lock().set_waker(actor.id, context.waker());
            self.has_turn = locked(turns).take(actor.id, context.waker());
            if !self.has_turn && !base.is_cut() {
                return Poll::Pending;
            }
        }
        Poll::Ready(actor.lane.start(&mut actor.lane.lock(), base, actor.id, Some(context.waker())))
    }

    /// Polls the job, unless it is to be dropped: how it ended.
    fn poll_future<F: Future<Output = Result<T, E>>>(
        &mut self,
        future: &mut Pin<&mut Option<F>>,
        context: &mut Polling<'_>,
    ) -> Poll<End> {
        let dropped = Poll::Ready(End::Dropped);
        // Inside a block, the block hears of the cancel first.
        if self.actor().base.is_cut() && self.actor().is_outermost() && self.is_to_be_cut() {
            return dropped;
        }
        let measure = self.measure;
        let polled = catch_unwind(AssertUnwindSafe(|| {
            polled_as(&mut self.actor, || match future.as_mut().as_pin_mut() {
                Some(future) => future.poll(context).map_ok(|value| (measure(&value), value)),
                None => Poll::Pending,
            })
        }));
        Poll::Ready(match polled {
            // A shield may have been left just now, which nothing else says.
            Ok(Poll::Pending) => return if self.is_to_be_cut() { dropped } else { Poll::Pending },
            Ok(Poll::Ready(Ok((measured, value)))) => self.leave(Left::Value(value, measured)),
            Ok(Poll::Ready(Err(error))) => self.leave(Left::Failure(error)),
            Err(panic) => self.leave(Left::Panic(panic)),
        })
    }

    fn is_to_be_cut(&self) -> bool {
        let actor = self.actor();
        actor.is_to_be_cut(&actor.base).is_some()
    }

    fn leave(&mut self, left: Left<T, E>) -> End {
        let end = match &left {
            Left::Value(_, measured) => End::Finish(*measured),
            Left::Failure(_) => End::Failed,
            Left::Panic(_) => End::Panicked,
        };
        if let Some(place) = &self.place {
            let before = locked(&place.left).replace(left);
            swallow(|| drop(before));
        }
        end
    }

    /// Closes the blocks that the job left. Then the book hears of its end.
    fn poll_end(&mut self, end: End, context: &mut Polling<'_>) -> Poll<()> {
        ready!(self.actor().poll_close_above(&self.actor().base, context));
        self.ends(end);
        Poll::Ready(())
    }

    /// The job ends: what it left lies in its place before the book hears of it.
    fn ends(&mut self, mut end: End) {
        self.step = Step::Over;
        self.leave_line();
        let Some(actor) = self.actor.take() else { return };
        if let Some(place) = self.place.take() {
            if end != End::Reject {
                place.ended.store(actor.base.next_end(), Ordering::Release);
            }
            // If nobody holds the task, what it left is dropped here.
            if let Err(panic) = catch_unwind(AssertUnwindSafe(|| drop(place))) {
                actor.base.keep(actor.id, Kept::Panic(panic));
                end = End::Panicked;
            }
        }
        actor.gone(end);
    }

    fn leave_line(&mut self) {
        let actor = self.actor();
        if let Some(turns) = actor.base.more_if_any().and_then(|more| more.turns.as_ref()) {
            locked(turns).leave(actor.id, self.has_turn);
        }
    }

    /// The future was dropped before its end.
    fn gone(&mut self) {
        match self.step {
            Step::Over => {}
            Step::Waits => self.ends(End::Reject),
            Step::Runs => self.ends(End::Gone),
            Step::Ends(end) => self.ends(end),
        }
    }
}
