//! A task, what its job left, and how its thread runs it.

use crate::context::Context;
use crate::outcome::{Cancelled, TaskId};
use crate::refusal::Refusal;
use crate::shared::{End, Shared};
use crate::waiting::{Bell, Wake, locked};
use std::any::Any;
use std::error::Error;
use std::fmt;
use std::marker::PhantomData;
use std::mem;
use std::panic::{AssertUnwindSafe, catch_unwind, resume_unwind};
use std::sync::atomic::{AtomicU64, Ordering};
use std::sync::{Arc, Mutex, PoisonError};

/// A panic that ended a job.
///
/// ```
/// # use balkreyn::{Joiner, Realm, Refusal, TaskError};
/// Realm::new()?.run(|cx| {
///     cx.try_scope(Joiner::Await, |s| {
///         let task = s.fork("job", |_| -> Result<(), Refusal> { std::panic::resume_unwind(Box::new("no luck")) })?;
///         let _done = s.join()?;
///         let Err(TaskError::Panicked(panic)) = s.result(task) else { panic!() };
///         assert_eq!(panic.message(), "no luck");
///         Ok::<_, Refusal>(())
///     })
/// })?;
/// # Ok::<(), Refusal>(())
/// ```
pub struct Panic {
    payload: Mutex<Box<dyn Any + Send>>,
    message: String,
}

impl Panic {
    #[doc(hidden)]
    pub fn new(payload: Box<dyn Any + Send>) -> Panic {
        let message = payload.downcast_ref::<&str>().copied();
        let message = message.or_else(|| payload.downcast_ref::<String>().map(String::as_str)).unwrap_or("panicked");
        Panic { message: message.to_owned(), payload: Mutex::new(payload) }
    }

    /// The message, if the panic had one; else `panicked`.
    #[must_use]
    pub fn message(&self) -> &str {
        &self.message
    }

    /// Goes on with the panic on this thread.
    pub fn resume(self) -> ! {
        resume_unwind(self.payload.into_inner().unwrap_or_else(PoisonError::into_inner))
    }
}

impl fmt::Debug for Panic {
    fn fmt(&self, out: &mut fmt::Formatter<'_>) -> fmt::Result {
        out.debug_tuple("Panic").field(&self.message).finish()
    }
}

impl fmt::Display for Panic {
    fn fmt(&self, out: &mut fmt::Formatter<'_>) -> fmt::Result {
        out.write_str(&self.message)
    }
}

impl Error for Panic {}

/// Why a task gives no value. It is an [`Error`] where the job's own error is one, which is its source then. Other types,
/// such as `String` or `Box<dyn Error>`, go on by [`Scope::value`](crate::Scope::value).
///
/// ```
/// # use balkreyn::{Joiner, Realm, Refusal, TaskError};
/// use std::error::Error;
///
/// fn number(text: &str) -> Result<i32, Box<dyn Error + Send + Sync>> {
///     Realm::new()?.run(|cx| {
///         cx.try_scope(Joiner::Await, |s| {
///             let task = s.fork("parse", |_| text.parse::<i32>())?;
///             s.join_ok()?;
///             Ok(s.result(task)?)
///         })
///     })
/// }
/// assert_eq!(number("7").unwrap(), 7);
/// let error = number("seven").unwrap_err();
/// assert!(error.source().unwrap().is::<std::num::ParseIntError>());
/// ```
#[derive(Debug)]
#[non_exhaustive]
pub enum TaskError<E> {
    /// The job failed with its own error.
    Failed(E),
    /// The job panicked, or the drop of what it held did.
    Panicked(Panic),
    /// The scope was cancelled before the job began or ended.
    Cancelled(Cancelled),
    /// The scope is not joined yet, or the result was taken before.
    Refused(Refusal),
}

impl<E> TaskError<E> {
    /// The error by the job's own type. A job that panicked goes on panicking here.
    pub fn into_own(self) -> E
    where
        E: From<Refusal> + From<Cancelled>,
    {
        match self {
            TaskError::Failed(own) => own,
            TaskError::Panicked(panic) => panic.resume(),
            TaskError::Cancelled(cancelled) => E::from(cancelled),
            TaskError::Refused(refusal) => E::from(refusal),
        }
    }
}

impl<E> fmt::Display for TaskError<E> {
    fn fmt(&self, out: &mut fmt::Formatter<'_>) -> fmt::Result {
        match self {
            TaskError::Failed(_) => write!(out, "the job failed"),
            TaskError::Panicked(_) => write!(out, "the job panicked"),
            TaskError::Cancelled(_) => write!(out, "the job was cancelled"),
            TaskError::Refused(_) => write!(out, "the job's result was refused"),
        }
    }
}

impl<E: Error + 'static> Error for TaskError<E> {
    fn source(&self) -> Option<&(dyn Error + 'static)> {
        Some(match self {
            TaskError::Failed(own) => own,
            TaskError::Panicked(panic) => panic,
            TaskError::Cancelled(cancelled) => cancelled,
            TaskError::Refused(refusal) => refusal,
        })
    }
}

/// What a task can be seen to be, without its result being taken ([`Scope::state`](crate::Scope::state)).
///
/// ```
/// # use balkreyn::{Joiner, Realm, Refusal, TaskState};
/// Realm::new()?.run(|cx| {
///     cx.try_scope(Joiner::Await, |s| {
///         let task = s.fork("one", |_| Ok::<_, Refusal>(1))?;
///         s.join_ok()?;
///         assert_eq!(s.state(&task), TaskState::Succeeded);
///         assert_eq!(s.value(task)?, 1);
///         Ok::<_, Refusal>(())
///     })
/// })?;
/// # Ok::<(), Refusal>(())
/// ```
#[derive(Clone, Copy, Debug, PartialEq, Eq, Hash)]
pub enum TaskState {
    /// Its thread is still to come.
    Waiting,
    /// It runs.
    Running,
    /// It gave a value, which counts.
    Succeeded,
    /// It failed or panicked, which counts.
    Failed,
    /// It never ran, or ended once its scope was cancelled: no result counts.
    Unavailable,
}

/// What a job left.
pub(crate) enum Left<T, E> {
    /// The value, and its measure.
    Value(T, i64),
    Failure(E),
    Panic(Box<dyn Any + Send>),
}

/// A failure that a block may end with, as nobody took it.
pub(crate) enum Kept {
    Error(Box<dyn Any + Send>),
    Panic(Box<dyn Any + Send>),
}

/// Where a job leaves its result, and its task finds it.
pub(crate) struct Place<T, E> {
    id: u32,
    bell: Arc<Bell>,
    left: Mutex<Option<Left<T, E>>>,
    /// How many jobs of the scope had ended when this one had, itself included; 0 until then.
    ended: AtomicU64,
    boxed: fn(E) -> Box<dyn Any + Send>,
}

impl<T, E> Place<T, E> {
    pub(crate) fn new(id: u32, bell: &Arc<Bell>) -> Arc<Place<T, E>>
    where
        E: Send + 'static,
    {
        let (left, ended) = (Mutex::new(None), AtomicU64::new(0));
        Arc::new(Place { id, bell: Arc::clone(bell), left, ended, boxed: |error| Box::new(error) })
    }

    /// How many jobs of the scope had ended when this one had, itself included; 0 until then.
    pub(crate) fn ended(&self) -> u64 {
        self.ended.load(Ordering::Acquire)
    }
}

impl<T, E> Drop for Place<T, E> {
    /// Nobody reads it any more: a failure may still be what the block ends with.
    fn drop(&mut self) {
        match self.left.get_mut().unwrap_or_else(PoisonError::into_inner).take() {
            Some(Left::Failure(error)) => self.bell.keep(self.id, Kept::Error((self.boxed)(error))),
            Some(Left::Panic(panic)) => self.bell.keep(self.id, Kept::Panic(panic)),
            // Its drop may panic: who lets the place go catches that.
            value => drop(value),
        }
    }
}

/// A task that was forked in a scope. Its result is read by that scope alone, which the lifetime `'scope` names:
/// [`Scope::value`](crate::Scope::value), [`Scope::result`](crate::Scope::result).
///
/// ```
/// # use balkreyn::{Joiner, Realm, Refusal};
/// let sum = Realm::new()?.run(|cx| {
///     cx.try_scope(Joiner::All, |s| {
///         let (one, two) = (s.fork("one", |_| Ok::<_, Refusal>(1))?, s.fork("two", |_| Ok::<_, Refusal>(2))?);
///         s.join_ok()?;
///         Ok::<_, Refusal>(s.value(one)? + s.value(two)?)
///     })
/// })?;
/// assert_eq!(sum, 3);
/// # Ok::<(), Refusal>(())
/// ```
pub struct Task<'scope, T, E> {
    id: TaskId,
    pub(crate) place: Arc<Place<T, E>>,
    of_its_scope: PhantomData<fn(&'scope ()) -> &'scope ()>,
}

impl<T, E> Task<'_, T, E> {
    pub(crate) fn new(id: u32, place: Arc<Place<T, E>>) -> Self {
        Task { id: TaskId(id), place, of_its_scope: PhantomData }
    }

    /// Takes what the job left, of which the book said whether it is a success; and with it how the job ended.
    pub(crate) fn take(&self, succeeded: bool) -> (Result<T, TaskError<E>>, Option<End>) {
        match (locked(&self.place.left).take(), succeeded) {
            (Some(Left::Value(value, measured)), true) => (Ok(value), Some(End::Finish(measured))),
            (Some(Left::Failure(error)), false) => (Err(TaskError::Failed(error)), Some(End::Fail("failed"))),
            (Some(Left::Panic(panic)), false) => {
                (Err(TaskError::Panicked(Panic::new(panic))), Some(End::Fail("panicked")))
            }
            _ => (Err(TaskError::Refused(Refusal::Taken)), None),
        }
    }

    /// The task's number.
    #[must_use]
    pub fn id(&self) -> TaskId {
        self.id
    }
}

impl<T, E> fmt::Debug for Task<'_, T, E> {
    fn fmt(&self, out: &mut fmt::Formatter<'_>) -> fmt::Result {
        out.debug_struct("Task").field("id", &self.id).finish_non_exhaustive()
    }
}

/// Drops the value. Its panic is caught, and returned.
fn dropped(value: impl Sized) -> Result<(), Box<dyn Any + Send>> {
    catch_unwind(AssertUnwindSafe(|| drop(value)))
}

/// Makes the call, and swallows its panic. What a panic carries may panic in its drop, too, and so on.
pub fn swallow(call: impl FnOnce()) {
    let mut ended = catch_unwind(AssertUnwindSafe(call));
    for _ in 0..8 {
        match ended {
            Ok(()) => return,
            Err(panic) => ended = dropped(panic),
        }
    }
    mem::forget(ended);
}

/// Runs a job on its thread: what it left lies in its place before the book hears of its end. A panic of a drop, of
/// what the job held or of a value that nobody waits for, is the job's.
pub(crate) fn run_job<T, E>(
    shared: &Arc<Shared>,
    bell: &Arc<Bell>,
    place: Arc<Place<T, E>>,
    measure: impl FnOnce(&T) -> i64,
    job: impl FnOnce(&Context) -> Result<T, E>,
) -> Option<Wake> {
    let id = place.id;
    shared.record_start(id);
    let cx = Context::of_task(Arc::clone(shared), id, Arc::clone(bell));
    let ended = catch_unwind(AssertUnwindSafe(|| job(&cx).map(|value| (measure(&value), value))));
    drop(cx);
    let (left, end) = match ended {
        Ok(Ok((measured, value))) => (Left::Value(value, measured), End::Finish(measured)),
        Ok(Err(error)) => (Left::Failure(error), End::Fail("failed")),
        Err(panic) => (Left::Panic(panic), End::Fail("panicked")),
    };
    *locked(&place.left) = Some(left);
    place.ended.store(bell.next_end(), Ordering::Release);
    // If nobody holds the task, what it left is dropped here.
    let end = match dropped(place) {
        Ok(()) => end,
        Err(panic) => {
            bell.keep(id, Kept::Panic(panic));
            End::Fail("panicked")
        }
    };
    shared.record_end(bell, id, &end)
}

/// A job that may not run: what it holds is dropped, and the book hears that it never ran.
pub(crate) fn reject_job(shared: &Arc<Shared>, bell: &Arc<Bell>, id: u32, held: impl Sized) -> Option<Wake> {
    swallow(|| drop(held));
    shared.record_end(bell, id, &End::Reject)
}
