//! A scope: jobs are forked in it, joined, cancelled, and their results read.

use crate::canceller::{Canceller, Cancels};
use crate::context::Context;
use crate::outcome::{Cancelled, Cause, Outcome, ScopeId, TaskId};
use crate::refusal::{Code, Refusal};
use crate::shared::{End, Shared};
use crate::task::{Place, Task, TaskError, TaskState, reject_job, run_job, swallow};
use crate::threads::Threads;
use crate::waiting::Bell;
use std::borrow::Borrow;
use std::cell::OnceCell;
use std::fmt;
use std::marker::PhantomData;
use std::sync::Arc;
use std::sync::atomic::Ordering;
use std::time::Duration;

/// A scope whose body runs.
///
/// ```
/// use balkreyn::{Joiner, Outcome, Realm, Refusal};
///
/// let words = ["one".to_owned(), "three".to_owned()];
/// let lengths = Realm::new()?.run(|cx| {
///     cx.try_scope(Joiner::All, |s| {
///         let tasks = s.fork_all("length", words.iter().map(|word| |_: &_| Ok::<_, Refusal>(word.len())))?;
///         assert_eq!(s.join()?, Outcome::All);
///         tasks.into_iter().map(|task| s.value(task)).collect::<Result<Vec<_>, _>>()
///     })
/// });
/// assert_eq!(lengths, Ok(vec![3, 5]));
/// # Ok::<(), Refusal>(())
/// ```
///
/// It never leaves the thread of its owner, so no job can fork in it or join it:
///
/// ```compile_fail,E0277
/// # use balkreyn::{Context, Joiner, Realm, Refusal};
/// # let mut realm = Realm::new().unwrap();
/// realm.run(|cx| cx.scope(Joiner::All, |s| {
///     s.fork("job", |_| s.join()).map(|_| ())
/// }));
/// ```
///
/// and a result is read in the scope of its task alone:
///
/// ```compile_fail,E0521
/// # use balkreyn::{Context, Joiner, Realm, Refusal};
/// # let mut realm = Realm::new().unwrap();
/// realm.run(|cx| cx.scope(Joiner::All, |outer| {
///     let task = outer.fork("job", |_| Ok::<_, Refusal>(1)).unwrap();
///     cx.scope(Joiner::All, |inner| inner.result(task))
/// }));
/// ```
pub struct Scope<'scope, 'env: 'scope> {
    shared: Arc<Shared>,
    actor: u32,
    bell: Arc<Bell>,
    thread_limit: usize,
    /// The threads that it has, once a job came.
    threads: OnceCell<Arc<Threads<'scope>>>,
    on_its_thread: PhantomData<*const ()>,
    lives: PhantomData<(&'scope mut &'scope (), &'env mut &'env ())>,
}

impl Drop for Scope<'_, '_> {
    /// On every way out of the body, a scope that has threads begins to close, which cancels what still runs, and its
    /// threads leave.
    fn drop(&mut self) {
        if let Some(threads) = self.threads.get() {
            let leaving = Leaving(threads);
            self.shared.begin_close(self.actor, self.bell.scope);
            drop(leaving);
        }
    }
}

/// Waits for the threads of a scope in its drop: so nothing that goes wrong in between leaves them behind.
struct Leaving<'a, 'scope>(&'a Threads<'scope>);

impl Drop for Leaving<'_, '_> {
    fn drop(&mut self) {
        self.0.close();
        if let Some(panic) = self.0.wait_all() {
            if !std::thread::panicking() {
                std::panic::resume_unwind(panic);
            }
        }
    }
}

impl<'scope, 'env> Scope<'scope, 'env> {
    pub(crate) fn new(shared: Arc<Shared>, actor: u32, bell: Arc<Bell>, limit: usize) -> Scope<'scope, 'env> {
        let threads = OnceCell::new();
        Scope { shared, actor, bell, thread_limit: limit, threads, on_its_thread: PhantomData, lives: PhantomData }
    }

    /// Whether a job of it came to a thread.
    pub(crate) fn has_threads(&self) -> bool {
        self.threads.get().is_some()
    }

    /// The scope's number.
    #[must_use]
    pub fn id(&self) -> ScopeId {
        ScopeId(self.bell.scope)
    }

    /// Forks a job, which runs on a thread: one that is idle in the scope, or else another one of the pool (up to
    /// [`Options::threads`](crate::Options::threads)). A job whose scope is cancelled before it begins never runs.
    ///
    /// The name is any text. The rules, and journals, have a name that is like it, where it is none of theirs; dumps
    /// and journals show the name itself beside that.
    ///
    /// # Errors
    /// [`Refusal::Rejected`] if no thread is to be had; [`Refusal::AlreadyJoined`]; [`Refusal::Structure`] inside a
    /// binding that is younger than the scope; [`Refusal::TooMany`]; [`Refusal::Memory`]. The job never runs then.
    pub fn fork<T, E, F>(&self, name: &str, job: F) -> Result<Task<'scope, T, E>, Refusal>
    where
        F: FnOnce(&Context) -> Result<T, E> + Send + 'scope,
        T: Send + 'scope,
        E: Send + 'static,
    {
        self.fork_measured(name, |_| 0, job)
    }

    /// Forks each job, under one name.
    ///
    /// # Errors
    /// As [`Scope::fork`], of the first that is refused. Those before it run on, as those of any block that is left.
    pub fn fork_all<T, E, F>(
        &self,
        name: &str,
        jobs: impl IntoIterator<Item = F>,
    ) -> Result<Vec<Task<'scope, T, E>>, Refusal>
    where
        F: FnOnce(&Context) -> Result<T, E> + Send + 'scope,
        T: Send + 'scope,
        E: Send + 'static,
    {
        jobs.into_iter().map(|job| self.fork(name, job)).collect()
    }

    /// As [`Scope::fork`], with a measure of the value, which [`Joiner::UntilSum`](crate::Joiner::UntilSum) adds up.
    /// The measure is taken on the job's thread; its panic is the job's.
    ///
    /// # Errors
    /// As [`Scope::fork`].
    pub fn fork_measured<T, E, F, M>(&self, name: &str, measure: M, job: F) -> Result<Task<'scope, T, E>, Refusal>
    where
        F: FnOnce(&Context) -> Result<T, E> + Send + 'scope,
        M: FnOnce(&T) -> i64 + Send + 'scope,
        T: Send + 'scope,
        E: Send + 'static,
    {
        let (id, has_thread) = match self.shared.fork(self.actor, self.bell.scope, name) {
            Ok(forked) => forked,
            Err(refusal) => {
                swallow(|| drop((measure, job)));
                return Err(self.shared.refused(refusal));
            }
        };
        let place = Place::new(id, &self.bell);
        if !has_thread {
            swallow(|| drop((measure, job)));
        } else {
            let (shared, bell, left) = (Arc::clone(&self.shared), Arc::clone(&self.bell), Arc::clone(&place));
            let run = move || {
                if bell.is_cut() {
                    reject_job(&shared, &bell, id, (measure, job, left))
                } else {
                    run_job(&shared, &bell, left, measure, job)
                }
            };
            let threads = self.threads.get_or_init(|| Threads::new(self.shared.pool.clone(), self.thread_limit));
            if let Err(job) = threads.run(Box::new(run)) {
                swallow(|| drop(job));
                drop(self.shared.record_end(&self.bell, id, &End::Reject));
                return Err(self.shared.refused(Refusal::Rejected));
            }
        }
        Ok(Task::new(id, place))
    }

    /// Waits until the joiner has its answer, the scope is cancelled, or a deadline passes.
    ///
    /// # Errors
    /// [`Refusal::AlreadyJoined`].
    pub fn join(&self) -> Result<Outcome, Refusal> {
        self.bell.was_handed.store(false, Ordering::Relaxed);
        let scope = self.bell.scope;
        // Nothing is forked after a join, so a thread that finds no more jobs may leave while the owner waits.
        if let Some(threads) = self.threads.get() {
            threads.close();
        }
        let mut has_spun = false;
        let mut inner = if self.has_threads() { self.shared.lock() } else { self.shared.lock_again() };
        loop {
            match inner.book.join(self.actor, scope) {
                Err(Code::NOT_READY) => {
                    inner = self.shared.wait(inner, &self.bell.owner, Some(scope), None, Some(&mut has_spun));
                }
                told => {
                    let outcome = Outcome::of_pair(&told?)?;
                    inner.note(|notes, book| notes.join(self.actor, scope, outcome, book));
                    self.shared.settle(&mut inner);
                    return Ok(outcome);
                }
            }
        }
    }

    /// As [`Scope::join`], for a body that goes on only if all is well: results can be read then. In a scope that moves on
    /// that is so behind its deadline, too.
    ///
    /// ```
    /// use balkreyn::{Joiner, Realm, Refusal};
    ///
    /// let sum = Realm::new()?.run(|cx| {
    ///     cx.try_scope(Joiner::All, |s| {
    ///         let (one, name) = (s.fork("one", |_| Ok::<_, Refusal>(1))?, s.fork("name", |_| Ok::<_, Refusal>("two"))?);
    ///         s.join_ok()?;
    ///         Ok::<_, Refusal>(s.value(one)? + s.value(name)?.len())
    ///     })
    /// })?;
    /// assert_eq!(sum, 4);
    /// # Ok::<(), Refusal>(())
    /// ```
    ///
    /// # Errors
    /// [`Refusal::JobFailed`], for which a block gives the job's own error, if it has the type of the block's;
    /// [`Refusal::TimedOut`]; [`Refusal::Cancelled`]; [`Refusal::NoTask`] where a success was wanted, and no job ended;
    /// [`Refusal::AlreadyJoined`].
    pub fn join_ok(&self) -> Result<(), Refusal> {
        match self.join()? {
            Outcome::All | Outcome::Any(_) | Outcome::Done | Outcome::List | Outcome::Partial => Ok(()),
            other => Err(self.error_of(other)),
        }
    }

    /// The outcome by which a body that was handed a cancel of this very scope ends; `None` where it was not.
    pub(crate) fn cut_outcome(&self) -> Option<Outcome> {
        if !self.bell.was_handed.load(Ordering::Relaxed) {
            return None;
        }
        self.join().ok().or_else(|| {
            let pair = self.shared.quietly().book.outcome(self.bell.scope).ok()?;
            Outcome::of_pair(&pair).ok()
        })
    }

    /// The cancel of this scope, as it is handed to its owner.
    fn cancelled(&self) -> Option<Cancelled> {
        self.bell.cause().map(|cause| self.bell.handed(self.actor, cause))
    }

    /// What the task gave, if the book says that it counts. A task that is lent, not moved, can be asked again: before
    /// the join that changes nothing.
    ///
    /// # Errors
    /// [`TaskError`]; with [`Refusal::NotJoined`] before the join, and [`Refusal::Taken`] the second time.
    pub fn result<T, E>(&self, task: impl Borrow<Task<'scope, T, E>>) -> Result<T, TaskError<E>> {
        let (actor, task) = (self.actor, task.borrow());
        let id = task.id().0;
        let mut inner = self.shared.quietly();
        let told = inner.book.succeeded(actor, id);
        let (result, end) = match told {
            Ok(succeeded) => task.take(succeeded),
            Err(code) => (Err(self.no_result(code)), None),
        };
        inner.note(|notes, _| match (&result, end) {
            (_, Some(End::Finish(value))) => {
                notes.line(format_args!("result {actor} {id}"), format_args!("value {value}"))
            }
            (_, Some(End::Fail(fault))) => {
                notes.line(format_args!("fault {actor} {id}"), format_args!("fault {fault}"))
            }
            (Err(TaskError::Cancelled(_)), _) => notes.line(format_args!("state {id}"), "state unavailable"),
            _ => {}
        });
        result
    }

    fn no_result<E>(&self, code: Code) -> TaskError<E> {
        match (code, self.bell.cause()) {
            (Code::NO_RESULT, Some(cause)) => TaskError::Cancelled(Cancelled { cause }),
            (code, _) => TaskError::Refused(Refusal::from(code)),
        }
    }

    /// The error by the job's own type. A cancel is handed to the body by it.
    fn own<E: From<Refusal> + From<Cancelled>>(&self, error: TaskError<E>) -> E {
        if let TaskError::Cancelled(Cancelled { cause }) = error {
            self.bell.handed(self.actor, cause);
        }
        error.into_own()
    }

    /// The task's value, or its own error. A job that panicked goes on panicking here.
    ///
    /// # Errors
    /// The job's own; or else what became of it: [`TaskError::into_own`].
    pub fn value<T, E>(&self, task: impl Borrow<Task<'scope, T, E>>) -> Result<T, E>
    where
        E: From<Refusal> + From<Cancelled>,
    {
        self.result(task).map_err(|error| self.own(error))
    }

    /// The result of each task, in the order given.
    pub fn results<T, E>(&self, tasks: Vec<Task<'scope, T, E>>) -> Vec<Result<T, TaskError<E>>> {
        tasks.into_iter().map(|task| self.result(task)).collect()
    }

    /// The result of the task that an outcome named, picked from tasks of one kind.
    ///
    /// # Errors
    /// [`TaskError`]; with [`Refusal::NoTask`] where it is none of these.
    pub fn result_of<T, E>(
        &self,
        named: TaskId,
        tasks: impl IntoIterator<Item = Task<'scope, T, E>>,
    ) -> Result<T, TaskError<E>> {
        match tasks.into_iter().find(|task| task.id() == named) {
            Some(task) => self.result(task),
            None => Err(TaskError::Refused(Refusal::NoTask)),
        }
    }

    /// Joins, and gives the value of the task that the outcome names: the first to succeed, or else the first to fail.
    ///
    /// # Errors
    /// The error of that task; [`Refusal::TimedOut`]; [`Cancelled`]; [`Refusal::NoTask`] where the outcome names none
    /// of these.
    pub fn winner<T, E>(&self, tasks: Vec<Task<'scope, T, E>>) -> Result<T, E>
    where
        E: From<Refusal> + From<Cancelled>,
    {
        match self.join()? {
            Outcome::Any(task) | Outcome::Failed(task) => self.result_of(task, tasks).map_err(|error| self.own(error)),
            other => Err(self.error_of(other)),
        }
    }

    /// Joins, and gives the value of each task, in the order given.
    ///
    /// # Errors
    /// The error of the first task that failed; [`Refusal::TimedOut`]; [`Cancelled`].
    pub fn values<T, E>(&self, tasks: Vec<Task<'scope, T, E>>) -> Result<Vec<T>, E>
    where
        E: From<Refusal> + From<Cancelled>,
    {
        match self.join()? {
            Outcome::All | Outcome::Any(_) | Outcome::Done | Outcome::List => {
                tasks.into_iter().map(|task| self.value(task)).collect()
            }
            Outcome::Failed(task) => match tasks.into_iter().find(|one| one.id() == task).map(|one| self.value(one)) {
                Some(Err(error)) => Err(error),
                _ => Err(self.error_of(Outcome::Failed(task))),
            },
            other => Err(self.error_of(other)),
        }
    }

    /// The error of an outcome by which a block gives no value.
    fn error_of<E: From<Refusal> + From<Cancelled>>(&self, outcome: Outcome) -> E {
        match (outcome, self.cancelled()) {
            (Outcome::Timeout | Outcome::Partial, _) => E::from(Refusal::TimedOut(self.id())),
            (Outcome::Cancelled(_), Some(cancelled)) => E::from(cancelled),
            (Outcome::Failed(task), _) => {
                // The block gives the job's own error instead, if it can.
                self.bell.was_handed.store(true, Ordering::Relaxed);
                E::from(Refusal::JobFailed(task))
            }
            _ => E::from(Refusal::NoTask),
        }
    }

    /// What the task can be seen to be now. Its result stays where it is.
    #[must_use]
    pub fn state<T, E>(&self, task: &Task<'scope, T, E>) -> TaskState {
        let id = task.id().0;
        let mut inner = self.shared.lock();
        let told = inner.book.state(id);
        let (state, words) = match told {
            Ok(1) => (TaskState::Succeeded, "success"),
            Ok(2) => (TaskState::Failed, "failed"),
            _ => match inner.book.stage(id) {
                Ok(1) => (TaskState::Waiting, "unavailable"),
                Ok(2) => (TaskState::Running, "unavailable"),
                _ => (TaskState::Unavailable, "unavailable"),
            },
        };
        if told.is_ok() {
            inner.note(|notes, _| notes.line(format_args!("state {id}"), format_args!("state {words}")));
        }
        state
    }

    /// Waits until one of the tasks has ended, takes it from the list, and gives its result: in the order of their
    /// ends, before the join too. `None` once none is left. In a cancelled scope those that don't count are given at
    /// once, as [`TaskError::Cancelled`].
    pub fn next_done<T, E>(&self, left: &mut Vec<Task<'scope, T, E>>) -> Option<(TaskId, Result<T, TaskError<E>>)> {
        if left.is_empty() {
            return None;
        }
        self.bell.wants_each.store(true, Ordering::Relaxed);
        let mut has_spun = false;
        let mut inner = self.shared.lock();
        let (at, told) = loop {
            let mut ended: Vec<_> = left.iter().enumerate().map(|(at, task)| (task.place.ended(), at)).collect();
            ended.retain(|(end, _)| *end > 0);
            ended.sort_unstable();
            let counts = ended.into_iter().find_map(|(_, at)| match inner.book.state(left[at].id().0) {
                Ok(0) | Err(_) => None,
                Ok(state) => Some((at, state == 1)),
            });
            match counts {
                Some((at, succeeded)) => break (at, Some(succeeded)),
                None if self.bell.is_cut() => break (0, None),
                None => {
                    inner = self.shared.wait(inner, &self.bell.owner, Some(self.bell.scope), None, Some(&mut has_spun))
                }
            }
        };
        self.bell.wants_each.store(false, Ordering::Relaxed);
        let task = left.remove(at);
        let id = task.id();
        let result = match told {
            Some(succeeded) => task.take(succeeded).0,
            None => Err(self.no_result(Code::NO_RESULT)),
        };
        inner.note(|notes, _| {
            let state = told.map_or("unavailable", |succeeded| if succeeded { "success" } else { "failed" });
            notes.line(format_args!("state {}", id.0), format_args!("state {state}"));
        });
        Some((id, result))
    }

    /// Cancels the scope and what lies in it, up to shields: whether it was not cancelled before.
    pub fn cancel(&self) -> bool {
        self.shared.cancel(self.bell.scope)
    }

    /// A handle that cancels the scope from any thread. Behind its end it cancels nothing.
    pub fn canceller(&self) -> Canceller {
        Canceller::of_scope(&self.shared, self.bell.scope)
    }

    /// Why the scope is cancelled; `None` where it is not.
    #[must_use]
    pub fn cause(&self) -> Option<Cause> {
        let mut inner = self.shared.lock();
        let cause = self.bell.cause();
        inner.note(|notes, _| notes.cause(self.bell.scope, cause));
        cause
    }

    /// Sets the deadline so long after now, or takes it away.
    ///
    /// # Errors
    /// [`Refusal::AlreadyJoined`]; [`Refusal::TooMany`] once moves and bindings have used up the load. What the scope
    /// has paid for stays: its cancel and its deadline are accepted then, too.
    pub fn move_deadline(&self, within: Option<Duration>) -> Result<(), Refusal> {
        self.shared.move_deadline(self.bell.scope, within)
    }
}

impl fmt::Debug for Scope<'_, '_> {
    fn fmt(&self, out: &mut fmt::Formatter<'_>) -> fmt::Result {
        out.debug_struct("Scope").field("id", &self.id()).finish_non_exhaustive()
    }
}
