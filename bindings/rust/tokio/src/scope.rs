//! A scope: jobs are forked in it, joined, cancelled, and their results read.

use crate::actor::{Actor, polled_in};
use crate::bell::{Bell, End, Stage};
use crate::block::Ended;
use crate::task::{Job, Place, Task};
use balkreyn::host::{Cancels, Code, locked, swallow};
use balkreyn::{Cancelled, Canceller, Cause, Outcome, Refusal, ScopeId, TaskError, TaskId, TaskState};
use std::borrow::Borrow;
use std::fmt;
use std::future::{Future, poll_fn};
use std::panic::{AssertUnwindSafe, catch_unwind};
use std::pin::Pin;
use std::sync::Arc;
use std::sync::atomic::{AtomicUsize, Ordering};
use std::task::{Context as Polling, Poll, Waker, ready};
use std::time::Duration;

/// A task that was forked, and its job if it may run.
type Forked<T, E, F> = (Task<T, E>, Option<Job<T, E, F>>);

/// How many jobs are forked in one hold of the realm's lock.
const BATCH: usize = 32;

/// A scope whose body runs.
///
/// ```
/// use balkreyn_tokio::{Joiner, Outcome, Realm, Refusal};
///
/// # tokio::runtime::Runtime::new().unwrap().block_on(async {
/// let lengths = Realm::new()?.run(async |cx| {
///     cx.try_scope(Joiner::All, async |s| {
///         let words = ["one".to_owned(), "three".to_owned()];
///         let tasks = s.fork_all("length", words.map(|word| async move { Ok::<_, Refusal>(word.len()) }))?;
///         assert_eq!(s.join().await?, Outcome::All);
///         tasks.into_iter().map(|task| s.value(task)).collect::<Result<Vec<_>, _>>()
///     })
///     .await
/// })
/// .await;
/// assert_eq!(lengths, Ok(vec![3, 5]));
/// # Ok::<(), Refusal>(())
/// # }).unwrap();
/// ```
///
/// Jobs are tasks of tokio, so they can't borrow; a [`Here`](crate::Here) has jobs that can ([`Scope::here`]).
pub struct Scope {
    pub(crate) actor: Arc<Actor>,
    pub(crate) bell: Arc<Bell>,
    /// How many of its jobs are polled by a `Here`.
    pub(crate) here: AtomicUsize,
    canceller: Option<Canceller>,
}

impl Drop for Scope {
    /// Where the block's future is dropped, its close begins at once.
    fn drop(&mut self) {
        if self.bell.stage() == Stage::Closed {
            return;
        }
        self.actor.leave(&self.bell);
        self.detach();
    }
}

impl Scope {
    pub(crate) fn new(actor: &Arc<Actor>, bell: Arc<Bell>, canceller: Option<Canceller>) -> Scope {
        if let Some(canceller) = &canceller {
            canceller.attach(&actor.lane, bell.scope);
        }
        Scope { actor: Arc::clone(actor), bell, here: AtomicUsize::new(0), canceller }
    }

    fn detach(&self) {
        if let Some(canceller) = &self.canceller {
            canceller.detach(&self.actor.lane, self.bell.scope);
        }
    }

    /// The scope's number.
    #[must_use]
    pub fn id(&self) -> ScopeId {
        self.bell.id()
    }

    /// Forks a job, which is a task of tokio. A job whose scope is cancelled before it begins never runs. One whose
    /// scope is cancelled while it runs is dropped at its next await, unless it is inside a shield there; what it
    /// holds is dropped, and blocks that it left are closed, before it counts as ended.
    ///
    /// The job finds its own context by [`Context::current`](crate::Context::current).
    ///
    /// # Errors
    /// [`Refusal::AlreadyJoined`]; [`Refusal::Structure`] inside a binding that is younger than the scope;
    /// [`Refusal::TooMany`]; [`Refusal::Memory`]; [`Refusal::Elsewhere`]. The job never runs then.
    pub fn fork<T, E, F>(&self, name: &str, job: F) -> Result<Task<T, E>, Refusal>
    where
        F: Future<Output = Result<T, E>> + Send + 'static,
        T: Send + 'static,
        E: Send + 'static,
    {
        self.fork_measured(name, |_| 0, job)
    }

    /// Forks each job, under one name.
    ///
    /// # Errors
    /// As [`Scope::fork`], of the first that is refused. Those before it run on, as those of any block that is left.
    pub fn fork_all<T, E, F>(&self, name: &str, jobs: impl IntoIterator<Item = F>) -> Result<Vec<Task<T, E>>, Refusal>
    where
        F: Future<Output = Result<T, E>> + Send + 'static,
        T: Send + 'static,
        E: Send + 'static,
    {
        let (mut jobs, mut tasks) = (jobs.into_iter(), Vec::new());
        loop {
            // The next ones are asked for with a free lock, and forked in one hold of it.
            let batch: Vec<F> = jobs.by_ref().take(BATCH).collect();
            if batch.is_empty() {
                return Ok(tasks);
            }
            let (forked, refusal) = self.fork_ids(name, batch.len());
            tasks.reserve(forked.len());
            for ((id, may_run), job) in forked.into_iter().zip(batch) {
                tasks.push(self.spawned(self.forked_as(id, may_run, |_| 0, job)));
            }
            if let Some(refusal) = refusal {
                return Err(self.actor.lane.refused(refusal));
            }
        }
    }

    /// Forks so many tasks in one hold of the lock, or those before the first that is refused.
    fn fork_ids(&self, name: &str, count: usize) -> (Vec<(u32, bool)>, Option<Refusal>) {
        let (actor, mut forked) = (&self.actor, Vec::with_capacity(count));
        if let Err(refusal) = actor.acts_here() {
            return (forked, Some(refusal));
        }
        let mut inner = actor.lane.lock();
        for _ in 0..count {
            match actor.lane.fork(&mut inner, actor.who(), self.bell.scope, name) {
                Ok(one) => forked.push(one),
                Err(refusal) => return (forked, Some(refusal)),
            }
        }
        (forked, None)
    }

    /// Has the runtime poll the job.
    fn spawned<T, E, F>(&self, (task, job): Forked<T, E, F>) -> Task<T, E>
    where
        F: Future<Output = Result<T, E>> + Send + 'static,
        T: Send + 'static,
        E: Send + 'static,
    {
        if let Some(job) = job {
            drop(self.actor.lane.runtime.spawn(job));
        }
        task
    }

    /// As [`Scope::fork`], with a measure of the value, which [`Joiner::UntilSum`](crate::Joiner::UntilSum) adds up.
    /// The measure is taken where the job ends; its panic is the job's.
    ///
    /// # Errors
    /// As [`Scope::fork`].
    pub fn fork_measured<T, E, F>(&self, name: &str, measure: fn(&T) -> i64, job: F) -> Result<Task<T, E>, Refusal>
    where
        F: Future<Output = Result<T, E>> + Send + 'static,
        T: Send + 'static,
        E: Send + 'static,
    {
        Ok(self.spawned(self.forked(name, measure, job)?))
    }

    pub(crate) fn forked<T, E: Send + 'static, F>(
        &self,
        name: &str,
        measure: fn(&T) -> i64,
        job: F,
    ) -> Result<Forked<T, E, F>, Refusal> {
        let actor = &self.actor;
        let forked = actor.acts_here().and_then(|()| {
            let mut inner = actor.lane.lock();
            actor.lane.fork(&mut inner, actor.who(), self.bell.scope, name)
        });
        let (id, may_run) = match forked {
            Ok(forked) => forked,
            Err(refusal) => {
                swallow(|| drop(job));
                return Err(actor.lane.refused(refusal));
            }
        };
        Ok(self.forked_as(id, may_run, measure, job))
    }

    /// The task of that number, and its job if it may run.
    fn forked_as<T, E: Send + 'static, F>(
        &self,
        id: u32,
        may_run: bool,
        measure: fn(&T) -> i64,
        job: F,
    ) -> Forked<T, E, F> {
        let actor = &self.actor;
        let place = Place::new(id, &self.bell);
        let task = Task { place: Arc::clone(&place) };
        if !may_run {
            swallow(|| drop(job));
            return (task, None);
        }
        if let Some(turns) = self.bell.more_if_any().and_then(|more| more.turns.as_ref()) {
            locked(turns).enter(id);
        }
        let job_actor = Actor::new(Arc::clone(&actor.lane), id, actor.room, Arc::clone(&self.bell));
        (task, Some(Job::new(Arc::new(job_actor), place, measure, job)))
    }

    /// Waits until the joiner has its answer, the scope is cancelled, or a deadline passes.
    ///
    /// # Errors
    /// [`Refusal::AlreadyJoined`]; [`Refusal::Elsewhere`]; [`Refusal::PolledHere`] where jobs of the scope are polled by
    /// a [`Here`](crate::Here), which joins it then.
    pub fn join(&self) -> impl Future<Output = Result<Outcome, Refusal>> {
        Join { scope: self, key: 0, is_here: false }
    }

    /// As [`Scope::join`], for a body that goes on only if all is well: results can be read then. In a scope that moves on
    /// that is so behind its deadline, too.
    ///
    /// # Errors
    /// [`Refusal::JobFailed`], for which a block gives the job's own error, if it has the type of the block's;
    /// [`Refusal::TimedOut`]; [`Refusal::Cancelled`]; [`Refusal::NoTask`] where a success was wanted, and no job ended;
    /// [`Refusal::AlreadyJoined`].
    pub async fn join_ok(&self) -> Result<(), Refusal> {
        self.is_ok(self.join().await?)
    }

    /// Whether all is well.
    pub(crate) fn is_ok(&self, outcome: Outcome) -> Result<(), Refusal> {
        match outcome {
            Outcome::All | Outcome::Any(_) | Outcome::Done | Outcome::List | Outcome::Partial => Ok(()),
            other => Err(self.error_of(other)),
        }
    }

    /// The cancel of this scope, as it is handed to its owner.
    fn cancelled(&self) -> Option<Cancelled> {
        self.bell.cause().map(|cause| self.bell.handed(self.actor.id, cause))
    }

    /// What the task gave, if the book says that it counts. A task that is lent, not moved, can be asked again: before
    /// the join that changes nothing.
    ///
    /// # Errors
    /// [`TaskError`]; with [`Refusal::NotJoined`] before the join, [`Refusal::Taken`] the second time, and
    /// [`Refusal::NoTask`] for a task of another scope.
    pub fn result<T, E>(&self, task: impl Borrow<Task<T, E>>) -> Result<T, TaskError<E>> {
        let (actor, task) = (self.actor.id, task.borrow());
        if !self.has(task) {
            return Err(TaskError::Refused(Refusal::NoTask));
        }
        let id = task.place.id;
        let mut inner = self.actor.lane.quietly();
        let told = inner.book.succeeded(actor, id);
        let (result, end) = match told {
            Ok(succeeded) => task.take(succeeded),
            Err(code) => (Err(self.no_result(code)), None),
        };
        inner.note(|notes, _| match (&result, end) {
            (_, Some(End::Finish(value))) => {
                notes.line(format_args!("result {actor} {id}"), format_args!("value {value}"))
            }
            (_, Some(end)) => {
                let fault = end.fault().unwrap_or_default();
                notes.line(format_args!("fault {actor} {id}"), format_args!("fault {fault}"))
            }
            (Err(TaskError::Cancelled(_)), None) => notes.line(format_args!("state {id}"), "state unavailable"),
            _ => {}
        });
        result
    }

    /// Whether it is a task of this scope.
    fn has<T, E>(&self, task: &Task<T, E>) -> bool {
        Arc::ptr_eq(&task.place.bell, &self.bell)
    }

    fn no_result<E>(&self, code: Code) -> TaskError<E> {
        match (code, self.bell.cause()) {
            (Code::NO_RESULT, Some(cause)) => TaskError::Cancelled(Cancelled { cause }),
            (code, _) => TaskError::Refused(Refusal::from(code)),
        }
    }

    /// The error by the job's own type. A cancel is handed to the body by it.
    fn own<E: From<Refusal> + From<Cancelled>>(&self, error: TaskError<E>) -> E {
        if let TaskError::Cancelled(Cancelled { cause }) = error {
            self.bell.handed(self.actor.id, cause);
        }
        error.into_own()
    }

    /// The task's value, or its own error. A job that panicked goes on panicking here.
    ///
    /// # Errors
    /// The job's own; or else what became of it: [`TaskError::into_own`].
    pub fn value<T, E>(&self, task: impl Borrow<Task<T, E>>) -> Result<T, E>
    where
        E: From<Refusal> + From<Cancelled>,
    {
        self.result(task).map_err(|error| self.own(error))
    }

    /// The result of each task, in the order given.
    pub fn results<T, E>(&self, tasks: Vec<Task<T, E>>) -> Vec<Result<T, TaskError<E>>> {
        tasks.into_iter().map(|task| self.result(task)).collect()
    }

    /// The result of the task that an outcome named, picked from tasks of one kind.
    ///
    /// # Errors
    /// [`TaskError`]; with [`Refusal::NoTask`] where it is none of these.
    pub fn result_of<T, E>(
        &self,
        named: TaskId,
        tasks: impl IntoIterator<Item = Task<T, E>>,
    ) -> Result<T, TaskError<E>> {
        match tasks.into_iter().find(|task| task.id() == named) {
            Some(task) => self.result(task),
            None => Err(TaskError::Refused(Refusal::NoTask)),
        }
    }

    /// Joins, and gives the value of the task that the outcome names: the first to succeed, or else the first to fail.
    ///
    /// # Errors
    /// The error of that task; [`Refusal::TimedOut`]; [`Cancelled`]; [`Refusal::NoTask`] where the outcome names none
    /// of these.
    pub async fn winner<T, E>(&self, tasks: Vec<Task<T, E>>) -> Result<T, E>
    where
        E: From<Refusal> + From<Cancelled>,
    {
        match self.join().await? {
            Outcome::Any(task) | Outcome::Failed(task) => self.result_of(task, tasks).map_err(|error| self.own(error)),
            other => Err(self.error_of(other)),
        }
    }

    /// Joins, and gives the value of each task, in the order given.
    ///
    /// # Errors
    /// The error of the first task that failed; [`Refusal::TimedOut`]; [`Cancelled`].
    pub async fn values<T, E>(&self, tasks: Vec<Task<T, E>>) -> Result<Vec<T>, E>
    where
        E: From<Refusal> + From<Cancelled>,
    {
        match self.join().await? {
            Outcome::All | Outcome::Any(_) | Outcome::Done | Outcome::List => {
                tasks.into_iter().map(|task| self.value(task)).collect()
            }
            Outcome::Failed(task) => match tasks.into_iter().find(|one| one.id() == task).map(|one| self.value(one)) {
                Some(Err(error)) => Err(error),
                _ => Err(self.error_of(Outcome::Failed(task))),
            },
            other => Err(self.error_of(other)),
        }
    }

    /// The error of an outcome by which a block gives no value.
    fn error_of<E: From<Refusal> + From<Cancelled>>(&self, outcome: Outcome) -> E {
        match (outcome, self.cancelled()) {
            (Outcome::Timeout | Outcome::Partial, _) => E::from(Refusal::TimedOut(self.id())),
            (Outcome::Cancelled(_), Some(cancelled)) => E::from(cancelled),
            (Outcome::Failed(task), _) => {
                // The block gives the job's own error instead, if it can.
                self.bell.was_handed.store(true, Ordering::Relaxed);
                E::from(Refusal::JobFailed(task))
            }
            _ => E::from(Refusal::NoTask),
        }
    }

    /// What the task can be seen to be now: unavailable, if it is one of another scope. Its result stays where it is.
    #[must_use]
    pub fn state<T, E>(&self, task: &Task<T, E>) -> TaskState {
        if !self.has(task) {
            return TaskState::Unavailable;
        }
        let id = task.place.id;
        let mut inner = self.actor.lane.lock();
        let told = inner.book.state(id);
        let (state, words) = match told {
            Ok(1) => (TaskState::Succeeded, "success"),
            Ok(2) => (TaskState::Failed, "failed"),
            _ => match inner.book.stage(id) {
                Ok(1) => (TaskState::Waiting, "unavailable"),
                Ok(2) => (TaskState::Running, "unavailable"),
                _ => (TaskState::Unavailable, "unavailable"),
            },
        };
        if told.is_ok() {
            inner.note(|notes, _| notes.line(format_args!("state {id}"), format_args!("state {words}")));
        }
        state
    }

    /// Waits until one of the tasks has ended, takes it from the list, and gives its result: in the order of their
    /// ends, before the join too. `None` once none is left. In a cancelled scope those that don't count are given at
    /// once, as [`TaskError::Cancelled`]. A task of another scope is given with [`Refusal::NoTask`].
    pub async fn next_done<T, E>(&self, left: &mut Vec<Task<T, E>>) -> Option<(TaskId, Result<T, TaskError<E>>)> {
        if left.is_empty() {
            return None;
        }
        if let Some(at) = left.iter().position(|task| !self.has(task)) {
            return Some((left.remove(at).id(), Err(TaskError::Refused(Refusal::NoTask))));
        }
        let (at, told) = {
            let mut waits = Waits::new(&self.actor, &self.bell);
            self.bell.wants_each.store(true, Ordering::Relaxed);
            poll_fn(|context| self.poll_next_done(left, context, &mut waits.key)).await
        };
        self.bell.wants_each.store(false, Ordering::Relaxed);
        let task = left.remove(at);
        let id = task.id();
        let result = match told {
            Some(succeeded) => task.take(succeeded).0,
            None => Err(self.no_result(Code::NO_RESULT)),
        };
        self.actor.lane.quietly().note(|notes, _| {
            let state = told.map_or("unavailable", |succeeded| if succeeded { "success" } else { "failed" });
            notes.line(format_args!("state {}", id.number()), format_args!("state {state}"));
        });
        Some((id, result))
    }

    fn poll_next_done<T, E>(
        &self,
        left: &[Task<T, E>],
        context: &Polling<'_>,
        key: &mut u64,
    ) -> Poll<(usize, Option<bool>)> {
        let mut inner = self.actor.lane.lock();
        let mut ended: Vec<_> = left.iter().enumerate().map(|(at, task)| (task.place.ended(), at)).collect();
        ended.retain(|(end, _)| *end > 0);
        ended.sort_unstable();
        let counts = ended.into_iter().find_map(|(_, at)| match inner.book.state(left[at].place.id) {
            Ok(0) | Err(_) => None,
            Ok(state) => Some((at, state == 1)),
        });
        match counts {
            Some((at, succeeded)) => Poll::Ready((at, Some(succeeded))),
            None if self.bell.is_cut() => Poll::Ready((0, None)),
            None => {
                *key = inner.add_waker(self.bell.scope, context.waker(), *key, true, false);
                Poll::Pending
            }
        }
    }

    /// Cancels the scope and what lies in it, up to shields: whether it was not cancelled before.
    pub fn cancel(&self) -> bool {
        self.actor.lane.cancel(self.bell.scope)
    }

    /// A handle that cancels the scope from anywhere. Behind its end it cancels nothing.
    pub fn canceller(&self) -> Canceller {
        self.actor.lane.canceller(self.bell.scope)
    }

    /// Why the scope is cancelled; `None` where it is not.
    #[must_use]
    pub fn cause(&self) -> Option<Cause> {
        let mut inner = self.actor.lane.lock();
        let cause = self.bell.cause();
        inner.note(|notes, _| notes.cause(self.bell.scope, cause));
        cause
    }

    /// Sets the deadline so long after now, or takes it away.
    ///
    /// # Errors
    /// [`Refusal::AlreadyJoined`]; [`Refusal::TooMany`] once moves and bindings have used up the load. What the scope
    /// has paid for stays: its cancel and its deadline are accepted then, too.
    pub fn move_deadline(&self, within: Option<Duration>) -> Result<(), Refusal> {
        self.actor.lane.move_deadline(self.actor.room, self.bell.scope, within)
    }

    /// Polls the body. Where the scope is cancelled, not joined, and `cuts`, the body is over.
    pub(crate) fn poll_body<F: Future>(
        &self,
        body: Pin<&mut F>,
        owner: &mut Waker,
        cuts: bool,
        context: &mut Polling<'_>,
    ) -> Poll<Ended<F::Output>> {
        if !owner.will_wake(context.waker()) {
            owner.clone_from(context.waker());
            self.actor.lane.lock().set_owner(self.bell.scope, owner, false);
        }
        let polled = polled_in(&self.actor, &self.bell, || catch_unwind(AssertUnwindSafe(|| body.poll(context))));
        match polled {
            Ok(Poll::Ready(value)) => return Poll::Ready(Ended::Value(value)),
            Err(panic) => return Poll::Ready(Ended::Panic(panic)),
            Ok(Poll::Pending) => {}
        }
        let is_over = cuts && self.bell.stage() == Stage::Open;
        match is_over.then(|| self.actor.is_to_be_cut(&self.bell)).flatten() {
            Some(cancelled) => Poll::Ready(Ended::Cut(cancelled)),
            None => Poll::Pending,
        }
    }

    /// The outcome by which a body that was handed a cancel of this very scope ends; `None` where it was not.
    pub(crate) fn cut_outcome(&self) -> Option<Outcome> {
        if !self.bell.was_handed.swap(false, Ordering::Relaxed) {
            return None;
        }
        let mut inner = self.actor.lane.lock();
        if let Ok(Some(outcome)) = self.actor.lane.join(&mut inner, self.actor.id, &self.bell) {
            return Some(outcome);
        }
        Outcome::of_pair(&inner.book.outcome(self.bell.scope).ok()?).ok()
    }

    /// Waits until nothing is left in the scope: what was amiss.
    pub(crate) fn poll_end(&self, context: &mut Polling<'_>) -> Poll<Result<(), Refusal>> {
        ready!(self.actor.poll_close_above(&self.bell, context));
        let verdict = ready!(self.actor.poll_close(&self.bell, context));
        self.detach();
        Poll::Ready(verdict)
    }
}

impl fmt::Debug for Scope {
    fn fmt(&self, out: &mut fmt::Formatter<'_>) -> fmt::Result {
        out.debug_struct("Scope").field("id", &self.id()).finish_non_exhaustive()
    }
}

/// A join, whose waker is forgotten with it.
pub(crate) struct Join<'a> {
    pub(crate) scope: &'a Scope,
    pub(crate) key: u64,
    /// Whether who awaits it polls jobs, too.
    pub(crate) is_here: bool,
}

impl Future for Join<'_> {
    type Output = Result<Outcome, Refusal>;

    fn poll(mut self: Pin<&mut Self>, context: &mut Polling<'_>) -> Poll<Self::Output> {
        let Scope { actor, bell, here, .. } = self.scope;
        actor.acts_here()?;
        if !self.is_here && here.load(Ordering::Relaxed) > 0 {
            return Poll::Ready(Err(actor.lane.refused(Refusal::PolledHere)));
        }
        bell.was_handed.store(false, Ordering::Relaxed);
        let mut inner = actor.lane.lock();
        match actor.lane.join(&mut inner, actor.id, bell).transpose() {
            Some(outcome) => Poll::Ready(outcome),
            None => {
                self.key = inner.add_waker(bell.scope, context.waker(), self.key, true, false);
                Poll::Pending
            }
        }
    }
}

impl Drop for Join<'_> {
    fn drop(&mut self) {
        drop(Waits { actor: &self.scope.actor, bell: &self.scope.bell, key: self.key });
    }
}

/// A wait in a scope, whose waker is forgotten with it.
pub(crate) struct Waits<'a> {
    actor: &'a Actor,
    bell: &'a Bell,
    pub(crate) key: u64,
}

impl<'a> Waits<'a> {
    pub(crate) fn new(actor: &'a Actor, bell: &'a Bell) -> Waits<'a> {
        Waits { actor, bell, key: 0 }
    }
}

impl Drop for Waits<'_> {
    fn drop(&mut self) {
        if self.key != 0 {
            self.actor.lane.quietly().forget_waker(self.bell.scope, self.key);
        }
    }
}
