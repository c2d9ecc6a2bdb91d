//! What services do with scopes again and again.

use crate::context::Context;
use crate::options::{Joiner, Options};
use crate::outcome::{Cancelled, Outcome};
use crate::refusal::Refusal;
use crate::scope::Scope;
use crate::task::{Task, TaskError};
use crate::waiting::locked;
use std::sync::Mutex;
use std::time::{Duration, Instant};

/// How often a body is tried again, and how long the pauses are: each twice the one before, up to the longest.
///
/// ```
/// use balkreyn::{Backoff, Realm, Refusal};
/// use std::time::Duration;
///
/// let backoff = Backoff::new(3, Duration::from_millis(1)).longest(Duration::from_millis(2));
/// let third = Realm::new()?.run(|cx| cx.retry(backoff, |_, number| if number < 2 { Err(Refusal::Rejected) } else { Ok(number) }));
/// assert_eq!(third, Ok(2));
/// # Ok::<(), Refusal>(())
/// ```
#[derive(Clone, Copy, Debug, PartialEq, Eq)]
#[must_use]
pub struct Backoff {
    retries: u64,
    pause: Duration,
    longest: Duration,
}

impl Backoff {
    /// So many tries at most behind the first, and the first pause.
    pub const fn new(retries: u32, pause: Duration) -> Backoff {
        Backoff { retries: retries as u64, pause, longest: Duration::MAX }
    }

    /// Tries without an end.
    pub const fn endless(pause: Duration) -> Backoff {
        Backoff { retries: u64::MAX, pause, longest: Duration::MAX }
    }

    /// No pause is longer than this.
    pub const fn longest(self, longest: Duration) -> Backoff {
        Backoff { longest, ..self }
    }

    /// The number of each try behind which there is another, and the pause between the two.
    #[doc(hidden)]
    pub fn pauses(self) -> impl Iterator<Item = (u64, Duration)> {
        let mut pause = self.pause.min(self.longest);
        (0..self.retries).map(move |number| {
            let now = pause;
            pause = pause.saturating_mul(2).min(self.longest);
            (number, now)
        })
    }

    #[doc(hidden)]
    pub fn retries(self) -> u64 {
        self.retries
    }
}

/// Forks as many of the jobs as there are threads for: one at least, or else the refusal.
fn fork_some<'scope, T, E, F>(
    s: &Scope<'scope, '_>,
    most: usize,
    job: impl Fn() -> F,
) -> Result<Vec<Task<'scope, T, E>>, Refusal>
where
    F: FnOnce(&Context) -> Result<T, E> + Send + 'scope,
    T: Send + 'scope,
    E: Send + 'static,
{
    let mut tasks = Vec::new();
    for _ in 0..most.max(1) {
        match s.fork("worker", job()) {
            Ok(task) => tasks.push(task),
            Err(Refusal::Rejected) if !tasks.is_empty() => break,
            Err(refusal) => return Err(refusal),
        }
    }
    Ok(tasks)
}

impl Context {
    /// The first value that one of the jobs gives; or else the first error. The others are cancelled, and have ended.
    ///
    /// ```
    /// # use balkreyn::{Context, Realm, Refusal};
    /// # use std::time::Duration;
    /// let first = Realm::new()?.run(|cx| {
    ///     cx.race([9_000, 1].map(|millis| move |cx: &Context| {
    ///         cx.sleep(Duration::from_millis(millis))?;
    ///         Ok::<_, Refusal>(millis)
    ///     }))
    /// })?;
    /// assert_eq!(first, 1);
    /// # Ok::<(), Refusal>(())
    /// ```
    ///
    /// # Errors
    /// The first job's that failed, if none succeeded; [`Refusal::NoTask`] without jobs; a refused fork; [`Cancelled`].
    pub fn race<T, E, F>(&self, jobs: impl IntoIterator<Item = F>) -> Result<T, E>
    where
        F: FnOnce(&Context) -> Result<T, E> + Send,
        T: Send,
        E: From<Refusal> + From<Cancelled> + Send + 'static,
    {
        self.try_scope(Joiner::Any, |s| s.winner(s.fork_all("racer", jobs)?))
    }

    /// The value of each job, in order. The first error cancels the others.
    ///
    /// ```
    /// # use balkreyn::{Context, Realm, Refusal};
    /// let values = Realm::new()?.run(|cx| cx.all((0..3).map(|n| move |_: &Context| Ok::<_, Refusal>(n * n))))?;
    /// assert_eq!(values, [0, 1, 4]);
    /// # Ok::<(), Refusal>(())
    /// ```
    ///
    /// # Errors
    /// The first job's that failed; a refused fork; [`Cancelled`].
    pub fn all<T, E, F>(&self, jobs: impl IntoIterator<Item = F>) -> Result<Vec<T>, E>
    where
        F: FnOnce(&Context) -> Result<T, E> + Send,
        T: Send,
        E: From<Refusal> + From<Cancelled> + Send + 'static,
    {
        self.try_scope(Joiner::All, |s| s.values(s.fork_all("job", jobs)?))
    }

    /// What each job gave by the deadline so long after now, in order: [`TaskError::Cancelled`] where it did not end in
    /// time.
    ///
    /// ```
    /// # use balkreyn::{Context, Realm, Refusal, TaskError};
    /// # use std::time::Duration;
    /// let came = Realm::new()?.run(|cx| {
    ///     cx.come_within(Duration::from_millis(200), [9_000, 1].map(|millis| move |cx: &Context| {
    ///         cx.sleep(Duration::from_millis(millis))?;
    ///         Ok::<_, Refusal>(millis)
    ///     }))
    /// })?;
    /// assert!(matches!(came[..], [Err(TaskError::Cancelled(_)), Ok(1)]));
    /// # Ok::<(), Refusal>(())
    /// ```
    ///
    /// # Errors
    /// A refused fork; [`Cancelled`] where the caller is cancelled.
    pub fn come_within<T, E, F>(
        &self,
        within: Duration,
        jobs: impl IntoIterator<Item = F>,
    ) -> Result<Vec<Result<T, TaskError<E>>>, E>
    where
        F: FnOnce(&Context) -> Result<T, E> + Send,
        T: Send,
        E: From<Refusal> + From<Cancelled> + Send + 'static,
    {
        self.try_scope(Options::new(Joiner::Await).within(within).move_on(), |s| {
            let tasks = s.fork_all("job", jobs)?;
            match s.join()? {
                Outcome::Done | Outcome::Partial => Ok(s.results(tasks)),
                // What cancels it comes from around it.
                _ => Err(self.checkpoint().map_or_else(E::from, |()| E::from(Refusal::NotJoined))),
            }
        })
    }

    /// The value of each item, in the order of the items, so many at a time: so many jobs, each of which takes items one
    /// by one, as it comes to them. The first error ends it. If threads are refused, fewer jobs take the items.
    ///
    /// ```
    /// # use balkreyn::{Realm, Refusal};
    /// let lengths = Realm::new()?.run(|cx| cx.map_at_most(2, ["a", "bc", "def"], |_, word| Ok::<_, Refusal>(word.len())))?;
    /// assert_eq!(lengths, [1, 2, 3]);
    /// # Ok::<(), Refusal>(())
    /// ```
    ///
    /// # Errors
    /// The first item's that failed; [`Refusal::Rejected`] if no thread is to be had; [`Cancelled`].
    pub fn map_at_most<I, T, E>(
        &self,
        most: usize,
        items: impl IntoIterator<Item = I, IntoIter: Send>,
        job: impl Fn(&Context, I) -> Result<T, E> + Sync,
    ) -> Result<Vec<T>, E>
    where
        I: Send,
        T: Send,
        E: From<Refusal> + From<Cancelled> + Send + 'static,
    {
        let items = items.into_iter().enumerate();
        let most = items.size_hint().1.map_or(most, |items| most.min(items));
        let (items, job) = (&Mutex::new(items), &job);
        let mut values = self.try_scope(Joiner::All, |s| {
            let tasks = fork_some(s, most, || {
                move |cx: &Context| {
                    let mut values = Vec::new();
                    loop {
                        cx.checkpoint()?;
                        // The lock is held for as long as the next item takes, and not while the job works on it.
                        let next = locked(items).next();
                        let Some((place, item)) = next else { return Ok::<_, E>(values) };
                        values.push((place, job(cx, item)?));
                    }
                }
            })?;
            Ok::<_, E>(s.values(tasks)?.into_iter().flatten().collect::<Vec<_>>())
        })?;
        values.sort_unstable_by_key(|(place, _)| *place);
        Ok(values.into_iter().map(|(_, value)| value).collect())
    }

    /// Runs the body behind a shield: cancels and deadlines of the scopes around stop short of it.
    ///
    /// ```
    /// # use balkreyn::{Joiner, Realm, Refusal};
    /// Realm::new()?.run(|cx| {
    ///     cx.scope(Joiner::All, |s| {
    ///         s.cancel();
    ///         assert_eq!(cx.shielded(|cx| Ok::<_, Refusal>(cx.is_cancelled())), Ok(false));
    ///     })
    /// })?;
    /// # Ok::<(), Refusal>(())
    /// ```
    ///
    /// # Errors
    /// The body's, or a refusal to open the scope.
    pub fn shielded<T, E>(&self, body: impl FnOnce(&Context) -> Result<T, E>) -> Result<T, E>
    where
        E: From<Refusal> + From<Cancelled> + 'static,
    {
        self.try_scope(Options::new(Joiner::Await).shield(), |_| body(self))
    }

    /// Calls the body, with the number of its try from 0, until it succeeds, a cancel comes, or the tries are used up.
    /// Each try has a realm of its own, so that it may go on for ever ([`Context::in_own_realm`]).
    ///
    /// # Errors
    /// The last try's; [`Cancelled`] during a pause.
    pub fn retry<T, E>(&self, backoff: Backoff, mut body: impl FnMut(&Context, u64) -> Result<T, E>) -> Result<T, E>
    where
        E: From<Refusal> + From<Cancelled>,
    {
        for (number, pause) in backoff.pauses() {
            if let Ok(value) = self.in_own_realm(|cx| body(cx, number)) {
                return Ok(value);
            }
            self.sleep(pause)?;
        }
        self.in_own_realm(|cx| body(cx, backoff.retries))
    }

    /// Calls the body each so long, with the number of its round from 0, until it fails or a cancel comes. A round that
    /// takes longer than the period is followed by the next one at once, and the beats that it missed are left out.
    /// Each round has a realm of its own, so that it may go on for ever ([`Context::in_own_realm`]).
    ///
    /// ```
    /// # use balkreyn::{Realm, Refusal};
    /// # use std::time::Duration;
    /// let ended = Realm::new()?.run(|cx| {
    ///     cx.every(Duration::from_millis(1), |_, round| if round < 3 { Ok(()) } else { Err(Refusal::Rejected) })
    /// });
    /// assert_eq!(ended, Err(Refusal::Rejected));
    /// # Ok::<(), Refusal>(())
    /// ```
    ///
    /// # Errors
    /// The body's; [`Cancelled`] between two rounds.
    pub fn every<E>(&self, period: Duration, mut body: impl FnMut(&Context, u64) -> Result<(), E>) -> Result<(), E>
    where
        E: From<Refusal> + From<Cancelled>,
    {
        let mut next = Instant::now();
        let mut round = 0;
        loop {
            next = (next + period).max(Instant::now());
            self.sleep(next.saturating_duration_since(Instant::now()))?;
            self.in_own_realm(|cx| body(cx, round))?;
            round += 1;
        }
    }
}
