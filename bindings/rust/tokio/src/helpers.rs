//! What services do with scopes again and again.

use crate::context::Context;
use balkreyn::host::locked;
use balkreyn::{Backoff, Cancelled, Joiner, Options, Outcome, Refusal, TaskError};
use std::future::Future;
use std::sync::{Arc, Mutex};
use std::time::Duration;
use tokio::time::Instant;

impl Context {
    /// The first value that one of the jobs gives; or else the first error. The others are cancelled, and have ended.
    ///
    /// ```
    /// # use balkreyn_tokio::{Realm, Refusal};
    /// # use std::time::Duration;
    /// # tokio::runtime::Runtime::new().unwrap().block_on(async {
    /// let first = Realm::new()?.run(async |cx| {
    ///     cx.race([9_000, 1].map(|millis| async move {
    ///         tokio::time::sleep(Duration::from_millis(millis)).await;
    ///         Ok::<_, Refusal>(millis)
    ///     }))
    ///     .await
    /// })
    /// .await?;
    /// assert_eq!(first, 1);
    /// # Ok::<(), Refusal>(())
    /// # }).unwrap();
    /// ```
    ///
    /// # Errors
    /// The first job's that failed, if none succeeded; [`Refusal::NoTask`] without jobs; a refused fork; [`Cancelled`].
    pub async fn race<T, E, F>(&self, jobs: impl IntoIterator<Item = F>) -> Result<T, E>
    where
        F: Future<Output = Result<T, E>> + Send + 'static,
        T: Send + 'static,
        E: From<Refusal> + From<Cancelled> + Send + 'static,
    {
        self.try_scope(Joiner::Any, async |s| s.winner(s.fork_all("racer", jobs)?).await).await
    }

    /// The value of each job, in order. The first error cancels the others.
    ///
    /// ```
    /// # use balkreyn_tokio::{Realm, Refusal};
    /// # tokio::runtime::Runtime::new().unwrap().block_on(async {
    /// let mut realm = Realm::new()?;
    /// let values = realm.run(async |cx| cx.all((0..3).map(|n| async move { Ok::<_, Refusal>(n * n) })).await);
    /// assert_eq!(values.await?, [0, 1, 4]);
    /// # Ok::<(), Refusal>(())
    /// # }).unwrap();
    /// ```
    ///
    /// # Errors
    /// The first job's that failed; a refused fork; [`Cancelled`].
    pub async fn all<T, E, F>(&self, jobs: impl IntoIterator<Item = F>) -> Result<Vec<T>, E>
    where
        F: Future<Output = Result<T, E>> + Send + 'static,
        T: Send + 'static,
        E: From<Refusal> + From<Cancelled> + Send + 'static,
    {
        self.try_scope(Joiner::All, async |s| s.values(s.fork_all("job", jobs)?).await).await
    }

    /// What each job gave by the deadline so long after now, in order: [`TaskError::Cancelled`] where it did not end in
    /// time.
    ///
    /// ```
    /// # use balkreyn_tokio::{Realm, Refusal, TaskError};
    /// # use std::time::Duration;
    /// # tokio::runtime::Runtime::new().unwrap().block_on(async {
    /// let came = Realm::new()?.run(async |cx| {
    ///     cx.come_within(Duration::from_millis(200), [9_000, 1].map(|millis| async move {
    ///         tokio::time::sleep(Duration::from_millis(millis)).await;
    ///         Ok::<_, Refusal>(millis)
    ///     }))
    ///     .await
    /// })
    /// .await?;
    /// assert!(matches!(came[..], [Err(TaskError::Cancelled(_)), Ok(1)]));
    /// # Ok::<(), Refusal>(())
    /// # }).unwrap();
    /// ```
    ///
    /// # Errors
    /// A refused fork; [`Cancelled`] where the caller is cancelled.
    pub async fn come_within<T, E, F>(
        &self,
        within: Duration,
        jobs: impl IntoIterator<Item = F>,
    ) -> Result<Vec<Result<T, TaskError<E>>>, E>
    where
        F: Future<Output = Result<T, E>> + Send + 'static,
        T: Send + 'static,
        E: From<Refusal> + From<Cancelled> + Send + 'static,
    {
        self.try_scope(Options::new(Joiner::Await).within(within).move_on(), async |s| {
            let tasks = s.fork_all("job", jobs)?;
            match s.join().await? {
                Outcome::Done | Outcome::Partial => Ok(s.results(tasks)),
                // What cancels it comes from around it.
                _ => Err(self.checkpoint().map_or_else(E::from, |()| E::from(Refusal::NotJoined))),
            }
        })
        .await
    }

    /// The value of each item, in the order of the items, so many at a time: so many jobs, each of which takes items one
    /// by one, as it comes to them. The first error ends it.
    ///
    /// ```
    /// # use balkreyn_tokio::{Realm, Refusal};
    /// # tokio::runtime::Runtime::new().unwrap().block_on(async {
    /// let mut realm = Realm::new()?;
    /// let lengths = realm.run(async |cx| {
    ///     cx.map_at_most(2, ["a", "bc", "def"], |word| async move { Ok::<_, Refusal>(word.len()) }).await
    /// });
    /// assert_eq!(lengths.await?, [1, 2, 3]);
    /// # Ok::<(), Refusal>(())
    /// # }).unwrap();
    /// ```
    ///
    /// # Errors
    /// The first item's that failed; [`Cancelled`].
    pub async fn map_at_most<I, T, E, F>(
        &self,
        most: usize,
        items: impl IntoIterator<Item = I, IntoIter: Send + 'static>,
        job: impl Fn(I) -> F + Send + Sync + 'static,
    ) -> Result<Vec<T>, E>
    where
        I: Send + 'static,
        F: Future<Output = Result<T, E>> + Send + 'static,
        T: Send + 'static,
        E: From<Refusal> + From<Cancelled> + Send + 'static,
    {
        let items = items.into_iter().enumerate();
        let most = items.size_hint().1.map_or(most, |items| most.min(items)).max(1);
        let shared = Arc::new((Mutex::new(items), job));
        let workers = (0..most).map(|_| {
            let shared = Arc::clone(&shared);
            async move {
                let mut values = Vec::new();
                loop {
                    Context::current().checkpoint()?;
                    // The lock is held for as long as the next item takes, and not while the job works on it.
                    let next = locked(&shared.0).next();
                    let Some((place, item)) = next else { return Ok::<_, E>(values) };
                    values.push((place, (shared.1)(item).await?));
                }
            }
        });
        let mut values: Vec<_> = self.all(workers).await?.into_iter().flatten().collect();
        values.sort_unstable_by_key(|(place, _)| *place);
        Ok(values.into_iter().map(|(_, value)| value).collect())
    }

    /// Calls the body, with the number of its try from 0, until it succeeds, a cancel comes, or the tries are used up.
    /// Each try has a realm of its own, so that it may go on for ever ([`Context::in_own_realm`]).
    ///
    /// ```
    /// # use balkreyn_tokio::{Backoff, Realm, Refusal};
    /// # use std::time::Duration;
    /// # tokio::runtime::Runtime::new().unwrap().block_on(async {
    /// let backoff = Backoff::new(3, Duration::from_millis(1)).longest(Duration::from_millis(2));
    /// let mut realm = Realm::new()?;
    /// let third = realm.run(async |cx| {
    ///     cx.retry(backoff, async |_, number| if number < 2 { Err(Refusal::Rejected) } else { Ok(number) }).await
    /// });
    /// assert_eq!(third.await, Ok(2));
    /// # Ok::<(), Refusal>(())
    /// # }).unwrap();
    /// ```
    ///
    /// # Errors
    /// The last try's; [`Cancelled`] during a pause.
    pub async fn retry<T, E>(
        &self,
        backoff: Backoff,
        mut body: impl AsyncFnMut(&Context, u64) -> Result<T, E>,
    ) -> Result<T, E>
    where
        E: From<Refusal> + From<Cancelled> + 'static,
    {
        for (number, pause) in backoff.pauses() {
            if let Ok(value) = self.in_own_realm(async |cx| body(cx, number).await).await {
                return Ok(value);
            }
            self.sleep(pause).await?;
        }
        self.in_own_realm(async |cx| body(cx, backoff.retries()).await).await
    }

    /// Calls the body each so long, with the number of its round from 0, until it fails or a cancel comes. A round that
    /// takes longer than the period is followed by the next one at once, and the beats that it missed are left out.
    /// Each round has a realm of its own, so that it may go on for ever ([`Context::in_own_realm`]).
    ///
    /// ```
    /// # use balkreyn_tokio::{Realm, Refusal};
    /// # use std::time::Duration;
    /// # tokio::runtime::Runtime::new().unwrap().block_on(async {
    /// let mut realm = Realm::new()?;
    /// let ended = realm.run(async |cx| {
    ///     let body = async |_: &_, round| if round < 3 { Ok(()) } else { Err(Refusal::Rejected) };
    ///     cx.every(Duration::from_millis(1), body).await
    /// });
    /// assert_eq!(ended.await, Err(Refusal::Rejected));
    /// # Ok::<(), Refusal>(())
    /// # }).unwrap();
    /// ```
    ///
    /// # Errors
    /// The body's; [`Cancelled`] between two rounds.
    pub async fn every<E>(
        &self,
        period: Duration,
        mut body: impl AsyncFnMut(&Context, u64) -> Result<(), E>,
    ) -> Result<(), E>
    where
        E: From<Refusal> + From<Cancelled> + 'static,
    {
        let mut next = Instant::now();
        let mut round = 0;
        loop {
            next = (next + period).max(Instant::now());
            self.wait(tokio::time::sleep_until(next)).await?;
            self.in_own_realm(async |cx| body(cx, round).await).await?;
            round += 1;
        }
    }
}
