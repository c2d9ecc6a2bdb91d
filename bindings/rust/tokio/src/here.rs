//! Jobs that are polled inside the body of their scope.

use crate::scope::{Join, Scope};
use crate::task::Task;
use balkreyn::host::locked;
use balkreyn::{Outcome, Refusal};
use std::fmt;
use std::future::{Future, poll_fn};
use std::pin::{Pin, pin};
use std::sync::atomic::{AtomicBool, Ordering};
use std::sync::{Arc, Mutex};
use std::task::{Context as Polling, Wake, Waker};

/// Who polls the body.
#[derive(Default)]
struct Body(Mutex<Option<Waker>>);

/// Wakes a job, and so the body that polls it.
struct Ring {
    is_due: AtomicBool,
    body: Arc<Body>,
}

impl Wake for Ring {
    fn wake(self: Arc<Self>) {
        self.wake_by_ref();
    }

    fn wake_by_ref(self: &Arc<Self>) {
        self.is_due.store(true, Ordering::Release);
        let body = locked(&self.body.0).clone();
        if let Some(body) = body {
            body.wake();
        }
    }
}

type Boxed<'env> = Pin<Box<dyn Future<Output = ()> + Send + 'env>>;

/// Jobs of a scope that are polled inside its body, while the body awaits this. So they may borrow what was there before
/// it, they take turns with each other, and all of them are gone at once where it is dropped: with the body, with the
/// block's future, or before.
///
/// ```
/// use balkreyn_tokio::{Joiner, Realm, Refusal};
///
/// # tokio::runtime::Runtime::new().unwrap().block_on(async {
/// let length = Realm::new()?
///     .run(async |cx| {
///         cx.try_scope(Joiner::All, async |s| {
///             let words = ["one".to_owned(), "three".to_owned()];
///             let here = s.here();
///             let task = here.fork_here("length", async { Ok::<_, Refusal>(words[1].len()) })?;
///             here.join_ok().await?;
///             s.value(task)
///         })
///         .await
///     })
///     .await;
/// assert_eq!(length, Ok(5));
/// # Ok::<(), Refusal>(())
/// # }).unwrap();
/// ```
#[must_use = "its jobs go with it"]
pub struct Here<'scope, 'env> {
    scope: &'scope Scope,
    jobs: Mutex<Vec<(Boxed<'env>, Arc<Ring>)>>,
    body: Arc<Body>,
}

impl Drop for Here<'_, '_> {
    fn drop(&mut self) {
        let left = std::mem::take(&mut *locked(&self.jobs));
        self.scope.here.fetch_sub(left.len(), Ordering::Relaxed);
    }
}

impl Scope {
    /// Has jobs polled inside this body.
    pub fn here<'env>(&self) -> Here<'_, 'env> {
        Here { scope: self, jobs: Mutex::default(), body: Arc::default() }
    }
}

impl<'env> Here<'_, 'env> {
    /// Forks a job that is polled here: else as [`Scope::fork`].
    ///
    /// # Errors
    /// As [`Scope::fork`].
    pub fn fork_here<T, E, F>(&self, name: &str, job: F) -> Result<Task<T, E>, Refusal>
    where
        F: Future<Output = Result<T, E>> + Send + 'env,
        T: Send + 'env,
        E: Send + 'static,
    {
        let (task, job) = self.scope.forked(name, |_| 0, job)?;
        if let Some(job) = job {
            let ring = Arc::new(Ring { is_due: AtomicBool::new(true), body: Arc::clone(&self.body) });
            locked(&self.jobs).push((Box::pin(job), ring));
            self.scope.here.fetch_add(1, Ordering::Relaxed);
        }
        Ok(task)
    }

    /// Polls each job that was woken.
    fn poll_jobs(&self, context: &Polling<'_>) {
        *locked(&self.body.0) = Some(context.waker().clone());
        let mut jobs = locked(&self.jobs);
        let before = jobs.len();
        jobs.retain_mut(|(job, ring)| {
            let is_due = ring.is_due.swap(false, Ordering::AcqRel);
            !is_due || job.as_mut().poll(&mut Polling::from_waker(&Waker::from(Arc::clone(ring)))).is_pending()
        });
        self.scope.here.fetch_sub(before - jobs.len(), Ordering::Relaxed);
    }

    /// Waits for the future, and polls the jobs meanwhile.
    pub async fn wait<F: Future>(&self, future: F) -> F::Output {
        let mut future = pin!(future);
        poll_fn(|context| {
            self.poll_jobs(context);
            future.as_mut().poll(context)
        })
        .await
    }

    /// Joins the scope, and polls the jobs meanwhile: else as [`Scope::join`].
    ///
    /// # Errors
    /// As [`Scope::join`].
    pub async fn join(&self) -> Result<Outcome, Refusal> {
        self.wait(Join { scope: self.scope, key: 0, is_here: true }).await
    }

    /// As [`Here::join`], for a body that goes on only if all is well: else as [`Scope::join_ok`].
    ///
    /// # Errors
    /// As [`Scope::join_ok`].
    pub async fn join_ok(&self) -> Result<(), Refusal> {
        self.scope.is_ok(self.join().await?)
    }
}

impl fmt::Debug for Here<'_, '_> {
    fn fmt(&self, out: &mut fmt::Formatter<'_>) -> fmt::Result {
        out.debug_struct("Here").field("jobs", &locked(&self.jobs).len()).finish_non_exhaustive()
    }
}
