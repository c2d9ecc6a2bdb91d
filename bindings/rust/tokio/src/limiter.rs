//! Permits, of which so many are held at a time.

use crate::context::Context;
use balkreyn::Cancelled;
use std::fmt;
use tokio::sync::Semaphore;

/// So many permits, each held by one caller at a time, whatever its realm. Who waits gets one in turn; a cancel ends the
/// wait.
///
/// ```
/// use balkreyn_tokio::{Context, Limiter, Realm, Refusal};
/// use std::sync::Arc;
/// use std::sync::atomic::{AtomicU32, Ordering};
///
/// # tokio::runtime::Runtime::new().unwrap().block_on(async {
/// let shared = Arc::new((Limiter::new(2), AtomicU32::new(0), AtomicU32::new(0)));
/// Realm::new()?.run(async |cx| {
///     cx.all((0..8).map(|_| {
///         let shared = Arc::clone(&shared);
///         async move {
///             let (limiter, inside, most) = &*shared;
///             let work = async || {
///                 most.fetch_max(inside.fetch_add(1, Ordering::SeqCst) + 1, Ordering::SeqCst);
///                 tokio::task::yield_now().await;
///                 inside.fetch_sub(1, Ordering::SeqCst);
///                 Ok::<_, Refusal>(())
///             };
///             limiter.with(&Context::current(), work).await
///         }
///     }))
///     .await
/// })
/// .await?;
/// assert!(shared.2.load(Ordering::SeqCst) <= 2);
/// # Ok::<(), Refusal>(())
/// # }).unwrap();
/// ```
#[must_use]
pub struct Limiter {
    free: Semaphore,
}

impl Limiter {
    /// A limiter with so many permits.
    pub fn new(permits: usize) -> Limiter {
        Limiter { free: Semaphore::new(permits) }
    }

    /// Runs the body with a permit, which is given back on every way out.
    ///
    /// # Errors
    /// The body's; or else [`Cancelled`], and the body never ran.
    pub async fn with<T, E: From<Cancelled>>(
        &self,
        cx: &Context,
        body: impl AsyncFnOnce() -> Result<T, E>,
    ) -> Result<T, E> {
        // Nobody closes it, so there is a permit.
        let _permit = cx.wait(self.free.acquire()).await?;
        body().await
    }
}

impl fmt::Debug for Limiter {
    fn fmt(&self, out: &mut fmt::Formatter<'_>) -> fmt::Result {
        out.debug_struct("Limiter").finish_non_exhaustive()
    }
}
