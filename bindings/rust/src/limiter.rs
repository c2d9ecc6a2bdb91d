//! Permits, of which so many are held at a time.

use crate::context::Context;
use crate::gate::Gate;
use crate::outcome::Cancelled;
use std::fmt;

/// So many permits, each held by one caller at a time, whatever its realm. Who waits gets one in turn; a cancel ends the
/// wait.
///
/// ```
/// use balkreyn::{Limiter, Realm, Refusal};
/// use std::sync::atomic::{AtomicU32, Ordering};
///
/// let (limiter, inside, most) = (Limiter::new(2), AtomicU32::new(0), AtomicU32::new(0));
/// Realm::new()?.run(|cx| {
///     cx.all((0..8).map(|_| |cx: &_| {
///         limiter.with(cx, || {
///             most.fetch_max(inside.fetch_add(1, Ordering::SeqCst) + 1, Ordering::SeqCst);
///             inside.fetch_sub(1, Ordering::SeqCst);
///             Ok::<_, Refusal>(())
///         })
///     }))
/// })?;
/// assert!(most.into_inner() <= 2);
/// # Ok::<(), Refusal>(())
/// ```
#[must_use]
pub struct Limiter {
    free: Gate<usize, 1>,
}

impl Limiter {
    /// A limiter with so many permits.
    pub fn new(permits: usize) -> Limiter {
        Limiter { free: Gate::new(permits) }
    }

    /// Runs the body with a permit, which is given back on every way out.
    ///
    /// # Errors
    /// The body's; or else [`Cancelled`], and the body never ran.
    pub fn with<T, E: From<Cancelled>>(&self, cx: &Context, body: impl FnOnce() -> Result<T, E>) -> Result<T, E> {
        struct Permit<'a>(&'a Limiter);
        impl Drop for Permit<'_> {
            fn drop(&mut self) {
                self.0.free.change(|free| *free += 1);
            }
        }
        self.free.wait(cx, 0, |free| {
            *free = free.checked_sub(1)?;
            Some(())
        })?;
        let _permit = Permit(self);
        body()
    }
}

impl fmt::Debug for Limiter {
    fn fmt(&self, out: &mut fmt::Formatter<'_>) -> fmt::Result {
        out.debug_struct("Limiter").finish_non_exhaustive()
    }
}
