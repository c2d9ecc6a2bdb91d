//! What a cancel calls.

use crate::bell::Bell;
use balkreyn::host::Call;
use std::fmt;
use std::sync::Arc;

/// What a cancel calls ([`Context::on_cancel`](crate::Context::on_cancel)). Its drop takes it away: the call was made
/// by then, or never is. Where another thread is making it, the drop waits for its end.
///
/// ```
/// use balkreyn_tokio::{Joiner, Realm, Refusal};
/// use std::sync::Arc;
/// use std::sync::atomic::{AtomicU32, Ordering};
///
/// let calls = Arc::new(AtomicU32::new(0));
/// let count = |calls: &Arc<AtomicU32>| {
///     let calls = Arc::clone(calls);
///     move || drop(calls.fetch_add(1, Ordering::Relaxed))
/// };
/// # tokio::runtime::Runtime::new().unwrap().block_on(async {
/// Realm::new()?.run(async |cx| {
///     cx.scope(Joiner::All, async |s| {
///         drop(cx.on_cancel(count(&calls)));
///         let _hook = cx.on_cancel(count(&calls));
///         s.cancel();
///         assert_eq!(calls.load(Ordering::Relaxed), 1);
///     })
///     .await
/// })
/// .await?;
/// # Ok::<(), Refusal>(())
/// # }).unwrap();
/// ```
#[must_use = "its drop takes the call away"]
pub struct Hook {
    bell: Arc<Bell>,
    call: Arc<Call>,
    number: u64,
}

impl Hook {
    pub(crate) fn new(bell: Arc<Bell>, call: Arc<Call>, number: u64) -> Hook {
        bell.link(number, &call);
        // Whoever cancels looks at the links once the mark is set.
        if bell.is_cut() {
            call.make();
        }
        Hook { bell, call, number }
    }
}

impl Drop for Hook {
    fn drop(&mut self) {
        self.bell.unlink(self.number);
        self.call.end();
    }
}

impl fmt::Debug for Hook {
    fn fmt(&self, out: &mut fmt::Formatter<'_>) -> fmt::Result {
        out.debug_struct("Hook").finish_non_exhaustive()
    }
}
