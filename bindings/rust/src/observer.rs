//! What happens in a realm, told to who observes it.

use crate::outcome::{Cause, ScopeId, TaskId};
use crate::refusal::Refusal;
use crate::shared::End;

/// Hears what happens in a realm ([`Realm::observed`](crate::Realm::observed)): for logs, counters and spans.
///
/// It is called by the thread by which it happened, once the realm's lock is free. So what two threads do at the same
/// time may be heard in another order than that of the journal. Its panic is swallowed.
///
/// ```
/// use balkreyn::{Happening, Joiner, Realm, Refusal};
/// use std::sync::atomic::{AtomicU32, Ordering};
/// use std::sync::Arc;
///
/// let ends = Arc::new(AtomicU32::new(0));
/// let counts = Arc::clone(&ends);
/// let observer = move |happening: &Happening| {
///     if matches!(happening, Happening::Ended { .. }) {
///         counts.fetch_add(1, Ordering::Relaxed);
///     }
/// };
/// Realm::new()?.observed(observer).run(|cx| cx.all((0..3).map(|n| move |_: &_| Ok::<_, Refusal>(n))))?;
/// assert_eq!(ends.load(Ordering::Relaxed), 3);
/// # Ok::<(), Refusal>(())
/// ```
pub trait Observer: Send + Sync {
    /// This happened.
    fn hears(&self, happening: &Happening);
}

impl<F: Fn(&Happening) + Send + Sync> Observer for F {
    fn hears(&self, happening: &Happening) {
        self(happening)
    }
}

/// What an [`Observer`] hears.
///
/// ```
/// # use balkreyn::{Happening, Realm, Refusal};
/// let observer = |happening: &Happening| println!("{happening:?}");
/// Realm::new()?.observed(observer).run(|cx| cx.shielded(|_| Ok::<_, Refusal>(())))?;
/// # Ok::<(), Refusal>(())
/// ```
#[non_exhaustive]
#[derive(Clone, Debug, PartialEq, Eq)]
pub enum Happening {
    /// A scope was opened.
    Opened {
        /// Its number.
        scope: ScopeId,
        /// Its name, if it has one.
        name: Option<String>,
    },
    /// A job was forked.
    Forked {
        /// The scope that has it.
        scope: ScopeId,
        /// Its number.
        task: TaskId,
        /// Its name, as it was given.
        name: String,
        /// Whether it may run: false in a cancelled scope.
        may_run: bool,
    },
    /// A job began.
    Started {
        /// Its number.
        task: TaskId,
    },
    /// A job ended.
    Ended {
        /// Its number.
        task: TaskId,
        /// How.
        end: Ending,
    },
    /// A scope was cancelled, by itself or with one around it.
    Cancelled {
        /// Its number.
        scope: ScopeId,
        /// What cancelled it.
        cause: Cause,
    },
    /// A scope was closed.
    Closed {
        /// Its number.
        scope: ScopeId,
    },
    /// A scope was not opened, or a job was not forked.
    Refused {
        /// Why.
        refusal: Refusal,
    },
}

/// How a job ended.
///
/// ```
/// # use balkreyn::{Context, Ending, Happening, Realm, Refusal};
/// let observer = |happening: &Happening| {
///     let is_alarm = matches!(happening, Happening::Ended { end: Ending::Panicked | Ending::Rejected, .. });
///     assert!(!is_alarm);
/// };
/// Realm::new()?.observed(observer).run(|cx| cx.all([|_: &Context| Ok::<_, Refusal>(1)]))?;
/// # Ok::<(), Refusal>(())
/// ```
#[derive(Clone, Copy, Debug, PartialEq, Eq, Hash)]
pub enum Ending {
    /// It never ran: it waited for a thread until its scope was cancelled, or none was to be had.
    Rejected,
    /// It gave a value.
    Succeeded,
    /// It gave an error.
    Failed,
    /// It panicked.
    Panicked,
    /// It was dropped at an await (`balkreyn-tokio`).
    Dropped,
}

impl From<&End> for Ending {
    fn from(end: &End) -> Ending {
        match end {
            End::Reject => Ending::Rejected,
            End::Finish(_) => Ending::Succeeded,
            End::Fail("panicked") => Ending::Panicked,
            End::Fail(_) => Ending::Failed,
        }
    }
}
