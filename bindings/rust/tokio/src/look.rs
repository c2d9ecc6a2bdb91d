//! A look at a realm from outside.

use crate::lane::Lane;
use balkreyn::{Notes, Refusal};
use std::fmt;
use std::sync::Arc;

/// A look at a realm from any thread. Deadlines that are due pass first; else it changes nothing.
///
/// ```
/// # use balkreyn_tokio::{Joiner, Options, Realm, Refusal};
/// # tokio::runtime::Runtime::new().unwrap().block_on(async {
/// let tree = Realm::new()?.run(async |cx| {
///     cx.try_scope(Options::new(Joiner::All).named("Checkout page"), async |_| cx.look().dump()).await
/// })
/// .await?;
/// assert!(tree.contains("\"label\":\"Checkout page\""));
/// # Ok::<(), Refusal>(())
/// # }).unwrap();
/// ```
#[derive(Clone)]
pub struct Look {
    lane: Arc<Lane>,
}

impl Look {
    pub(crate) fn of(lane: &Arc<Lane>) -> Look {
        Look { lane: Arc::clone(lane) }
    }

    /// The tree of the scopes that are not closed, with their tasks, as one line of JSON. `"moment"` is the realm's
    /// clock in milliseconds. A scope that has a name, and a task whose name is none of the rules', have a `"label"`.
    ///
    /// # Errors
    /// [`Refusal::Memory`].
    pub fn dump(&self) -> Result<String, Refusal> {
        let mut inner = self.lane.lock();
        let dump = inner.book.dump()?;
        Ok(inner.labels.labelled(&dump, self.lane.now()))
    }

    /// What happened since main last opened a scope with no other open: a script, which `scopectl replay` takes.
    ///
    /// # Errors
    /// [`Refusal::Memory`].
    pub fn journal(&self) -> Result<String, Refusal> {
        Ok(self.lane.lock().book.journal()?)
    }

    /// The notes so far; `None` where the realm doesn't note.
    #[must_use]
    pub fn notes(&self) -> Option<Notes> {
        self.lane.quietly().notes.as_deref().cloned()
    }
}

impl fmt::Debug for Look {
    fn fmt(&self, out: &mut fmt::Formatter<'_>) -> fmt::Result {
        out.debug_struct("Look").finish_non_exhaustive()
    }
}
