//! A realm of scopes, and the look at it from outside.

use crate::context::Context;
use crate::ffi::Book;
use crate::notes::Notes;
use crate::observer::Observer;
use crate::pool::Pool;
use crate::refusal::Refusal;
use crate::shared::Shared;
use std::fmt;
use std::sync::Arc;

/// How much a realm takes between two retirements: main discards the history where it opens a scope and has no other
/// open, so these are the limits of one request, not of the program's life.
///
/// ```
/// # use balkreyn::{Joiner, Limits, Realm, Refusal};
/// let mut realm = Realm::with_limits(Limits { tasks: 1, ..Limits::default() })?;
/// let refused = realm.run(|cx| {
///     cx.try_scope(Joiner::All, |s| {
///         s.fork("first", |_| Ok::<_, Refusal>(()))?;
///         s.fork("second", |_| Ok::<_, Refusal>(())).map(drop)
///     })
/// });
/// assert_eq!(refused, Err(Refusal::TooMany));
/// # Ok::<(), Refusal>(())
/// ```
#[derive(Clone, Copy, Debug, PartialEq, Eq)]
pub struct Limits {
    /// How many scopes are opened, from 1 to 4,096.
    pub scopes: u32,
    /// How many tasks are forked, from 1 to 65,536.
    pub tasks: u32,
    /// How much load comes together, from 1 to 1,048,576: 6 for a scope, which pays for its cancel and its deadline at
    /// once; 3 for a fork; 2 for a moved deadline, which pays for its passing; 2 for a bind, which pays for its end.
    pub load: u32,
}

impl Default for Limits {
    /// The greatest limits.
    fn default() -> Limits {
        Limits { scopes: 4096, tasks: 65536, load: 1_048_576 }
    }
}

/// A realm of task scopes: one book, whose rules are proved, and the threads that act in it.
///
/// One thread at a time is main of the realm: the one that is in [`Realm::run`]. A realm takes half a microsecond to
/// make, and shares no lock with others: give each request its own ([`Server`](crate::Server) does).
///
/// ```
/// # use balkreyn::{Realm, Refusal};
/// let squares = Realm::new()?.run(|cx| cx.map_at_most(4, 0..10, |_, n| Ok::<_, Refusal>(n * n)))?;
/// assert_eq!(squares[9], 81);
/// # Ok::<(), Refusal>(())
/// ```
#[must_use]
pub struct Realm {
    shared: Arc<Shared>,
}

impl Realm {
    /// A realm with the greatest limits.
    ///
    /// # Errors
    /// [`Refusal::Memory`], or [`Refusal::OtherInterface`] where another library was linked.
    pub fn new() -> Result<Realm, Refusal> {
        Realm::with_limits(Limits::default())
    }

    /// A realm with these limits.
    ///
    /// # Errors
    /// As [`Realm::new`], and [`Refusal::BadLimit`] where a limit is out of its range.
    pub fn with_limits(limits: Limits) -> Result<Realm, Refusal> {
        let book = Book::open(limits.scopes, limits.tasks, limits.load)?;
        Ok(Realm { shared: Arc::new(Shared::new(book, limits, Pool::of_all(), None, None)) })
    }

    /// The realm, whose jobs run on threads of this pool. Call it before the first [`Realm::run`].
    pub fn on(self, pool: &Pool) -> Realm {
        self.with(|shared| shared.pool = pool.clone())
    }

    /// The realm, of which this hears what happens. Call it before the first [`Realm::run`].
    pub fn observed(self, observer: impl Observer + 'static) -> Realm {
        self.observed_by(Arc::new(observer))
    }

    pub(crate) fn observed_by(self, observer: Arc<dyn Observer>) -> Realm {
        self.with(|shared| shared.observer = Some(observer))
    }

    /// The realm, changed; as it is where a look at it is held already.
    fn with(mut self, change: impl FnOnce(&mut Shared)) -> Realm {
        if let Some(shared) = Arc::get_mut(&mut self.shared) {
            change(shared);
        }
        self
    }

    /// The realm, which notes each call from now on with the answer that was given: [`Look::notes`] reads them. Call
    /// it before the first [`Realm::run`], as the notes are a script from its start. They grow as long as the realm
    /// lives, and each look at a mark takes the lock.
    pub fn noted(self) -> Realm {
        self.shared.begin_notes();
        self
    }

    /// Runs the body as main of the realm.
    pub fn run<R>(&mut self, body: impl FnOnce(&Context) -> R) -> R {
        body(&Context::of_main(Arc::clone(&self.shared)))
    }

    /// A look at the realm, for any thread.
    #[must_use]
    pub fn look(&self) -> Look {
        Look::of(&self.shared)
    }
}

impl fmt::Debug for Realm {
    fn fmt(&self, out: &mut fmt::Formatter<'_>) -> fmt::Result {
        out.debug_struct("Realm").finish_non_exhaustive()
    }
}

/// A look at a realm from any thread. Deadlines that are due pass first; else it changes nothing.
///
/// ```
/// # use balkreyn::{Joiner, Options, Realm, Refusal};
/// let tree = Realm::new()?.run(|cx| {
///     cx.try_scope(Options::new(Joiner::All).named("Checkout page"), |_| cx.look().dump())
/// })?;
/// assert!(tree.contains("\"label\":\"Checkout page\""));
/// # Ok::<(), Refusal>(())
/// ```
#[derive(Clone)]
pub struct Look {
    shared: Arc<Shared>,
}

impl Look {
    pub(crate) fn of(shared: &Arc<Shared>) -> Look {
        Look { shared: Arc::clone(shared) }
    }

    /// The tree of the scopes that are not closed, with their tasks, as one line of JSON. `"moment"` is the realm's
    /// clock in milliseconds. A scope that has a name, and a task whose name is none of the rules', have a `"label"`.
    ///
    /// # Errors
    /// [`Refusal::Memory`].
    pub fn dump(&self) -> Result<String, Refusal> {
        let mut inner = self.shared.lock();
        let dump = inner.book.dump()?;
        Ok(inner.labels.labelled(&dump, self.shared.now()))
    }

    /// What happened since main last opened a scope with no other open: a script, which `scopectl replay` takes, and
    /// from which `scopectl timeline` draws the run. A line `# at N` says that N milliseconds of the realm had passed.
    ///
    /// # Errors
    /// [`Refusal::Memory`].
    pub fn journal(&self) -> Result<String, Refusal> {
        Ok(self.shared.lock().journal()?)
    }

    /// A look at each realm that is open now inside a scope of this one
    /// ([`Context::in_own_realm`](crate::Context::in_own_realm)).
    #[must_use]
    pub fn inside(&self) -> Vec<Look> {
        self.shared.quietly().inside().into_iter().map(|shared| Look { shared }).collect()
    }

    /// The notes so far; `None` where the realm doesn't note ([`Realm::noted`]).
    #[must_use]
    pub fn notes(&self) -> Option<Notes> {
        self.shared.quietly().notes.as_deref().cloned()
    }
}

impl fmt::Debug for Look {
    fn fmt(&self, out: &mut fmt::Formatter<'_>) -> fmt::Result {
        out.debug_struct("Look").finish_non_exhaustive()
    }
}
