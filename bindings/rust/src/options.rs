//! How a scope is joined, and by when.

use crate::canceller::Canceller;
use std::num::NonZeroUsize;
use std::time::{Duration, Instant};

/// When a scope's joiner cancels it, and what its join answers (JEP 505, `Joiner`).
///
/// ```
/// # use balkreyn::{Joiner, Outcome, Realm, Refusal};
/// let outcome = Realm::new()?.run(|cx| {
///     cx.try_scope(Joiner::UntilOk(2), |s| {
///         let _tasks = s.fork_all("job", (0..2).map(|n| move |_: &_| Ok::<_, Refusal>(n)))?;
///         s.join()
///     })
/// })?;
/// assert_eq!(outcome, Outcome::List);
/// # Ok::<(), Refusal>(())
/// ```
#[non_exhaustive]
#[derive(Clone, Copy, Debug, Default, PartialEq, Eq)]
pub enum Joiner {
    /// The first failure cancels the scope; the join answers that failure, or that all is done
    /// (`awaitAllSuccessfulOrThrow`).
    #[default]
    AwaitOk,
    /// The first failure cancels the scope; the join answers that failure, or that all succeeded
    /// (`allSuccessfulOrThrow`).
    All,
    /// The first success cancels the scope; the join answers it, or else the first failure
    /// (`anySuccessfulResultOrThrow`).
    Any,
    /// Nothing cancels the scope; the join answers that all is done (`awaitAll`).
    Await,
    /// Once at least so many jobs failed, the scope is cancelled (`allUntil`).
    UntilFailed(u32),
    /// Once at least so many jobs succeeded, the scope is cancelled (`allUntil`).
    UntilOk(u32),
    /// Once the measures of the jobs that succeeded add up to at least this, the scope is cancelled (`allUntil`; see
    /// [`Scope::fork_measured`](crate::Scope::fork_measured)).
    UntilSum(i64),
}

/// How a scope is opened: its joiner, its deadline, whether it moves on, whether it is shielded, its name.
///
/// ```
/// use balkreyn::{Joiner, Options};
/// use std::time::{Duration, Instant};
///
/// let options = Options::new(Joiner::Any).within(Duration::from_millis(300)).move_on();
/// # let _ = options;
/// ```
#[derive(Clone, Debug, Default)]
#[must_use]
pub struct Options {
    pub(crate) joiner: Joiner,
    #[doc(hidden)]
    pub within: Option<Duration>,
    pub(crate) moves_on: bool,
    pub(crate) shielded: bool,
    pub(crate) threads: Option<NonZeroUsize>,
    #[doc(hidden)]
    pub canceller: Option<Canceller>,
    #[doc(hidden)]
    pub name: Option<String>,
}

impl Options {
    /// A scope with this joiner, and no deadline.
    pub fn new(joiner: Joiner) -> Options {
        Options { joiner, ..Options::default() }
    }

    /// The scope is cancelled if it isn't joined so long after its opening. Deadlines are kept in whole milliseconds,
    /// rounded up; zero is now, so that no job begins.
    pub fn within(mut self, duration: Duration) -> Options {
        self.within = Some(duration);
        self
    }

    /// The scope is cancelled if it isn't joined by then ([`Options::within`]).
    pub fn until(self, instant: Instant) -> Options {
        self.within(instant.saturating_duration_since(Instant::now()))
    }

    /// Where the deadline passes, the join answers [`Outcome::Partial`](crate::Outcome::Partial) instead of
    /// [`Outcome::Timeout`](crate::Outcome::Timeout): what had come counts (Trio, `move_on_after`).
    pub fn move_on(mut self) -> Options {
        self.moves_on = true;
        self
    }

    /// Cancels and deadlines of the scopes around it stop short of this one (Trio, `shield`).
    pub fn shield(mut self) -> Options {
        self.shielded = true;
        self
    }

    /// At most so many threads run the scope's jobs; the others wait for one, in fork order. So a job must not wait
    /// for one that was forked after it. If no thread is to be had, a job waits for one that the scope has, and is
    /// refused only if it has none. Without this, a job that finds no idle thread gets another one, or is refused.
    pub fn threads(mut self, limit: NonZeroUsize) -> Options {
        self.threads = Some(limit);
        self
    }

    /// The canceller cancels the scope too, at once if it cancelled already.
    pub fn cancelled_by(mut self, canceller: &Canceller) -> Options {
        self.canceller = Some(canceller.clone());
        self
    }

    /// The scope has a name, which may be any text: dumps show it as its label, and journals as a remark.
    pub fn named(mut self, name: impl Into<String>) -> Options {
        self.name = Some(name.into());
        self
    }

    /// How many threads the scope may have.
    #[doc(hidden)]
    pub fn thread_limit(&self) -> usize {
        self.threads.map_or(usize::MAX, NonZeroUsize::get)
    }

    /// The joiner's number and bound, as the book takes them.
    #[doc(hidden)]
    pub fn joiner_numbers(&self) -> (u32, i64) {
        match self.joiner {
            Joiner::AwaitOk => (0, 0),
            Joiner::All => (1, 0),
            Joiner::Any => (2, 0),
            Joiner::Await => (3, 0),
            Joiner::UntilFailed(count) => (4, i64::from(count)),
            Joiner::UntilOk(count) => (5, i64::from(count)),
            Joiner::UntilSum(sum) => (6, sum),
        }
    }

    /// The words of an `open` of a script, with the deadline as the book was told it.
    #[doc(hidden)]
    pub fn words(&self, deadline: Option<u64>) -> String {
        let joiner = match self.joiner {
            Joiner::AwaitOk => "await-ok".into(),
            Joiner::All => "all".into(),
            Joiner::Any => "any".into(),
            Joiner::Await => "await".into(),
            Joiner::UntilFailed(count) => format!("until:fail:{count}"),
            Joiner::UntilOk(count) => format!("until:ok:{count}"),
            Joiner::UntilSum(sum) => format!("until:sum:{sum}"),
        };
        let deadline = deadline.map_or_else(String::new, |moment| format!(" deadline={moment}"));
        let moves_on = if self.moves_on { " move-on" } else { "" };
        let shielded = if self.shielded { " shield" } else { "" };
        format!("{joiner}{deadline}{moves_on}{shielded}")
    }

    /// The flags, as the book takes them.
    #[doc(hidden)]
    pub fn flags(&self) -> u32 {
        u32::from(self.within.is_some()) | u32::from(self.moves_on) << 1 | u32::from(self.shielded) << 2
    }
}

impl From<Joiner> for Options {
    fn from(joiner: Joiner) -> Options {
        Options::new(joiner)
    }
}
