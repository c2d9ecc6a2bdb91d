//! What joins, scopes and cancels answer.

use crate::ffi::Pair;
use crate::refusal::Refusal;
use std::error::Error;
use std::fmt;

/// The number of a task in its realm, as dumps show it. A journal counts anew from 1.
///
/// ```
/// # use balkreyn::{Joiner, Realm, Refusal};
/// Realm::new()?.run(|cx| {
///     cx.try_scope(Joiner::All, |s| {
///         let task = s.fork("one", |_| Ok::<_, Refusal>(1))?;
///         assert_eq!((task.id().number(), task.id().to_string()), (1, "task 1".to_owned()));
///         s.join().map(drop)
///     })
/// })?;
/// # Ok::<(), Refusal>(())
/// ```
#[derive(Clone, Copy, Debug, PartialEq, Eq, Hash, PartialOrd, Ord)]
pub struct TaskId(pub(crate) u32);

impl TaskId {
    /// The number.
    #[must_use]
    pub fn number(self) -> u32 {
        self.0
    }

    #[doc(hidden)]
    pub fn of_number(number: u32) -> TaskId {
        TaskId(number)
    }
}

impl fmt::Display for TaskId {
    fn fmt(&self, out: &mut fmt::Formatter<'_>) -> fmt::Result {
        write!(out, "task {}", self.0)
    }
}

/// The number of a scope in its realm, as dumps show it. A journal counts anew from 1.
///
/// ```
/// # use balkreyn::{Joiner, Realm, Refusal};
/// let id = Realm::new()?.run(|cx| cx.scope(Joiner::All, |s| s.id()))?;
/// assert_eq!((id.number(), id.to_string()), (1, "scope 1".to_owned()));
/// # Ok::<(), Refusal>(())
/// ```
#[derive(Clone, Copy, Debug, PartialEq, Eq, Hash, PartialOrd, Ord)]
pub struct ScopeId(pub(crate) u32);

impl ScopeId {
    /// The number.
    #[must_use]
    pub fn number(self) -> u32 {
        self.0
    }

    #[doc(hidden)]
    pub fn of_number(number: u32) -> ScopeId {
        ScopeId(number)
    }
}

impl fmt::Display for ScopeId {
    fn fmt(&self, out: &mut fmt::Formatter<'_>) -> fmt::Result {
        write!(out, "scope {}", self.0)
    }
}

/// What a join answers (JEP 505, `join`).
///
/// ```
/// # use balkreyn::{Joiner, Outcome, Realm, Refusal};
/// let outcome = Realm::new()?.run(|cx| cx.scope(Joiner::Any, |s| s.join()))??;
/// assert_eq!(outcome, Outcome::Empty);
/// # Ok::<(), Refusal>(())
/// ```
#[non_exhaustive]
#[must_use]
#[derive(Clone, Copy, Debug, PartialEq, Eq)]
pub enum Outcome {
    /// All jobs succeeded ([`Joiner::All`](crate::Joiner::All)).
    All,
    /// This one was the first to succeed ([`Joiner::Any`](crate::Joiner::Any)).
    Any(TaskId),
    /// A success was wanted, and no job ended.
    Empty,
    /// All that was waited for came.
    Done,
    /// This one was the first to fail.
    Failed(TaskId),
    /// The jobs' results can be read one by one (the joiners `Until..`).
    List,
    /// The scope's own deadline passed.
    Timeout,
    /// The same, in a scope that moves on: what had come can be read.
    Partial,
    /// A call cancelled this scope, or what cancelled it came from the scope of that number.
    Cancelled(ScopeId),
}

impl Outcome {
    #[doc(hidden)]
    pub fn of_pair(pair: &Pair) -> Result<Outcome, Refusal> {
        Ok(match pair.kind {
            1 => Outcome::All,
            2 => Outcome::Any(TaskId(pair.number)),
            3 => Outcome::Empty,
            4 => Outcome::Done,
            5 => Outcome::Failed(TaskId(pair.number)),
            6 => Outcome::List,
            7 => Outcome::Timeout,
            8 => Outcome::Partial,
            9 => Outcome::Cancelled(ScopeId(pair.number)),
            kind => return Err(Refusal::Unexpected(i64::from(kind))),
        })
    }

    /// How the line of a script's reply begins, up to the values and the list.
    pub(crate) fn head(&self) -> String {
        match self {
            Outcome::All => "outcome all".into(),
            Outcome::Any(task) => format!("outcome any {}=", task.0),
            Outcome::Empty => "outcome empty".into(),
            Outcome::Done => "outcome done".into(),
            Outcome::Failed(task) => format!("outcome failed {}", task.0),
            Outcome::List => "outcome list".into(),
            Outcome::Timeout => "outcome timeout".into(),
            Outcome::Partial => "outcome partial".into(),
            Outcome::Cancelled(scope) => format!("outcome cancelled {}", scope.0),
        }
    }
}

/// Why a scope is cancelled.
///
/// ```
/// # use balkreyn::{Cause, Joiner, Realm, Refusal};
/// Realm::new()?.run(|cx| {
///     cx.scope(Joiner::All, |s| {
///         assert_eq!(s.cause(), None);
///         assert!(s.cancel());
///         assert_eq!(s.cause(), Some(Cause::Call(s.id())));
///     })
/// })?;
/// # Ok::<(), Refusal>(())
/// ```
#[non_exhaustive]
#[derive(Clone, Copy, Debug, PartialEq, Eq, Hash)]
pub enum Cause {
    /// A cancel call on that scope.
    Call(ScopeId),
    /// The close of that scope began.
    Close(ScopeId),
    /// The joiner of that scope fired.
    Joiner(ScopeId),
    /// The deadline of that scope passed.
    Deadline(ScopeId),
}

impl Cause {
    #[doc(hidden)]
    pub fn of_pair(pair: &Pair) -> Option<Cause> {
        Cause::unpacked(u64::from(pair.kind) << 32 | u64::from(pair.number))
    }

    /// The cause of such a number; `None` of 0.
    #[doc(hidden)]
    pub fn unpacked(packed: u64) -> Option<Cause> {
        let scope = ScopeId(packed as u32);
        Some(match packed >> 32 {
            1 => Cause::Call(scope),
            2 => Cause::Close(scope),
            3 => Cause::Joiner(scope),
            4 => Cause::Deadline(scope),
            _ => return None,
        })
    }

    /// The pair as one number, which is not 0.
    #[doc(hidden)]
    pub fn packed(self) -> u64 {
        let (kind, scope) = match self {
            Cause::Call(scope) => (1, scope),
            Cause::Close(scope) => (2, scope),
            Cause::Joiner(scope) => (3, scope),
            Cause::Deadline(scope) => (4, scope),
        };
        kind << 32 | u64::from(scope.0)
    }

    /// The scope that the cancel came from.
    #[must_use]
    pub fn scope(self) -> ScopeId {
        match self {
            Cause::Call(scope) | Cause::Close(scope) | Cause::Joiner(scope) | Cause::Deadline(scope) => scope,
        }
    }

    /// The line of a script's reply.
    pub(crate) fn line(self) -> String {
        let kind = match self {
            Cause::Call(_) => "call",
            Cause::Close(_) => "close",
            Cause::Joiner(_) => "joiner",
            Cause::Deadline(_) => "deadline",
        };
        format!("cancelled {} {kind}", self.scope().0)
    }
}

impl fmt::Display for Cause {
    fn fmt(&self, out: &mut fmt::Formatter<'_>) -> fmt::Result {
        match self {
            Cause::Call(scope) => write!(out, "a call on {scope}"),
            Cause::Close(scope) => write!(out, "the close of {scope}"),
            Cause::Joiner(scope) => write!(out, "the joiner of {scope}"),
            Cause::Deadline(scope) => write!(out, "the deadline of {scope}"),
        }
    }
}

/// The scope around the caller is cancelled, by this cause.
///
/// A cancel ends at its own block: [`Context::try_scope`](crate::Context::try_scope) says what the block gives then.
///
/// ```
/// # use balkreyn::{Cancelled, Cause, Joiner, Realm, Refusal};
/// Realm::new()?.run(|cx| {
///     cx.scope(Joiner::All, |s| {
///         s.cancel();
///         assert_eq!(cx.checkpoint(), Err(Cancelled { cause: Cause::Call(s.id()) }));
///     })
/// })?;
/// # Ok::<(), Refusal>(())
/// ```
#[derive(Clone, Copy, Debug, PartialEq, Eq, Hash)]
pub struct Cancelled {
    /// What cancelled it.
    pub cause: Cause,
}

impl fmt::Display for Cancelled {
    fn fmt(&self, out: &mut fmt::Formatter<'_>) -> fmt::Result {
        write!(out, "cancelled by {}", self.cause)
    }
}

impl Error for Cancelled {}

/// Why a scope gives no plain value.
///
/// ```
/// # use balkreyn::{Joiner, Realm, Refusal, ScopeError};
/// let forgotten = Realm::new()?.run(|cx| {
///     cx.scope(Joiner::All, |s| {
///         s.fork("job", |_| Ok::<_, Refusal>(())).map(drop)?;
///         Ok::<_, Refusal>("kept")
///     })
/// });
/// assert!(matches!(forgotten, Err(ScopeError::NotJoined(Ok("kept")))));
/// # Ok::<(), Refusal>(())
/// ```
pub enum ScopeError<R> {
    /// The scope was not opened, and the body never ran.
    Refused(Refusal),
    /// Jobs were forked, and nobody joined them. What the body returned is kept.
    NotJoined(R),
}

impl<R> ScopeError<R> {
    /// The refusal, without what the body returned.
    #[must_use]
    pub fn refusal(&self) -> Refusal {
        match self {
            ScopeError::Refused(refusal) => *refusal,
            ScopeError::NotJoined(_) => Refusal::NotJoined,
        }
    }
}

impl<R> fmt::Debug for ScopeError<R> {
    fn fmt(&self, out: &mut fmt::Formatter<'_>) -> fmt::Result {
        fmt::Debug::fmt(&self.refusal(), out)
    }
}

impl<R> fmt::Display for ScopeError<R> {
    fn fmt(&self, out: &mut fmt::Formatter<'_>) -> fmt::Result {
        fmt::Display::fmt(&self.refusal(), out)
    }
}

impl<R> Error for ScopeError<R> {
    fn source(&self) -> Option<&(dyn Error + 'static)> {
        match self {
            ScopeError::Refused(refusal) => refusal.source(),
            ScopeError::NotJoined(_) => None,
        }
    }
}

impl<R> From<ScopeError<R>> for Refusal {
    fn from(error: ScopeError<R>) -> Refusal {
        error.refusal()
    }
}
