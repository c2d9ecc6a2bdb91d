//! Why a call was refused.

use crate::outcome::{Cancelled, ScopeId, TaskId};
use std::error::Error;
use std::fmt;

/// Why a call was refused, or a block gave no value. A refused call changed nothing.
///
/// ```
/// # use balkreyn::{Joiner, Realm, Refusal};
/// let twice = Realm::new()?.run(|cx| {
///     cx.try_scope(Joiner::All, |s| {
///         s.join_ok()?;
///         s.join_ok()
///     })
/// });
/// assert_eq!(twice, Err(Refusal::AlreadyJoined));
/// # Ok::<(), Refusal>(())
/// ```
#[non_exhaustive]
#[derive(Clone, Copy, Debug, PartialEq, Eq, Hash)]
pub enum Refusal {
    /// The scope around the caller is cancelled.
    Cancelled(Cancelled),
    /// The deadline of that scope, the block's own one, passed.
    TimedOut(ScopeId),
    /// That job was the first to fail, and its error is of another type than the block's.
    JobFailed(TaskId),
    /// No thread was obtained for the job, which never runs.
    Rejected,
    /// The scope was joined before: a scope is joined once, and nothing is forked in it afterwards.
    AlreadyJoined,
    /// The scope is not joined yet. Of a whole scope: jobs were forked in it, and it was never joined.
    NotJoined,
    /// The result was taken before.
    Taken,
    /// The task that was named is none of those that were given.
    NoTask,
    /// A fork inside a binding that began after its scope was opened.
    Structure,
    /// A context acts in another job than its own (`balkreyn-tokio`). Ask `Context::current` there.
    Elsewhere,
    /// Jobs of the scope are polled by a `Here` (`balkreyn-tokio`), and end while that is awaited. Join by it.
    PolledHere,
    /// Another block of the same job is open, and not around this one, as with `join!` of two blocks
    /// (`balkreyn-tokio`). Fork two jobs, each with its block.
    Beside,
    /// A limit of scopes, tasks or load is reached ([`Limits`](crate::Limits)).
    TooMany,
    /// Scopes would lie more than 16 levels deep.
    TooDeep,
    /// A key, or a text that is bound, is no name: 1 to 24 bytes of `a`..`z`, `0`..`9`, `-`, `_`, `.`, a letter first.
    /// A [`Local`](crate::Local) binds any value.
    BadName,
    /// A limit of a realm is out of its range.
    BadLimit,
    /// Memory was refused.
    Memory,
    /// The library that was linked has another version of the interface.
    OtherInterface,
    /// The library gave an answer that this call never has: an error of this crate, to be reported.
    Unexpected(i64),
}

impl fmt::Display for Refusal {
    fn fmt(&self, out: &mut fmt::Formatter<'_>) -> fmt::Result {
        out.write_str(match self {
            Refusal::Cancelled(cancelled) => return cancelled.fmt(out),
            Refusal::TimedOut(scope) => return write!(out, "the deadline of {scope} passed"),
            Refusal::JobFailed(task) => return write!(out, "{task} was the first to fail"),
            Refusal::Unexpected(answer) => return write!(out, "the library answered {answer}"),
            Refusal::Rejected => "no thread was obtained for the job",
            Refusal::AlreadyJoined => "the scope was joined before",
            Refusal::NotJoined => "the scope was not joined",
            Refusal::Taken => "the result was taken before",
            Refusal::NoTask => "the task is none of those that were given",
            Refusal::Structure => "the job would be forked inside a binding that is younger than its scope",
            Refusal::Elsewhere => "a context acts in its own job alone: ask Context::current in this one",
            Refusal::PolledHere => "jobs of the scope are polled by a Here: join by it",
            Refusal::Beside => "another block of this job is open beside this one: fork two jobs, each with its block",
            Refusal::TooMany => "a limit of scopes, tasks or load is reached",
            Refusal::TooDeep => "scopes would lie more than 16 levels deep",
            Refusal::BadName => "a key or a text is no name (1 to 24 bytes of a-z, 0-9, -, _, . with a letter first)",
            Refusal::BadLimit => "a limit is out of its range",
            Refusal::Memory => "memory was refused",
            Refusal::OtherInterface => "the library has another version of the interface",
        })
    }
}

impl Error for Refusal {
    fn source(&self) -> Option<&(dyn Error + 'static)> {
        match self {
            Refusal::Cancelled(cancelled) => Some(cancelled),
            _ => None,
        }
    }
}

impl From<Cancelled> for Refusal {
    fn from(cancelled: Cancelled) -> Refusal {
        Refusal::Cancelled(cancelled)
    }
}

/// An answer of the library below 0, by the header's number.
#[derive(Clone, Copy, Debug, PartialEq, Eq)]
pub struct Code(pub i64);

#[allow(missing_docs)]
impl Code {
    pub const ALREADY_JOINED: Code = Code(-4);
    pub const NOT_JOINED: Code = Code(-5);
    pub const STRUCTURE: Code = Code(-6);
    pub const TOO_MANY: Code = Code(-10);
    pub const NOT_READY: Code = Code(-11);
    pub const NO_RESULT: Code = Code(-13);
    pub const NOT_SUCCESS: Code = Code(-14);
    pub const MEMORY: Code = Code(-17);
    pub const TOO_DEEP: Code = Code(-19);
    pub const BAD_ARGUMENT: Code = Code(-23);
}

impl From<Code> for Refusal {
    fn from(code: Code) -> Refusal {
        match code {
            Code::ALREADY_JOINED => Refusal::AlreadyJoined,
            Code::NOT_JOINED => Refusal::NotJoined,
            Code::STRUCTURE => Refusal::Structure,
            Code::TOO_MANY => Refusal::TooMany,
            Code::MEMORY => Refusal::Memory,
            Code::TOO_DEEP => Refusal::TooDeep,
            Code::BAD_ARGUMENT => Refusal::BadName,
            Code(answer) => Refusal::Unexpected(answer),
        }
    }
}

#[cfg(test)]
mod tests {
    use super::*;

    #[test]
    fn answers_are_those_of_the_header() {
        assert_eq!(Refusal::from(Code(-4)), Refusal::AlreadyJoined);
        assert_eq!(Refusal::from(Code(-10)), Refusal::TooMany);
        assert_eq!(Refusal::from(Code(-17)), Refusal::Memory);
        assert_eq!(Refusal::from(Code(-23)), Refusal::BadName);
        assert_eq!(Refusal::from(Code(-11)), Refusal::Unexpected(-11));
        assert_eq!(Refusal::from(Code(i64::MIN)), Refusal::Unexpected(i64::MIN));
    }
}
