//! What a realm was asked and what it answered, in the lines of a script.

use crate::ffi::Book;
use crate::outcome::{Cause, Outcome};
use std::fmt::{Display, Write};
use std::time::Instant;

/// What a realm was asked, and what it answered. The lines are those of `docs/SCRIPT.md`.
///
/// The answers are those that the caller got, not those that this crate got from the library. So a replay of the journal
/// can find a fault of either.
///
/// ```
/// # use balkreyn::{Joiner, Realm, Refusal};
/// let mut realm = Realm::new()?.noted();
/// realm.run(|cx| cx.try_scope(Joiner::All, |s| s.join().map(drop)))?;
/// let notes = realm.look().notes().unwrap();
/// assert!(notes.journal.starts_with("# at "));
/// assert_eq!(notes.answers.lines().next(), Some("retired 0 0"));
/// # Ok::<(), Refusal>(())
/// ```
#[derive(Clone, Debug)]
pub struct Notes {
    /// A script: the calls that were not refused, in the order in which they took the realm's lock. A line `# at N`
    /// says that N milliseconds had passed since the realm began.
    pub journal: String,
    /// The answers: one line for each line of the journal.
    pub answers: String,
    scopes: u32,
    tasks: u32,
    began: Instant,
    /// The last moment that was noted.
    at: Option<u128>,
}

impl Notes {
    #[doc(hidden)]
    pub fn since(began: Instant) -> Notes {
        Notes { journal: String::new(), answers: String::new(), scopes: 0, tasks: 0, began, at: None }
    }

    /// Notes a line and its answer.
    #[doc(hidden)]
    pub fn line(&mut self, line: impl Display, answer: impl Display) {
        let now = self.began.elapsed().as_millis();
        if self.at != Some(now) {
            self.at = Some(now);
            let _ = writeln!(self.journal, "# at {now}");
        }
        // A string takes what is written to it.
        let _ = writeln!(self.journal, "{line}");
        let _ = writeln!(self.answers, "{answer}");
    }

    /// Notes that the actor opened the scope, by these words.
    #[doc(hidden)]
    pub fn open(&mut self, actor: u32, words: impl Display, scope: u32) {
        self.scopes = scope;
        self.line(format_args!("open {actor} {words}"), format_args!("scope {scope}"));
    }

    /// Notes that the actor forked the task.
    #[doc(hidden)]
    pub fn fork(&mut self, actor: u32, scope: u32, name: &str, task: u32, has_thread: bool) {
        self.tasks = task;
        let thread = if has_thread { "thread" } else { "none" };
        self.line(format_args!("fork {actor} {scope} {name}"), format_args!("task {task} {thread}"));
    }

    /// Notes that main dropped the past.
    #[doc(hidden)]
    pub fn retire(&mut self) {
        let answer = format!("retired {} {}", self.scopes, self.tasks);
        self.line("retire 0", answer);
    }

    /// Notes what a join answered. The values and the list behind that are the library's.
    #[doc(hidden)]
    pub fn join(&mut self, actor: u32, scope: u32, outcome: Outcome, book: &mut Book) {
        let head = outcome.head();
        let whole = book.outcome_line(scope).unwrap_or_default();
        let tells = |rest: &str| rest.is_empty() || head.ends_with('=') || rest.starts_with(' ');
        let answer = if whole.strip_prefix(&head).is_some_and(tells) { whole } else { head };
        self.line(format_args!("join {actor} {scope}"), answer);
    }

    /// Notes why a scope is cancelled.
    #[doc(hidden)]
    pub fn cause(&mut self, scope: u32, cause: Option<Cause>) {
        match cause {
            None => self.line(format_args!("cause {scope}"), "live"),
            Some(cause) => self.line(format_args!("cause {scope}"), cause.line()),
        }
    }
}
