//! Task scopes (structured concurrency) on threads, whose every decision is made by a proved library.
//!
//! A scope is a block: jobs that are forked in it have ended when the block is left, on every way out. Its joiner says
//! what is waited for, and when the rest is cancelled. The rules are those of Java's `StructuredTaskScope` (JEP 505)
//! and of Trio's cancel scopes.
//!
//! ```
//! use balkreyn::{Context, Joiner, Options, Realm, Refusal};
//! use std::time::Duration;
//!
//! let shops = [("slow", 20_000), ("quick", 5)];
//! let first = Realm::new()?.run(|cx| {
//!     cx.try_scope(Options::new(Joiner::Any).within(Duration::from_secs(10)), |s| {
//!         let ask = |(name, pause): &(_, u64)| {
//!             let (name, pause) = (*name, Duration::from_millis(*pause));
//!             move |cx: &Context| {
//!                 cx.sleep(pause)?;
//!                 Ok::<_, Refusal>(name)
//!             }
//!         };
//!         let offers = s.fork_all("shop", shops.iter().map(ask))?;
//!         s.winner(offers)
//!     })
//! });
//! assert_eq!(first, Ok("quick"));
//! # Ok::<(), Refusal>(())
//! ```
//!
//! # What is proved, and what is tested
//!
//! Whether a fork may run, whether a join is ready and what it answers, whether a result counts, what a cancel
//! reaches, which deadline is next: each is one call of the library, whose answer is proved to be that of the rules.
//! This crate starts the threads, waits, reads the clock and stores the results; it is tested, not proved. What
//! happened can be written as a journal ([`Look::journal`]), and the proved program `scopectl replay --strict` says
//! whether the rules refuse a line of it. A realm that notes ([`Realm::noted`]) writes its answers too
//! ([`Look::notes`]), so that the program can compare them with those of the rules.
//!
//! # Who acts
//!
//! The library believes who acts. So [`Context`] and [`Scope`] never leave their thread, a job gets a context of its
//! own, and one thread at a time is main, which the types see to.
//!
//! # Errors
//!
//! The errors of bodies and of jobs are yours, from a [`Refusal`] and from [`Cancelled`]: two `From`, or
//! `Box<dyn Error + Send + Sync>`, which has both. A cancel ends at its own block ([`Context::try_scope`]).
//!
//! # Threads
//!
//! A job takes an idle thread of its scope, or else one of a [`Pool`], up to [`Options::threads`]. A cancel stops no
//! code that never asks and has no hook ([`Context::on_cancel`]): a block waits until each of its jobs has ended.
//!
//! # Time
//!
//! Deadlines pass while somebody waits ([`Scope::join`], [`Context::sleep`]), asks ([`Context::is_cancelled`]) or looks
//! ([`Look::dump`]), and before each other call. There is no timer thread.

#![deny(unsafe_code)]
#![warn(missing_docs)]

mod canceller;
mod channel;
mod context;
mod ffi;
mod gate;
mod helpers;
mod hooks;
mod labels;
mod limiter;
mod local;
mod notes;
mod observer;
mod options;
mod outcome;
mod pool;
mod realm;
mod refusal;
mod scope;
mod server;
mod shared;
mod task;
mod threads;
mod value;
mod waiting;

/// What a host for another kind of job is built from, such as `balkreyn-tokio`. It may change with any version.
#[doc(hidden)]
pub mod host {
    pub use crate::canceller::Cancels;
    pub use crate::ffi::{Book, Bound, Pair};
    pub use crate::hooks::Call;
    pub use crate::labels::Labels;
    pub use crate::refusal::Code;
    pub use crate::task::swallow;
    pub use crate::waiting::locked;
}

pub use canceller::Canceller;
pub use channel::{Receiver, Sender, channel};
pub use context::Context;
pub use helpers::Backoff;
pub use hooks::Hook;
pub use limiter::Limiter;
pub use local::Local;
pub use notes::Notes;
pub use observer::{Ending, Happening, Observer};
pub use options::{Joiner, Options};
pub use outcome::{Cancelled, Cause, Outcome, ScopeError, ScopeId, TaskId};
pub use pool::{Pool, ThreadBody};
pub use realm::{Limits, Look, Realm};
pub use refusal::Refusal;
pub use scope::Scope;
pub use server::{Server, Stop};
pub use task::{Panic, Task, TaskError, TaskState};
pub use value::Value;
