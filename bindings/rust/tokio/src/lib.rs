//! Task scopes (structured concurrency) on tokio, whose every decision is made by a proved library.
//!
//! A scope is a block: jobs that are forked in it have ended when the block is left, on every way out that is awaited.
//! Its joiner says what is waited for, and when the rest is cancelled. The rules are those of Java's
//! `StructuredTaskScope` (JEP 505) and of Trio's cancel scopes. A job is a task of tokio, so one that waits costs no
//! thread. The words are those of the crate `balkreyn`, whose jobs are threads.
//!
//! ```
//! use balkreyn_tokio::{Intake, Joiner, Need, Options, Refusal};
//! use std::time::Duration;
//!
//! # tokio::runtime::Runtime::new().unwrap().block_on(async {
//! let intake = Intake::new();
//! let first = intake.run(Need::new(1, 2), async |cx| {
//!     cx.try_scope(Options::new(Joiner::Any).within(Duration::from_secs(10)), async |s| {
//!         let shops = [("slow", 20_000), ("quick", 5)];
//!         let offers = s.fork_all("shop", shops.map(|(name, pause)| async move {
//!             tokio::time::sleep(Duration::from_millis(pause)).await;
//!             Ok::<_, Refusal>(name)
//!         }))?;
//!         s.winner(offers).await
//!     })
//!     .await
//! });
//! assert_eq!(first.await?, Ok("quick"));
//! # Ok::<(), Refusal>(())
//! # }).unwrap();
//! ```
//!
//! # What is proved, and what is tested
//!
//! Whether a fork may run, whether a join is ready and what it answers, whether a result counts, what a cancel
//! reaches, which deadline is next: each is one call of the library, whose answer is proved to be that of the rules.
//! This crate polls the jobs, waits, reads the clock and stores the results; it is tested, not proved, and has no
//! `unsafe`. A realm that notes ([`Realm::noted`], [`Intake::noted`]) writes what it was asked and what it answered, and
//! `bindings/conformance/check` compares that with the rules.
//!
//! # A cancel
//!
//! A cancel wakes what it reaches. A job is dropped at its next await, unless a shield is around it there; so are the
//! bodies of blocks that can say so ([`Context::try_scope`]), before their join. A wait of this crate
//! ([`Context::wait`], [`Scope::join`]) ends by it instead. The cancel ends at its own block. No cancel stops code that
//! never awaits.
//!
//! Deadlines go by tokio's timer, which is set to the realm's next one: a realm with deadlines has one task for them.
//!
//! # A dropped future
//!
//! Rust can't await in a drop. A block whose future is dropped (by `timeout`, `select!`, a client that is gone) begins its
//! close at once: its jobs are cancelled, and dropped at their next await. Who ends the close:
//!
//! | Where the future is dropped | Who ends the close, and waits for the jobs |
//! |---|---|
//! | in a job, which goes on | the next block or binding of that job, before it opens |
//! | in the body of another block | that block, before it is left |
//! | in a job that ends | the job, before its task counts as ended |
//! | in a job that is polled by a [`Here`] and dropped with it | the block around that `Here` |
//! | with the request ([`Intake::run`]) | a task of the runtime; [`Intake::quiet`] waits for it |
//! | with main of a realm ([`Realm::run`]) | a task of the runtime |
//! | [`Context::in_own_realm`] | a task of the runtime, for which the block around the caller waits |
//!
//! So **the block of an awaited scope leaves no job**. Beyond that are a job that never awaits, `mem::forget`, and the
//! shutdown of the runtime, which drops all jobs in any order.
//!
//! Jobs that are polled inside their block ([`Scope::here`]) are gone at once with its future, and may borrow.
//!
//! # Who acts
//!
//! The library believes who acts. A [`Context`] knows its job, and acts only while that is polled. Blocks of one job lie
//! inside each other: two blocks in one `join!` are refused ([`Refusal::Beside`]). Fork two jobs instead.

#![forbid(unsafe_code)]
#![warn(missing_docs)]

mod actor;
mod bell;
mod block;
mod channel;
mod context;
mod helpers;
mod here;
mod hooks;
mod inner;
mod intake;
mod lane;
mod limiter;
mod look;
mod realm;
mod root;
mod scope;
mod server;
mod task;

pub use balkreyn::{
    Backoff, Cancelled, Canceller, Cause, Ending, Happening, Joiner, Limits, Local, Notes, Observer, Options, Outcome,
    Panic, Refusal, ScopeError, ScopeId, TaskError, TaskId, TaskState, Value,
};
pub use block::scope;
pub use channel::{Receiver, Sender, channel};
pub use context::Context;
pub use here::Here;
pub use hooks::Hook;
pub use intake::{Intake, Need};
pub use limiter::Limiter;
pub use look::Look;
pub use realm::Realm;
pub use scope::Scope;
pub use server::{Server, Stop};
pub use task::Task;
