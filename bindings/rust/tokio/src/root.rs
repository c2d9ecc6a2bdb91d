//! Who is at the root of a realm's tree: a request, main, or main of a realm inside another one.

use crate::actor::{Actor, polled_as};
use crate::bell::{Bell, End};
use crate::block::Ended;
use std::future::{Future, poll_fn};
use std::panic::{AssertUnwindSafe, catch_unwind};
use std::pin::Pin;
use std::sync::Arc;
use std::sync::atomic::{AtomicUsize, Ordering};
use std::task::{Context as Polling, Poll, Waker, ready};
use tokio::sync::Notify;

/// How many requests live.
#[derive(Default)]
pub(crate) struct Live {
    count: AtomicUsize,
    none: Notify,
}

impl Live {
    pub(crate) fn enter(&self) {
        self.count.fetch_add(1, Ordering::Relaxed);
    }

    fn leave(&self) {
        if self.count.fetch_sub(1, Ordering::AcqRel) == 1 {
            self.none.notify_waiters();
        }
    }

    pub(crate) fn count(&self) -> usize {
        self.count.load(Ordering::Acquire)
    }

    /// Waits until none lives.
    pub(crate) async fn quiet(&self) {
        loop {
            let none = self.none.notified();
            if self.count() == 0 {
                return;
            }
            none.await;
        }
    }
}

/// Of what kind a root is, and who hears of its end.
#[derive(Clone)]
pub(crate) enum Kind {
    Main,
    Request(Arc<Live>),
    /// Main of a realm inside that scope of who opened it.
    Guest(Arc<Actor>, Arc<Bell>),
}

/// A root, whose future may be dropped: then it ends once nothing is left of it.
pub(crate) struct Root {
    /// `None` while it is polled.
    actor: Option<Arc<Actor>>,
    kind: Kind,
    end: End,
    is_over: bool,
    /// Whether its future was dropped before, and a task of the runtime ends it.
    is_left: bool,
    waker: Option<Waker>,
}

impl Root {
    pub(crate) fn new(actor: Arc<Actor>, kind: Kind) -> Root {
        match &kind {
            Kind::Main => {}
            Kind::Request(live) => live.enter(),
            Kind::Guest(outside, bell) => outside.lane.quietly().count_guest(bell.scope, true),
        }
        Root { actor: Some(actor), kind, end: End::Gone, is_over: false, is_left: false, waker: None }
    }

    fn actor(&self) -> &Arc<Actor> {
        self.actor.as_ref().expect("an actor is away only while it is polled")
    }

    /// Polls the body as the actor; where its scope is cancelled, it is over.
    pub(crate) fn poll_body<F: Future>(
        &mut self,
        body: Pin<&mut F>,
        context: &mut Polling<'_>,
    ) -> Poll<Ended<F::Output>> {
        let actor = self.actor();
        if !self.waker.as_ref().is_some_and(|waker| waker.will_wake(context.waker())) {
            if actor.id != crate::lane::MAIN {
                actor.lane.quietly().set_waker(actor.id, context.waker());
            }
            self.waker = Some(context.waker().clone());
        }
        let polled = catch_unwind(AssertUnwindSafe(|| polled_as(&mut self.actor, || body.poll(context))));
        match polled {
            Ok(Poll::Ready(value)) => {
                self.end = End::Finish(0);
                Poll::Ready(Ended::Value(value))
            }
            Err(panic) => {
                self.end = End::Panicked;
                Poll::Ready(Ended::Panic(panic))
            }
            Ok(Poll::Pending) => match self.actor().is_to_be_cut(&self.actor().base) {
                None => Poll::Pending,
                Some(cancelled) => {
                    self.end = End::Dropped;
                    Poll::Ready(Ended::Cut(cancelled))
                }
            },
        }
    }

    /// Closes what the body left, and ends.
    pub(crate) fn poll_end(&mut self, context: &mut Polling<'_>) -> Poll<()> {
        ready!(self.actor().poll_close_above(&self.actor().base, context));
        self.ends(true);
        Poll::Ready(())
    }

    fn ends(&mut self, is_closed: bool) {
        self.is_over = true;
        match &self.kind {
            Kind::Main => {}
            Kind::Request(live) => {
                if is_closed {
                    self.actor().lane.end(&self.actor().base, self.actor().id, self.end);
                }
                live.leave();
            }
            Kind::Guest(outside, bell) => outside.lane.quietly().count_guest(bell.scope, false),
        }
    }
}

impl Drop for Root {
    fn drop(&mut self) {
        if self.is_over {
            return;
        }
        if self.actor().is_bare() || self.is_left {
            // One that is left and not bare is dropped by a runtime that shuts down.
            self.ends(self.actor().is_bare());
            return;
        }
        let runtime = self.actor().lane.runtime.clone();
        let (actor, kind) = (self.actor.take(), self.kind.clone());
        let mut rest = Root { actor, kind, end: self.end, is_over: false, is_left: true, waker: None };
        self.is_over = true;
        runtime.spawn(async move { poll_fn(|context| rest.poll_end(context)).await });
    }
}
