//! Who acts: main of a realm, or one of its tasks; and who is polled here.

use crate::bell::{Bell, End, Kind, Stage};
use crate::lane::{Lane, surely};
use balkreyn::host::locked;
use balkreyn::{Cancelled, Refusal};
use std::cell::{Cell, RefCell};
use std::mem;
use std::sync::{Arc, Mutex};
use std::task::{Context as Polling, Poll, ready};

/// Main of a realm, or one task.
pub(crate) struct Actor {
    pub(crate) lane: Arc<Lane>,
    pub(crate) id: u32,
    /// The number of its request's room.
    pub(crate) room: u32,
    /// What is around it: the scope in which it was forked, or of main a bell that no cancel rings.
    pub(crate) base: Arc<Bell>,
    /// Its frame above which there is none; `None` where that is its base.
    top: Mutex<Option<Arc<Bell>>>,
}

/// Who is polled by this thread, and in which of its frames.
struct Here {
    actor: RefCell<Option<Arc<Actor>>>,
    frame: Cell<usize>,
}

thread_local! {
    static HERE: Here = const { Here { actor: RefCell::new(None), frame: Cell::new(0) } };
}

fn address(frame: &Arc<Bell>) -> usize {
    Arc::as_ptr(frame) as usize
}

/// Who is polled by this thread.
pub(crate) fn current() -> Option<Arc<Actor>> {
    HERE.with(|here| here.actor.borrow().clone())
}

/// Polls as the actor, which comes back from it.
pub(crate) fn polled_as<R>(actor: &mut Option<Arc<Actor>>, poll: impl FnOnce() -> R) -> R {
    /// Puts all back on every way out.
    struct Back<'a>(&'a mut Option<Arc<Actor>>, usize);
    impl Drop for Back<'_> {
        fn drop(&mut self) {
            HERE.with(|here| {
                mem::swap(self.0, &mut here.actor.borrow_mut());
                here.frame.set(self.1);
            });
        }
    }
    let base = actor.as_ref().map_or(0, |actor| address(&actor.base));
    let frame = HERE.with(|here| {
        mem::swap(actor, &mut here.actor.borrow_mut());
        here.frame.replace(base)
    });
    let _back = Back(actor, frame);
    poll()
}

/// Polls inside that frame of the actor, if it is the actor who is polled here.
pub(crate) fn polled_in<R>(actor: &Actor, frame: &Arc<Bell>, poll: impl FnOnce() -> R) -> R {
    /// Goes back to the frame around on every way out.
    struct Back(usize);
    impl Drop for Back {
        fn drop(&mut self) {
            HERE.with(|here| here.frame.set(self.0));
        }
    }
    let inside = if actor.is_here() { address(frame) } else { 0 };
    let _back = Back(HERE.with(|here| here.frame.replace(inside)));
    poll()
}

impl Actor {
    pub(crate) fn new(lane: Arc<Lane>, id: u32, room: u32, base: Arc<Bell>) -> Actor {
        Actor { lane, id, room, base, top: Mutex::new(None) }
    }

    /// By what the book knows it, and its room.
    pub(crate) fn who(&self) -> (u32, u32) {
        (self.id, self.room)
    }

    /// Whether this thread polls it.
    pub(crate) fn is_here(&self) -> bool {
        HERE.with(|here| here.actor.borrow().as_deref().is_some_and(|actor| std::ptr::eq(actor, self)))
    }

    /// That this thread polls it.
    ///
    /// # Errors
    /// [`Refusal::Elsewhere`].
    pub(crate) fn acts_here(&self) -> Result<(), Refusal> {
        if self.is_here() { Ok(()) } else { Err(Refusal::Elsewhere) }
    }

    /// That this thread polls it in its top frame.
    ///
    /// # Errors
    /// [`Refusal::Elsewhere`], [`Refusal::Beside`].
    pub(crate) fn acts_in_top(&self) -> Result<(), Refusal> {
        self.acts_here()?;
        let is_top = HERE.with(|here| here.frame.get()) == address(&self.top());
        if is_top { Ok(()) } else { Err(Refusal::Beside) }
    }

    pub(crate) fn top(&self) -> Arc<Bell> {
        Arc::clone(locked(&self.top).as_ref().unwrap_or(&self.base))
    }

    /// Whether it has no frame of its own.
    pub(crate) fn is_bare(&self) -> bool {
        locked(&self.top).is_none()
    }

    pub(crate) fn push(&self, frame: &Arc<Bell>) {
        *locked(&self.top) = Some(Arc::clone(frame));
    }

    /// The frame was closed.
    pub(crate) fn pop(&self, frame: &Arc<Bell>) {
        let mut top = locked(&self.top);
        if top.as_ref().is_some_and(|top| Arc::ptr_eq(top, frame)) {
            let outer = frame.outer.as_ref().filter(|outer| !Arc::ptr_eq(outer, &self.base));
            *top = outer.map(Arc::clone);
        }
    }

    /// The innermost scope around it whose block was not dropped.
    pub(crate) fn innermost(&self) -> Arc<Bell> {
        self.innermost_frame(|frame| frame.kind == Kind::Scope)
    }

    /// Whether its base is the innermost scope.
    pub(crate) fn is_outermost(&self) -> bool {
        self.is_bare() || Arc::ptr_eq(&self.innermost(), &self.base)
    }

    /// Its innermost frame of that kind which was not dropped, or else its base.
    fn innermost_frame(&self, is_one: impl Fn(&Bell) -> bool) -> Arc<Bell> {
        let mut frame = self.top();
        while !Arc::ptr_eq(&frame, &self.base) && (!is_one(&frame) || frame.stage() == Stage::Left) {
            let Some(outer) = frame.outer.clone() else { break };
            frame = outer;
        }
        frame
    }

    /// Whether what is polled inside that frame is dropped now: the frame is cancelled, and so is the innermost scope,
    /// whose body runs. So a shield keeps it; and a block that closes, or a realm inside, comes to its end by itself.
    pub(crate) fn is_to_be_cut(&self, frame: &Bell) -> Option<Cancelled> {
        if !frame.is_cut() || self.innermost_frame(|_| true).kind == Kind::Guest {
            return None;
        }
        let innermost = self.innermost();
        let cause = innermost.cause()?;
        if innermost.stage() == Stage::Closing && !Arc::ptr_eq(&innermost, &self.base) {
            return None;
        }
        if self.lane.is_noting() {
            self.lane.quietly().note(|notes, _| notes.cause(innermost.scope, Some(cause)));
        }
        Some(innermost.handed(self.id, cause))
    }

    /// How many bindings main has, where it has no scope open.
    pub(crate) fn bindings_of_main(&self) -> Option<u32> {
        if self.id != crate::lane::MAIN {
            return None;
        }
        let (mut frame, mut count) = (self.top(), 0);
        while !Arc::ptr_eq(&frame, &self.base) {
            match frame.kind {
                Kind::Scope => return None,
                Kind::Binding => count += 1,
                Kind::Guest => {}
            }
            let outer = frame.outer.clone()?;
            frame = outer;
        }
        Some(count)
    }

    /// Closes the frame on the top: begins it, waits until nothing is left in it, and ends it.
    pub(crate) fn poll_close(&self, frame: &Arc<Bell>, context: &mut Polling<'_>) -> Poll<Result<(), Refusal>> {
        if frame.kind != Kind::Scope {
            self.end_frame(frame);
            return Poll::Ready(Ok(()));
        }
        loop {
            let verdict = self.lane.close(self.id, frame, Some(context.waker()));
            // Jobs whose futures are gone end here, once the blocks that they left are closed.
            let orphan = frame.more_if_any().and_then(|more| locked(&more.orphans).pop());
            match (verdict, orphan) {
                (Some(verdict), _) => {
                    self.pop(frame);
                    return Poll::Ready(verdict);
                }
                (None, None) => return Poll::Pending,
                (None, Some((actor, end))) => {
                    if actor.poll_close_above(&actor.base, context).is_pending() {
                        locked(&frame.more().orphans).push((actor, end));
                        return Poll::Pending;
                    }
                    self.lane.end(frame, actor.id, end);
                }
            }
        }
    }

    /// Closes what stands above the frame, the innermost first.
    pub(crate) fn poll_close_above(&self, frame: &Arc<Bell>, context: &mut Polling<'_>) -> Poll<()> {
        loop {
            let top = match &*locked(&self.top) {
                Some(top) if !Arc::ptr_eq(top, frame) => Arc::clone(top),
                _ => return Poll::Ready(()),
            };
            let _verdict = ready!(self.poll_close(&top, context));
        }
    }

    /// Finishes the blocks on the top that were dropped.
    pub(crate) fn poll_close_left(&self, context: &mut Polling<'_>) -> Poll<()> {
        loop {
            let top = match &*locked(&self.top) {
                Some(top) if top.stage() == Stage::Left => Arc::clone(top),
                _ => return Poll::Ready(()),
            };
            let _verdict = ready!(self.poll_close(&top, context));
        }
    }

    /// The block of the frame was dropped. Its close begins at once, and ends if nothing is left in it. Where blocks
    /// inside it are left, it ends behind theirs: the book calls that violated, and nobody is there to hear it.
    pub(crate) fn leave(&self, frame: &Arc<Bell>) {
        if frame.stage() == Stage::Closed {
            return;
        }
        frame.set_stage(Stage::Left);
        let is_top = locked(&self.top).as_ref().is_some_and(|top| Arc::ptr_eq(top, frame));
        match (frame.kind, is_top) {
            (Kind::Binding | Kind::Guest, true) => self.end_frame(frame),
            (Kind::Binding | Kind::Guest, false) => {}
            (Kind::Scope, true) => {
                if self.lane.close(self.id, frame, None).is_some() {
                    self.pop(frame);
                }
            }
            (Kind::Scope, false) => self.lane.begin_close(self.id, frame),
        }
    }

    /// Takes a frame away that is no scope, and above which nothing stands.
    fn end_frame(&self, frame: &Arc<Bell>) {
        if frame.stage() != Stage::Closed {
            frame.set_stage(Stage::Closed);
            if frame.kind == Kind::Binding {
                self.unbind(frame);
            }
            self.pop(frame);
        }
    }

    fn unbind(&self, frame: &Bell) {
        let mut inner = self.lane.lock();
        // What was opened after a bind is closed before its end, and the bind paid for that.
        let answer = surely(inner.book.unbind(self.id));
        debug_assert!(answer.is_ok(), "bindings nest: {answer:?}");
        inner.note(|notes, _| notes.line(format_args!("unbind {}", self.id), "unbound"));
        let local = frame.more_if_any().and_then(|more| more.local);
        let value = local.and_then(|number| inner.locals.remove(&number));
        drop(inner);
        drop(value);
    }

    /// The future of its job is gone, and the job has ended so, or will once the blocks that it left are closed.
    pub(crate) fn gone(self: Arc<Self>, end: End) {
        if self.is_bare() {
            self.lane.end(&self.base, self.id, end);
            return;
        }
        let (lane, base) = (Arc::clone(&self.lane), Arc::clone(&self.base));
        let mut inner = lane.lock();
        locked(&base.more().orphans).push((self, end));
        inner.wake_scope(base.scope);
    }
}
