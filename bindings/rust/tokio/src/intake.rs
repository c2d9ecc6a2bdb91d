//! Requests, over as many realms as they need.

use crate::actor::Actor;
use crate::bell::Bell;
use crate::block::Ended;
use crate::context::Context;
use crate::inner::Room;
use crate::lane::{FORK_COSTS, Finished, Lane, MAIN, MOVE_COSTS, OPEN_COSTS};
use crate::root::{Kind, Live, Root};
use balkreyn::host::{Cancels, locked};
use balkreyn::{Joiner, Limits, Notes, Observer, Options, Refusal};
use std::cell::Cell;
use std::fmt;
use std::future::poll_fn;
use std::panic::resume_unwind;
use std::pin::pin;
use std::sync::atomic::{AtomicUsize, Ordering};
use std::sync::{Arc, Mutex, Weak};
use std::task::Waker;
use tokio::runtime::Handle;

/// How much a request takes of its realm: at most so many scopes, jobs, and moved deadlines or bindings, all that its
/// jobs take included. It is refused more ([`Refusal::TooMany`]), and never less: no other request takes of its room.
///
/// ```
/// use balkreyn_tokio::{Intake, Joiner, Need, Refusal};
///
/// # tokio::runtime::Runtime::new().unwrap().block_on(async {
/// let intake = Intake::new();
/// let two = intake.run(Need::new(1, 2), async |cx| {
///     cx.scope(Joiner::Await, async |s| (0..3).filter(|_| s.fork("job", async { Ok::<_, Refusal>(()) }).is_ok()).count())
///         .await
/// });
/// let Err(error) = two.await? else { panic!("nobody joined the scope") };
/// assert_eq!(error.refusal(), Refusal::NotJoined);
/// # Ok::<(), Refusal>(())
/// # }).unwrap();
/// ```
#[derive(Clone, Copy, Debug, PartialEq, Eq)]
pub struct Need {
    scopes: u32,
    jobs: u32,
    changes: u32,
}

impl Need {
    /// So many scopes and jobs, and 4 moved deadlines or bindings.
    #[must_use]
    pub const fn new(scopes: u32, jobs: u32) -> Need {
        Need { scopes, jobs, changes: 4 }
    }

    /// So many moved deadlines or bindings.
    #[must_use]
    pub const fn changes(self, changes: u32) -> Need {
        Need { changes, ..self }
    }

    pub(crate) const fn and_scope(self) -> Need {
        Need { scopes: self.scopes.saturating_add(1), ..self }
    }

    /// The room of a request, and the load that it takes in all.
    fn room(self) -> Option<(Room, u32)> {
        let changes = MOVE_COSTS.checked_mul(self.changes)?;
        let load = OPEN_COSTS.checked_mul(self.scopes)?.checked_add(FORK_COSTS.checked_mul(self.jobs)?)?;
        let room = Room { scopes: self.scopes, tasks: self.jobs, load: changes, of_changes: true };
        Some((room, load.checked_add(changes)?.checked_add(FORK_COSTS)?))
    }
}

impl Default for Need {
    /// 16 scopes, 64 jobs, 4 moved deadlines or bindings.
    fn default() -> Need {
        Need::new(16, 64)
    }
}

/// The realm that takes requests now, and what room it has left.
struct Current {
    lane: Arc<Lane>,
    root: Arc<Bell>,
    left: Room,
    requests: u32,
}

/// How many requests a realm takes at most. Of the numbers up to a few hundred it is one for which the book's tables,
/// which double, have little room left: for a request with a scope and a job.
const REQUESTS: u32 = 204;
/// How many realms take requests at a time: threads that admit at the same time wait for each other less.
const GATES: usize = 16;

/// Takes requests, and gives each its room in some realm: no caller sees a realm.
///
/// ```
/// use balkreyn_tokio::{Intake, Joiner, Need, Refusal};
///
/// # tokio::runtime::Runtime::new().unwrap().block_on(async {
/// let intake = Intake::new();
/// let answer = intake.run(Need::default(), async |cx| {
///     cx.try_scope(Joiner::All, async |s| {
///         let jobs = s.fork_all("job", (1..=4).map(|n| async move { Ok::<_, Refusal>(n) }))?;
///         s.values(jobs).await
///     })
///     .await
/// });
/// assert_eq!(answer.await?, Ok(vec![1, 2, 3, 4]));
/// intake.quiet().await;
/// # Ok::<(), Refusal>(())
/// # }).unwrap();
/// ```
#[must_use]
pub struct Intake {
    gates: [Mutex<Option<Current>>; GATES],
    live: Arc<Live>,
    lanes: Mutex<Vec<Weak<Lane>>>,
    observer: Option<Arc<dyn Observer>>,
    finished: Option<Finished>,
}

impl Default for Intake {
    fn default() -> Intake {
        Intake::new()
    }
}

impl Intake {
    /// An intake without requests.
    pub fn new() -> Intake {
        Intake {
            gates: Default::default(),
            live: Arc::default(),
            lanes: Mutex::default(),
            observer: None,
            finished: None,
        }
    }

    /// The intake, of whose realms this hears what happens.
    pub fn observed(mut self, observer: impl Observer + 'static) -> Intake {
        self.observer = Some(Arc::new(observer));
        self
    }

    /// The intake, whose realms note each call with the answer that was given ([`Intake::notes`]).
    pub fn noted(mut self) -> Intake {
        self.finished = Some(Finished::default());
        self
    }

    /// The notes of the realms that have ended, which are let go.
    #[must_use]
    pub fn notes(&self) -> Vec<Notes> {
        self.finished.as_ref().map(|notes| std::mem::take(&mut *locked(notes))).unwrap_or_default()
    }

    /// How many requests live: those that run, and those whose future was dropped and that have jobs left.
    #[must_use]
    pub fn requests(&self) -> usize {
        self.live.count()
    }

    /// How many realms there are.
    #[must_use]
    pub fn realms(&self) -> usize {
        locked(&self.lanes).iter().filter(|lane| lane.strong_count() > 0).count()
    }

    fn new_lane(&self) -> Result<Current, Refusal> {
        let limits = Limits::default();
        let lane = Lane::new(limits, Handle::current(), self.observer.clone(), self.finished.clone(), None)?;
        let lane = Arc::new(lane);
        let root = lane.open((MAIN, 0), &Arc::default(), &Options::new(Joiner::Await), Waker::noop(), None)?;
        let left = *lane.quietly().room(0);
        let mut lanes = locked(&self.lanes);
        // Now and then those that ended are dropped from the list: once for each doubling.
        if lanes.len() == lanes.capacity() {
            lanes.retain(|lane| lane.strong_count() > 0);
            let live = lanes.len();
            lanes.reserve(live + 16);
        }
        lanes.push(Arc::downgrade(&lane));
        Ok(Current { lane, root, left, requests: 0 })
    }

    /// A place for a request: a task of the outermost scope of some realm.
    fn admit(&self, need: Need) -> Result<(Arc<Lane>, Arc<Bell>, Room), Refusal> {
        thread_local! {
            static GATE: Cell<usize> = const { Cell::new(usize::MAX) };
        }
        static NEXT: AtomicUsize = AtomicUsize::new(0);
        let gate = GATE.with(|gate| {
            if gate.get() == usize::MAX {
                gate.set(NEXT.fetch_add(1, Ordering::Relaxed) % GATES);
            }
            gate.get()
        });
        let (room, load) = need.room().ok_or(Refusal::TooMany)?;
        let takes = |left: &mut Room| left.take(room.scopes, room.tasks + 1, load);
        let mut gate = locked(&self.gates[gate]);
        if let Some(current) = gate.as_mut() {
            if takes(&mut current.left).is_ok() {
                current.requests += 1;
                let place = (Arc::clone(&current.lane), Arc::clone(&current.root), room);
                if current.requests == REQUESTS {
                    *gate = None;
                }
                return Ok(place);
            }
        }
        let mut current = self.new_lane()?;
        takes(&mut current.left)?;
        current.requests = 1;
        let place = (Arc::clone(&current.lane), Arc::clone(&current.root), room);
        *gate = Some(current);
        Ok(place)
    }

    /// The actor of a request that was admitted.
    fn actor(&self, need: Need) -> Result<Actor, Refusal> {
        loop {
            let (lane, root, room) = self.admit(need)?;
            let mut inner = lane.lock();
            let (task, may_run) = lane.fork(&mut inner, (MAIN, 0), root.scope, "request")?;
            let room = inner.add_room(room);
            if may_run && lane.start(&mut inner, &root, task, None) {
                drop(inner);
                return Ok(Actor::new(lane, task, room, root));
            }
            // All requests of that realm were cancelled meanwhile.
            drop(inner);
            self.close_gates();
        }
    }

    /// Later requests come to other realms.
    fn close_gates(&self) {
        for gate in &self.gates {
            let current = locked(gate).take();
            drop(current);
        }
    }

    /// Runs a request: the body acts as one task of a realm. Where this future is dropped, what the request left is ended
    /// by a task of the runtime ([`Intake::quiet`] waits for it).
    ///
    /// # Errors
    /// [`Refusal::TooMany`] where no realm has so much room; [`Refusal::Cancelled`] where all requests were cancelled
    /// ([`Intake::cancel_all`]), and the body was dropped at an await; [`Refusal::Memory`].
    ///
    /// # Panics
    /// With the body's panic, once its blocks are closed; and outside of a runtime of tokio.
    pub async fn run<R>(&self, need: Need, body: impl AsyncFnOnce(&Context) -> R) -> Result<R, Refusal> {
        let cx = Context(Arc::new(self.actor(need)?));
        let mut root = Root::new(Arc::clone(&cx.0), Kind::Request(Arc::clone(&self.live)));
        let ended = {
            let mut running = pin!(body(&cx));
            poll_fn(|context| root.poll_body(running.as_mut(), context)).await
        };
        poll_fn(|context| root.poll_end(context)).await;
        match ended {
            Ended::Value(value) => Ok(value),
            Ended::Panic(panic) => resume_unwind(panic),
            Ended::Cut(cancelled) => Err(Refusal::Cancelled(cancelled)),
        }
    }

    /// Cancels the requests that live now. Each is dropped at its next await, or sees the cancel where it asks.
    pub fn cancel_all(&self) {
        self.close_gates();
        let lanes: Vec<_> = locked(&self.lanes).iter().filter_map(Weak::upgrade).collect();
        for lane in lanes {
            lane.cancel(1);
        }
    }

    /// Waits until no request lives, those included whose futures were dropped.
    pub async fn quiet(&self) {
        self.live.quiet().await;
    }
}

impl fmt::Debug for Intake {
    fn fmt(&self, out: &mut fmt::Formatter<'_>) -> fmt::Result {
        out.debug_struct("Intake").field("requests", &self.requests()).finish_non_exhaustive()
    }
}
