//! What becomes of a block whose future is dropped, and who ends it.

use balkreyn_tokio::{Context, Intake, Joiner, Need, Options, Realm, Refusal, Scope};
use common::{Chance, LONG, judged, millis};
use std::future::Future;
use std::pin::{Pin, pin};
use std::sync::Arc;
use std::sync::atomic::{AtomicUsize, Ordering::SeqCst};
use std::task::Poll;
use tokio::task::JoinSet;
use tokio::time::{sleep, timeout};

mod common;

/// Counts who lives.
#[derive(Clone)]
struct Living(Arc<AtomicUsize>);

struct Alive(Living);

impl Living {
    fn new() -> Living {
        Living(Arc::default())
    }

    fn count(&self) -> usize {
        self.0.load(SeqCst)
    }

    fn one(&self) -> Alive {
        self.0.fetch_add(1, SeqCst);
        Alive(self.clone())
    }

    /// A job that waits, and lives until it is dropped.
    fn job(&self) -> impl Future<Output = Result<(), Refusal>> + Send + 'static {
        let living = self.clone();
        async move {
            let _alive = living.one();
            sleep(LONG).await;
            Ok(())
        }
    }
}

impl Drop for Alive {
    fn drop(&mut self) {
        self.0.0.fetch_sub(1, SeqCst);
    }
}

impl std::ops::Deref for Living {
    type Target = AtomicUsize;

    fn deref(&self) -> &AtomicUsize {
        &self.0
    }
}

/// A block with two jobs that wait.
async fn waits(cx: &Context, living: &Living) -> Result<(), Refusal> {
    cx.try_scope(Joiner::Await, async |s| {
        s.fork("first", living.job())?;
        s.fork("second", living.job())?;
        s.join().await.map(drop)
    })
    .await
}

/// Polls the future until so many live, and drops it then.
async fn dropped_at(living: &Living, count: usize, future: impl Future) {
    let mut future = Box::pin(future);
    std::future::poll_fn(|context| {
        assert!(future.as_mut().poll(context).is_pending());
        if living.count() == count {
            return Poll::Ready(());
        }
        context.waker().wake_by_ref();
        Poll::Pending
    })
    .await;
}

#[tokio::test(flavor = "multi_thread", worker_threads = 2)]
async fn the_next_block_of_the_same_job_ends_a_dropped_one() {
    let living = Living::new();
    let mut realm = Realm::new().unwrap().noted();
    realm
        .run(async |cx| {
            dropped_at(&living, 2, waits(cx, &living)).await;
            let tree = cx.look().dump().unwrap();
            // It is closing, or its jobs were that quick.
            assert!(!tree.contains("\"stage\":\"open\""), "{tree}");
            let next = cx.scope(Joiner::All, async |s| (s.id().number(), living.count())).await.unwrap();
            assert_eq!(next, (2, 0));
        })
        .await;
    judged("next", &realm.look().notes().unwrap());
}

#[tokio::test(flavor = "multi_thread", worker_threads = 2)]
async fn the_block_around_ends_a_dropped_one() {
    let living = Living::new();
    let mut realm = Realm::new().unwrap().noted();
    let around = realm.run(async |cx| {
        cx.scope(Joiner::All, async |_| dropped_at(&living, 2, waits(cx, &living)).await).await.unwrap();
        living.count()
    });
    assert_eq!(around.await, 0);
    judged("around", &realm.look().notes().unwrap());
}

#[tokio::test(flavor = "multi_thread", worker_threads = 2)]
async fn the_end_of_its_job_ends_a_dropped_block() {
    let living = Living::new();
    let mut realm = Realm::new().unwrap().noted();
    let ended = realm.run(async |cx| {
        cx.try_scope(Joiner::All, async |s| {
            let inside = living.clone();
            let task = s.fork("drops", async move {
                let cx = Context::current();
                dropped_at(&inside, 2, waits(&cx, &inside)).await;
                Ok::<_, Refusal>(())
            })?;
            s.join_ok().await?;
            assert_eq!(living.count(), 0);
            s.value(task)
        })
        .await
    });
    assert_eq!(ended.await, Ok(()));
    judged("job", &realm.look().notes().unwrap());
}

#[tokio::test(flavor = "multi_thread", worker_threads = 2)]
async fn main_of_a_realm_ends_a_dropped_block() {
    let living = Living::new();
    let mut realm = Realm::new().unwrap().noted();
    realm.run(async |cx| dropped_at(&living, 2, waits(cx, &living)).await).await;
    assert_eq!(living.count(), 0);
    judged("main", &realm.look().notes().unwrap());
}

#[tokio::test(flavor = "multi_thread", worker_threads = 2)]
async fn a_task_of_the_runtime_ends_what_a_dropped_main_left() {
    let living = Living::new();
    let mut realm = Realm::new().unwrap();
    let look = realm.look();
    dropped_at(&living, 2, realm.run(async |cx| waits(cx, &living).await)).await;
    let is_ended = async {
        while living.count() > 0 || look.dump().unwrap().contains("\"stage\"") {
            sleep(millis(1)).await;
        }
    };
    timeout(LONG, is_ended).await.unwrap();
}

#[tokio::test(flavor = "multi_thread", worker_threads = 2)]
async fn a_task_of_the_runtime_ends_a_dropped_request() {
    let (living, intake) = (Living::new(), Intake::new().noted());
    dropped_at(&living, 2, intake.run(Need::default(), async |cx| waits(cx, &living).await)).await;
    timeout(LONG, intake.quiet()).await.unwrap();
    assert_eq!((living.count(), intake.requests()), (0, 0));
    intake.cancel_all();
    while intake.realms() > 0 {
        sleep(millis(1)).await;
    }
    let notes = intake.notes();
    assert!(notes[0].journal.contains("fail 1 gone"), "{}", notes[0].journal);
    judged("request", &notes[0]);
}

#[tokio::test(flavor = "multi_thread", worker_threads = 2)]
async fn the_block_around_waits_for_a_dropped_realm_inside() {
    let living = Living::new();
    let mut realm = Realm::new().unwrap();
    let around = realm.run(async |cx| {
        let block = cx.scope(Joiner::All, async |_| {
            let inside = cx.in_own_realm(async |cx| waits(cx, &living).await);
            dropped_at(&living, 2, inside).await;
        });
        block.await.unwrap();
        living.count()
    });
    assert_eq!(around.await, 0);
}

#[tokio::test]
async fn jobs_that_are_polled_here_are_gone_at_once() {
    let living = Living::new();
    let mut realm = Realm::new().unwrap().noted();
    realm
        .run(async |cx| {
            let mut block = Box::pin(cx.try_scope(Joiner::Await, async |s| {
                let words = ["one".to_owned(), "three".to_owned()];
                let here = s.here();
                for word in &words {
                    let living = living.clone();
                    here.fork_here("here", async move {
                        let _alive = living.one();
                        sleep(LONG).await;
                        Ok::<_, Refusal>(word.len())
                    })?;
                }
                here.join().await
            }));
            assert!(futures_pending(block.as_mut()).await);
            assert_eq!(living.count(), 2);
            drop(block);
            assert_eq!(living.count(), 0);
            // Nothing is left to be closed.
            assert!(!cx.look().dump().unwrap().contains("closing"));
        })
        .await;
    let notes = realm.look().notes().unwrap();
    assert!(notes.journal.ends_with("closed 0 1\n"), "{}", notes.journal);
    judged("here", &notes);
}

/// Polls once.
async fn futures_pending<F: Future + ?Sized>(mut future: Pin<&mut F>) -> bool {
    std::future::poll_fn(|context| Poll::Ready(future.as_mut().poll(context).is_pending())).await
}

#[tokio::test(flavor = "multi_thread", worker_threads = 2)]
async fn a_block_that_a_job_polled_here_left_is_ended_by_the_block_around() {
    let living = Living::new();
    let mut realm = Realm::new().unwrap().noted();
    let counted = realm.run(async |cx| {
        let outer = cx.scope(Joiner::Await, async |_| {
            let block = cx.scope(Joiner::Await, async |s| {
                let here = s.here();
                let inside = living.clone();
                here.fork_here("here", async move { waits(&Context::current(), &inside).await })?;
                here.join().await
            });
            dropped_at(&living, 2, block).await;
        });
        outer.await.unwrap();
        living.count()
    });
    assert_eq!(counted.await, 0);
    let notes = realm.look().notes().unwrap();
    assert!(notes.journal.contains(" gone\n"), "{}", notes.journal);
    judged("orphan", &notes);
}

#[test]
fn a_runtime_that_shuts_down_drops_all_and_hangs_nobody() {
    let (living, intake) = (Living::new(), Arc::new(Intake::new()));
    let runtime = tokio::runtime::Builder::new_multi_thread().worker_threads(2).enable_all().build().unwrap();
    for _ in 0..20 {
        let (living, intake) = (living.clone(), Arc::clone(&intake));
        runtime.spawn(async move { intake.run(Need::default(), async |cx| waits(cx, &living).await).await });
    }
    while living.count() < 40 {
        std::thread::yield_now();
    }
    drop(runtime);
    assert_eq!((living.count(), intake.requests()), (0, 0));
}

#[tokio::test]
async fn two_blocks_of_one_job_are_refused() {
    let mut realm = Realm::new().unwrap();
    let both = realm.run(async |cx| {
        let block = async || {
            cx.try_scope(Joiner::All, async |s| {
                s.fork("job", async { Ok::<_, Refusal>(()) })?;
                s.join_ok().await
            })
            .await
        };
        let bind = async || cx.bind("key", 1, async |_| tokio::task::yield_now().await).await;
        (tokio::join!(block(), block()), tokio::join!(block(), bind()), tokio::join!(bind(), block()))
    });
    let ((first, second), (third, fourth), (fifth, sixth)) = both.await;
    assert_eq!((first, second), (Ok(()), Err(Refusal::Beside)));
    assert_eq!((third, fourth), (Ok(()), Err(Refusal::Beside)));
    assert_eq!((fifth, sixth), (Ok(()), Err(Refusal::Beside)));
    assert!(Refusal::Beside.to_string().contains("fork two jobs"));
}

#[tokio::test]
async fn a_context_acts_in_its_own_job_alone() {
    let mut realm = Realm::new().unwrap();
    let refused = realm.run(async |cx| {
        let other = cx.clone();
        tokio::spawn(async move { other.try_scope(Joiner::All, async |_| Ok::<_, Refusal>(())).await }).await.unwrap()
    });
    assert_eq!(refused.await, Err(Refusal::Elsewhere));
    let mut realm = Realm::new().unwrap();
    let refused = realm.run(async |cx| {
        let other = cx.clone();
        cx.all([async move { other.bind("key", 1, async |_| ()).await }]).await
    });
    assert_eq!(refused.await, Err(Refusal::Elsewhere));
    assert!(Context::try_current().is_none());
}

#[tokio::test]
async fn a_scope_with_jobs_polled_here_is_joined_there() {
    let mut realm = Realm::new().unwrap();
    let joined = realm.run(async |cx| {
        cx.try_scope(Joiner::All, async |s| {
            let here = s.here();
            let task = here.fork_here("here", async { Ok::<_, Refusal>(7) })?;
            assert_eq!(s.join().await, Err(Refusal::PolledHere));
            here.join_ok().await?;
            s.value(task)
        })
        .await
    });
    assert_eq!(joined.await, Ok(7));
}

/// A tree with awaits of every kind.
fn tree<'a>(cx: &'a Context, seed: u64, living: &'a Living) -> Pin<Box<dyn Future<Output = ()> + Send + 'a>> {
    Box::pin(async move {
        let mut chance = Chance(seed);
        let options = match chance.below(3) {
            0 => Options::new(Joiner::Await).within(millis(chance.below(20))),
            1 => Options::new(Joiner::AwaitOk).shield(),
            _ => Options::new(Joiner::Any),
        };
        let _ = cx.maybe_scope(options, async |s: &Scope| leaves(cx, s, chance, living).await).await;
    })
}

async fn leaves(cx: &Context, s: &Scope, mut chance: Chance, living: &Living) -> Result<(), Refusal> {
    let here = s.here();
    for _ in 0..1 + chance.below(4) {
        let (seed, inside) = (chance.next(), living.clone());
        let job = async move {
            let (mut chance, _alive) = (Chance(seed), inside.one());
            match chance.below(4) {
                0 => tree(&Context::current(), chance.next(), &inside).await,
                1 => tokio::task::yield_now().await,
                _ => sleep(millis(chance.below(30))).await,
            }
            if chance.below(5) == 0 { Err(Refusal::BadName) } else { Ok(()) }
        };
        let _task = if chance.below(3) == 0 { here.fork_here("here", job)? } else { s.fork("job", job)? };
    }
    if chance.below(2) == 0 {
        cx.sleep(millis(chance.below(9))).await?;
    }
    here.join().await.map(drop)
}

#[tokio::test(flavor = "multi_thread", worker_threads = 4)]
async fn of_two_thousand_requests_dropped_at_random_awaits_nothing_is_left() {
    let (living, intake, mut requests) = (Living::new(), Arc::new(Intake::new()), JoinSet::new());
    for seed in 0..2000 {
        let (living, intake) = (living.clone(), Arc::clone(&intake));
        requests.spawn(async move {
            let mut polls = Chance(!seed).below(24);
            let mut request = pin!(intake.run(Need::new(200, 800), async |cx| {
                for turn in 0..30 {
                    tree(cx, seed * 100 + turn, &living).await;
                    tokio::task::yield_now().await;
                }
            }));
            // It is dropped at the await at which so many polls were made.
            std::future::poll_fn(|context| match request.as_mut().poll(context) {
                Poll::Pending if polls > 0 => {
                    polls -= 1;
                    Poll::Pending
                }
                ended => Poll::Ready(ended.is_ready()),
            })
            .await
        });
    }
    let mut dropped = 0;
    while let Some(ended) = requests.join_next().await {
        dropped += usize::from(!ended.unwrap());
    }
    timeout(LONG, intake.quiet()).await.unwrap();
    assert_eq!((living.count(), intake.requests()), (0, 0));
    common::say(&format!("of 2,000 requests {dropped} were dropped, and nothing is left alive"));
    assert_eq!(dropped, 2000);
}
