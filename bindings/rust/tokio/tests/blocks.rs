//! Scopes as blocks: what they wait for, and what a cancel does.

use balkreyn_tokio::{
    Canceller, Cause, Context, Joiner, Local, Options, Outcome, Realm, Refusal, ScopeError, TaskError, TaskState, scope,
};
use common::{LONG, judged, millis};
use std::future::{Future, poll_fn};
use std::num::NonZeroUsize;
use std::pin::Pin;
use std::sync::atomic::{AtomicBool, AtomicUsize, Ordering::SeqCst};
use std::sync::{Arc, Mutex};
use std::task::{Context as Polling, Poll, Wake, Waker};
use tokio::task::yield_now;
use tokio::time::{Instant, sleep, timeout};

mod common;

type Log = Arc<Mutex<Vec<&'static str>>>;

fn says(log: &Log, what: &'static str) {
    log.lock().unwrap().push(what);
}

/// Says so when it is dropped.
struct Says(Log, &'static str);

impl Drop for Says {
    fn drop(&mut self) {
        says(&self.0, self.1);
    }
}

async fn forever() -> Result<(), Refusal> {
    sleep(LONG).await;
    Ok(())
}

#[tokio::test]
async fn a_block_gives_the_results_of_its_jobs() {
    let mut realm = Realm::new().unwrap();
    let sum = realm.run(async |cx| {
        scope(cx, Joiner::All, async |s| {
            let one = s.fork("one", async { Ok::<_, Refusal>(1) })?;
            let two = s.fork("two", async { Ok::<_, Refusal>(2) })?;
            assert_eq!(s.state(&one), TaskState::Waiting);
            assert!(matches!(s.result(&one), Err(TaskError::Refused(Refusal::NotJoined))));
            assert_eq!(s.join().await?, Outcome::All);
            assert_eq!(s.join().await, Err(Refusal::AlreadyJoined));
            assert_eq!(s.state(&one), TaskState::Succeeded);
            let first = s.value(&one)?;
            assert!(matches!(s.result(one), Err(TaskError::Refused(Refusal::Taken))));
            Ok::<_, Refusal>(first + s.value(two)?)
        })
        .await
    });
    assert_eq!(sum.await.unwrap(), Ok(3));
}

#[tokio::test(start_paused = true)]
async fn a_deadline_drops_jobs_and_ends_at_its_block() {
    let mut realm = Realm::new().unwrap().noted();
    let began = Instant::now();
    let late = realm.run(async |cx| {
        let late = cx.try_scope(Options::new(Joiner::All).within(millis(50)), async |s| {
            let task = s.fork("long", async {
                let inner = async |s: &balkreyn_tokio::Scope| {
                    s.fork("inner", forever())?;
                    s.join_ok().await
                };
                Context::current().try_scope(Joiner::All, inner).await
            })?;
            s.join_ok().await?;
            s.value(task)
        });
        let late = late.await;
        assert!(!cx.is_cancelled());
        late
    });
    assert!(matches!(late.await, Err(Refusal::TimedOut(_))));
    assert!((50..60).contains(&began.elapsed().as_millis()));
    let notes = realm.look().notes().unwrap();
    assert!(notes.journal.contains("fail 2 dropped"), "{}", notes.journal);
    judged("deadline", &notes);
}

#[tokio::test(start_paused = true)]
async fn a_shield_keeps_a_job_until_it_is_left() {
    let (log, mut realm) = (Log::default(), Realm::new().unwrap().noted());
    let ended = realm.run(async |cx| {
        cx.maybe_scope(Options::new(Joiner::Await), async |s| {
            let inside = Arc::clone(&log);
            s.fork("job", async move {
                let cx = Context::current();
                let _held = Says(Arc::clone(&inside), "dropped");
                cx.shielded(async |_| {
                    sleep(millis(20)).await;
                    says(&inside, "audited");
                    Ok::<_, Refusal>(())
                })
                .await?;
                says(&inside, "left");
                sleep(LONG).await;
                says(&inside, "never");
                Ok::<_, Refusal>(())
            })?;
            yield_now().await;
            s.cancel();
            s.join_ok().await
        })
        .await
    });
    assert_eq!(ended.await, Ok(None));
    assert_eq!(*log.lock().unwrap(), ["audited", "left", "dropped"]);
    let notes = realm.look().notes().unwrap();
    assert!(notes.journal.contains("cause 1\nfail 1 dropped"), "{}", notes.journal);
    judged("shield", &notes);
}

#[tokio::test(start_paused = true)]
async fn a_shield_in_a_realm_inside_keeps_a_job_too() {
    let (log, mut realm) = (Log::default(), Realm::new().unwrap().noted());
    let ended = realm.run(async |cx| {
        cx.maybe_scope(Options::new(Joiner::Await).within(millis(5)).move_on(), async |s| {
            let inside = Arc::clone(&log);
            s.fork("job", async move {
                let cx = Context::current();
                let rounds = cx.in_own_realm(async |cx| {
                    cx.shielded(async |_| {
                        sleep(millis(20)).await;
                        says(&inside, "audited");
                        Ok::<_, Refusal>(())
                    })
                    .await?;
                    sleep(LONG).await;
                    Ok::<_, Refusal>(())
                });
                let ended = rounds.await;
                says(&inside, if matches!(ended, Err(Refusal::Cancelled(_))) { "cancelled" } else { "ended" });
                ended
            })?;
            s.join_ok().await
        })
        .await
    });
    assert_eq!(ended.await, Ok(Some(())));
    assert_eq!(*log.lock().unwrap(), ["audited", "cancelled"]);
    judged("inside", &realm.look().notes().unwrap());
}

#[tokio::test]
async fn a_job_whose_scope_is_cancelled_first_never_runs() {
    let (log, mut realm) = (Log::default(), Realm::new().unwrap().noted());
    let outcome = realm.run(async |cx| {
        cx.scope(Joiner::Await, async |s| {
            let (held, inside) = (Says(Arc::clone(&log), "dropped"), Arc::clone(&log));
            let before = s.fork("before", async move {
                says(&inside, "ran");
                drop(held);
                Ok::<_, Refusal>(())
            });
            s.cancel();
            let inside = Arc::clone(&log);
            let behind = s.fork("behind", async move {
                says(&inside, "ran");
                Ok::<_, Refusal>(())
            });
            let outcome = s.join().await;
            let behind = s.result(behind.unwrap());
            assert!(matches!(behind, Err(TaskError::Cancelled(cancelled)) if cancelled.cause == Cause::Call(s.id())));
            assert_eq!(s.state(&before.unwrap()), TaskState::Waiting);
            outcome
        })
        .await
        .unwrap()
    });
    assert!(matches!(outcome.await, Ok(Outcome::Cancelled(_))));
    assert_eq!(*log.lock().unwrap(), ["dropped"]);
    let notes = realm.look().notes().unwrap();
    assert!(notes.journal.contains("reject 1"), "{}", notes.journal);
    judged("never", &notes);
}

#[tokio::test(start_paused = true)]
async fn the_first_failure_is_the_blocks_error_also_if_nobody_holds_its_task() {
    let mut realm = Realm::new().unwrap();
    let failed = realm.run(async |cx| {
        cx.try_scope(Joiner::All, async |s| {
            s.fork("fails", async {
                sleep(millis(5)).await;
                Err::<(), _>(Refusal::BadName)
            })?;
            sleep(LONG).await;
            s.join_ok().await
        })
        .await
    });
    assert_eq!(failed.await, Err(Refusal::BadName));
    let panicked = tokio::spawn(async {
        let mut realm = Realm::new().unwrap();
        let panics = realm.run(async |cx| {
            cx.try_scope(Joiner::All, async |s| {
                s.fork("panics", async { std::panic::resume_unwind(Box::new("no luck")) as Result<(), Refusal> })?;
                s.join_ok().await
            })
            .await
        });
        panics.await
    });
    assert_eq!(panicked.await.unwrap_err().into_panic().downcast_ref(), Some(&"no luck"));
}

#[tokio::test(start_paused = true)]
async fn a_cancel_passes_where_the_caller_itself_is_cancelled() {
    let mut realm = Realm::new().unwrap();
    let passed = realm.run(async |cx| {
        let outer = cx.try_scope(Options::new(Joiner::Await).within(millis(9)), async |_| {
            let inner = cx.try_scope(Options::new(Joiner::Await).within(LONG), async |_| forever().await).await;
            assert!(
                matches!(inner, Err(Refusal::Cancelled(cancelled)) if matches!(cancelled.cause, Cause::Deadline(_)))
            );
            inner
        });
        outer.await
    });
    assert!(matches!(passed.await, Err(Refusal::TimedOut(scope)) if scope.number() == 1));
}

#[tokio::test(start_paused = true)]
async fn a_body_that_has_joined_is_not_dropped_by_its_own_cancel() {
    let mut realm = Realm::new().unwrap();
    let first = realm.run(async |cx| {
        cx.try_scope(Joiner::Any, async |s| {
            let long = s.fork("long", async { forever().await.map(|()| 1) })?;
            let quick = s.fork("quick", async { Ok::<_, Refusal>(2) })?;
            let Outcome::Any(task) = s.join().await? else { panic!() };
            sleep(millis(5)).await;
            // A wait of this crate ends by it.
            assert!(cx.sleep(millis(5)).await.is_err());
            s.result_of(task, [long, quick]).map_err(TaskError::into_own)
        })
        .await
    });
    assert_eq!(first.await, Ok(2));
}

#[tokio::test(start_paused = true)]
async fn a_plain_block_runs_its_body_to_the_end_unless_a_block_around_is_cancelled() {
    let mut realm = Realm::new().unwrap();
    let ends = realm.run(async |cx| {
        let own = cx.scope(Options::new(Joiner::Await).within(millis(5)), async |_| {
            sleep(millis(50)).await;
            cx.is_cancelled()
        });
        let own = own.await.unwrap();
        let around = cx.move_on_after(millis(5), async |cx| {
            cx.scope(Joiner::Await, async |_| sleep(LONG).await).await.map_err(Refusal::from)
        });
        (own, around.await)
    });
    assert_eq!(ends.await, (true, Ok(None)));
}

#[tokio::test]
async fn a_panic_of_the_body_comes_behind_the_end_of_its_jobs() {
    let log = Log::default();
    let inside = Arc::clone(&log);
    let panicked = tokio::spawn(async move {
        let mut realm = Realm::new().unwrap();
        let panics = realm.run(async |cx| {
            let panics = cx.scope(Joiner::Await, async |s| {
                let held = Says(Arc::clone(&inside), "dropped");
                let job = async move {
                    let _held = held;
                    forever().await
                };
                s.fork("job", job).unwrap();
                yield_now().await;
                std::panic::resume_unwind(Box::new("no luck"))
            });
            let _: Result<(), _> = panics.await;
        });
        panics.await;
    });
    assert!(panicked.await.unwrap_err().is_panic());
    assert_eq!(*log.lock().unwrap(), ["dropped"]);
}

#[tokio::test]
async fn jobs_that_nobody_joins_are_told_and_what_the_body_gave_is_kept() {
    let mut realm = Realm::new().unwrap();
    let told = realm.run(async |cx| cx.scope(Joiner::All, async |s| s.fork("job", forever()).map(|_| "kept")).await);
    assert!(matches!(told.await, Err(ScopeError::NotJoined(Ok("kept")))));
}

#[tokio::test(flavor = "multi_thread", worker_threads = 4)]
async fn at_most_so_many_jobs_run_at_a_time_and_in_fork_order() {
    let (inside, most, order) =
        (Arc::new(AtomicUsize::new(0)), Arc::new(AtomicUsize::new(0)), Arc::new(Mutex::new(vec![])));
    for limit in [1, 3] {
        let (inside, most, order) = (&inside, &most, &order);
        order.lock().unwrap().clear();
        most.store(0, SeqCst);
        let mut realm = Realm::new().unwrap();
        let ended = realm.run(async |cx| {
            let limit = NonZeroUsize::new(limit).unwrap();
            cx.try_scope(Options::new(Joiner::All).threads(limit), async |s| {
                for number in 0..50 {
                    let (inside, most, order) = (Arc::clone(inside), Arc::clone(most), Arc::clone(order));
                    s.fork("job", async move {
                        most.fetch_max(inside.fetch_add(1, SeqCst) + 1, SeqCst);
                        order.lock().unwrap().push(number);
                        yield_now().await;
                        inside.fetch_sub(1, SeqCst);
                        Ok::<_, Refusal>(())
                    })?;
                }
                s.join_ok().await
            })
            .await
        });
        assert_eq!(ended.await, Ok(()));
        assert!(most.load(SeqCst) <= limit);
        let order = order.lock().unwrap();
        assert_eq!(order.len(), 50);
        assert!(limit > 1 || order.is_sorted(), "{order:?}");
    }
}

#[tokio::test(start_paused = true)]
async fn the_first_turn_is_that_of_the_job_that_was_forked_first() {
    let (log, mut realm) = (Log::default(), Realm::new().unwrap());
    let ended = realm.run(async |cx| {
        cx.try_scope(Options::new(Joiner::All).threads(NonZeroUsize::MIN), async |s| {
            let (first, second) = (Arc::clone(&log), Arc::clone(&log));
            let here = s.here();
            // Nobody polls it yet.
            here.fork_here("first", async move {
                says(&first, "first");
                Ok::<_, Refusal>(())
            })?;
            s.fork("second", async move {
                says(&second, "second");
                Ok::<_, Refusal>(())
            })?;
            sleep(millis(5)).await;
            assert!(log.lock().unwrap().is_empty());
            here.join_ok().await
        })
        .await
    });
    assert_eq!(ended.await, Ok(()));
    assert_eq!(*log.lock().unwrap(), ["first", "second"]);
}

#[tokio::test]
async fn a_cancel_rejects_jobs_that_wait_for_their_turn() {
    let mut realm = Realm::new().unwrap().noted();
    let ended = realm.run(async |cx| {
        cx.maybe_scope(Options::new(Joiner::All).threads(NonZeroUsize::MIN), async |s| {
            s.fork_all("job", (0..9).map(|_| forever()))?;
            yield_now().await;
            s.cancel();
            s.join_ok().await
        })
        .await
    });
    assert_eq!(ended.await, Ok(None));
    let notes = realm.look().notes().unwrap();
    assert_eq!(notes.journal.matches("reject ").count(), 8, "{}", notes.journal);
    judged("turns", &notes);
}

#[tokio::test(start_paused = true)]
async fn a_deadline_moves_and_so_does_the_timer() {
    let mut realm = Realm::new().unwrap();
    let began = Instant::now();
    let moved = realm.run(async |cx| {
        cx.try_scope(Options::new(Joiner::Await).within(LONG), async |s| {
            assert!(cx.remaining().unwrap() > millis(1000));
            s.move_deadline(None)?;
            assert_eq!(cx.remaining(), None);
            s.move_deadline(Some(LONG / 2))?;
            // The timer waits for that one.
            yield_now().await;
            s.move_deadline(Some(millis(20)))?;
            forever().await
        })
        .await
    });
    assert!(matches!(moved.await, Err(Refusal::TimedOut(_))));
    assert!((20..30).contains(&began.elapsed().as_millis()));
}

#[tokio::test(start_paused = true)]
async fn results_come_in_the_order_of_their_ends() {
    let mut realm = Realm::new().unwrap();
    let came = realm.run(async |cx| {
        cx.try_scope(Options::new(Joiner::Await).within(millis(500)), async |s| {
            let pauses = [300, 100, 9_000, 200];
            let mut left = s.fork_all(
                "job",
                pauses.map(|pause| async move {
                    sleep(millis(pause)).await;
                    Ok::<_, Refusal>(pause)
                }),
            )?;
            let mut came = Vec::new();
            while let Some((_, result)) = s.next_done(&mut left).await {
                came.push(result.ok());
            }
            assert_eq!(s.join().await?, Outcome::Timeout);
            Ok::<_, Refusal>(came)
        })
        .await
    });
    assert_eq!(came.await, Ok(vec![Some(100), Some(200), Some(300), None]));
}

#[tokio::test]
async fn jobs_inherit_bindings_of_any_type() {
    static NAME: Local<String> = Local::new();
    let mut realm = Realm::new().unwrap().noted();
    let seen = realm.run(async |cx| {
        let inside = cx.with(&NAME, "Trace 7/A".to_owned(), async |cx| {
            let job = async || {
                let cx = Context::current();
                let own = cx.in_own_realm(async |cx| Ok::<_, Refusal>(cx.local(&NAME).unwrap().len())).await?;
                Ok::<_, Refusal>((own, cx.local(&NAME).unwrap().to_string()))
            };
            cx.all([job(), job()]).await
        });
        let inside = inside.await.unwrap().unwrap();
        assert!(cx.local(&NAME).is_none());
        assert_eq!(cx.bind("no Name", 1, async |_| ()).await, Err(Refusal::BadName));
        inside
    });
    assert_eq!(seen.await, [(9, "Trace 7/A".to_owned()), (9, "Trace 7/A".to_owned())]);
    judged("bindings", &realm.look().notes().unwrap());
}

#[tokio::test]
async fn a_canceller_cancels_scopes_that_are_still_to_come() {
    let canceller = Canceller::new();
    let mut realm = Realm::new().unwrap();
    let options = || Options::new(Joiner::Await).cancelled_by(&canceller);
    let ended = realm.run(async |cx| {
        let by_another = canceller.clone();
        let first = cx.maybe_scope(options(), async |_| {
            tokio::spawn(async move { by_another.cancel() });
            forever().await
        });
        (first.await, cx.maybe_scope(options(), async |_| forever().await).await)
    });
    assert_eq!(ended.await, (Ok(None), Ok(None)));
    assert!(!canceller.cancel());
}

/// Polls a future only where its own waker was woken, as a set of futures does.
struct Picky<F> {
    future: Pin<Box<F>>,
    bell: Arc<PickyBell>,
}

struct PickyBell(AtomicBool, Mutex<Option<Waker>>);

impl Wake for PickyBell {
    fn wake(self: Arc<Self>) {
        self.0.store(true, SeqCst);
        self.1.lock().unwrap().iter().for_each(Waker::wake_by_ref);
    }
}

impl<F> Picky<F> {
    fn new(future: F) -> Picky<F> {
        Picky { future: Box::pin(future), bell: Arc::new(PickyBell(AtomicBool::new(true), Mutex::default())) }
    }
}

impl<F: Future> Future for Picky<F> {
    type Output = F::Output;

    fn poll(mut self: Pin<&mut Self>, context: &mut Polling<'_>) -> Poll<F::Output> {
        *self.bell.1.lock().unwrap() = Some(context.waker().clone());
        if !self.bell.0.swap(false, SeqCst) {
            return Poll::Pending;
        }
        let waker = Waker::from(Arc::clone(&self.bell));
        self.future.as_mut().poll(&mut Polling::from_waker(&waker))
    }
}

#[tokio::test]
async fn a_wake_reaches_waits_by_wakers_of_their_own() {
    let mut realm = Realm::new().unwrap();
    let ended = realm.run(async |cx| {
        let joined = cx.try_scope(Joiner::All, async |s| {
            let one = s.fork("one", async {
                yield_now().await;
                Ok::<_, Refusal>(1)
            })?;
            assert_eq!(Picky::new(s.join()).await?, Outcome::All);
            s.value(one)
        });
        assert_eq!(timeout(LONG, joined).await.unwrap(), Ok(1));
        let slept = cx.scope(Joiner::All, async |s| {
            let canceller = s.canceller();
            s.fork("cancels", async move {
                yield_now().await;
                canceller.cancel();
                Ok::<_, Refusal>(())
            })?;
            assert!(Picky::new(cx.sleep(LONG)).await.is_err());
            s.join().await
        });
        assert!(slept.await.unwrap().is_ok());
        // Inside a job, which is dropped, and whose shielded wait goes on.
        cx.maybe_scope(Joiner::All, async |s| {
            s.fork("waits", async { Ok::<_, Refusal>(Picky::new(Context::current().sleep(LONG)).await?) })?;
            yield_now().await;
            s.cancel();
            s.join_ok().await
        })
        .await
    });
    assert_eq!(ended.await, Ok(None));
}

#[tokio::test]
async fn main_opens_scopes_without_an_end() {
    let mut realm = Realm::new().unwrap();
    let opened = realm.run(async |cx| {
        for _ in 0..10_000 {
            cx.try_scope(Joiner::All, async |s| {
                s.fork("job", async { Ok::<_, Refusal>(()) })?;
                s.join_ok().await
            })
            .await?;
        }
        Ok::<_, Refusal>(())
    });
    assert_eq!(opened.await, Ok(()));
}

#[tokio::test]
async fn deeper_than_the_rules_allow_is_refused() {
    fn deeper(cx: &Context, depth: u32) -> Pin<Box<dyn Future<Output = Result<(), Refusal>> + Send + '_>> {
        Box::pin(async move {
            if depth == 0 {
                return Ok(());
            }
            cx.try_scope(Joiner::Await, async |_| deeper(cx, depth - 1).await).await
        })
    }
    let mut realm = Realm::new().unwrap();
    let deep = realm.run(async |cx| (deeper(cx, 16).await, deeper(cx, 17).await));
    assert_eq!(deep.await, (Ok(()), Err(Refusal::TooDeep)));
}

#[tokio::test]
async fn a_measure_adds_up() {
    let mut realm = Realm::new().unwrap();
    let outcome = realm.run(async |cx| {
        cx.try_scope(Joiner::UntilSum(5), async |s| {
            for number in [2, 3, 4] {
                s.fork_measured("job", |value| *value, async move { Ok::<_, Refusal>(number) })?;
            }
            s.join().await
        })
        .await
    });
    assert_eq!(outcome.await, Ok(Outcome::List));
}

#[tokio::test]
async fn a_future_that_is_ready_is_polled_before_a_cancel_is_asked() {
    let mut realm = Realm::new().unwrap();
    realm
        .run(async |cx| {
            cx.scope(Joiner::All, async |s| {
                s.cancel();
                let mut polls = 0;
                let waited = cx.wait(poll_fn(|_| {
                    polls += 1;
                    Poll::Ready(())
                }));
                // The cancel comes first.
                assert!(waited.await.is_err());
                assert_eq!(polls, 0);
            })
            .await
            .unwrap();
        })
        .await;
}

#[tokio::test]
async fn a_hook_that_is_called_at_once_may_cancel_and_look() {
    let mut realm = Realm::new().unwrap();
    let called = Arc::new(AtomicUsize::new(0));
    let ran = realm.run(async |cx| {
        cx.scope(Joiner::AwaitOk, async |s| {
            s.cancel();
            let (canceller, counts) = (s.canceller(), Arc::clone(&called));
            // The scope is cancelled, so the call is made here and now: the realm's lock must be free.
            let _hook = cx.on_cancel(move || {
                canceller.cancel();
                counts.fetch_add(1, SeqCst);
            });
        })
        .await
    });
    ran.await.unwrap();
    assert_eq!(called.load(SeqCst), 1);
}
