//! Requests over realms that nobody sees, and their server.

use balkreyn_tokio::{
    Backoff, Context, Ending, Happening, Intake, Joiner, Limiter, Need, Options, Realm, Refusal, Server, channel,
};
use common::{LONG, millis};
use std::future::pending;
use std::sync::atomic::{AtomicBool, AtomicUsize, Ordering::SeqCst};
use std::sync::{Arc, Mutex};
use std::time::Duration;
use tokio::task::{JoinSet, yield_now};
use tokio::time::{Instant, sleep, timeout};

mod common;

/// Opens five scopes in turn, with a job each.
async fn five(cx: &Context) -> Result<(), Refusal> {
    for _ in 0..5 {
        cx.try_scope(Joiner::All, async |s| {
            s.fork("job", async {
                yield_now().await;
                Ok::<_, Refusal>(())
            })?;
            s.join_ok().await
        })
        .await?;
    }
    Ok(())
}

#[tokio::test(flavor = "multi_thread", worker_threads = 2)]
async fn no_neighbour_uses_up_a_requests_room() {
    let (intake, mut requests) = (Arc::new(Intake::new()), JoinSet::new());
    for number in 0..3000 {
        let intake = Arc::clone(&intake);
        requests.spawn(async move {
            // Every other one takes all that it may, and tries to take more.
            let greedy = async |cx: &Context| {
                five(cx).await?;
                assert_eq!(five(cx).await, Err(Refusal::TooMany));
                Ok(())
            };
            let need = Need::new(5, 5).changes(0);
            if number % 2 == 0 { intake.run(need, greedy).await } else { intake.run(need, five).await }
        });
    }
    while let Some(ended) = requests.join_next().await {
        assert_eq!(ended.unwrap(), Ok(Ok(())));
    }
    intake.quiet().await;
}

#[tokio::test]
async fn a_request_has_its_need_and_no_more() {
    let intake = Intake::new();
    let one = intake.run(Need::new(1, 2).changes(1), async |cx| {
        let bound = async || cx.bind("key", 1, async |_| ()).await;
        assert_eq!((bound().await, bound().await), (Ok(()), Err(Refusal::TooMany)));
        let jobs = cx.try_scope(Joiner::All, async |s| {
            let jobs = (0..3).map(|_| s.fork("job", async { Ok::<_, Refusal>(()) }).map(drop));
            let jobs = jobs.collect::<Vec<_>>();
            s.join_ok().await?;
            Ok::<_, Refusal>(jobs)
        });
        assert_eq!(jobs.await, Ok(vec![Ok(()), Ok(()), Err(Refusal::TooMany)]));
        cx.try_scope(Joiner::All, async |_| Ok::<_, Refusal>(())).await
    });
    assert_eq!(one.await, Ok(Err(Refusal::TooMany)));
    // No realm has so much room.
    for need in [Need::new(4096, 1), Need::new(1, 65_536), Need::new(1, 1).changes(u32::MAX)] {
        assert_eq!(intake.run(need, async |_| ()).await, Err(Refusal::TooMany));
    }
    assert_eq!(intake.run(Need::new(4095, 1), async |_| 1).await, Ok(1));
}

#[tokio::test]
async fn more_requests_than_a_realm_has_scopes_and_a_realm_goes_with_its_last_one() {
    let (intake, gate) = (Arc::new(Intake::new().noted()), Arc::new(tokio::sync::Semaphore::new(0)));
    let mut requests = JoinSet::new();
    for _ in 0..10_000 {
        let (intake, gate) = (Arc::clone(&intake), Arc::clone(&gate));
        requests.spawn(async move {
            intake
                .run(Need::new(1, 1), async |cx| {
                    cx.try_scope(Joiner::All, async |s| {
                        s.fork("waits", async move {
                            drop(gate.acquire().await);
                            Ok::<_, Refusal>(())
                        })?;
                        s.join_ok().await
                    })
                    .await
                })
                .await
        });
    }
    while intake.requests() < 10_000 {
        yield_now().await;
    }
    let most = intake.realms();
    assert!(most >= 10_000 / 204, "{most}");
    gate.add_permits(10_000);
    while let Some(ended) = requests.join_next().await {
        assert_eq!(ended.unwrap(), Ok(Ok(())));
    }
    // One takes requests still.
    assert_eq!((intake.requests(), intake.realms()), (0, 1));
    assert_eq!(intake.notes().len(), most - 1);
    intake.cancel_all();
    assert_eq!(intake.realms(), 0);
}

#[tokio::test]
async fn a_cancel_of_all_drops_each_at_an_await_and_takes_new_ones() {
    let (intake, begun, mut requests) = (Arc::new(Intake::new()), Arc::new(AtomicUsize::new(0)), JoinSet::new());
    for number in 0..500 {
        let (intake, begun) = (Arc::clone(&intake), Arc::clone(&begun));
        requests.spawn(async move {
            begun.fetch_add(1, SeqCst);
            intake
                .run(Need::default(), async |cx| match number % 3 {
                    0 => pending().await,
                    1 => {
                        cx.shielded(async |_| {
                            sleep(millis(2)).await;
                            Ok::<_, Refusal>(())
                        })
                        .await
                    }
                    _ => {
                        cx.try_scope(Joiner::All, async |s| {
                            s.fork("job", async { pending::<Result<(), Refusal>>().await })?;
                            s.join_ok().await
                        })
                        .await
                    }
                })
                .await
        });
    }
    while begun.load(SeqCst) < 500 {
        yield_now().await;
    }
    intake.cancel_all();
    assert_eq!(intake.run(Need::default(), async |_| 1).await, Ok(1));
    let mut dropped = 0;
    while let Some(ended) = requests.join_next().await {
        match ended.unwrap() {
            Err(Refusal::Cancelled(_)) => dropped += 1,
            // A block hands the cancel to its body's error, or the body ran behind a shield to its end.
            ended => assert!(matches!(ended, Ok(Ok(()) | Err(Refusal::Cancelled(_)))), "{ended:?}"),
        }
    }
    assert!(dropped >= 167, "{dropped}");
    timeout(LONG, intake.quiet()).await.unwrap();
}

#[tokio::test]
async fn a_requests_panic_is_its_callers_and_an_observer_hears_of_it() {
    let heard = Arc::new(Mutex::new(Vec::new()));
    let hears = Arc::clone(&heard);
    let intake = Arc::new(Intake::new().observed(move |happening: &Happening| {
        if let Happening::Ended { end, .. } = happening {
            hears.lock().unwrap().push(*end);
        }
    }));
    let panics = Arc::clone(&intake);
    let panicked = tokio::spawn(async move {
        let body = async |_: &Context| -> () { std::panic::resume_unwind(Box::new("no luck")) };
        panics.run(Need::default(), body).await
    });
    assert!(panicked.await.unwrap_err().is_panic());
    assert_eq!(intake.run(Need::default(), async |_| 1).await, Ok(1));
    assert_eq!(*heard.lock().unwrap(), [Ending::Panicked, Ending::Succeeded]);
}

#[tokio::test(start_paused = true)]
async fn deadlines_of_many_requests_pass_each_in_its_time() {
    let (intake, mut requests) = (Arc::new(Intake::new()), JoinSet::new());
    let began = Instant::now();
    for number in 0..1000 {
        let (intake, within) = (Arc::clone(&intake), millis(1 + (number * 7919) % 1000));
        requests.spawn(async move {
            let late = intake.run(Need::new(1, 1), async |cx| {
                cx.try_scope(Options::new(Joiner::Await).within(within), async |s| {
                    s.fork("job", async { pending::<Result<(), Refusal>>().await })?;
                    s.join_ok().await
                })
                .await
            });
            let late = late.await;
            assert!(matches!(late, Ok(Err(Refusal::TimedOut(_)))), "{late:?}");
            let passed = began.elapsed();
            assert!(passed >= within && passed < within + millis(3), "{passed:?} of {within:?}");
        });
    }
    while let Some(ended) = requests.join_next().await {
        ended.unwrap();
    }
}

#[tokio::test(start_paused = true)]
async fn a_stop_has_a_grace() {
    let server = Arc::new(Server::new());
    let (stop, begun) = (server.stop(), Arc::new(AtomicBool::new(false)));
    let hears = Arc::clone(&begun);
    stop.on_begin(move || hears.store(true, SeqCst));
    let [quick, slow] = [millis(50), LONG].map(|pause| {
        let server = Arc::clone(&server);
        tokio::spawn(async move { server.request(Need::new(0, 0), async |_| sleep(pause).await).await })
    });
    yield_now().await;
    let began = Instant::now();
    assert!(!stop.finish(millis(100)).await);
    assert!((100..110).contains(&began.elapsed().as_millis()));
    assert!(begun.load(SeqCst) && stop.has_begun() && !stop.begin());
    assert_eq!(quick.await.unwrap(), Ok(Some(())));
    assert!(matches!(slow.await.unwrap(), Err(Refusal::Cancelled(_))));
    assert_eq!(server.request(Need::default(), async |_| ()).await, Ok(None));
    server.quiet().await;
}

#[tokio::test(start_paused = true)]
async fn waits_for_permits_and_queues_end_by_a_cancel() {
    let mut realm = Realm::new().unwrap();
    let limiter = Limiter::new(1);
    let ended = realm.run(async |cx| {
        limiter
            .with(cx, async || {
                let second =
                    cx.move_on_after(millis(5), async |cx| limiter.with(cx, async || Ok::<_, Refusal>(())).await);
                assert_eq!(second.await?, None);
                Ok::<_, Refusal>(())
            })
            .await?;
        limiter.with(cx, async || Ok::<_, Refusal>(())).await?;
        let (sender, receiver) = channel(1);
        assert_eq!(sender.send(cx, 1).await, Ok(true));
        assert_eq!(cx.move_on_after(millis(5), async |cx| Ok::<_, Refusal>(sender.send(cx, 2).await?)).await?, None);
        assert_eq!(receiver.receive(cx).await, Ok(Some(1)));
        let other = receiver.clone();
        assert_eq!(cx.move_on_after(millis(5), async |cx| Ok::<_, Refusal>(other.receive(cx).await?)).await?, None);
        drop(receiver);
        assert_eq!(sender.send(cx, 3).await, Ok(true));
        assert_eq!(other.receive(cx).await, Ok(Some(3)));
        drop(other);
        assert_eq!(sender.send(cx, 4).await, Ok(false));
        Ok::<_, Refusal>(())
    });
    assert_eq!(ended.await, Ok(()));
}

#[tokio::test(start_paused = true)]
async fn rounds_and_tries_keep_their_times_and_last() {
    let mut realm = Realm::new().unwrap();
    let (began, beats) = (Instant::now(), AtomicUsize::new(0));
    let ended = realm.run(async |cx| {
        let tried = cx.retry(Backoff::new(2, millis(10)).longest(millis(15)), async |_, number| {
            beats.fetch_add(1, SeqCst);
            Err::<(), _>(if number == 2 { Refusal::BadName } else { Refusal::Rejected })
        });
        assert_eq!(tried.await, Err(Refusal::BadName));
        assert_eq!((began.elapsed(), beats.load(SeqCst)), (millis(25), 3));
        cx.move_on_after(Duration::from_secs(3), async |cx| {
            cx.every(millis(1), async |cx, _| {
                beats.fetch_add(1, SeqCst);
                five(cx).await
            })
            .await
        })
        .await
    });
    assert_eq!(ended.await, Ok(None));
    assert!(beats.load(SeqCst) > 2500, "{beats:?}");
}

#[tokio::test(flavor = "multi_thread", worker_threads = 4)]
async fn a_map_is_in_order_and_bounded() {
    let (inside, most) = (Arc::new(AtomicUsize::new(0)), Arc::new(AtomicUsize::new(0)));
    let mut realm = Realm::new().unwrap();
    let values = realm.run(async |cx| {
        let (count, top) = (Arc::clone(&inside), Arc::clone(&most));
        let job = move |number: u64| {
            let (count, top) = (Arc::clone(&count), Arc::clone(&top));
            async move {
                top.fetch_max(count.fetch_add(1, SeqCst) + 1, SeqCst);
                yield_now().await;
                count.fetch_sub(1, SeqCst);
                if number == 777 { Err(Refusal::BadName) } else { Ok(number * 2) }
            }
        };
        (cx.map_at_most(3, 0..700, job.clone()).await, cx.map_at_most(3, 700.., job).await)
    });
    let (values, failed) = values.await;
    assert_eq!(values.unwrap(), (0..700).map(|number| number * 2).collect::<Vec<_>>());
    assert_eq!(failed, Err(Refusal::BadName));
    assert!((1..=3).contains(&most.load(SeqCst)));
}
