//! Helpers, channels, servers and stops.

use balkreyn::{
    Backoff, Canceller, Context, Joiner, Limiter, Local, Options, Outcome, Pool, Realm, Refusal, Server, TaskError,
    TaskState, Value, channel,
};
use std::sync::atomic::{AtomicBool, AtomicU64, AtomicUsize, Ordering};
use std::sync::{Arc, mpsc};
use std::thread;
use std::time::{Duration, Instant};

const LONG: Duration = Duration::from_secs(20);

fn millis(count: u64) -> Duration {
    Duration::from_millis(count)
}

fn run<R>(body: impl FnOnce(&Context) -> R) -> R {
    Realm::new().unwrap().run(body)
}

/// A job that gives the number after so many milliseconds, or fails with it.
fn after(millis_: u64, result: Result<u64, Refusal>) -> impl FnOnce(&Context) -> Result<u64, Refusal> + Send {
    move |cx| {
        cx.sleep(millis(millis_))?;
        result
    }
}

#[test]
fn a_race_has_a_winner_and_the_others_have_ended() {
    run(|cx| {
        let began = Instant::now();
        assert_eq!(cx.race([after(20_000, Ok(1)), after(10, Ok(2)), after(1, Err(Refusal::Taken))]), Ok(2));
        assert_eq!(cx.race([after(1, Err(Refusal::Taken)), after(30, Err(Refusal::NoTask))]), Err(Refusal::Taken));
        assert_eq!(cx.race([after(1, Ok(1))].into_iter().take(0)), Err(Refusal::NoTask));
        assert!(began.elapsed() < LONG);
        let cut = cx.fail_after(millis(10), |cx| cx.race([after(20_000, Ok(1))]));
        assert!(matches!(cut, Err(Refusal::TimedOut(_))), "{cut:?}");
    });
}

#[test]
fn all_gives_values_in_order_or_the_first_error() {
    run(|cx| {
        assert_eq!(cx.all([after(20, Ok(1)), after(1, Ok(2)), after(10, Ok(3))]), Ok(vec![1, 2, 3]));
        assert_eq!(cx.all([after(20_000, Ok(1)), after(1, Err(Refusal::Taken))]), Err(Refusal::Taken));
        assert_eq!(cx.all([after(1, Ok(1))].into_iter().take(0)), Ok(vec![]));
    });
}

#[test]
fn come_within_says_what_came() {
    run(|cx| {
        let came = cx.come_within(millis(1000), [after(20_000, Ok(1)), after(1, Ok(2)), after(1, Err(Refusal::Taken))]);
        let came = came.unwrap();
        assert!(matches!(came[0], Err(TaskError::Cancelled(_))));
        assert!(matches!(came[1], Ok(2)));
        assert!(matches!(came[2], Err(TaskError::Failed(Refusal::Taken))));
        let whole = cx.come_within(LONG, [after(1, Ok(1))]).unwrap();
        assert!(matches!(whole[..], [Ok(1)]));
        // Where the caller is cancelled, it says so.
        let cut = cx.try_scope(Options::new(Joiner::Await).within(millis(10)), |_| {
            let came = cx.come_within(LONG, [after(20_000, Ok(1))]);
            assert!(matches!(came, Err(Refusal::Cancelled(_))), "{came:?}");
            came.map(drop)
        });
        assert!(matches!(cut, Err(Refusal::TimedOut(_))), "{cut:?}");
    });
}

#[test]
fn a_map_is_in_order_and_bounded() {
    run(|cx| {
        let (inside, most) = (AtomicUsize::new(0), AtomicUsize::new(0));
        let mapped = cx.map_at_most(3, 0..200u64, |cx, n| {
            most.fetch_max(inside.fetch_add(1, Ordering::SeqCst) + 1, Ordering::SeqCst);
            cx.sleep(Duration::from_micros(n % 7 * 100))?;
            inside.fetch_sub(1, Ordering::SeqCst);
            Ok::<_, Refusal>(n * n)
        });
        assert_eq!(mapped, Ok((0..200).map(|n| n * n).collect()));
        assert!((1..=3).contains(&most.into_inner()));
        // The first error ends it, and no further item is taken.
        let taken = AtomicUsize::new(0);
        let failed = cx.map_at_most(2, 0.., |cx, n| {
            taken.fetch_add(1, Ordering::SeqCst);
            match n {
                0..100 => Ok(n),
                100 => Err(Refusal::Taken),
                _ => Ok(cx.sleep(millis(1)).map(|()| n)?),
            }
        });
        assert_eq!(failed, Err(Refusal::Taken));
        assert!(taken.into_inner() < 10_000);
        // Items beyond the limits of a realm: a worker is a task, an item is none.
        let many = cx.map_at_most(4, 0..100_000u32, |_, n| Ok::<_, Refusal>(n)).unwrap();
        assert!(many.iter().enumerate().all(|(at, n)| at as u32 == *n) && many.len() == 100_000);
        assert_eq!(cx.map_at_most(0, [1], |_, n| Ok::<_, Refusal>(n)), Ok(vec![1]));
    });
    // With fewer threads than asked for, fewer take the items; with none it is refused.
    let few = |most| {
        let mut realm = Realm::new().unwrap().on(&Pool::new().most(most));
        realm.run(|cx| cx.map_at_most(8, 0..50, |_, n| Ok::<_, Refusal>(n)).map(|all| all.len()))
    };
    assert_eq!((few(2), few(0)), (Ok(50), Err(Refusal::Rejected)));
}

#[test]
fn a_retry_ends_with_success_its_tries_or_a_cancel() {
    run(|cx| {
        let backoff = Backoff::new(3, millis(1)).longest(millis(2));
        let tries = |ok_at: u64| {
            let mut count = 0;
            let result = cx.retry(backoff, |_, number| {
                assert_eq!(number, count);
                count += 1;
                if number == ok_at { Ok(number) } else { Err(Refusal::Taken) }
            });
            (result, count)
        };
        assert_eq!(tries(0), (Ok(0), 1));
        assert_eq!(tries(3), (Ok(3), 4));
        assert_eq!(tries(9), (Err(Refusal::Taken), 4));
        let began = Instant::now();
        let cut = cx.fail_after(millis(30), |cx| cx.retry(Backoff::endless(LONG), |_, _| Err::<(), _>(Refusal::Taken)));
        assert!(matches!(cut, Err(Refusal::TimedOut(_))), "{cut:?}");
        assert!(began.elapsed() < LONG / 2);
        // A cancel ends the try itself, too.
        let cut = cx.fail_after(millis(30), |cx| cx.retry(backoff, |cx, _| Ok::<_, Refusal>(cx.sleep(LONG)?)));
        assert!(matches!(cut, Err(Refusal::TimedOut(_))), "{cut:?}");
    });
}

#[test]
fn every_keeps_its_beat() {
    run(|cx| {
        let began = Instant::now();
        let mut beats = Vec::new();
        let ended = cx.every(millis(20), |_, round| {
            beats.push(round);
            // A round that is too long is not made up for.
            thread::sleep(millis(if round == 1 { 70 } else { 0 }));
            if round < 4 { Ok(()) } else { Err(Refusal::Taken) }
        });
        assert_eq!((ended, beats), (Err(Refusal::Taken), vec![0, 1, 2, 3, 4]));
        assert!(began.elapsed() >= millis(20 + 20 + 70 + 20 + 20));
        let cut = cx.move_on_after(millis(50), |cx| cx.every(millis(1), |_, _| Ok::<_, Refusal>(())));
        assert_eq!(cut, Ok(None));
    });
}

#[test]
fn next_done_gives_results_as_they_come() {
    run(|cx| {
        // Each job ends once it is let, with what it gets.
        let (lets, waits): (Vec<_>, Vec<_>) = (0..4).map(|_| mpsc::channel::<Result<u64, Refusal>>()).unzip();
        cx.try_scope(Joiner::Await, |s| {
            let jobs = waits.into_iter().map(|wait| move |_: &Context| wait.recv().unwrap_or(Ok(0)));
            let mut left = s.fork_all("job", jobs)?;
            let ids: Vec<_> = left.iter().map(|task| task.id()).collect();
            for (at, result) in [(1, Err(Refusal::Taken)), (2, Ok(2))] {
                lets[at].send(result).unwrap();
                let (id, came) = s.next_done(&mut left).unwrap();
                assert_eq!((id, came.ok()), (ids[at], result.ok()));
            }
            assert_eq!(left.len(), 2);
            s.cancel();
            let (id, late) = s.next_done(&mut left).unwrap();
            assert!(id == ids[0] && matches!(late, Err(TaskError::Cancelled(_))));
            assert!(matches!(s.next_done(&mut left), Some((id, Err(TaskError::Cancelled(_)))) if id == ids[3]));
            assert!(s.next_done(&mut left).is_none());
            assert_eq!(s.join(), Ok(Outcome::Cancelled(s.id())));
            drop(lets);
            Ok::<_, Refusal>(())
        })
        .unwrap();
        // Those that have ended already come in the order of their ends.
        let (lets, waits): (Vec<_>, Vec<_>) = (0..3).map(|_| mpsc::channel::<()>()).unzip();
        cx.try_scope(Joiner::Await, |s| {
            let jobs = waits.into_iter().enumerate().map(|(at, wait)| {
                move |_: &Context| {
                    wait.recv().unwrap();
                    Ok::<_, Refusal>(at)
                }
            });
            let mut left = s.fork_all("job", jobs)?;
            for at in [2, 0, 1] {
                lets[at].send(()).unwrap();
                while s.state(&left[at]) != TaskState::Succeeded {
                    cx.sleep(millis(1))?;
                }
            }
            let order: Vec<_> = std::iter::from_fn(|| s.next_done(&mut left)).map(|(_, came)| came.ok()).collect();
            assert_eq!(order, [Some(2), Some(0), Some(1)]);
            s.join_ok()
        })
        .unwrap();
        // In a crowd, each comes once.
        cx.try_scope(Joiner::All, |s| {
            let mut left = s.fork_all("job", (0..500u64).map(|n| move |_: &Context| Ok::<_, Refusal>(n)))?;
            let mut sum = 0;
            while let Some((_, result)) = s.next_done(&mut left) {
                sum += result.unwrap();
            }
            assert_eq!(sum, 499 * 500 / 2);
            s.join_ok()
        })
        .unwrap();
        // A deadline ends the wait.
        cx.maybe_scope(Options::new(Joiner::Await).within(millis(20)).move_on(), |s| {
            let mut left = s.fork_all("job", [after(20_000, Ok(1))])?;
            assert!(matches!(s.next_done(&mut left), Some((_, Err(TaskError::Cancelled(_))))));
            s.join_ok()
        })
        .unwrap();
    });
}

#[test]
fn a_limiter_is_fair_and_its_wait_ends_by_a_cancel() {
    run(|cx| {
        let (limiter, order, arrived) = (&Limiter::new(1), &AtomicU64::new(0), &AtomicU64::new(0));
        let began = Instant::now();
        // Waits until so many waiters have come, and for a while, in which the last one gets in line.
        let after_waiters = move |cx: &Context, count| {
            while arrived.load(Ordering::SeqCst) < count {
                cx.sleep(millis(1))?;
            }
            cx.sleep(millis(30))
        };
        cx.try_scope(Joiner::Await, |s| {
            let (holds, held) = mpsc::channel();
            s.fork("holder", move |cx| {
                limiter.with(cx, || {
                    holds.send(()).unwrap();
                    Ok::<_, Refusal>(after_waiters(cx, 4)?)
                })
            })?;
            held.recv().unwrap();
            // A cancel, a deadline and a moved deadline end the wait; the permit goes to who still waits.
            let cut = cx.move_on_after(millis(10), |cx| limiter.with(cx, || Ok::<_, Refusal>(())));
            assert_eq!(cut, Ok(None));
            let moved = cx.try_scope(Options::new(Joiner::Await).within(LONG), |s| {
                s.move_deadline(Some(millis(10)))?;
                limiter.with(cx, || Ok::<_, Refusal>(()))
            });
            assert!(matches!(moved, Err(Refusal::TimedOut(_))), "{moved:?}");
            let waiters = (0..4u64).map(|n| {
                move |cx: &Context| {
                    after_waiters(cx, n)?;
                    arrived.fetch_add(1, Ordering::SeqCst);
                    limiter.with(cx, || Ok::<_, Refusal>((n, order.fetch_add(1, Ordering::SeqCst))))
                }
            });
            let waiters = s.fork_all("waiter", waiters)?;
            s.join_ok()?;
            for waiter in waiters {
                let (n, at) = s.value(waiter)?;
                assert_eq!(n, at);
            }
            Ok::<_, Refusal>(())
        })
        .unwrap();
        assert!(began.elapsed() < LONG / 2);
    });
}

#[test]
fn a_permit_is_not_lost_to_a_cancelled_waiter() {
    run(|cx| {
        let limiter = &Limiter::new(2);
        for round in 0..30u64 {
            cx.try_scope(Joiner::Await, |s| {
                for n in 0..8u64 {
                    s.fork("user", move |cx| {
                        cx.move_on_after(Duration::from_micros((n * 131 + round * 37) % 900), |cx| {
                            limiter.with(cx, || Ok::<_, Refusal>(cx.sleep(Duration::from_micros(200))?))
                        })
                    })?;
                }
                s.join_ok()
            })
            .unwrap();
        }
        // Both permits are free.
        let both = cx.fail_after(LONG, |cx| limiter.with(cx, || limiter.with(cx, || Ok::<_, Refusal>(1))));
        assert_eq!(both, Ok(1));
    });
}

#[test]
fn a_wake_is_not_lost_to_a_cancelled_waiter() {
    run(|cx| {
        for round in 0..400u32 {
            let (limiter, canceller, opens) = (&Limiter::new(1), &Canceller::new(), &AtomicBool::new(false));
            let served = cx.fail_after(LONG, |cx| {
                cx.try_scope(Joiner::All, |s| {
                    let (holds, held) = mpsc::channel();
                    s.fork("holder", move |cx| {
                        limiter.with(cx, || {
                            holds.send(()).unwrap();
                            while !opens.load(Ordering::SeqCst) {
                                cx.checkpoint()?;
                            }
                            Ok::<_, Refusal>(())
                        })
                    })?;
                    held.recv().unwrap();
                    s.fork("first", move |cx| {
                        let options = Options::new(Joiner::Await).cancelled_by(canceller);
                        cx.maybe_scope(options, |_| limiter.with(cx, || Ok::<_, Refusal>(())))
                    })?;
                    thread::sleep(Duration::from_micros(300));
                    s.fork("second", move |cx| limiter.with(cx, || Ok::<_, Refusal>(())))?;
                    thread::sleep(Duration::from_micros(300));
                    // The permit comes to the first one as it is cancelled; then it is the second one's.
                    opens.store(true, Ordering::SeqCst);
                    (0..round % 40 * 5).for_each(|_| std::hint::spin_loop());
                    canceller.cancel();
                    s.join_ok()
                })
            });
            assert_eq!(served, Ok(()));
        }
    });
}

#[test]
fn channels_carry_each_value_once_and_end() {
    run(|cx| {
        for room in [1, 3, 1000] {
            let sum = cx.try_scope(Joiner::All, |s| {
                let (sender, receiver) = channel(room);
                for half in 0..2u64 {
                    let sender = sender.clone();
                    s.fork("producer", move |cx| {
                        for n in 0..500 {
                            assert!(sender.send(cx, half * 500 + n)?);
                        }
                        Ok::<_, Refusal>(())
                    })?;
                }
                drop(sender);
                let sums = (0..3).map(|_| receiver.clone()).map(|receiver| {
                    move |cx: &Context| {
                        let mut sum = 0;
                        while let Some(n) = receiver.receive(cx)? {
                            sum += n;
                        }
                        Ok::<_, Refusal>(sum)
                    }
                });
                let sums = s.fork_all("consumer", sums)?;
                drop(receiver);
                Ok::<_, Refusal>(s.values(sums)?.into_iter().sum::<u64>())
            });
            assert_eq!(sum, Ok(999 * 1000 / 2));
        }
    });
}

#[test]
fn a_channels_waits_end() {
    run(|cx| {
        let (sender, receiver) = channel::<u32>(1);
        // By a cancel, on both sides.
        assert_eq!(cx.move_on_after(millis(5), |cx| Ok::<_, Refusal>(receiver.receive(cx)?)), Ok(None));
        assert_eq!(sender.send(cx, 1), Ok(true));
        assert_eq!(cx.move_on_after(millis(5), |cx| Ok::<_, Refusal>(sender.send(cx, 2)?)), Ok(None));
        assert_eq!((receiver.try_receive(), receiver.try_receive()), (Some(1), None));
        // By the end of the other half.
        thread::scope(|threads| {
            threads.spawn(|| {
                thread::sleep(millis(10));
                drop(sender);
            });
            assert_eq!(receiver.receive(cx), Ok(None));
        });
        let (sender, receiver) = channel(1);
        assert_eq!(sender.try_send(1), Ok(()));
        thread::scope(|threads| {
            threads.spawn(|| {
                thread::sleep(millis(10));
                drop(receiver);
            });
            assert_eq!(sender.send(cx, 2), Ok(false));
        });
        assert_eq!(sender.try_send(3), Err(3));
        // By a call, from a thread of no realm.
        let (_sender, receiver) = channel::<u32>(1);
        let cut = cx.maybe_scope(Joiner::Await, |s| {
            let canceller = s.canceller();
            thread::spawn(move || {
                thread::sleep(millis(10));
                canceller.cancel()
            });
            Ok::<_, Refusal>(receiver.receive(cx)?)
        });
        assert_eq!(cut, Ok(None));
    });
}

#[test]
fn a_local_is_inherited_and_taken_away() {
    static TRACE: Local<String> = Local::new();
    static DEPTH: Local<Vec<u32>> = Local::new();
    run(|cx| {
        assert_eq!(cx.local(&TRACE), None);
        cx.with(&TRACE, "A trace/7".to_owned(), |cx| {
            cx.with(&DEPTH, vec![1], |cx| {
                let seen = cx.all([|cx: &Context| {
                    let own = cx.with(&DEPTH, vec![1, 2], |cx| cx.local(&DEPTH).unwrap().len())?;
                    Ok::<_, Refusal>((cx.local(&TRACE).unwrap().to_string(), own, cx.local(&DEPTH).unwrap().len()))
                }]);
                assert_eq!(seen, Ok(vec![("A trace/7".to_owned(), 2, 1)]));
                // As a binding, it must not be younger than the scope of a fork.
                let younger = cx.try_scope(Joiner::All, |s| {
                    cx.with(&DEPTH, vec![], |_| s.fork("job", |_| Ok::<_, Refusal>(())).map(drop))?
                });
                assert_eq!(younger, Err(Refusal::Structure));
                // A realm inside sees it.
                let inside =
                    cx.in_own_realm(|cx| cx.all([|cx: &Context| Ok::<_, Refusal>(cx.local(&TRACE).is_some())]));
                assert_eq!(inside, Ok(vec![true]));
            })
            .unwrap();
            assert_eq!(cx.local(&DEPTH), None);
        })
        .unwrap();
        assert_eq!(cx.local(&TRACE), None);
    });
}

#[test]
fn a_realm_inside_is_cancelled_with_its_caller() {
    let began = Instant::now();
    run(|cx| {
        cx.bind("tenant", "acme", |cx| {
            let cut = cx.fail_after(millis(20), |cx| {
                cx.in_own_realm(|cx| {
                    assert_eq!(cx.get("tenant"), Some(Value::from("acme")));
                    // A job inside waits; nobody waits outside.
                    cx.all([after(20_000, Ok(1))])
                })
            });
            assert!(matches!(cut, Err(Refusal::TimedOut(_))), "{cut:?}");
        })
        .unwrap();
        // By a call from another thread, two realms deep.
        let cut = cx.maybe_scope(Joiner::Await, |s| {
            let canceller = s.canceller();
            s.fork("cancels", move |cx| {
                cx.sleep(millis(20))?;
                Ok::<_, Refusal>(canceller.cancel())
            })?;
            cx.in_own_realm(|cx| cx.in_own_realm(|cx| Ok::<_, Refusal>(cx.sleep(LONG)?)))
        });
        assert_eq!(cut, Ok(None));
        // A deadline that is moved outside counts inside.
        let has_ended = AtomicBool::new(false);
        let moved = cx.try_scope(Options::new(Joiner::Await).within(LONG), |s| {
            s.fork("waits", |cx| {
                let slept = cx.in_own_realm(|cx| cx.in_own_realm(|cx| Ok::<_, Refusal>(cx.sleep(LONG)?)));
                has_ended.store(true, Ordering::SeqCst);
                slept
            })?;
            thread::sleep(millis(20));
            s.move_deadline(Some(millis(20)))?;
            // The owner neither waits nor asks.
            while began.elapsed() < LONG / 2 && !has_ended.load(Ordering::SeqCst) {
                thread::sleep(millis(1));
            }
            assert!(has_ended.load(Ordering::SeqCst));
            s.join_ok()
        });
        assert!(matches!(moved, Err(Refusal::TimedOut(_))), "{moved:?}");
        // In a cancelled scope it is cancelled from its start; behind a shield it is not.
        cx.scope(Joiner::Await, |s| {
            s.cancel();
            assert_eq!(cx.in_own_realm(|cx| Ok::<_, Refusal>(cx.is_cancelled())), Ok(true));
            let shielded = cx.shielded(|cx| cx.in_own_realm(|cx| Ok::<_, Refusal>(cx.is_cancelled())));
            assert_eq!(shielded, Ok(false));
        })
        .unwrap();
    });
    assert!(began.elapsed() < LONG);
}

#[test]
fn a_stop_has_a_grace() {
    let server = Server::new().unwrap();
    let (ended, cut) = (AtomicUsize::new(0), AtomicUsize::new(0));
    let asked = Arc::new(AtomicBool::new(false));
    thread::scope(|threads| {
        let (server, ended, cut) = (&server, &ended, &cut);
        let (began, has_begun) = mpsc::channel();
        for is_polite in [true, false, true, false] {
            let began = began.clone();
            threads.spawn(move || {
                server.request(|cx| {
                    began.send(()).unwrap();
                    let stop = server.stop();
                    while cx.sleep(millis(1)).is_ok() {
                        if is_polite && stop.has_begun() {
                            return ended.fetch_add(1, Ordering::SeqCst);
                        }
                    }
                    cut.fetch_add(1, Ordering::SeqCst)
                })
            });
        }
        (0..4).for_each(|_| has_begun.recv().unwrap());
        let stop = server.stop();
        let asks = Arc::clone(&asked);
        stop.on_begin(move || asks.store(true, Ordering::SeqCst));
        assert!(!stop.has_begun());
        assert!(!stop.finish(millis(1000)));
        assert!(stop.has_begun() && asked.load(Ordering::SeqCst));
        // All have left.
        assert_eq!((ended.load(Ordering::SeqCst), cut.load(Ordering::SeqCst)), (2, 2));
    });
    assert_eq!(server.request(|_| ()), None);
    assert!(server.stop().finish(Duration::ZERO));
    let asks = Arc::new(AtomicBool::new(false));
    let late = Arc::clone(&asks);
    server.stop().on_begin(move || late.store(true, Ordering::SeqCst));
    assert!(asks.load(Ordering::SeqCst));
}

#[test]
fn a_request_that_panics_leaves_the_server_whole() {
    let server = Server::new().unwrap();
    let panic = std::panic::catch_unwind(std::panic::AssertUnwindSafe(|| {
        server.request(|cx| {
            cx.try_scope(Joiner::All, |s| {
                s.fork("sleeps", |cx| Ok::<_, Refusal>(cx.sleep(LONG)?))?;
                if cx.is_cancelled() { Ok::<_, Refusal>(()) } else { std::panic::resume_unwind(Box::new("on purpose")) }
            })
        })
    }));
    assert_eq!(panic.unwrap_err().downcast_ref::<&str>(), Some(&"on purpose"));
    assert_eq!(server.request(|cx| cx.all([after(0, Ok(1))])), Some(Ok(vec![1])));
    // The stop waits for no request that has ended by a panic.
    assert!(server.stop().finish(LONG));
}

#[test]
fn a_server_tells_limits_that_no_request_could_keep() {
    use balkreyn::Limits;
    let none = Limits { load: 5, ..Limits::default() };
    assert_eq!(Server::with_limits(none).map(drop), Err(Refusal::BadLimit));
    assert_eq!(Server::with_limits(Limits { tasks: 0, ..none }).map(drop), Err(Refusal::BadLimit));
    let few = Limits { tasks: 1, ..Limits::default() };
    let server = Server::with_limits(few).unwrap();
    assert_eq!(server.request(|cx| cx.all([after(0, Ok(1))])), Some(Ok(vec![1])));
    assert_eq!(server.request(|cx| cx.all([after(0, Ok(1)), after(0, Ok(1))])), Some(Err(Refusal::TooMany)));
}
