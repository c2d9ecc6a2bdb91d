//! Cancels, deadlines, shields and sleeps.

use balkreyn::{Cancelled, Cause, Context, Joiner, Options, Outcome, Realm, Refusal, TaskError};
use std::num::NonZeroUsize;
use std::sync::Mutex;
use std::sync::atomic::{AtomicBool, Ordering};
use std::time::{Duration, Instant};

const LONG: Duration = Duration::from_secs(20);

fn millis(count: u64) -> Duration {
    Duration::from_millis(count)
}

#[test]
fn a_deadline_passes_while_the_owner_waits() {
    let began = Instant::now();
    Realm::new().unwrap().run(|cx| {
        cx.scope(Options::new(Joiner::All).within(millis(40)), |s| {
            let slow = s.fork("slow", |cx: &Context| cx.sleep(LONG)).unwrap();
            assert_eq!(s.join(), Ok(Outcome::Timeout));
            assert!(began.elapsed() >= millis(40));
            assert_eq!(s.cause(), Some(Cause::Deadline(s.id())));
            assert!(matches!(s.result(slow), Err(TaskError::Cancelled(_))));
        })
        .unwrap();
    });
    assert!(began.elapsed() < LONG);
}

#[test]
fn a_scope_that_moves_on_keeps_what_had_come() {
    Realm::new().unwrap().run(|cx| {
        cx.scope(Options::new(Joiner::All).within(millis(1500)).move_on(), |s| {
            let quick = s.fork("quick", |_: &Context| Ok::<_, Refusal>(1)).unwrap();
            let slow = s.fork("slow", |cx: &Context| cx.sleep(LONG)).unwrap();
            assert_eq!(s.join(), Ok(Outcome::Partial));
            assert_eq!(s.result(quick).unwrap(), 1);
            assert!(s.result(slow).is_err());
        })
        .unwrap();
    });
}

#[test]
fn a_deadline_passes_for_who_only_asks() {
    Realm::new().unwrap().run(|cx| {
        let asked = cx.scope(Options::new(Joiner::All).within(millis(15)), |_| {
            let began = Instant::now();
            while !cx.is_cancelled() && began.elapsed() < LONG {
                std::hint::spin_loop();
            }
            (cx.checkpoint(), began.elapsed())
        });
        let (checkpoint, waited) = asked.unwrap();
        assert!(matches!(checkpoint, Err(Cancelled { cause: Cause::Deadline(_) })));
        assert!(waited < LONG);
        assert_eq!(cx.checkpoint(), Ok(()));
        let at_once = cx.scope(Options::new(Joiner::All).within(Duration::ZERO), |_| cx.sleep(LONG));
        assert!(matches!(at_once.unwrap(), Err(Cancelled { cause: Cause::Deadline(_) })));
    });
}

#[test]
fn a_sleep_of_the_body_ends_with_its_scope() {
    Realm::new().unwrap().run(|cx| {
        assert_eq!(cx.sleep(millis(1)), Ok(()));
        let cut = cx.scope(Options::new(Joiner::All).within(millis(20)), |_| cx.sleep(LONG));
        assert!(matches!(cut.unwrap(), Err(Cancelled { cause: Cause::Deadline(_) })));
        let whole = cx.scope(Options::new(Joiner::All).within(LONG), |_| cx.sleep(millis(20)));
        assert_eq!(whole.unwrap(), Ok(()));
        let by = cx.scope(Options::new(Joiner::All).until(Instant::now() + millis(20)), |_| cx.sleep(LONG));
        assert!(matches!(by.unwrap(), Err(Cancelled { cause: Cause::Deadline(_) })));
        let endless = cx.scope(Options::new(Joiner::All).within(Duration::MAX), |s| s.join());
        assert_eq!(endless.unwrap(), Ok(Outcome::All));
    });
}

#[test]
fn a_moved_deadline_counts_for_who_sleeps_already() {
    Realm::new().unwrap().run(|cx| {
        cx.scope(Options::new(Joiner::Await).within(LONG), |s| {
            let sleeper = s.fork("sleeper", |cx: &Context| Ok::<_, Refusal>(cx.sleep(LONG))).unwrap();
            std::thread::sleep(millis(20));
            s.move_deadline(Some(millis(30))).unwrap();
            assert_eq!(s.join(), Ok(Outcome::Timeout));
            assert!(s.result(sleeper).is_err());
        })
        .unwrap();
        cx.scope(Options::new(Joiner::Await).within(millis(1500)), |s| {
            s.fork("sleeper", |cx: &Context| cx.sleep(millis(1700))).unwrap();
            s.move_deadline(None).unwrap();
            assert_eq!(s.join(), Ok(Outcome::Done));
            assert_eq!(s.move_deadline(None), Err(Refusal::AlreadyJoined));
        })
        .unwrap();
    });
}

#[test]
fn a_shield_keeps_cancels_out() {
    let [is_inside, is_cancelled, has_ended] = [(); 3].map(|()| AtomicBool::new(false));
    let wait_for = |flag: &AtomicBool| {
        while !flag.load(Ordering::Relaxed) {
            std::thread::sleep(millis(1));
        }
    };
    Realm::new().unwrap().run(|cx| {
        cx.scope(Joiner::AwaitOk, |s| {
            s.fork("shielded", |cx: &Context| {
                cx.scope(Options::new(Joiner::All).shield(), |_| {
                    is_inside.store(true, Ordering::Relaxed);
                    wait_for(&is_cancelled);
                    assert_eq!(cx.sleep(millis(5)), Ok(()));
                    has_ended.store(true, Ordering::Relaxed);
                })
                .unwrap();
                assert!(cx.is_cancelled());
                Ok::<_, Refusal>(())
            })
            .unwrap();
            wait_for(&is_inside);
            assert!(s.cancel());
            is_cancelled.store(true, Ordering::Relaxed);
            assert!(!s.cancel());
            assert_eq!(s.join(), Ok(Outcome::Cancelled(s.id())));
        })
        .unwrap();
    });
    assert!(has_ended.load(Ordering::Relaxed));
}

/// In a scope that is opened in a cancelled one, which is cancelled from its start, jobs never run.
fn opens_late(cx: &Context) {
    cx.scope(Joiner::Await, |late| {
        assert!(cx.is_cancelled());
        let never = late.fork("never", |_: &Context| -> Result<(), Refusal> { panic!("it ran") });
        assert!(matches!(late.join(), Ok(Outcome::Cancelled(_))));
        assert!(late.result(never.unwrap()).is_err());
    })
    .unwrap();
}

#[test]
fn a_cancel_reaches_the_scopes_inside() {
    let seen = &Mutex::new(None);
    Realm::new().unwrap().run(|cx| {
        cx.scope(Joiner::Await, |outer| {
            let canceller = outer.canceller();
            let task = outer.fork("outer", move |cx: &Context| {
                let canceller = &canceller;
                let inside = cx.scope(Joiner::Await, |inner| {
                    let cancels = move |cx: &Context| {
                        assert!(canceller.cancel());
                        cx.sleep(LONG)
                    };
                    inner.fork("inner", cancels).unwrap();
                    *seen.lock().unwrap() = Some(inner.join());
                    opens_late(cx);
                });
                inside.map_err(Refusal::from)
            });
            assert_eq!(outer.join(), Ok(Outcome::Cancelled(outer.id())));
            assert!(outer.result(task.unwrap()).is_err());
            outer.id()
        })
        .map(|outer| assert_eq!(*seen.lock().unwrap(), Some(Ok(Outcome::Cancelled(outer)))))
        .unwrap();
    });
}

#[test]
fn a_canceller_outlives_its_scope_and_does_nothing() {
    Realm::new().unwrap().run(|cx| {
        let canceller = cx.scope(Joiner::All, |s| s.canceller()).unwrap();
        assert!(!canceller.cancel());
        cx.scope(Joiner::All, |_| assert!(!canceller.cancel() && !cx.is_cancelled())).unwrap();
    });
}

#[test]
fn a_deadline_around_cuts_the_scope_inside() {
    Realm::new().unwrap().run(|cx| {
        cx.scope(Options::new(Joiner::All).within(millis(30)), |outer| {
            cx.scope(Joiner::All, |inner| {
                inner.fork("slow", |cx: &Context| cx.sleep(LONG)).unwrap();
                assert_eq!(inner.join(), Ok(Outcome::Cancelled(outer.id())));
                assert_eq!(inner.cause(), Some(Cause::Deadline(outer.id())));
            })
            .unwrap();
        })
        .unwrap();
    });
}

#[test]
fn a_result_after_an_unseen_deadline_counts_for_nothing() {
    Realm::new().unwrap().run(|cx| {
        cx.scope(Options::new(Joiner::All).within(millis(10)).move_on(), |s| {
            let deaf = s.fork("deaf", |_: &Context| {
                std::thread::sleep(millis(30));
                Ok::<_, Refusal>("late")
            });
            // Nobody waits while the deadline passes.
            std::thread::sleep(millis(60));
            assert_eq!(s.join(), Ok(Outcome::Partial));
            assert!(matches!(s.result(deaf.unwrap()), Err(TaskError::Cancelled(_))));
        })
        .unwrap();
    });
}

#[test]
fn a_job_that_waited_for_a_thread_until_the_cancel_never_runs() {
    Realm::new().unwrap().run(|cx| {
        cx.scope(Options::new(Joiner::Await).threads(NonZeroUsize::MIN), |s| {
            s.fork("sleeper", |cx: &Context| cx.sleep(LONG)).unwrap();
            for _ in 0..3 {
                s.fork("queued", |_: &Context| -> Result<(), Refusal> { panic!("it ran") }).unwrap();
            }
            assert!(s.cancel());
            assert_eq!(s.join(), Ok(Outcome::Cancelled(s.id())));
        })
        .unwrap();
        let journal = cx.look().journal().unwrap();
        assert!(journal.contains("reject 4\n") && journal.lines().rev().nth(1) == Some("closed 0 1"), "{journal}");
    });
}

#[test]
fn a_deadline_that_is_set_later_passes_for_sleepers_alone() {
    let has_ended = AtomicBool::new(false);
    let began = Instant::now();
    Realm::new().unwrap().run(|cx| {
        cx.scope(Joiner::Await, |s| {
            let sleep = |cx: &Context| {
                let slept = cx.sleep(LONG);
                has_ended.store(true, Ordering::Relaxed);
                slept
            };
            s.fork("sleeper", sleep).unwrap();
            std::thread::sleep(millis(20));
            s.move_deadline(Some(millis(20))).unwrap();
            // The owner neither waits nor asks.
            while !has_ended.load(Ordering::Relaxed) && began.elapsed() < LONG / 2 {
                std::thread::sleep(millis(1));
            }
            assert!(has_ended.load(Ordering::Relaxed));
            assert_eq!(s.join(), Ok(Outcome::Timeout));
        })
        .unwrap();
    });
}

#[test]
fn a_deadline_is_never_early() {
    Realm::new().unwrap().run(|cx| {
        for _ in 0..20 {
            let began = Instant::now();
            let cut = cx.scope(Options::new(Joiner::All).within(millis(2)), |_| cx.sleep(LONG));
            assert!(matches!(cut.unwrap(), Err(Cancelled { cause: Cause::Deadline(_) })));
            assert!(began.elapsed() >= millis(2));
        }
    });
}

#[test]
fn a_job_that_finds_no_idle_thread_gets_a_new_one() {
    let met = [AtomicBool::new(false), AtomicBool::new(false)];
    Realm::new().unwrap().run(|cx| {
        cx.scope(Joiner::All, |s| {
            s.fork("first", |_: &Context| Ok::<_, Refusal>(())).unwrap();
            for (mine, other) in [(&met[0], &met[1]), (&met[1], &met[0])] {
                // The one thread is idle by now, and later at work: the two jobs wait for each other.
                std::thread::sleep(millis(30));
                let meet = move |cx: &Context| {
                    mine.store(true, Ordering::Relaxed);
                    let waits =
                        (0..5_000).take_while(|_| !other.load(Ordering::Relaxed) && cx.sleep(millis(1)).is_ok());
                    if waits.count() < 5_000 { Ok(()) } else { Err("alone") }
                };
                s.fork("meeting", meet).unwrap();
            }
            assert_eq!(s.join(), Ok(Outcome::All));
        })
        .unwrap();
    });
}
