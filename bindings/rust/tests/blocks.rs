//! A cancel ends at its own block; errors that go on by `?`; cancels, deadlines and limits.

use balkreyn::{
    Cancelled, Canceller, Cause, Context, Joiner, Limits, Options, Outcome, Panic, Realm, Refusal, Scope, ScopeError,
    TaskError, TaskState,
};
use std::error::Error;
use std::fmt;
use std::io;
use std::panic::{AssertUnwindSafe, catch_unwind};
use std::thread;
use std::time::{Duration, Instant};

const LONG: Duration = Duration::from_secs(20);

fn millis(count: u64) -> Duration {
    Duration::from_millis(count)
}

/// An error as services write one.
#[derive(Debug, PartialEq)]
enum Why {
    SoldOut,
    Cancelled(Cancelled),
    Refused(Refusal),
}

impl From<Cancelled> for Why {
    fn from(cancelled: Cancelled) -> Why {
        Why::Cancelled(cancelled)
    }
}

impl From<Refusal> for Why {
    fn from(refusal: Refusal) -> Why {
        Why::Refused(refusal)
    }
}

impl fmt::Display for Why {
    fn fmt(&self, out: &mut fmt::Formatter<'_>) -> fmt::Result {
        write!(out, "{self:?}")
    }
}

impl Error for Why {}

/// Runs the body as main of a fresh realm.
fn run<R>(body: impl FnOnce(&Context) -> R) -> R {
    Realm::new().unwrap().run(body)
}

#[test]
fn a_deadline_that_moves_on_goes_on() {
    run(|cx| {
        let went_on = cx.move_on_after(millis(20), |cx| {
            cx.sleep(LONG)?;
            Ok::<_, Why>(1)
        });
        assert_eq!(went_on, Ok(None));
        assert_eq!(cx.checkpoint(), Ok(()));
        assert_eq!(cx.move_on_after(LONG, |_| Ok::<_, Why>(1)), Ok(Some(1)));
        // The body's own error is no cancel.
        assert_eq!(cx.move_on_after(millis(20), |_| Err::<(), _>(Why::SoldOut)), Err(Why::SoldOut));
        // A value that came anyway is the block's.
        let kept = cx.move_on_after(millis(5), |cx| {
            let cut = cx.sleep(LONG);
            Ok::<_, Why>(cut.is_err())
        });
        assert_eq!(kept, Ok(Some(true)));
    });
}

#[test]
fn a_bodys_own_error_stays_where_it_looked_at_what_came() {
    run(|cx| {
        for options in [Options::new(Joiner::Await).move_on(), Options::new(Joiner::Await)] {
            let own = cx.maybe_scope(options.within(millis(10)), |s| {
                let late = s.fork("late", |cx| Ok::<_, Why>(cx.sleep(LONG)?))?;
                assert!(matches!(s.join()?, Outcome::Partial | Outcome::Timeout));
                assert!(matches!(s.result(late), Err(TaskError::Cancelled(_))));
                Err::<(), _>(Why::SoldOut)
            });
            assert_eq!(own, Err(Why::SoldOut));
        }
    });
}

#[test]
fn a_deadline_that_fails_is_the_blocks_own_timeout() {
    run(|cx| {
        let late = cx.fail_after(millis(20), |cx| Ok::<_, Why>(cx.sleep(LONG)?));
        assert!(matches!(late, Err(Why::Refused(Refusal::TimedOut(_)))), "{late:?}");
        assert_eq!(cx.checkpoint(), Ok(()));
        // Of two blocks, the one whose deadline passed absorbs it.
        let outer = cx.move_on_after(millis(20), |cx| {
            let inner = cx.move_on_after(LONG, |cx| Ok::<_, Why>(cx.sleep(LONG)?));
            assert!(matches!(inner, Err(Why::Cancelled(Cancelled { cause: Cause::Deadline(_) }))), "{inner:?}");
            inner.map(drop)
        });
        assert_eq!(outer, Ok(None));
        let nested = cx.fail_after(LONG, |cx| cx.move_on_after(millis(10), |cx| Ok::<_, Why>(cx.sleep(LONG)?)));
        assert_eq!(nested, Ok(None));
    });
}

#[test]
fn a_cancel_passes_where_the_caller_itself_is_cancelled() {
    run(|cx| {
        let passed = cx.try_scope(Options::new(Joiner::Await).within(millis(20)), |outer| {
            let inner = cx.maybe_scope(Options::new(Joiner::Await).within(millis(10)).move_on().shield(), |_| {
                // The inner deadline passes first, and then, behind the shield, the outer one.
                thread::sleep(millis(40));
                Ok::<_, Why>(cx.sleep(LONG)?)
            });
            assert!(matches!(&inner, Err(Why::Cancelled(_))), "{inner:?}");
            assert!(cx.is_cancelled());
            let _cancelled = outer.join()?;
            inner
        });
        assert!(matches!(passed, Err(Why::Refused(Refusal::TimedOut(_))) | Err(Why::Cancelled(_))), "{passed:?}");
        assert_eq!(cx.checkpoint(), Ok(()));
    });
}

#[test]
fn the_first_failure_is_the_blocks_error() {
    run(|cx| {
        for joiner in [Joiner::All, Joiner::AwaitOk] {
            for holds in [true, false] {
                let failed = cx.try_scope(joiner, |s| {
                    let task = s.fork("fails", |_| Err::<(), _>(Why::SoldOut))?;
                    let _held = holds.then_some(task);
                    let _other = s.fork("sleeps", |cx| Ok::<_, Why>(cx.sleep(LONG)?))?;
                    cx.sleep(LONG)?;
                    Ok::<_, Why>(())
                });
                assert_eq!(failed, Err(Why::SoldOut));
            }
            assert_eq!(cx.checkpoint(), Ok(()));
        }
        // Of another type, it is named.
        let other = cx.try_scope(Joiner::All, |s| {
            let task = s.fork("fails", |_| Err::<(), _>("broken"))?.id();
            cx.sleep(LONG)?;
            Ok::<_, Why>(task)
        });
        assert!(matches!(other, Err(Why::Refused(Refusal::JobFailed(_)))), "{other:?}");
        // What the task gave is read as ever.
        let read = cx.try_scope(Joiner::All, |s| {
            let task = s.fork("fails", |_| Err::<(), _>(Why::SoldOut))?;
            assert!(cx.sleep(LONG).is_err());
            assert!(matches!(s.join()?, Outcome::Failed(_)));
            s.value(task)
        });
        assert_eq!(read, Err(Why::SoldOut));
    });
}

#[test]
fn a_join_that_wants_all_well_gives_the_first_failure() {
    run(|cx| {
        for joiner in [Joiner::All, Joiner::AwaitOk, Joiner::Any] {
            let failed = cx.try_scope(joiner, |s| {
                let task = s.fork("fails", |_| Err::<i32, _>(Why::SoldOut))?;
                s.join_ok()?;
                s.value(task)
            });
            assert_eq!(failed, Err(Why::SoldOut));
        }
        let late = cx.try_scope(Options::new(Joiner::All).within(millis(10)), |s| {
            s.fork("sleeps", |cx| Ok::<_, Why>(cx.sleep(LONG)?))?;
            Ok::<_, Why>(s.join_ok()?)
        });
        assert!(matches!(late, Err(Why::Refused(Refusal::TimedOut(_)))), "{late:?}");
        let empty = cx.try_scope(Joiner::Any, |s| s.join_ok());
        assert_eq!(empty, Err(Refusal::NoTask));
        let partial = cx.try_scope(Options::new(Joiner::All).within(millis(1000)).move_on(), |s| {
            let (quick, slow) =
                (s.fork("quick", |_| Ok::<_, Why>(1))?, s.fork("slow", |cx| Ok::<_, Why>(cx.sleep(LONG)?))?);
            s.join_ok()?;
            Ok::<_, Why>((s.value(quick)?, s.result(slow).is_err()))
        });
        assert_eq!(partial, Ok((1, true)));
    });
}

#[test]
fn many_blocks_end_with_their_first_failure() {
    run(|cx| {
        for round in 0..300u64 {
            let failed = cx.try_scope(Joiner::All, |s| {
                for index in 0..4u64 {
                    s.fork("fails", move |_| Err::<(), _>(Why::SoldOut)).map(drop)?;
                    if (round + index) % 3 == 0 {
                        thread::yield_now();
                    }
                }
                cx.sleep(LONG)?;
                Ok::<_, Why>(())
            });
            assert_eq!(failed, Err(Why::SoldOut));
        }
    });
}

#[test]
fn a_first_panic_goes_on_at_its_block() {
    let panic = catch_unwind(AssertUnwindSafe(|| {
        run(|cx| {
            cx.try_scope(Joiner::All, |s| {
                s.fork("panics", |_| -> Result<(), Why> { std::panic::resume_unwind(Box::new("on purpose")) })?;
                cx.sleep(LONG)?;
                Ok::<_, Why>(())
            })
        })
    }));
    assert_eq!(panic.unwrap_err().downcast_ref::<&str>(), Some(&"on purpose"));
}

#[test]
fn a_call_ends_its_block() {
    run(|cx| {
        let ended = cx.maybe_scope(Joiner::Await, |s| {
            let canceller = s.canceller();
            s.fork("cancels", move |_| Ok::<_, Why>(canceller.cancel()))?;
            cx.sleep(LONG)?;
            Ok::<_, Why>(())
        });
        assert_eq!(ended, Ok(None));
        let told = cx.try_scope(Joiner::Await, |s| {
            s.cancel();
            Ok::<_, Why>(cx.checkpoint()?)
        });
        assert!(matches!(told, Err(Why::Cancelled(Cancelled { cause: Cause::Call(_) }))), "{told:?}");
        assert_eq!(cx.checkpoint(), Ok(()));
    });
}

#[test]
fn errors_go_on_by_a_question_mark() {
    type Any = Box<dyn Error + Send + Sync>;
    fn parse(text: &str) -> Result<i32, Any> {
        let mut realm = Realm::new()?;
        let parsed = realm.run(|cx| {
            cx.scope(Joiner::Await, |s| {
                let task = s.fork("parse", |_| text.parse::<i32>())?;
                s.join_ok()?;
                let value: Result<i32, Any> = s.result(task).map_err(Any::from);
                cx.checkpoint()?;
                value
            })
        });
        match parsed {
            Ok(value) => value,
            Err(error) => Err(error.refusal().into()),
        }
    }
    assert_eq!(parse("7").unwrap(), 7);
    let error = parse("seven").unwrap_err();
    assert_eq!(error.to_string(), "the job failed");
    assert!(error.source().unwrap().is::<std::num::ParseIntError>());
    fn is_error<T: Error + Send + Sync + 'static>() {}
    is_error::<TaskError<io::Error>>();
    is_error::<TaskError<Why>>();
    is_error::<Panic>();
    is_error::<Refusal>();
    is_error::<Cancelled>();
    is_error::<ScopeError<u8>>();
    let cancelled =
        Cancelled { cause: run(|cx| cx.scope(Joiner::All, |s| (s.cancel(), s.cause().unwrap()).1)).unwrap() };
    assert!(TaskError::<io::Error>::Cancelled(cancelled).source().unwrap().is::<Cancelled>());
    assert!(Refusal::Cancelled(cancelled).source().unwrap().is::<Cancelled>());
    assert_eq!(cancelled.to_string(), "cancelled by a call on scope 1");
    // A boxed error is what a block, a helper and a job may have, too.
    let boxed = run(|cx| cx.race([|_: &Context| -> Result<i32, Any> { Ok("x".parse::<i32>()?) }]));
    assert!(boxed.unwrap_err().is::<std::num::ParseIntError>());
}

#[test]
fn a_result_that_is_asked_too_early_stays() {
    run(|cx| {
        cx.scope(Joiner::All, |s| {
            let task = s.fork("job", |_| Ok::<_, Why>(7)).unwrap();
            assert!(matches!(s.result(&task), Err(TaskError::Refused(Refusal::NotJoined))));
            assert_eq!(s.join(), Ok(Outcome::All));
            assert_eq!(s.state(&task), TaskState::Succeeded);
            assert_eq!(s.value(&task), Ok(7));
            assert_eq!(s.value(&task), Err(Why::Refused(Refusal::Taken)));
            assert_eq!(s.state(&task), TaskState::Succeeded);
        })
        .unwrap();
        cx.scope(Joiner::Await, |s| {
            let fails = s.fork("fails", |_| Err::<(), _>(Why::SoldOut)).unwrap();
            let sleeps = s.fork("sleeps", |cx| Ok::<_, Why>(cx.sleep(LONG)?)).unwrap();
            let began = Instant::now();
            while s.state(&fails) != TaskState::Failed || s.state(&sleeps) != TaskState::Running {
                assert!(began.elapsed() < LONG);
            }
            s.cancel();
            assert_eq!(s.join(), Ok(Outcome::Cancelled(s.id())));
            assert_eq!(s.state(&fails), TaskState::Failed);
            assert!(matches!(s.result(sleeps), Err(TaskError::Cancelled(Cancelled { cause: Cause::Call(_) }))));
        })
        .unwrap();
    });
}

#[test]
fn remaining_is_the_time_to_the_earliest_deadline() {
    run(|cx| {
        assert_eq!(cx.remaining(), None);
        cx.scope(Options::new(Joiner::Await).within(LONG), |outer| {
            let left = cx.remaining().unwrap();
            assert!(left <= LONG + millis(1) && left > LONG / 2);
            cx.scope(Options::new(Joiner::Await).within(LONG * 2), |_| {
                assert!(cx.remaining().unwrap() <= LONG + millis(1));
            })
            .unwrap();
            cx.scope(Options::new(Joiner::Await).shield(), |_| assert_eq!(cx.remaining(), None)).unwrap();
            let inherits = outer.fork("job", |cx| Ok::<_, Why>(cx.remaining().is_some())).unwrap();
            outer.move_deadline(None).unwrap();
            assert_eq!(cx.remaining(), None);
            outer.cancel();
            assert_eq!(cx.remaining(), Some(Duration::ZERO));
            assert!(outer.join().is_ok());
            drop(inherits);
        })
        .unwrap();
        let inside = cx.fail_after(LONG, |cx| cx.in_own_realm(|cx| Ok::<_, Why>(cx.remaining())));
        assert!(inside.unwrap().is_some_and(|left| left <= LONG + millis(1)));
    });
}

#[test]
fn a_deadline_of_now_lets_nothing_begin() {
    run(|cx| {
        for _ in 0..200 {
            cx.scope(Options::new(Joiner::Await).within(Duration::ZERO), |s| {
                assert!(cx.sleep(Duration::ZERO).is_err());
                let never = s.fork("never", |_| -> Result<(), Why> { panic!("it ran") }).unwrap();
                assert_eq!(s.state(&never), TaskState::Unavailable);
                assert_eq!(s.join(), Ok(Outcome::Timeout));
            })
            .unwrap();
            thread::sleep(Duration::from_micros(50));
        }
    });
}

#[test]
fn a_canceller_is_made_before_its_block() {
    run(|cx| {
        let canceller = Canceller::new();
        let options = || Options::new(Joiner::Await).cancelled_by(&canceller);
        assert!(!canceller.has_cancelled());
        let later = canceller.clone();
        let thread = thread::spawn(move || {
            thread::sleep(millis(20));
            later.cancel()
        });
        assert_eq!(cx.maybe_scope(options(), |_| Ok::<_, Why>(cx.sleep(LONG)?)), Ok(None));
        assert!(thread.join().unwrap() && canceller.has_cancelled());
        // It has cancelled what comes, too.
        cx.scope(options(), |s| assert_eq!(s.cause(), Some(Cause::Call(s.id())))).unwrap();
        assert!(!canceller.cancel());
        // Behind the end of a scope, a cancel finds it cancelled already.
        let behind = cx.scope(Joiner::All, |s| s.canceller()).unwrap();
        assert!(!behind.cancel());
        cx.scope(Joiner::All, |_| assert!(!behind.cancel() && !cx.is_cancelled())).unwrap();
        let gone = run(|cx| cx.scope(Joiner::All, |s| s.canceller()).unwrap());
        assert!(!gone.cancel());
    });
}

/// Spends the load by moves and binds, until both are refused.
fn spend(cx: &Context, s: &Scope) {
    let mut moves = 0;
    while s.move_deadline(Some(LONG)).is_ok() {
        moves += 1;
    }
    assert!(moves > 50_000, "{moves}");
    assert_eq!(cx.bind("key", 1, |_| ()), Err(Refusal::TooMany));
    assert_eq!(cx.scope(Joiner::All, |_| ()).map_err(|error| error.refusal()), Err(Refusal::TooMany));
    assert_eq!(s.fork("job", |_| Ok::<_, Why>(())).map(drop), Err(Refusal::TooMany));
}

#[test]
fn a_cancel_and_a_deadline_are_accepted_whatever_was_moved_and_bound() {
    let limits = Limits { load: 150_000, ..Limits::default() };
    Realm::with_limits(limits).unwrap().run(|cx| {
        cx.scope(Joiner::Await, |outer| {
            let inner = cx.scope(Options::new(Joiner::Await).within(millis(300)), |inner| {
                inner.fork("sleeps", |cx| Ok::<_, Why>(cx.sleep(LONG)?)).unwrap();
                spend(cx, outer);
                // Its deadline passes, though nothing is left to be moved.
                assert_eq!(inner.join(), Ok(Outcome::Timeout));
                inner.id()
            });
            assert!(inner.is_ok());
            assert!(outer.cancel());
            assert_eq!(outer.join(), Ok(Outcome::Cancelled(outer.id())));
        })
        .unwrap();
        // Each bind paid for its end.
        cx.scope(Joiner::Await, |s| {
            cx.bind("kept", 1, |cx| {
                spend(cx, s);
                assert!(cx.get("kept").is_some());
            })
            .unwrap();
            assert_eq!(cx.get("kept"), None);
            assert!(s.cancel());
        })
        .unwrap();
        // What is spent counts until the next request.
        assert_eq!(cx.all([|_: &Context| Ok::<_, Why>(1)]), Ok(vec![1]));
    });
}

#[test]
fn a_scope_pays_for_its_cancel_and_its_deadline_as_it_opens() {
    // Scopes that lie inside each other, and then jobs, use up all of the load.
    fn nest(cx: &Context, depth: u32) {
        let options = Options::new(Joiner::Await).within(millis(40 + 10 * u64::from(13 - depth)));
        let nested = cx.scope(options, |s| {
            if depth < 12 {
                nest(cx, depth + 1);
            } else {
                while s.fork("job", |_| Ok::<_, Why>(())).is_ok() {}
            }
            // Each deadline passes at a moment of its own.
            assert!(cx.sleep(LONG).is_err());
            s.join().map(drop)
        });
        assert_eq!(nested.unwrap(), Ok(()));
    }
    for load in 120..123 {
        let mut realm = Realm::with_limits(Limits { load, ..Limits::default() }).unwrap();
        realm.run(|cx| nest(cx, 1));
        realm.run(|cx| {
            cx.scope(Joiner::Await, |s| {
                while s.fork("job", |_| Ok::<_, Why>(())).is_ok() {}
                assert!(s.cancel());
                assert_eq!(s.join(), Ok(Outcome::Cancelled(s.id())));
            })
            .unwrap();
        });
    }
}

#[test]
fn a_deadline_that_is_set_again_and_again_passes() {
    // Each move sets a deadline that passes at once, of a scope that is cancelled already.
    let limits = Limits { load: 2_000, ..Limits::default() };
    Realm::with_limits(limits).unwrap().run(|cx| {
        cx.scope(Joiner::Await, |s| {
            let mut moves = 0;
            while s.move_deadline(Some(Duration::ZERO)).is_ok() {
                moves += 1;
                assert!(cx.sleep(millis(0)).is_err());
            }
            assert!(moves > 500, "{moves}");
            let moved_on = cx.scope(Options::new(Joiner::Await), |_| ());
            assert_eq!(moved_on.map_err(|error| error.refusal()), Err(Refusal::TooMany));
            assert_eq!(s.join(), Ok(Outcome::Timeout));
        })
        .unwrap();
    });
}
