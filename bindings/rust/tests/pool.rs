//! The pool of threads: what is used again, what is refused; panics of drops; hooks.

use balkreyn::{
    Canceller, Context, Ending, Happening, Joiner, Look, Options, Outcome, Pool, Realm, Refusal, Server, Stop,
    TaskError, TaskState,
};
use std::collections::HashSet;
use std::io::{self, Read};
use std::net::{Shutdown, TcpListener, TcpStream};
use std::num::NonZeroUsize;
use std::panic::{AssertUnwindSafe, catch_unwind, resume_unwind};
use std::sync::atomic::{AtomicBool, AtomicUsize, Ordering};
use std::sync::{Arc, Mutex, mpsc};
use std::thread;
use std::time::{Duration, Instant};

const LONG: Duration = Duration::from_secs(20);

fn millis(count: u64) -> Duration {
    Duration::from_millis(count)
}

/// A pool whose spawner refuses each thread behind so many.
fn refusing(threads: usize) -> Pool {
    let left = AtomicUsize::new(threads);
    Pool::spawned_by(move |name, body| {
        let has_left = left.fetch_update(Ordering::SeqCst, Ordering::SeqCst, |left| left.checked_sub(1)).is_ok();
        if !has_left {
            return Err(io::ErrorKind::OutOfMemory.into());
        }
        thread::Builder::new().name(name).spawn(body).map(drop)
    })
}

/// Panics as it is dropped, but not while another panic goes on.
struct Boom;

impl Drop for Boom {
    fn drop(&mut self) {
        if !thread::panicking() {
            resume_unwind(Box::new("boom"));
        }
    }
}

#[test]
fn a_refused_thread_rejects_its_fork() {
    let mut realm = Realm::new().unwrap().on(&refusing(0));
    let ran = AtomicBool::new(false);
    realm.run(|cx| {
        cx.scope(Joiner::All, |s| {
            let refused = s.fork("first", |_| {
                ran.store(true, Ordering::SeqCst);
                Ok::<_, Refusal>(())
            });
            assert_eq!(refused.map(drop), Err(Refusal::Rejected));
            // What was rejected gave no value, and did not fail.
            assert_eq!(s.join(), Ok(Outcome::All));
        })
        .unwrap();
    });
    assert!(!ran.into_inner());
    let journal = realm.look().journal().unwrap();
    assert!(journal.contains("\nreject 1\n"), "{journal}");
}

#[test]
fn without_a_limit_a_refused_thread_rejects_though_others_live() {
    Realm::new().unwrap().on(&refusing(1)).run(|cx| {
        let (sender, receiver) = mpsc::channel();
        cx.scope(Joiner::Await, |s| {
            // The consumer waits for its producer: queued behind it, the producer would never run.
            let consumer = s.fork("consumer", move |_| receiver.recv()).unwrap();
            let refused = s.fork("producer", move |_| sender.send(1)).map(drop);
            assert_eq!(refused, Err(Refusal::Rejected));
            assert_eq!(s.join(), Ok(Outcome::Done));
            assert!(matches!(s.result(consumer), Err(TaskError::Failed(mpsc::RecvError))));
        })
        .unwrap();
    });
}

#[test]
fn with_a_limit_a_job_queues_while_a_thread_lives() {
    let four = NonZeroUsize::new(4).unwrap();
    let options = Options::new(Joiner::All).threads(four);
    Realm::new().unwrap().on(&refusing(1)).run(|cx| {
        cx.scope(options.clone(), |s| {
            let tasks = s.fork_all("job", (0..20).map(|n| move |_: &Context| Ok::<_, Refusal>(n))).unwrap();
            assert_eq!(s.values(tasks), Ok((0..20).collect()));
        })
        .unwrap();
    });
    Realm::new().unwrap().on(&refusing(0)).run(|cx| {
        cx.scope(options, |s| {
            assert_eq!(s.fork("job", |_| Ok::<_, Refusal>(())).map(drop), Err(Refusal::Rejected));
            assert_eq!(s.join(), Ok(Outcome::All));
        })
        .unwrap();
    });
}

#[test]
fn a_thread_that_came_back_meanwhile_serves() {
    for options in [Options::new(Joiner::All).threads(NonZeroUsize::new(2).unwrap()), Options::new(Joiner::All)] {
        let is_first = AtomicBool::new(true);
        let pool = Pool::spawned_by(move |name, body| {
            if is_first.swap(false, Ordering::SeqCst) {
                return thread::Builder::new().name(name).spawn(body).map(drop);
            }
            // While it is refused, the first thread ends its job and leaves the scope.
            thread::sleep(millis(60));
            Err(io::ErrorKind::OutOfMemory.into())
        });
        Realm::new().unwrap().on(&pool).run(|cx| {
            cx.scope(options, |s| {
                let first = s.fork("first", |cx| Ok::<_, Refusal>(cx.sleep(millis(10)).map(|()| 1)?)).unwrap();
                let second = s.fork("second", |_| Ok(2)).unwrap();
                assert_eq!(s.values(vec![first, second]), Ok(vec![1, 2]));
            })
            .unwrap();
        });
    }
}

#[test]
fn a_refused_job_drops_what_it_holds() {
    let held = Arc::new(());
    Realm::new().unwrap().on(&refusing(0)).run(|cx| {
        cx.scope(Joiner::All, |s| {
            let (its, boom) = (Arc::clone(&held), Boom);
            let refused = s.fork("job", move |_| {
                let _held = (&its, &boom);
                Ok::<_, Refusal>(())
            });
            assert_eq!(refused.map(drop), Err(Refusal::Rejected));
            assert_eq!(Arc::strong_count(&held), 1);
            assert_eq!(s.join(), Ok(Outcome::All));
        })
        .unwrap();
    });
}

/// Ends the test where it hangs, with the tree.
fn watched<R>(look: Look, body: impl FnOnce() -> R) -> R {
    let (sender, receiver) = mpsc::channel::<()>();
    let watch = thread::spawn(move || {
        if receiver.recv_timeout(LONG) == Err(mpsc::RecvTimeoutError::Timeout) {
            eprintln!("it hangs: {}", look.dump().unwrap());
            std::process::abort();
        }
    });
    let value = body();
    drop(sender);
    watch.join().unwrap();
    value
}

/// One thread, and as many as there are jobs.
fn each_way() -> [Options; 2] {
    [Options::new(Joiner::Await).threads(NonZeroUsize::MIN), Options::new(Joiner::Await)]
}

#[test]
fn a_value_whose_drop_panics_fails_its_task_and_hangs_no_join() {
    for options in each_way() {
        let mut realm = Realm::new().unwrap();
        watched(realm.look(), || {
            realm.run(|cx| {
                cx.scope(options, |s| {
                    // Nobody holds the task, so its thread drops the value.
                    drop(s.fork("dropped", |cx| cx.sleep(millis(20)).map(|()| Boom)).unwrap());
                    let after = s.fork("after", |_| Ok::<_, Refusal>(1)).unwrap();
                    assert_eq!(s.join(), Ok(Outcome::Done));
                    assert_eq!(s.value(after), Ok(1));
                })
                .unwrap();
                let journal = cx.look().journal().unwrap();
                assert!(journal.contains("fail 1 panicked\n"), "{journal}");
                cx.all([|_: &Context| Ok::<_, Refusal>(())]).unwrap();
            });
        });
    }
}

#[test]
fn a_capture_whose_drop_panics_fails_its_task() {
    for options in each_way() {
        let mut realm = Realm::new().unwrap();
        watched(realm.look(), || {
            realm.run(|cx| {
                cx.scope(options, |s| {
                    let boom = Boom;
                    let task = s.fork("job", move |_| {
                        let _boom = boom;
                        Ok::<_, Refusal>(())
                    });
                    assert_eq!(s.join(), Ok(Outcome::Done));
                    assert!(
                        matches!(s.result(task.unwrap()), Err(TaskError::Panicked(panic)) if panic.message() == "boom")
                    );
                })
                .unwrap();
            });
        });
    }
}

#[test]
fn a_job_that_never_ran_may_panic_in_its_drop() {
    let mut realm = Realm::new().unwrap();
    watched(realm.look(), || {
        realm.run(|cx| {
            cx.scope(Options::new(Joiner::Await).threads(NonZeroUsize::MIN), |s| {
                s.fork("first", |cx| cx.sleep(LONG)).unwrap();
                let boom = Boom;
                let never = s.fork("never", move |_| {
                    let _boom = &boom;
                    Ok::<_, Refusal>(())
                });
                s.cancel();
                assert!(matches!(s.join(), Ok(Outcome::Cancelled(_))));
                assert!(matches!(s.result(never.unwrap()), Err(TaskError::Cancelled(_))));
            })
            .unwrap();
            // In a scope that is cancelled, the job is dropped at once, by its forker.
            cx.scope(Joiner::Await, |s| {
                s.cancel();
                let boom = Arc::new(());
                let its = Arc::clone(&boom);
                let never = s.fork("never", move |_| Ok::<_, Refusal>(Arc::strong_count(&its))).unwrap();
                assert_eq!(s.state(&never), TaskState::Unavailable);
                assert_eq!(Arc::strong_count(&boom), 1);
                let boom = Boom;
                let never = s.fork("never", move |_| {
                    let _boom = &boom;
                    Ok::<_, Refusal>(())
                });
                assert!(never.is_ok());
                assert!(matches!(s.join(), Ok(Outcome::Cancelled(_))));
            })
            .unwrap();
            assert_eq!(cx.all([|_: &Context| Ok::<_, Refusal>(1)]), Ok(vec![1]));
        });
    });
}

#[test]
fn an_error_and_a_panic_that_nobody_reads_may_panic_in_their_drops() {
    let mut realm = Realm::new().unwrap();
    watched(realm.look(), || {
        realm.run(|cx| {
            for joiner in [Joiner::Await, Joiner::All] {
                cx.scope(joiner, |s| {
                    drop(s.fork("fails", |_| Err::<(), _>(Boom)).unwrap());
                    drop(s.fork("panics", |_| -> Result<(), Boom> { resume_unwind(Box::new(Boom)) }).unwrap());
                    assert!(s.join().is_ok());
                })
                .unwrap();
            }
            assert_eq!(cx.all([|_: &Context| Ok::<_, Refusal>(1)]), Ok(vec![1]));
        });
    });
}

#[test]
fn threads_are_used_again_by_any_scope_and_have_names() {
    let pool = Pool::new().named("svc");
    let names = Mutex::new(HashSet::new());
    for _ in 0..50 {
        Realm::new().unwrap().on(&pool).run(|cx| {
            let note = |_: &Context| {
                names.lock().unwrap().insert(thread::current().name().unwrap().to_owned());
                Ok::<_, Refusal>(())
            };
            cx.all([note]).unwrap();
        });
    }
    let names = names.into_inner().unwrap();
    assert!(names.len() < 10 && names.iter().all(|name| name.starts_with("svc-")), "{names:?}");
    assert!(pool.threads() >= 1 && pool.threads() < 10);
}

#[test]
fn a_thread_that_rests_for_long_ends() {
    let pool = Pool::new().rests(millis(30));
    Realm::new().unwrap().on(&pool).run(|cx| cx.all((0..5).map(|n| move |_: &Context| Ok::<_, Refusal>(n)))).unwrap();
    let began = Instant::now();
    while pool.threads() > 0 && began.elapsed() < LONG {
        thread::sleep(millis(10));
    }
    assert_eq!(pool.threads(), 0);
}

#[test]
fn each_job_that_waits_for_others_gets_a_thread() {
    // A thousand jobs meet: none goes on before the last has come. First on new threads, and then on those that rest.
    const JOBS: usize = 1_000;
    let pool = Pool::new().rests(millis(2_000));
    for _ in 0..2 {
        let (here, meet) = (AtomicUsize::new(0), AtomicBool::new(false));
        let met = Realm::new().unwrap().on(&pool).run(|cx| {
            let job = |cx: &Context| {
                if here.fetch_add(1, Ordering::SeqCst) + 1 == JOBS {
                    meet.store(true, Ordering::SeqCst);
                }
                while !meet.load(Ordering::SeqCst) {
                    cx.sleep(millis(1))?;
                }
                Ok::<_, Refusal>(1)
            };
            cx.fail_after(LONG, |cx| cx.all((0..JOBS).map(|_| job)))
        });
        assert_eq!(met.map(|ones| ones.len()), Ok(JOBS));
    }
}

#[test]
fn a_pool_has_its_most() {
    let pool = Pool::new().most(3);
    Realm::new().unwrap().on(&pool).run(|cx| {
        cx.scope(Joiner::Await, |s| {
            let forked: Vec<_> = (0..5).map(|_| s.fork("job", |cx| cx.sleep(LONG)).map(drop)).collect();
            assert_eq!(forked.iter().filter(|one| one.is_ok()).count(), 3);
            assert_eq!(pool.threads(), 3);
            assert!(s.cancel());
            assert_eq!(s.join(), Ok(Outcome::Cancelled(s.id())));
        })
        .unwrap();
        // The jobs of the closed scope have ended, and their threads serve the next one.
        assert_eq!(cx.map_at_most(9, 0..100, |_, n| Ok::<_, Refusal>(n)).unwrap().len(), 100);
    });
    assert_eq!(pool.threads(), 3);
}

/// Whether eight jobs meet, each on a thread of the pool: none goes on before the last has come, or one was refused.
fn eight_meet(pool: &Pool) -> bool {
    let (here, is_refused) = (AtomicUsize::new(0), AtomicBool::new(false));
    Realm::new().unwrap().on(pool).run(|cx| {
        let meet = |cx: &Context| {
            here.fetch_add(1, Ordering::SeqCst);
            while here.load(Ordering::SeqCst) < 8 && !is_refused.load(Ordering::SeqCst) {
                cx.sleep(Duration::from_micros(100))?;
            }
            Ok::<_, Refusal>(())
        };
        let forked = cx.try_scope(Joiner::All, |s| {
            let forked = s.fork_all("meets", [meet; 8]);
            is_refused.store(forked.is_err(), Ordering::SeqCst);
            s.join_ok()?;
            forked.map(drop)
        });
        forked.is_ok()
    })
}

#[test]
fn a_scope_that_needs_no_thread_keeps_none() {
    let pool = Pool::new().most(8);
    assert!(eight_meet(&pool));
    for _ in 0..50 {
        Realm::new().unwrap().on(&pool).run(|cx| {
            cx.try_scope(Joiner::Await, |s| {
                // Short jobs, which few threads do, though there were eight for them.
                let mut left: Vec<_> =
                    (0..40).filter_map(|n| s.fork("job", move |_| Ok::<_, Refusal>(n)).ok()).collect();
                while s.next_done(&mut left).is_some() {}
                // The scope is still open, and another one gets all threads.
                let began = Instant::now();
                while !eight_meet(&pool) {
                    assert!(began.elapsed() < LONG);
                }
                s.join_ok()
            })
            .unwrap();
        });
    }
    assert_eq!(pool.threads(), 8);
}

#[test]
fn jobs_have_ended_when_the_block_is_left() {
    // Each job writes to the stack of its block until the last moment.
    for round in 0..200 {
        let mut left = [0u64; 8];
        let outcome = catch_unwind(AssertUnwindSafe(|| {
            Realm::new().unwrap().run(|cx| {
                cx.scope(Joiner::Any, |s| {
                    for place in &mut left {
                        s.fork("writer", move |cx| {
                            while !cx.is_cancelled() {
                                *place += 1;
                                thread::yield_now();
                            }
                            *place = u64::MAX;
                            Ok::<_, Refusal>(())
                        })
                        .unwrap();
                    }
                    if round % 2 == 0 {
                        resume_unwind(Box::new("of the body"));
                    }
                })
                .map_err(|error| error.refusal())
            })
        }));
        assert_eq!(outcome.is_err(), round % 2 == 0);
        let seen = left;
        thread::yield_now();
        assert_eq!(seen, left);
        // A job that never began wrote nothing.
        assert!(left.iter().all(|place| [0, u64::MAX].contains(place)), "{left:?}");
    }
}

#[test]
fn a_hook_ends_a_blocked_read() {
    let listener = TcpListener::bind("127.0.0.1:0").unwrap();
    let at = listener.local_addr().unwrap();
    let began = Instant::now();
    Realm::new().unwrap().run(|cx| {
        cx.scope(Options::new(Joiner::Await).within(millis(100)), |s| {
            let read = |cx: &Context| {
                let mut stream = TcpStream::connect(at)?;
                stream.set_read_timeout(Some(LONG))?;
                let other = stream.try_clone()?;
                let _hook = cx.on_cancel(move || drop(other.shutdown(Shutdown::Both)));
                stream.read(&mut [0; 10])
            };
            let _tasks = s.fork_all("read", [read; 8]).unwrap();
            assert_eq!(s.join(), Ok(Outcome::Timeout));
        })
        .unwrap();
    });
    assert!(began.elapsed() >= millis(100) && began.elapsed() < LONG / 2);
}

#[test]
fn a_hook_is_called_once_or_never() {
    let calls = Arc::new(AtomicUsize::new(0));
    let call = |by: usize| {
        let calls = Arc::clone(&calls);
        move || {
            calls.fetch_add(by, Ordering::SeqCst);
        }
    };
    Realm::new().unwrap().run(|cx| {
        // Nothing around cancels main.
        drop(cx.on_cancel(call(1_000_000)));
        cx.scope(Joiner::All, |s| {
            drop(cx.on_cancel(call(100_000)));
            let _kept = cx.on_cancel(call(1));
            let _panics = cx.on_cancel(|| resume_unwind(Box::new(Boom)));
            let _last = cx.on_cancel(call(10));
            // The hook of a scope inside hears of a cancel around.
            let inside = cx.scope(Joiner::All, |_| {
                let _hook = cx.on_cancel(call(100));
                assert!(s.cancel());
                cx.on_cancel(call(1_000))
            });
            assert_eq!(calls.load(Ordering::SeqCst), 1_111);
            drop(inside);
            assert!(!s.cancel());
            drop(cx.on_cancel(call(10_000)));
        })
        .unwrap();
    });
    assert_eq!(calls.load(Ordering::SeqCst), 11_111);
    // A shield keeps the cancel from the hook, but its own close cancels it.
    Realm::new().unwrap().run(|cx| {
        cx.scope(Joiner::All, |s| {
            cx.scope(Options::new(Joiner::All).shield(), |_| {
                let _hook = cx.on_cancel(call(1));
                s.cancel();
                assert_eq!(calls.load(Ordering::SeqCst), 11_111);
            })
            .unwrap();
        })
        .unwrap();
    });
}

#[test]
fn the_drop_of_a_hook_waits_for_its_call() {
    let [began, ended] = [(); 2].map(|()| Arc::new(AtomicBool::new(false)));
    Realm::new().unwrap().run(|cx| {
        cx.scope(Joiner::All, |s| {
            let (begins, ends) = (Arc::clone(&began), Arc::clone(&ended));
            let hook = cx.on_cancel(move || {
                begins.store(true, Ordering::SeqCst);
                thread::sleep(millis(50));
                ends.store(true, Ordering::SeqCst);
            });
            let canceller = s.canceller();
            let other = thread::spawn(move || canceller.cancel());
            while !began.load(Ordering::SeqCst) {
                thread::yield_now();
            }
            drop(hook);
            assert!(ended.load(Ordering::SeqCst));
            assert!(other.join().unwrap());
        })
        .unwrap();
    });
}

#[test]
fn a_hook_may_cancel_and_look() {
    Realm::new().unwrap().run(|cx| {
        let other = Canceller::new();
        cx.scope(Options::new(Joiner::All).cancelled_by(&other), |_| {
            cx.scope(Joiner::All, |s| {
                let (canceller, look, other) = (s.canceller(), cx.look(), other.clone());
                let _hook = cx.on_cancel(move || {
                    assert!(!canceller.cancel());
                    assert!(look.dump().unwrap().contains("\"cause\""));
                    assert!(other.cancel());
                });
                assert!(s.cancel());
            })
            .unwrap();
            assert!(cx.is_cancelled());
        })
        .unwrap();
    });
}

#[test]
fn an_observer_hears_what_happens() {
    let heard = Arc::new(Mutex::new(Vec::new()));
    let hears = Arc::clone(&heard);
    let mut realm = Realm::new().unwrap().on(&refusing(2)).observed(move |happening: &Happening| {
        hears.lock().unwrap().push(format!("{happening:?}"));
        // A panic of the observer ends nothing.
        resume_unwind(Box::new("of the observer"));
    });
    realm.run(|cx| {
        cx.scope(Options::new(Joiner::All).named("Page"), |s| {
            let sleeps = s.fork("getUser", |cx| cx.sleep(LONG));
            s.fork("fails", |_| Err::<(), _>(Refusal::Taken)).unwrap();
            assert!(matches!(s.join(), Ok(Outcome::Failed(_))));
            drop(sleeps);
        })
        .unwrap();
    });
    let heard = heard.lock().unwrap();
    let wanted = [
        "Opened { scope: ScopeId(1), name: Some(\"Page\") }",
        "Forked { scope: ScopeId(1), task: TaskId(1), name: \"getUser\", may_run: true }",
        "Started { task: TaskId(2) }",
        "Ended { task: TaskId(2), end: Failed }",
        "Cancelled { scope: ScopeId(1), cause: Joiner(ScopeId(1)) }",
        "Closed { scope: ScopeId(1) }",
    ];
    for line in wanted {
        assert!(heard.iter().any(|one| one == line), "{line}: {heard:?}");
    }
    assert_eq!(heard.last().map(String::as_str), Some(wanted[5]));
}

#[test]
fn an_observer_hears_refusals_and_panics() {
    let heard = Arc::new(Mutex::new(Vec::new()));
    let hears = Arc::clone(&heard);
    let observer = move |happening: &Happening| hears.lock().unwrap().push(happening.clone());
    Realm::new().unwrap().on(&refusing(1)).observed(observer).run(|cx| {
        cx.scope(Joiner::Await, |s| {
            let waits = |cx: &Context| -> Result<(), Refusal> {
                let _ = cx.sleep(millis(30));
                resume_unwind(Box::new("on purpose"))
            };
            drop(s.fork("panics", waits).unwrap());
            assert_eq!(s.fork("refused", |_| Ok::<_, Refusal>(())).map(drop), Err(Refusal::Rejected));
            assert_eq!(s.join(), Ok(Outcome::Done));
        })
        .unwrap();
    });
    let heard = heard.lock().unwrap();
    let refused = Happening::Refused { refusal: Refusal::Rejected };
    assert_eq!(heard.iter().filter(|one| **one == refused).count(), 1);
    let ends: Vec<_> =
        heard.iter().filter_map(|one| if let Happening::Ended { end, .. } = one { Some(*end) } else { None }).collect();
    assert_eq!(ends, [Ending::Rejected, Ending::Panicked]);
}

#[test]
fn what_any_thread_may_hold_can_be_sent() {
    fn is_shared<T: Send + Sync + 'static>() {}
    is_shared::<Pool>();
    is_shared::<Server>();
    is_shared::<Stop>();
    is_shared::<Canceller>();
    is_shared::<balkreyn::Hook>();
    is_shared::<balkreyn::Limiter>();
    is_shared::<balkreyn::Sender<Vec<u8>>>();
    is_shared::<balkreyn::Receiver<Vec<u8>>>();
    is_shared::<balkreyn::Local<String>>();
}
