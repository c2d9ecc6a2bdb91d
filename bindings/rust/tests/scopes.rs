//! Scopes, joiners, results and bindings.

use balkreyn::{
    Canceller, Context, Joiner, Limits, Look, Options, Outcome, Realm, Refusal, Scope, ScopeError, Task, TaskError,
    Value,
};
use std::collections::HashSet;
use std::num::NonZeroUsize;
use std::sync::Mutex;
use std::time::{Duration, Instant};

const LONG: Duration = Duration::from_secs(20);

fn millis(count: u64) -> Duration {
    Duration::from_millis(count)
}

/// Forks a job that gives the number at once.
fn number<'scope>(s: &Scope<'scope, '_>, number: u32) -> Task<'scope, u32, Refusal> {
    s.fork("number", move |_: &Context| Ok(number)).unwrap()
}

/// Whether the book told no result.
fn tells_none<T, E>(result: &Result<T, TaskError<E>>) -> bool {
    matches!(result, Err(TaskError::Cancelled(_)))
}

#[test]
fn results_come_in_fork_order() {
    let mut realm = Realm::new().unwrap();
    let squares = realm.run(|cx| {
        cx.scope(Joiner::All, |s| {
            let jobs = (0..20u64).map(|index| {
                s.fork("square", move |cx: &Context| cx.sleep(millis(20 - index)).map(|()| index * index)).unwrap()
            });
            let jobs: Vec<_> = jobs.collect();
            assert_eq!(s.join(), Ok(Outcome::All));
            s.results(jobs).into_iter().map(Result::unwrap).collect::<Vec<_>>()
        })
    });
    assert_eq!(squares.unwrap(), (0..20).map(|index| index * index).collect::<Vec<_>>());
}

#[test]
fn jobs_borrow_from_the_stack() {
    let words = [String::from("one"), String::from("three")];
    let mut lengths = [0; 2];
    Realm::new().unwrap().run(|cx| {
        cx.scope(Joiner::AwaitOk, |s| {
            for (word, length) in words.iter().zip(&mut lengths) {
                s.fork("length", move |_: &Context| -> Result<(), Refusal> {
                    *length = word.len();
                    Ok(())
                })
                .unwrap();
            }
            assert_eq!(s.join(), Ok(Outcome::Done));
        })
        .unwrap();
    });
    assert_eq!(lengths, [3, 5]);
    assert_eq!(words.len(), 2);
}

#[test]
fn the_first_failure_cancels_the_rest() {
    let began = Instant::now();
    Realm::new().unwrap().run(|cx| {
        cx.scope(Joiner::All, |s| {
            let slow = s.fork("slow", |cx: &Context| cx.sleep(LONG).map_err(|_| "cut")).unwrap();
            let failing = s.fork("failing", |_: &Context| Err::<(), _>("broken")).unwrap();
            assert_eq!(s.join(), Ok(Outcome::Failed(failing.id())));
            assert!(matches!(s.result(failing), Err(TaskError::Failed("broken"))));
            assert!(tells_none(&s.result(slow)));
            assert!(cx.is_cancelled());
        })
        .unwrap();
        assert!(!cx.is_cancelled());
    });
    assert!(began.elapsed() < LONG);
}

#[test]
fn a_late_result_counts_for_nothing() {
    Realm::new().unwrap().run(|cx| {
        cx.scope(Joiner::Any, |s| {
            let late = s
                .fork("late", |cx: &Context| {
                    while !cx.is_cancelled() {
                        std::thread::yield_now();
                    }
                    Ok::<_, Refusal>("late")
                })
                .unwrap();
            let first = s.fork("first", |_: &Context| Ok::<_, Refusal>("first")).unwrap();
            let winner = first.id();
            assert_eq!(s.join(), Ok(Outcome::Any(winner)));
            // Both have ended once the late one has; the book tells the first alone.
            std::thread::sleep(millis(30));
            assert!(tells_none(&s.result(late)));
            assert_eq!(s.result_of(winner, [first]).unwrap(), "first");
        })
        .unwrap();
    });
}

#[test]
fn a_result_is_read_after_the_join_alone() {
    Realm::new().unwrap().run(|cx| {
        cx.scope(Joiner::All, |s| {
            let early = number(s, 1);
            assert!(matches!(s.result(early), Err(TaskError::Refused(Refusal::NotJoined))));
            assert_eq!(s.join(), Ok(Outcome::All));
            assert_eq!(s.join(), Err(Refusal::AlreadyJoined));
            let refused = s.fork("late", |_: &Context| Ok::<_, Refusal>(()));
            assert_eq!(refused.map(|task| task.id()), Err(Refusal::AlreadyJoined));
        })
        .unwrap();
    });
}

#[test]
fn joiners_answer_by_their_rules() {
    Realm::new().unwrap().run(|cx| {
        let failing = |_: &Context| Err::<u32, _>("broken");
        cx.scope(Joiner::Any, |s| assert_eq!(s.join(), Ok(Outcome::Empty))).unwrap();
        cx.scope(Joiner::Await, |s| {
            s.fork("failing", failing).unwrap();
            let kept = number(s, 7);
            assert_eq!(s.join(), Ok(Outcome::Done));
            assert_eq!(s.result(kept).unwrap(), 7);
        })
        .unwrap();
        cx.scope(Joiner::UntilFailed(2), |s| {
            let slow = s.fork("slow", |cx: &Context| cx.sleep(LONG)).unwrap();
            s.fork("failing", failing).unwrap();
            s.fork("failing", failing).unwrap();
            assert_eq!(s.join(), Ok(Outcome::List));
            assert!(tells_none(&s.result(slow)));
        })
        .unwrap();
        cx.scope(Joiner::UntilOk(3), |s| {
            let jobs: Vec<_> = (0..3).map(|index| number(s, index)).collect();
            s.fork("slow", |cx: &Context| cx.sleep(LONG)).unwrap();
            assert_eq!(s.join(), Ok(Outcome::List));
            assert_eq!(s.results(jobs).into_iter().map(Result::unwrap).sum::<u32>(), 3);
        })
        .unwrap();
        cx.scope(Joiner::UntilSum(10), |s| {
            for bid in [4i64, 6] {
                s.fork_measured("bid", |bid| *bid, move |_: &Context| Ok::<_, Refusal>(bid)).unwrap();
            }
            s.fork("slow", |cx: &Context| cx.sleep(LONG)).unwrap();
            assert_eq!(s.join(), Ok(Outcome::List));
        })
        .unwrap();
    });
}

#[test]
fn a_panic_is_the_failure_of_its_job() {
    let mut realm = Realm::new().unwrap();
    realm.run(|cx| {
        cx.scope(Joiner::All, |s| {
            let task = s.fork("job", |_: &Context| -> Result<(), Refusal> { panic!("on purpose {}", 1) }).unwrap();
            assert_eq!(s.join(), Ok(Outcome::Failed(task.id())));
            let journal = cx.look().journal().unwrap();
            assert!(journal.contains("fail 1 panicked\n"), "{journal}");
            match s.result(task) {
                Err(TaskError::Panicked(panic)) => assert_eq!(panic.message(), "on purpose 1"),
                other => panic!("{other:?}"),
            }
        })
        .unwrap();
    });
}

#[test]
fn a_panic_of_the_body_goes_on_once_the_scope_is_closed() {
    let mut realm = Realm::new().unwrap();
    let look = realm.look();
    let panic = std::panic::catch_unwind(std::panic::AssertUnwindSafe(|| {
        realm.run(|cx| {
            cx.scope(Joiner::All, |s| {
                s.fork("slow", |cx: &Context| cx.sleep(LONG)).unwrap();
                panic!("of the body")
            })
            .unwrap_or(())
        })
    }));
    assert_eq!(panic.unwrap_err().downcast_ref::<&str>(), Some(&"of the body"));
    let journal = look.journal().unwrap();
    assert_eq!(journal.lines().rev().nth(1), Some("closed 0 1"), "{journal}");
    assert_eq!(realm.run(|cx| cx.scope(Joiner::All, |s| s.join())).unwrap(), Ok(Outcome::All));
}

#[test]
fn a_forgotten_join_is_told() {
    Realm::new().unwrap().run(|cx| {
        let forgotten = cx.scope(Joiner::All, |s| {
            number(s, 1);
            "kept"
        });
        assert!(matches!(forgotten, Err(ScopeError::NotJoined("kept"))));
        assert_eq!(cx.scope(Joiner::All, |_| "nothing was forked").unwrap(), "nothing was forked");
        let refused = cx.try_scope(Joiner::All, |s| s.fork("job", |_: &Context| Ok::<_, Refusal>(())).map(|_| ()));
        assert_eq!(refused, Err(Refusal::NotJoined));
    });
}

#[test]
fn a_body_that_returns_early_closes_its_scope() {
    Realm::new().unwrap().run(|cx| {
        let refused = cx.try_scope(Joiner::All, |s| {
            s.fork("slow", |cx: &Context| cx.sleep(LONG))?;
            cx.bind("No Name", 1, |_| ())?;
            s.join()
        });
        assert_eq!(refused, Err(Refusal::BadName));
        let journal = cx.look().journal().unwrap();
        assert_eq!(journal.lines().rev().nth(1), Some("closed 0 1"), "{journal}");
    });
}

#[test]
fn bindings_are_inherited_and_taken_away() {
    Realm::new().unwrap().run(|cx| {
        cx.bind("tenant", "acme", |cx| {
            assert_eq!(cx.get("tenant"), Some(Value::from("acme")));
            cx.scope(Joiner::AwaitOk, |s| {
                let seen = s
                    .fork("job", |cx: &Context| {
                        let inherited = cx.get("tenant");
                        let own = cx.bind("tenant", 7, |cx| cx.get("tenant"))?;
                        Ok::<_, Refusal>((inherited, own, cx.get("tenant")))
                    })
                    .unwrap();
                let refused = cx.bind("depth", 1, |_| s.fork("job", |_: &Context| Ok::<_, Refusal>(())).map(|_| ()));
                assert_eq!(refused, Ok(Err(Refusal::Structure)));
                assert_eq!(s.join(), Ok(Outcome::Done));
                let acme = Some(Value::from("acme"));
                assert_eq!(s.result(seen).unwrap(), (acme.clone(), Some(Value::from(7)), acme));
            })
            .unwrap();
        })
        .unwrap();
        assert_eq!(cx.get("tenant"), None);
        assert_eq!(cx.bind("No Name", 1, |_| ()), Err(Refusal::BadName));
        assert_eq!(cx.bind("name", "No Name", |_| ()), Err(Refusal::BadName));
    });
}

#[test]
fn ten_thousand_scopes_fit_in_one_realm() {
    let mut realm = Realm::new().unwrap();
    let total = realm.run(|cx| {
        (0..10_000u32)
            .map(|index| {
                cx.scope(Joiner::All, |s| {
                    let task = (index % 100 == 0).then(|| number(s, 1));
                    assert_eq!(s.join(), Ok(Outcome::All));
                    task.map_or(0, |task| s.result(task).unwrap())
                })
                .unwrap()
            })
            .sum::<u32>()
    });
    assert_eq!(total, 100);
}

#[test]
fn limits_are_those_of_a_request() {
    let mut realm = Realm::with_limits(Limits { scopes: 2, tasks: 1, load: 100 }).unwrap();
    assert!(Realm::with_limits(Limits { scopes: 0, tasks: 1, load: 1 }).is_err());
    realm.run(|cx| {
        for _ in 0..5 {
            cx.scope(Joiner::All, |s| {
                number(s, 1);
                let refused = s.fork("second", |_: &Context| Ok::<_, Refusal>(()));
                assert_eq!(refused.map(|task| task.id()), Err(Refusal::TooMany));
                assert_eq!(s.join(), Ok(Outcome::All));
                cx.scope(Joiner::All, |_| ()).unwrap();
                assert_eq!(cx.scope(Joiner::All, |_| ()).map_err(|error| error.refusal()), Err(Refusal::TooMany));
            })
            .unwrap();
        }
        for _ in 0..200 {
            cx.bind("key", 1, |_| ()).unwrap();
        }
        // A binding that the load's limit kept is gone before the next request.
        cx.scope(Joiner::All, |_| {
            let bound = (0..200).take_while(|_| cx.bind("kept", 1, |_| ()).is_ok()).count();
            assert!(bound > 0 && bound < 200);
            while cx.bind("kept", 1, |_| ()).is_ok() {}
        })
        .unwrap();
        cx.scope(Joiner::All, |_| assert_eq!(cx.get("kept"), None)).unwrap();
        assert_eq!(cx.get("kept"), None);
    });
}

#[test]
fn scopes_lie_sixteen_deep_at_the_most() {
    fn nest(cx: &Context, depth: u32) -> u32 {
        match cx.scope(Joiner::All, |_| nest(cx, depth + 1)) {
            Ok(deepest) => deepest,
            Err(error) => {
                assert_eq!(error.refusal(), Refusal::TooDeep);
                depth
            }
        }
    }
    assert_eq!(Realm::new().unwrap().run(|cx| nest(cx, 0)), 16);
}

#[test]
fn a_look_from_outside_shows_the_tree() {
    let mut realm = Realm::new().unwrap();
    let look = realm.look();
    realm.run(|cx| {
        cx.scope(Options::new(Joiner::Any).within(LONG).move_on(), |s| {
            s.fork("seen", |cx: &Context| cx.sleep(LONG)).unwrap();
            let tree = std::thread::spawn(move || look.dump().unwrap()).join().unwrap();
            assert!(tree.contains("\"name\":\"seen\"") && tree.contains("\"joiner\":\"any\""), "{tree}");
            s.cancel();
            assert!(matches!(s.join(), Ok(Outcome::Cancelled(_))));
        })
        .unwrap();
    });
    assert!(realm.look().journal().unwrap().contains("\nopen 0 any deadline="));
}

#[test]
fn threads_are_used_again_up_to_their_limit() {
    let names = Mutex::new(HashSet::new());
    let note = |cx: &Context| {
        names.lock().unwrap().insert(std::thread::current().id());
        cx.sleep(millis(1))
    };
    Realm::new().unwrap().run(|cx| {
        let two = NonZeroUsize::new(2).unwrap();
        cx.scope(Options::new(Joiner::All).threads(two), |s| {
            for _ in 0..10 {
                s.fork("noting", note).unwrap();
            }
            assert_eq!(s.join(), Ok(Outcome::All));
        })
        .unwrap();
        assert!(names.lock().unwrap().len() <= 2);
        cx.scope(Options::new(Joiner::Any).threads(NonZeroUsize::MIN), |s| {
            let first = number(s, 1).id();
            let queued = s.fork("queued", |cx: &Context| cx.sleep(LONG)).unwrap();
            s.fork("never", |_: &Context| -> Result<(), Refusal> { panic!("it ran") }).unwrap();
            assert_eq!(s.join(), Ok(Outcome::Any(first)));
            assert!(tells_none(&s.result(queued)));
        })
        .unwrap();
    });
}

#[test]
fn what_any_thread_may_hold_can_be_sent() {
    fn is_shared<T: Send + Sync>() {}
    is_shared::<Realm>();
    is_shared::<Look>();
    is_shared::<Canceller>();
}

#[test]
fn notes_are_a_script_with_its_answers() {
    let mut realm = Realm::new().unwrap().noted();
    realm.run(|cx| {
        for _ in 0..2 {
            cx.bind("tenant", "acme", |cx| {
                cx.scope(Options::new(Joiner::UntilOk(2)).shield(), |s| {
                    let seven = s.fork_measured("seven", |value| *value, |_: &Context| Ok::<_, Refusal>(7)).unwrap();
                    assert_eq!(s.join(), Ok(Outcome::List));
                    assert_eq!(s.join(), Err(Refusal::AlreadyJoined));
                    assert_eq!(s.result(seven).unwrap(), 7);
                    assert_eq!(cx.get("tenant"), Some(Value::Text("acme".into())));
                    assert_eq!((s.cancel(), cx.is_cancelled(), cx.is_cancelled()), (true, true, true));
                })
                .unwrap();
            })
            .unwrap();
        }
    });
    let notes = realm.look().notes().unwrap();
    let asked = notes.journal.lines().filter(|line| !line.starts_with("# at "));
    let lines: Vec<_> = asked.zip(notes.answers.lines()).map(|(line, told)| format!("{line}: {told}")).collect();
    let second = &lines[lines.len() / 2..];
    let expected = [
        "bind 0 tenant acme: bound",
        "retire 0: retired 1 1",
        "open 0 until:ok:2 shield: scope 2",
        "fork 0 2 seven: task 2 thread",
        "start 2: started",
        "ok 2 7: finished",
        "join 0 2: outcome list 2=ok:7",
        "result 0 2: value 7",
        "get 0 tenant: value acme",
        "cancel 2: cancelled",
        "cause 2: cancelled 2 call",
        "cause 2: cancelled 2 call",
        "close 0 2: closing",
        "closed 0 2: closed",
        "unbind 0: unbound",
    ];
    assert_eq!(second, expected);
    assert!(Realm::new().unwrap().look().notes().is_none());
}

#[test]
fn the_first_program_of_the_page_is_the_example() {
    let page = include_str!("../README.md");
    let program = page.split("```rust\n").nth(1).and_then(|behind| behind.split("```").next());
    assert_eq!(program, Some(include_str!("../examples/page.rs")));
}

#[test]
fn services_are_short() {
    let services = [
        (include_str!("../examples/fan_out.rs"), 72),
        (include_str!("../examples/map.rs"), 33),
        (include_str!("../examples/supervisor.rs"), 66),
    ];
    for (text, most) in services {
        let code = text.lines().map(str::trim).filter(|line| !line.is_empty() && !line.starts_with("//"));
        assert!(code.count() <= most);
    }
}

#[test]
fn each_public_type_has_an_example_that_runs() {
    let folder = concat!(env!("CARGO_MANIFEST_DIR"), "/src");
    // What other hosts are built from is on no page.
    let hidden = include_str!("../src/lib.rs").split_once("pub mod host {").unwrap().1;
    let hidden = hidden[..hidden.find("\n}").unwrap()].split(|one: char| !one.is_alphanumeric()).collect::<Vec<_>>();
    let mut types = 0;
    for entry in std::fs::read_dir(folder).unwrap() {
        let text = std::fs::read_to_string(entry.unwrap().path()).unwrap();
        let lines: Vec<_> = text.lines().collect();
        for (at, line) in lines.iter().enumerate() {
            if !["pub struct ", "pub enum ", "pub trait ", "pub type "].iter().any(|word| line.starts_with(word)) {
                continue;
            }
            let name = line.split(' ').nth(2).unwrap().split(|one: char| !one.is_alphanumeric()).next();
            if hidden.contains(&name.unwrap()) {
                continue;
            }
            types += 1;
            let above = lines[..at].iter().rev().take_while(|line| line.starts_with("///") || line.starts_with("#["));
            assert!(above.into_iter().any(|line| *line == "/// ```"), "{line} has no example that runs");
        }
    }
    assert!(types > 25, "{types}");
}
