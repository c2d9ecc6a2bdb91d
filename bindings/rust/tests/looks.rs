//! Looks at a realm from outside: names, times, deadlines that are due.

use balkreyn::{Context, Joiner, Options, Outcome, Realm, Refusal};
use std::thread;
use std::time::Duration;

const LONG: Duration = Duration::from_secs(20);

fn millis(count: u64) -> Duration {
    Duration::from_millis(count)
}

/// The number behind `"moment":` of a dump.
fn moment_of(dump: &str) -> u64 {
    let behind = dump.strip_prefix("{\"moment\":").unwrap();
    behind[..behind.find(',').unwrap()].parse().unwrap()
}

#[test]
fn a_look_passes_the_deadlines_that_are_due() {
    Realm::new().unwrap().run(|cx| {
        let look = cx.look();
        cx.scope(Options::new(Joiner::Await).within(millis(30)), |s| {
            let early = look.dump().unwrap();
            assert!(early.contains("\"cause\":null"), "{early}");
            thread::sleep(millis(60));
            // Nobody waits, and nobody asks.
            let late = look.dump().unwrap();
            assert!(late.contains("\"kind\":\"deadline\""), "{late}");
            assert!(moment_of(&late) >= 60 && moment_of(&late) >= moment_of(&early) + 60, "{early} {late}");
            assert!(look.journal().unwrap().contains("\ntick "));
            assert_eq!(s.join(), Ok(Outcome::Timeout));
        })
        .unwrap();
    });
}

#[test]
fn a_moment_is_the_clocks() {
    let mut realm = Realm::new().unwrap();
    let look = realm.look();
    realm.run(|cx| {
        cx.scope(Joiner::Await, |_| {
            let first = moment_of(&look.dump().unwrap());
            thread::sleep(millis(50));
            let second = moment_of(&look.dump().unwrap());
            assert!((first + 50..first + 20_000).contains(&second), "{first} {second}");
        })
        .unwrap();
    });
}

#[test]
fn a_journal_has_its_times() {
    Realm::new().unwrap().run(|cx| {
        cx.bind("kept", 1, |cx| {
            assert!(matches!(cx.move_on_after(millis(5), |cx| Ok::<_, Refusal>(cx.sleep(LONG)?)), Ok(None)));
            thread::sleep(millis(20));
            // The history was discarded: what main has bound stands first, without a time.
            cx.scope(Options::new(Joiner::Await).named("A page"), |s| {
                thread::sleep(millis(30));
                s.fork("getUser", |_| Ok::<_, Refusal>(())).unwrap();
                assert_eq!(s.join(), Ok(Outcome::Done));
                let journal = cx.look().journal().unwrap();
                let lines: Vec<_> = journal.lines().collect();
                let at = |line: &str| {
                    let place =
                        lines.iter().position(|one| *one == line).unwrap_or_else(|| panic!("{line}: {journal}"));
                    let time = lines[..place].iter().rev().find_map(|one| one.strip_prefix("# at "));
                    time.map(|time| time.parse::<u64>().unwrap())
                };
                assert_eq!(at("bind 0 kept 1"), None);
                let (opened, forked) = (at("open 0 await").unwrap(), at("fork 0 1 getuser").unwrap());
                assert!(opened >= 20 && forked >= opened + 30, "{journal}");
                let (joined, looked) = (at("join 0 1").unwrap(), lines.last().unwrap().strip_prefix("# at ").unwrap());
                assert!(forked <= joined && joined <= looked.parse().unwrap(), "{journal}");
                let labels = ["open 0 await\n# scope 1 is A page\n", "fork 0 1 getuser\n# task 1 is getUser\n"];
                assert!(labels.iter().all(|label| journal.contains(label)), "{journal}");
            })
            .unwrap();
        })
        .unwrap();
    });
}

#[test]
fn names_are_any_text() {
    Realm::new().unwrap().run(|cx| {
        cx.scope(Joiner::Await, |s| {
            let names = ["getUser", "svc::handler", "", "Größe \"7\"\n", "fits.all-1", &"long ".repeat(60)];
            let sleep = |cx: &Context| cx.sleep(LONG);
            names.iter().for_each(|name| drop(s.fork(name, sleep).unwrap()));
            let dump = cx.look().dump().unwrap();
            for text in [
                "\"label\":\"getUser\",\"name\":\"getuser\"",
                "\"label\":\"svc::handler\",\"name\":\"svc--handler\"",
                "\"label\":\"\",\"name\":\"x\"",
                "\"label\":\"Größe \\\"7\\\"\\u000a\"",
                "\"inner\":null,\"name\":\"fits.all-1\"",
            ] {
                assert!(dump.contains(text), "{text}: {dump}");
            }
            // A line of a script has at most 200 bytes.
            assert!(cx.look().journal().unwrap().lines().all(|line| line.len() <= 200));
            s.cancel();
            assert_eq!(s.join(), Ok(Outcome::Cancelled(s.id())));
        })
        .unwrap();
        // The labels go with the history.
        cx.scope(Joiner::Await, |s| {
            s.fork("plain", |_| Ok::<_, Refusal>(())).unwrap();
            assert_eq!(s.join(), Ok(Outcome::Done));
            assert!(!cx.look().dump().unwrap().contains("label"));
            assert!(!cx.look().journal().unwrap().contains("# task"));
        })
        .unwrap();
    });
}

#[test]
fn a_look_finds_the_realms_inside() {
    Realm::new().unwrap().run(|cx| {
        cx.scope(Joiner::Await, |s| {
            let inside = cx.in_own_realm(|inner| {
                inner.try_scope(Options::new(Joiner::Await).named("a round"), |_| {
                    let looks = cx.look().inside();
                    assert_eq!(looks.len(), 1);
                    assert!(looks[0].dump()?.contains("\"label\":\"a round\"") && looks[0].inside().is_empty());
                    Ok::<_, Refusal>(())
                })
            });
            assert_eq!(inside, Ok(()));
            assert!(cx.look().inside().is_empty());
            s.join_ok()
        })
        .unwrap()
        .unwrap();
    });
}
