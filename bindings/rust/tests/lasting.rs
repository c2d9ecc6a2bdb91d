//! What lasts needs no more memory. This measures the process, so it is a program of its own.

use balkreyn::{Backoff, Cancelled, Context, Joiner, Realm, Refusal, Server};
use std::time::Duration;

/// How many rounds what lasts is tried for: `BALKREYN_ROUNDS` says how many instead.
fn rounds() -> u64 {
    std::env::var("BALKREYN_ROUNDS").ok().and_then(|text| text.parse().ok()).unwrap_or(10_000)
}

/// The memory that the process holds now, in kilobytes.
fn memory() -> u64 {
    let text = std::fs::read_to_string("/proc/self/statm").unwrap_or_default();
    text.split(' ').nth(1).and_then(|pages| pages.parse::<u64>().ok()).unwrap_or(0) * 4
}

/// Does so many rounds: the memory must not grow from the first tenth on.
fn lasts(mut round: impl FnMut(u64)) {
    let rounds = rounds();
    let mut before = 0;
    for number in 0..rounds {
        round(number);
        if number == rounds / 10 {
            before = memory();
        }
    }
    let after = memory();
    println!("from {before} kB to {after} kB in {rounds} rounds");
    assert!(after <= before + 1_500, "from {before} kB to {after} kB in {rounds} rounds");
}

#[test]
fn a_supervisor_and_a_server_last() {
    // Both in one test, as they measure the process.
    Realm::new().unwrap().run(|cx| {
        cx.try_scope(Joiner::Await, |s| {
            s.fork("supervisor", |cx| {
                lasts(|number| {
                    let failed = cx.retry(Backoff::new(0, Duration::from_millis(1)), |cx, _| {
                        cx.race([move |cx: &Context| {
                            cx.checkpoint()?;
                            if number % 2 == 0 { Err(Refusal::Taken) } else { Ok(number) }
                        }])
                    });
                    assert_eq!(failed.is_ok(), number % 2 == 1);
                });
                Ok::<_, Cancelled>(())
            })?;
            s.join_ok()
        })
        .unwrap();
    });
    let server = Server::new().unwrap();
    lasts(|number| {
        let answer = server.request(|cx| cx.all([move |_: &Context| Ok::<_, Refusal>(number)]));
        assert_eq!(answer, Some(Ok(vec![number])));
    });
}
