//! What scopes cost beside `std::thread::scope`, which decides nothing: `cargo bench --offline`. Each row has medians of
//! runs that alternate with those of its peer; so rows of one run compare, also on a machine that does other work.

use balkreyn::{Context, Joiner, Options, Outcome, Realm, Refusal};
use std::hint::black_box;
use std::io::Read;
use std::net::{Shutdown, TcpListener, TcpStream};
use std::num::NonZeroUsize;
use std::time::{Duration, Instant};

/// How many runs a median is of.
const RUNS: usize = 31;

/// Microseconds a turn, of one run.
fn timed(turns: u32, turn: &mut dyn FnMut()) -> f64 {
    let began = Instant::now();
    (0..turns).for_each(|_| turn());
    began.elapsed().as_secs_f64() * 1e6 / f64::from(turns)
}

fn median(mut times: Vec<f64>) -> f64 {
    times.sort_by(f64::total_cmp);
    times[times.len() / 2]
}

/// A row: the medians of both, a unit of which a turn has so many.
fn row(what: &str, units: u32, turns: u32, mine: &mut dyn FnMut(), theirs: Option<&mut dyn FnMut()>) {
    let (mut ours, mut others) = (Vec::new(), Vec::new());
    let mut theirs = theirs;
    for _ in 0..RUNS {
        ours.push(timed(turns, mine) / f64::from(units));
        if let Some(theirs) = &mut theirs {
            others.push(timed(turns, *theirs) / f64::from(units));
        }
    }
    let others = if others.is_empty() { "-".into() } else { format!("{:.2}", median(others)) };
    println!("{what:<44} {:>10.2} {others:>20}", median(ours));
}

/// Forks so many jobs in one scope and joins them.
fn ours(cx: &Context, jobs: u32, options: Options) {
    let scope = cx.scope(options, |s| {
        let tasks = s.fork_all("job", (0..jobs).map(|index| move |_: &Context| Ok::<_, Refusal>(index))).unwrap();
        assert_eq!(s.join(), Ok(Outcome::All));
        s.results(tasks).into_iter().map(Result::unwrap).sum::<u32>()
    });
    black_box(scope.unwrap());
}

/// The same on plain threads.
fn theirs(jobs: u32) {
    black_box(std::thread::scope(|s| {
        let threads: Vec<_> = (0..jobs).map(|index| s.spawn(move || index)).collect();
        threads.into_iter().map(|thread| thread.join().unwrap()).sum::<u32>()
    }));
}

/// A tree of scopes: each job forks two, so deep.
fn our_tree(cx: &Context, depth: u32) -> Result<u32, Refusal> {
    if depth == 0 {
        return Ok(1);
    }
    let sums = cx.all((0..2).map(|_| move |cx: &Context| our_tree(cx, depth - 1)))?;
    Ok(1 + sums.into_iter().sum::<u32>())
}

fn their_tree(depth: u32) -> u32 {
    if depth == 0 {
        return 1;
    }
    std::thread::scope(|s| {
        let threads: Vec<_> = (0..2).map(|_| s.spawn(move || their_tree(depth - 1))).collect();
        1 + threads.into_iter().map(|thread| thread.join().unwrap()).sum::<u32>()
    })
}

/// Requests of four jobs, each with a realm of its own, by so many threads.
fn requests(threads: u32, each: u32, request: &(dyn Fn() + Sync)) {
    std::thread::scope(|s| {
        for _ in 0..threads {
            s.spawn(move || (0..each).for_each(|_| request()));
        }
    });
}

/// Eight jobs, each blocked in a socket's read, under a deadline of 100 ms: when the scope is left.
fn blocked_reads() -> Duration {
    let listener = TcpListener::bind("127.0.0.1:0").unwrap();
    let at = listener.local_addr().unwrap();
    let began = Instant::now();
    let outcome = Realm::new().unwrap().run(|cx| {
        cx.scope(Options::new(Joiner::Await).within(Duration::from_millis(100)), |s| {
            let read = |cx: &Context| {
                let mut stream = TcpStream::connect(at)?;
                let other = stream.try_clone()?;
                let _hook = cx.on_cancel(move || drop(other.shutdown(Shutdown::Both)));
                stream.read(&mut [0; 10])
            };
            let _tasks = s.fork_all("read", [read; 8]).unwrap();
            s.join()
        })
    });
    assert_eq!(outcome.unwrap(), Ok(Outcome::Timeout));
    began.elapsed()
}

fn main() {
    println!("{:<44} {:>10} {:>20}", "microseconds, medians", "balkreyn", "std::thread::scope");
    Realm::new().unwrap().run(|cx| {
        let empty = &mut || drop(black_box(cx.scope(Joiner::All, |s| s.join())));
        row("an empty scope", 1, 1_000, empty, Some(&mut || std::thread::scope(|_| ())));
        row("a job alone in a scope", 1, 20, &mut || ours(cx, 1, Joiner::All.into()), Some(&mut || theirs(1)));
        let hundred = &mut || ours(cx, 100, Joiner::All.into());
        row("a job of 100 at once", 100, 1, hundred, Some(&mut || theirs(100)));
        let thousand = &mut || ours(cx, 1_000, Joiner::All.into());
        row("a job of 1,000 at once", 1_000, 1, thousand, Some(&mut || theirs(1_000)));
        let four = Options::new(Joiner::All).threads(NonZeroUsize::MIN.saturating_add(3));
        row("the same, on four threads", 1_000, 1, &mut || ours(cx, 1_000, four.clone()), None);
        let tree = &mut || assert_eq!(our_tree(cx, 6), Ok(127));
        row("a job of a tree of 127", 126, 1, tree, Some(&mut || assert_eq!(their_tree(6), 127)));
        row(
            "a request of four jobs, in one realm",
            1,
            20,
            &mut || ours(cx, 4, Joiner::All.into()),
            Some(&mut || theirs(4)),
        );
        let own_realm = || Realm::new().unwrap().run(|cx| ours(cx, 4, Joiner::All.into()));
        for threads in [1, 2, 4] {
            let what = format!("the same, a realm each, on {threads} threads");
            let mine = &mut || requests(threads, 50, &own_realm);
            row(&what, 50 * threads, 1, mine, Some(&mut || requests(threads, 50, &|| theirs(4))));
        }
        cx.scope(Joiner::All, |_| {
            row("is_cancelled", 1, 20_000, &mut || assert!(!black_box(cx.is_cancelled())), None);
        })
        .unwrap();
        cx.scope(Options::new(Joiner::All).within(Duration::from_secs(600)), |_| {
            row("is_cancelled, under a deadline", 1, 20_000, &mut || assert!(!black_box(cx.is_cancelled())), None);
        })
        .unwrap();
    });
    let left = median((0..7).map(|_| blocked_reads().as_secs_f64() * 1e3).collect());
    println!("eight reads of sockets leave a deadline of 100 ms after {left:.0} ms");
}
