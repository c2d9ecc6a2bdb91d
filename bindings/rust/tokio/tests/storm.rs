//! Random trees of scopes on four workers: with deadlines, shields, bindings, cancels, panics, dropped futures, and jobs
//! that are polled inside a block. Each realm notes what it was asked and what it answered, and the proved program says
//! whether the rules answer the same.

use balkreyn_tokio::{Canceller, Context, Intake, Joiner, Need, Options, Outcome, Refusal};
use common::{Chance, Judge, millis, say};
use std::future::Future;
use std::num::NonZeroUsize;
use std::panic::resume_unwind;
use std::pin::Pin;
use std::sync::Arc;
use std::sync::atomic::{AtomicUsize, Ordering::Relaxed};
use std::time::Duration;
use tokio::task::JoinSet;

mod common;

/// How many lines of notes the storm has at least.
const LINES: usize = 200_000;
const DEEPEST: u32 = 4;
const PANIC: &str = "on purpose";

/// How often each came in the storm.
static DROPPED_JOBS: AtomicUsize = AtomicUsize::new(0);
static DROPPED_BLOCKS: AtomicUsize = AtomicUsize::new(0);
static HOOKED: AtomicUsize = AtomicUsize::new(0);
static ALIVE: AtomicUsize = AtomicUsize::new(0);

/// Counts who lives.
struct Alive(bool);

impl Alive {
    fn new() -> Alive {
        ALIVE.fetch_add(1, Relaxed);
        Alive(false)
    }
}

impl Drop for Alive {
    fn drop(&mut self) {
        ALIVE.fetch_sub(1, Relaxed);
        if !self.0 {
            DROPPED_JOBS.fetch_add(1, Relaxed);
        }
    }
}

fn options(chance: &mut Chance) -> Options {
    let joiner = match chance.below(7) {
        0 => Joiner::AwaitOk,
        1 => Joiner::All,
        2 => Joiner::Any,
        3 => Joiner::Await,
        4 => Joiner::UntilFailed(1 + chance.below(3) as u32),
        5 => Joiner::UntilOk(1 + chance.below(3) as u32),
        _ => Joiner::UntilSum(chance.below(12) as i64),
    };
    let mut options = Options::new(joiner);
    if chance.below(4) == 0 {
        options = options.threads(NonZeroUsize::MIN.saturating_add(chance.below(2) as usize));
    }
    if chance.below(3) == 0 {
        options = options.within(millis(chance.below(6)));
    }
    if chance.below(4) == 0 {
        options = options.move_on();
    }
    if chance.below(5) == 0 {
        options = options.shield();
    }
    options
}

async fn pause(chance: &mut Chance) {
    match chance.below(3) {
        0 => tokio::task::yield_now().await,
        _ => tokio::time::sleep(Duration::from_micros(chance.below(2500))).await,
    }
}

/// One job: it sleeps, asks, binds, cancels, fails, panics, drops blocks, or opens scopes of its own.
fn job(seed: u64, depth: u32, outer: Canceller) -> Pin<Box<dyn Future<Output = Result<i64, Refusal>> + Send>> {
    Box::pin(async move {
        let (mut alive, cx) = (Alive::new(), Context::current());
        let mut chance = Chance(seed);
        let (hooked, cancels) = (outer.clone(), chance.below(8) == 0);
        let _hook = (chance.below(3) == 0).then(|| {
            cx.on_cancel(move || {
                HOOKED.fetch_add(1, Relaxed);
                if cancels {
                    hooked.cancel();
                }
            })
        });
        for _ in 0..chance.below(4) {
            act(&cx, &mut chance, depth, &outer).await?;
        }
        alive.0 = true;
        match chance.below(12) {
            0 | 1 => Err(Refusal::BadName),
            2 => resume_unwind(Box::new(PANIC)),
            _ => Ok(chance.below(5) as i64),
        }
    })
}

async fn act(cx: &Context, chance: &mut Chance, depth: u32, outer: &Canceller) -> Result<(), Refusal> {
    match chance.below(11) {
        0 => cx.sleep(Duration::from_micros(chance.below(3000))).await?,
        1 => cx.checkpoint()?,
        2 => {
            let seed = chance.next();
            cx.bind("seed", (seed >> 1) as i64, async |cx| tree(cx, seed, depth + 1).await).await?;
        }
        3 => drop(cx.get("seed")),
        4 if chance.below(4) == 0 => drop(outer.cancel()),
        5 => {
            let (seed, within) = (chance.next(), Duration::from_micros(chance.below(2000)));
            let body = async |cx: &Context| {
                tree(cx, seed, depth + 1).await;
                tokio::time::sleep(millis(3)).await;
                Ok::<_, Refusal>(())
            };
            let _ = match seed % 3 {
                0 => cx.move_on_after(within, body).await,
                1 => cx.fail_after(within, body).await.map(Some),
                _ => cx.shielded(body).await.map(Some),
            };
        }
        6 => {
            // A block whose future is dropped.
            let (seed, within) = (chance.next(), Duration::from_micros(chance.below(1500)));
            if tokio::time::timeout(within, tree(cx, seed, depth + 1)).await.is_err() {
                DROPPED_BLOCKS.fetch_add(1, Relaxed);
            }
        }
        7 => pause(chance).await,
        _ => tree(cx, chance.next(), depth + 1).await,
    }
    Ok(())
}

/// A scope with a few jobs, joined or not, cancelled or not.
fn tree(cx: &Context, seed: u64, depth: u32) -> Pin<Box<dyn Future<Output = ()> + Send + '_>> {
    Box::pin(async move {
        if depth > DEEPEST {
            return;
        }
        let mut chance = Chance(seed);
        let options = options(&mut chance);
        if chance.below(2) == 0 {
            drop(cx.scope(options, async |s| body(cx, s, chance, depth).await).await);
        } else {
            let _ = cx.maybe_scope(options, async |s| body(cx, s, chance, depth).await).await;
        }
    })
}

async fn body(cx: &Context, s: &balkreyn_tokio::Scope, mut chance: Chance, depth: u32) -> Result<(), Refusal> {
    let mut tasks = Vec::new();
    let here = s.here();
    for _ in 0..chance.below(4) {
        let job = job(chance.next(), depth, s.canceller());
        let task = match chance.below(4) {
            0 => here.fork_here("here", job)?,
            _ => s.fork_measured("aJob", |value| *value, job)?,
        };
        if chance.below(4) > 0 {
            tasks.push(task);
        }
    }
    match chance.below(12) {
        0 => drop(s.cancel()),
        1 => s.move_deadline(Some(millis(chance.below(4))))?,
        2 => s.move_deadline(None)?,
        3 => return Ok(()),
        4 => tree(cx, chance.next(), depth + 1).await,
        5 => {
            for _ in 0..2 {
                drop(here.wait(s.next_done(&mut tasks)).await);
            }
        }
        6 => pause(&mut chance).await,
        _ => {}
    }
    for task in &tasks {
        let _ = s.state(task);
    }
    // Whatever the realm answers here: the rules say whether it may.
    let outcome = here.join().await;
    if let Ok(Outcome::Failed(_)) = outcome {
        pause(&mut chance).await;
    }
    drop(s.results(tasks));
    let _ = s.cause();
    cx.checkpoint()?;
    Ok(())
}

/// One request: a tree, or two; its future may be dropped.
async fn request(intake: Arc<Intake>, seed: u64) {
    let mut chance = Chance(seed);
    let within = if chance.below(4) == 0 { Duration::from_micros(chance.below(4000)) } else { millis(60_000) };
    let served = intake.run(Need::new(100, 300).changes(100), async |cx| {
        for _ in 0..1 + chance.below(3) {
            tree(cx, chance.next(), 1).await;
        }
    });
    drop(tokio::time::timeout(within, served).await);
}

#[test]
fn each_answer_in_a_storm_is_that_of_the_rules() {
    let runtime = tokio::runtime::Builder::new_multi_thread().worker_threads(4).enable_all().build().unwrap();
    let judge = Judge::find("storm");
    let (mut seed, mut lines, mut realms, mut drops) = (0, 0, 0, 0);
    while lines < LINES {
        let all = runtime.block_on(async {
            let intake = Arc::new(Intake::new().noted());
            let mut requests = JoinSet::new();
            for _ in 0..400 {
                requests.spawn(request(Arc::clone(&intake), seed));
                seed += 1;
            }
            while let Some(ended) = requests.join_next().await {
                // The panic of a job that was the first to fail is its block's.
                if let Err(error) = ended {
                    assert_eq!(error.into_panic().downcast_ref(), Some(&PANIC));
                }
            }
            intake.quiet().await;
            assert_eq!((ALIVE.load(Relaxed), intake.requests()), (0, 0));
            intake.cancel_all();
            while intake.realms() > 0 {
                tokio::time::sleep(millis(1)).await;
            }
            intake.notes()
        });
        for notes in all {
            lines += notes.answers.lines().count();
            drops += notes.journal.lines().filter(|line| line.ends_with(" dropped")).count();
            realms += 1;
            if let Some(judge) = &judge {
                judge.hears(&notes);
            }
        }
    }
    let [jobs, blocks, hooked] = [&DROPPED_JOBS, &DROPPED_BLOCKS, &HOOKED].map(|counter| counter.load(Relaxed));
    let judged = if judge.is_some() { "answered as by the rules" } else { "not judged" };
    say(&format!(
        "a storm on tokio: {seed} requests in {realms} realms, {lines} lines, with {drops} jobs dropped by cancels of \
         {jobs} that did not come to their end, {blocks} blocks dropped, {hooked} hooks: {judged}"
    ));
    assert!(drops > 500 && blocks > 100 && hooked > 100);
    if let Some(judge) = judge {
        judge.ends();
    }
}
