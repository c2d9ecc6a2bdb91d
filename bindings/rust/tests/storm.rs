//! Random trees of scopes on many threads, some of which are refused; with panics, drops that panic, and hooks. Each
//! realm notes what it was asked and what it answered, and the proved program says whether the rules answer the same.

use balkreyn::{Canceller, Context, Joiner, Options, Pool, Realm, Refusal};
use std::io::{self, Write};
use std::num::NonZeroUsize;
use std::panic::resume_unwind;
use std::path::{Path, PathBuf};
use std::process::{Command, Stdio};
use std::sync::atomic::{AtomicUsize, Ordering};
use std::time::Duration;
use std::{env, fs, thread};

/// How many events the noted realms have at least.
const EVENTS: usize = 100_000;
/// How many requests such a realm serves: main lets the past go before each.
const REQUESTS: u64 = 6;
const DEEPEST: u32 = 4;

/// A seeded generator (splitmix64).
struct Chance(u64);

impl Chance {
    fn next(&mut self) -> u64 {
        self.0 = self.0.wrapping_add(0x9e37_79b9_7f4a_7c15);
        let mut mixed = self.0;
        mixed = (mixed ^ (mixed >> 30)).wrapping_mul(0xbf58_476d_1ce4_e5b9);
        mixed = (mixed ^ (mixed >> 27)).wrapping_mul(0x94d0_49bb_1331_11eb);
        mixed ^ (mixed >> 31)
    }

    fn below(&mut self, limit: u64) -> u64 {
        self.next() % limit
    }
}

fn options(chance: &mut Chance) -> Options {
    let joiner = match chance.below(7) {
        0 => Joiner::AwaitOk,
        1 => Joiner::All,
        2 => Joiner::Any,
        3 => Joiner::Await,
        4 => Joiner::UntilFailed(1 + chance.below(3) as u32),
        5 => Joiner::UntilOk(1 + chance.below(3) as u32),
        _ => Joiner::UntilSum(chance.below(12) as i64),
    };
    let mut options = Options::new(joiner);
    if chance.below(3) == 0 {
        options = options.threads(NonZeroUsize::MIN.saturating_add(chance.below(2) as usize));
    }
    if chance.below(3) == 0 {
        options = options.within(Duration::from_millis(chance.below(6)));
    }
    if chance.below(4) == 0 {
        options = options.move_on();
    }
    if chance.below(5) == 0 {
        options = options.shield();
    }
    options
}

/// How often each came in the storm.
static REFUSED: AtomicUsize = AtomicUsize::new(0);
static PANICKED: AtomicUsize = AtomicUsize::new(0);
static HOOKED: AtomicUsize = AtomicUsize::new(0);

fn count(counter: &AtomicUsize) {
    counter.fetch_add(1, Ordering::Relaxed);
}

/// A value whose drop panics, if its number says so.
struct Fragile(i64);

impl Drop for Fragile {
    fn drop(&mut self) {
        if self.0 % 16 == 15 && !thread::panicking() {
            count(&PANICKED);
            resume_unwind(Box::new("dropped"));
        }
    }
}

/// A pool that refuses one thread of eight, and whose threads don't rest for long.
fn pool(seed: u64) -> Pool {
    let number = AtomicUsize::new(seed as usize);
    let spawned = Pool::spawned_by(move |name, body| {
        if number.fetch_add(1, Ordering::Relaxed) % 8 == 7 {
            count(&REFUSED);
            return Err(io::ErrorKind::WouldBlock.into());
        }
        thread::Builder::new().name(name).spawn(body).map(drop)
    });
    spawned.rests(Duration::from_millis(1))
}

/// One job: it sleeps, asks, binds, cancels, fails, panics or opens scopes of its own.
fn job(cx: &Context, seed: u64, depth: u32, outer: &Canceller) -> Result<Fragile, String> {
    let mut chance = Chance(seed);
    let hooked = outer.clone();
    let cancels = chance.below(8) == 0;
    let _hook = (chance.below(3) == 0).then(|| {
        cx.on_cancel(move || {
            count(&HOOKED);
            if cancels {
                hooked.cancel();
            }
        })
    });
    for _ in 0..chance.below(3) {
        match chance.below(8) {
            0 => drop(cx.sleep(Duration::from_micros(chance.below(3000)))),
            1 => cx.checkpoint().map_err(|cancelled| cancelled.to_string())?,
            2 => {
                let seed = chance.next();
                cx.bind("seed", (seed >> 1) as i64, |cx| tree(cx, seed, depth + 1)).map_err(|r| r.to_string())?;
            }
            3 => assert!(cx.get("root").is_some()),
            4 if chance.below(4) == 0 => {
                outer.cancel();
            }
            5 => {
                let (seed, within) = (chance.next(), Duration::from_micros(chance.below(2000)));
                let body = |cx: &Context| {
                    tree(cx, seed, depth + 1);
                    cx.sleep(Duration::from_millis(3))?;
                    Ok::<_, Refusal>(())
                };
                let _ =
                    if seed % 2 == 0 { cx.move_on_after(within, body) } else { cx.fail_after(within, body).map(Some) };
            }
            _ => tree(cx, chance.next(), depth + 1),
        }
    }
    match chance.below(12) {
        0 | 1 => Err("on purpose".into()),
        2 => resume_unwind(Box::new("on purpose")),
        _ => Ok(Fragile(chance.below(32) as i64)),
    }
}

/// A scope with a few jobs, joined or not, cancelled or not.
fn tree(cx: &Context, seed: u64, depth: u32) {
    if depth > DEEPEST {
        return;
    }
    let mut chance = Chance(seed);
    let opened = cx.scope(options(&mut chance), |s| {
        let mut tasks = Vec::new();
        for _ in 0..chance.below(4) {
            let (seed, canceller) = (chance.next(), s.canceller());
            let held = Fragile(chance.below(32) as i64);
            let task = s.fork_measured(
                "aJob",
                |value: &Fragile| value.0 % 5,
                move |cx| {
                    let _held = &held;
                    job(cx, seed, depth, &canceller)
                },
            );
            match task {
                // Where nobody holds a task, its thread drops what it gave.
                Ok(task) if chance.below(4) > 0 => tasks.push(task),
                Ok(_) => {}
                Err(refusal) => assert_eq!(refusal, Refusal::Rejected),
            }
        }
        match chance.below(12) {
            0 => {
                s.cancel();
            }
            1 => drop(s.move_deadline(Some(Duration::from_millis(chance.below(4))))),
            2 => drop(s.move_deadline(None)),
            3 => return,
            4 => tree(cx, chance.next(), depth + 1),
            5 => (0..2).for_each(|_| drop(s.next_done(&mut tasks))),
            _ => {}
        }
        tasks.iter().for_each(|task| {
            let _ = s.state(task);
        });
        // Whatever the realm answers here: the rules say whether it may.
        let _ = s.join();
        drop(s.results(tasks));
        let _ = s.cause();
    });
    drop(opened);
}

/// Serves so many requests of six threads of trees each.
fn storm(mut realm: Realm, seed: u64, requests: u64) -> Realm {
    let trees = move |cx: &Context, seed: u64| -> Result<(), Refusal> {
        (0..3).for_each(|turn| tree(cx, seed * 10 + turn, 1));
        Ok(())
    };
    realm.run(|cx| {
        let bound = cx.bind("root", 1, |cx| {
            for request in 0..requests {
                let served = cx.scope(Joiner::Await, |s| {
                    for index in 0..6 {
                        let seed = (seed * requests + request) * 10 + index;
                        let forked = s.fork("root", move |cx| trees(cx, seed));
                        assert!(matches!(forked, Ok(_) | Err(Refusal::Rejected)));
                    }
                    s.join().map(drop)
                });
                drop(served);
            }
        });
        bound.unwrap();
    });
    realm
}

/// Asks the proved program whether the rules answer each line so. Where they don't, the two files stay.
struct Judge {
    check: PathBuf,
    folder: PathBuf,
}

impl Judge {
    /// `None` where the program is not at hand.
    fn find(name: &str) -> Option<Judge> {
        let top = Path::new(env!("CARGO_MANIFEST_DIR")).join("../..");
        let program = env::var_os("SCOPECTL").map_or_else(|| top.join("carried/scopectl"), PathBuf::from);
        let check = top.join("bindings/conformance/check");
        if !program.is_file() || !check.is_file() {
            say("left out: what the rules answer, as no scopectl is at hand");
            return None;
        }
        let folder = env::temp_dir().join(format!("balkreyn-{name}-{}", std::process::id()));
        fs::create_dir_all(&folder).unwrap();
        Some(Judge { check, folder })
    }

    fn hears(&self, journal: &str, answers: Option<&str>) {
        let files = [Some(journal), answers].into_iter().flatten().zip(["journal", "answers"]).map(|(text, name)| {
            let file = self.folder.join(name);
            fs::write(&file, text).unwrap();
            file
        });
        let status = Command::new(&self.check).args(files).stdout(Stdio::null()).status().unwrap();
        assert!(status.success(), "the rules answer otherwise: {}", self.folder.display());
    }

    fn ends(self) {
        fs::remove_dir_all(self.folder).unwrap();
    }
}

/// Says it also where the test passes, and its output is captured.
fn say(text: &str) {
    let _ = writeln!(std::io::stderr(), "{text}");
}

fn is_query(line: &str) -> bool {
    ["result ", "fault ", "state ", "cause ", "get "].iter().any(|query| line.starts_with(query))
}

#[test]
fn each_answer_in_a_storm_is_that_of_the_rules() {
    let judge = Judge::find("storm");
    let (mut seed, mut events, mut queries) = (0, 0, 0);
    while events < EVENTS {
        let realm = Realm::new().unwrap().on(&pool(seed)).noted();
        let notes = storm(realm, seed, REQUESTS).look().notes().unwrap();
        let asked = notes.journal.lines().filter(|line| is_query(line)).count();
        events += notes.journal.lines().count() - asked;
        queries += asked;
        seed += 1;
        if let Some(judge) = &judge {
            judge.hears(&notes.journal, Some(&notes.answers));
        }
    }
    let judged = if judge.is_some() { "answered as by the rules" } else { "not judged" };
    let [refused, panicked, hooked] = [&REFUSED, &PANICKED, &HOOKED].map(|counter| counter.load(Ordering::Relaxed));
    say(&format!(
        "a storm of {seed} realms, {events} events and {queries} queries, with {refused} refused threads, {panicked} \
         panics of drops and {hooked} hooks: {judged}"
    ));
    assert!(refused > 10 && panicked > 100 && hooked > 100);
    if let Some(judge) = judge {
        judge.ends();
    }
}

#[test]
fn a_storm_without_notes_keeps_the_rules() {
    let judge = Judge::find("plain");
    for seed in 0..24 {
        let realm = Realm::new().unwrap().on(&pool(seed));
        let journal = storm(realm, seed, 1).look().journal().unwrap();
        if let Some(judge) = &judge {
            judge.hears(&journal, None);
        }
    }
    if let Some(judge) = judge {
        judge.ends();
    }
}
