//! What waiting jobs cost beside bare tokio, which decides nothing: `cargo bench`. Each run is a process of its own. A row
//! has the medians of runs that alternate with those of its peer; so rows of one run compare.
//!
//! With the words of one row, as `ours 100000 1 gate 1`, it makes one run and prints its three figures.

use balkreyn_tokio::{Context, Intake, Joiner, Need, Options, Refusal};
use std::env;
use std::process::Command;
use std::sync::Arc;
use std::sync::atomic::{AtomicUsize, Ordering::SeqCst};
use std::time::{Duration, Instant};
use tokio::sync::Notify;
use tokio::task::JoinSet;

static WAITING: AtomicUsize = AtomicUsize::new(0);
static ENDED: AtomicUsize = AtomicUsize::new(0);

/// A deadline that never comes within a run.
const LONG: Duration = Duration::from_secs(3600);

struct End;

impl Drop for End {
    fn drop(&mut self) {
        ENDED.fetch_add(1, SeqCst);
    }
}

async fn wait_on(gate: Arc<Notify>) -> Result<(), Refusal> {
    let _end = End;
    let opened = gate.notified();
    WAITING.fetch_add(1, SeqCst);
    opened.await;
    Ok(())
}

async fn until(count: &AtomicUsize, jobs: usize) {
    while count.load(SeqCst) < jobs {
        tokio::time::sleep(Duration::from_micros(200)).await;
    }
}

/// A request and its jobs, as bare tokio has them.
async fn bare(jobs: usize, gate: Arc<Notify>) {
    let mut set = JoinSet::new();
    for _ in 0..jobs {
        set.spawn(wait_on(Arc::clone(&gate)));
    }
    while set.join_next().await.is_some() {}
}

/// The same as a scope.
async fn ours(intake: Arc<Intake>, jobs: usize, gate: Arc<Notify>, within: Option<Duration>) {
    let need = Need::new(1, jobs as u32).changes(0);
    let served = async |cx: &Context| {
        let options = Options::new(Joiner::Await);
        let options = if let Some(within) = within { options.within(within) } else { options };
        cx.scope(options, async |s| {
            s.fork_all("job", (0..jobs).map(|_| wait_on(Arc::clone(&gate))))?;
            s.join().await.map(drop)
        })
        .await
    };
    drop(intake.run(need, served).await);
}

fn resident() -> usize {
    let pages = std::fs::read_to_string("/proc/self/statm").unwrap();
    pages.split(' ').nth(1).unwrap().parse::<usize>().unwrap() * 4096
}

/// One run: microseconds a job to wait and to end, and bytes.
async fn run(mode: &str, requests: usize, jobs: usize, by: &str) -> [f64; 3] {
    let (gate, intake, mut all) = (Arc::new(Notify::new()), Arc::new(Intake::new()), JoinSet::new());
    let count = requests * jobs;
    let per = |began: Instant| began.elapsed().as_secs_f64() * 1e6 / count as f64;
    let (before, began) = (resident(), Instant::now());
    for _ in 0..requests {
        let gate = Arc::clone(&gate);
        match mode {
            "bare" => drop(all.spawn(bare(jobs, gate))),
            "bare-within" => drop(all.spawn(async move { drop(tokio::time::timeout(LONG, bare(jobs, gate)).await) })),
            "ours" => drop(all.spawn(ours(Arc::clone(&intake), jobs, gate, None))),
            "ours-within" => drop(all.spawn(ours(Arc::clone(&intake), jobs, gate, Some(LONG)))),
            _ => panic!("no such mode: {mode}"),
        }
    }
    until(&WAITING, count).await;
    let (to_wait, bytes) = (per(began), (resident() - before) as f64 / count as f64);
    let began = Instant::now();
    match (by, mode.starts_with("ours")) {
        ("cancel", true) => intake.cancel_all(),
        ("cancel", false) => all.abort_all(),
        _ => gate.notify_waiters(),
    }
    while all.join_next().await.is_some() {}
    until(&ENDED, count).await;
    intake.quiet().await;
    [to_wait, per(began), bytes]
}

/// The medians of so many processes for each of the words, and the least.
fn measured(rows: &[&str], runs: usize) -> Vec<[[f64; 3]; 2]> {
    let mut all = vec![[const { Vec::new() }; 3]; rows.len()];
    for _ in 0..runs {
        for (row, figures) in rows.iter().zip(&mut all) {
            let out = Command::new(env::current_exe().unwrap()).args(row.split(' ')).output().unwrap();
            let said = String::from_utf8(out.stdout).unwrap();
            for (figure, list) in said.split_whitespace().zip(figures) {
                list.push(figure.parse::<f64>().unwrap());
            }
        }
    }
    all.iter_mut().flatten().for_each(|list| list.sort_by(f64::total_cmp));
    all.into_iter()
        .map(|figures| [figures.each_ref().map(|list| list[list.len() / 2]), figures.map(|list| list[0])])
        .collect()
}

fn main() {
    let words: Vec<String> = env::args().skip(1).filter(|word| word != "--bench").collect();
    if let [mode, requests, jobs, by, workers] = &words[..] {
        let workers = workers.parse().unwrap();
        let runtime =
            tokio::runtime::Builder::new_multi_thread().worker_threads(workers).enable_time().build().unwrap();
        let (mode, by) = (mode.clone(), by.clone());
        let (requests, jobs) = (requests.parse().unwrap(), jobs.parse().unwrap());
        // As a task: the runtime's own thread doesn't take part.
        let run = runtime.spawn(async move { run(&mode, requests, jobs, &by).await });
        let [to_wait, to_end, bytes] = runtime.block_on(run).unwrap();
        println!("{to_wait:.3} {to_end:.3} {bytes:.0}");
        return;
    }
    let runs = words.first().map_or(7, |runs| runs.parse().unwrap());
    println!("microseconds a job to wait and to end, and bytes: medians of {runs} runs, and the least");
    for (what, row) in [
        ("100,000 requests, a scope and a job each", "100000 1 gate 1"),
        ("with a deadline each", "100000 1 gate 1"),
        ("all cancelled", "100000 1 cancel 1"),
        ("10 scopes of 10,000 jobs", "10 10000 gate 1"),
        ("100,000 requests on four workers", "100000 1 gate 4"),
    ] {
        let within = if what.contains("deadline") { "-within" } else { "" };
        let rows = ["ours", "bare"].map(|mode| format!("{mode}{within} {row}"));
        println!("{what}");
        for (who, figures) in ["here", "bare"].iter().zip(measured(&rows.each_ref().map(String::as_str), runs)) {
            let text = figures.map(|[a, b, c]| format!("{a:>6.2} {b:>6.2} {c:>6.0}"));
            println!("  {who} {}", text.join("   "));
        }
    }
}
