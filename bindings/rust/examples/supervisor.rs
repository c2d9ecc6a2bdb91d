//! A supervisor starts a periodic job again where it fails, and gives up once no beat has come for long.

use balkreyn::{Backoff, Cancelled, Context, Joiner, Realm, Refusal};
use std::sync::atomic::{AtomicU64, Ordering::SeqCst};
use std::time::{Duration, Instant};

#[derive(Debug)]
#[allow(dead_code)]
enum Why {
    NoBeat,
    Refused(Refusal),
}
impl From<Cancelled> for Why {
    fn from(cancelled: Cancelled) -> Why {
        Why::Refused(Refusal::Cancelled(cancelled))
    }
}
impl From<Refusal> for Why {
    fn from(refusal: Refusal) -> Why {
        Why::Refused(refusal)
    }
}

struct Pulse {
    began: Instant,
    starts: AtomicU64,
    beats: AtomicU64,
    last: AtomicU64,
}

fn periodic(cx: &Context, start: u64, pulse: &Pulse) -> Result<(), Why> {
    cx.every(Duration::from_millis(50), |cx, round| {
        if round == 2 && start < 2 {
            return Err(Why::NoBeat);
        }
        if round == 2 {
            cx.sleep(Duration::MAX)?;
        }
        pulse.beats.fetch_add(1, SeqCst);
        pulse.last.store(pulse.began.elapsed().as_millis() as u64, SeqCst);
        Ok(())
    })
}

fn main() -> Result<(), Refusal> {
    let pulse = Pulse { began: Instant::now(), starts: 0.into(), beats: 0.into(), last: 0.into() };
    Realm::new()?.run(|cx| {
        cx.maybe_scope(Joiner::Await, |s| {
            s.fork("supervisor", |cx| {
                cx.retry(Backoff::endless(Duration::from_millis(20)).longest(Duration::from_millis(20)), |cx, start| {
                    pulse.starts.fetch_add(1, SeqCst);
                    periodic(cx, start, &pulse)
                })
            })?;
            while (pulse.began.elapsed().as_millis() as u64) < pulse.last.load(SeqCst) + 200 {
                cx.sleep(Duration::from_millis(50))?;
            }
            println!("{}", cx.look().dump()?);
            s.cancel();
            s.join_ok()
        })
    })?;
    println!("{} beats, {} starts", pulse.beats.load(SeqCst), pulse.starts.load(SeqCst));
    Ok(())
}
