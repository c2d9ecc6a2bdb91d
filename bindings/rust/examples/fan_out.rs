//! Four requests at a time, two of which are served at once. Each asks four backends, at two replicas each, with one
//! retry, and answers by its deadline with what has come; an audit is written whatever happens.

use balkreyn::{Backoff, Cancelled, Context, Limiter, Local, Refusal, Server};
use std::sync::Mutex;
use std::time::Duration;

const BACKENDS: [&str; 4] = ["stock", "price", "rating", "review"];
static REQUEST: Local<String> = Local::new();

#[derive(Debug)]
#[allow(dead_code)]
enum Why {
    Down(String),
    Refused(Refusal),
}
impl From<Cancelled> for Why {
    fn from(cancelled: Cancelled) -> Why {
        Why::Refused(Refusal::Cancelled(cancelled))
    }
}
impl From<Refusal> for Why {
    fn from(refusal: Refusal) -> Why {
        Why::Refused(refusal)
    }
}

fn replica(cx: &Context, backend: &str, number: u32, attempt: u64) -> Result<String, Why> {
    let (takes, fails) = match (backend, number) {
        ("stock", 0) => (5, false),
        ("price", _) => (8, attempt == 0),
        ("rating", 0) => (20, true),
        ("rating", _) => (30, false),
        ("review", _) => (500, false),
        _ => (100, false),
    };
    cx.sleep(Duration::from_millis(takes))?;
    if fails {
        return Err(Why::Down(format!("{backend}-{number}")));
    }
    let request = cx.local(&REQUEST).unwrap_or_default();
    Ok(format!("{backend}-{number} for {request}"))
}

type Answers = Vec<(&'static str, String)>;

fn serve(cx: &Context, request: &str, within: Duration, audits: &Mutex<Vec<String>>) -> Result<(bool, Answers), Why> {
    let backoff = Backoff::new(1, Duration::from_millis(10));
    let ask = |backend| {
        move |cx: &Context| {
            cx.retry(backoff, |cx, attempt| {
                cx.race([0, 1].map(|n| move |cx: &Context| replica(cx, backend, n, attempt)))
            })
        }
    };
    cx.with(&REQUEST, request.to_owned(), |cx| {
        let came = cx.come_within(within, BACKENDS.map(ask))?;
        cx.shielded(|cx| {
            cx.sleep(Duration::from_millis(2))?;
            audits.lock().unwrap().push(request.to_owned());
            Ok::<_, Why>(())
        })?;
        let is_whole = came.iter().all(Result::is_ok);
        let answers = BACKENDS.into_iter().zip(came).filter_map(|(backend, answer)| Some((backend, answer.ok()?)));
        Ok((is_whole, answers.collect()))
    })?
}

fn main() -> Result<(), Refusal> {
    let (server, audits, limiter) = (Server::new()?, Mutex::new(Vec::new()), Limiter::new(2));
    std::thread::scope(|threads| {
        for (request, millis) in [("No. 1", 100), ("No. 2", 100), ("No. 3", 10), ("No. 4", 800)] {
            let (server, audits, limiter) = (&server, &audits, &limiter);
            let serve =
                move |cx: &Context| limiter.with(cx, || serve(cx, request, Duration::from_millis(millis), audits));
            threads.spawn(move || println!("{request}: {:?}", server.request(serve)));
        }
    });
    println!("audited {}", audits.lock().unwrap().len());
    Ok(())
}
